/* Judges whether what a BIOS says of a call is true, by the words of the medium, which are read past the drive. */
#ifndef JUDGE_H
#define JUDGE_H
#include "rounds.h"
#include "track.h"

typedef enum {
    WELL,                       /* it reported success, and that is true */
    TOLD,                       /* it reported an error, and nothing changed but what it was to write */
    CUT,                        /* it reported success, and the drive wrote no more than the words up to a planned cut */
    ELSEWHERE,                  /* it reported success, and the heads were on another cylinder */
    UNREAD,                     /* it reported that sectors are verified which the medium doesn't have */
    WRONG                       /* anything else */
} Verdict;

extern char judge_why[200];     /* the reason of the last verdict that isn't WELL or TOLD */

void judge_new(void);           /* takes what is on the medium now as the known content */
Verdict judge(const Round *round, const Call *call, bool is_error, const uint8_t *buffer);
bool judge_rest(void);          /* whether the whole medium is as it is known to be */
bool judge_flat(void);          /* whether it has a flat file exactly if all sectors are on it, and that file has them */
const Fields *judge_fields(uint8_t c, uint8_t h);

#endif
