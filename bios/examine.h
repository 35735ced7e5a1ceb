/* The results of rounds. For a round with a finding, they are the kind of the finding and a smaller round with the
 * same finding. The trials for that are made by a snapshot of the whole PC at the beginning of the round; the
 * snapshot is a process of its own. */
#ifndef EXAMINE_H
#define EXAMINE_H
#include "judge.h"

/* The kinds of findings. The first are answers of success that are false, each with the cause; the others are rounds
 * after which the drive doesn't work. */
typedef enum {
    UNSEEN,                 /* the drive stopped writing: nobody can know that without reading the sector back */
    LOST,                       /* pulses were lost, and a format names no cylinder */
    UNHEARD,               /* the controller reported that cylinder 0 wasn't reached, and the BIOS didn't look */
    ASTRAY,                     /* no pulse was lost: the BIOS went on after a reset of its own without a recalibration */
    UNVERIFIED,                 /* the BIOS verifies nothing */
    STUCK,
    FALSE_ANSWER,               /* none of these */
    KINDS
} Kind;

typedef struct {
    uint64_t rounds, written, read, verified, told, elsewhere, not_at_zero;
    uint64_t of[KINDS];
} Tally;

extern bool tells_calls;                /* set in a trial whose calls are printed */
extern int examples_wanted[KINDS];

void tally_call(Tally *tally, uint8_t ah, Verdict verdict);
void tally_add(Tally *to, const Tally *from);
void tally_tell(const Tally *tally);

/* Keeps the PC as it is. It also returns in each trial, and the round is then the one to be tried. */
void examine_begin(Round *round);

/* Says that the round is over. A trial ends here. Otherwise findings are counted by kind in `tally`, and are given
 * as examples if some are wanted. */
void examine_end(const Round *round, Tally *tally);

#endif
