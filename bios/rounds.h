/* Random rounds, from a seed, of calls of INT 13h under planned faults. */
#ifndef ROUNDS_H
#define ROUNDS_H
#include <stdbool.h>
#include <stddef.h>
#include <stdint.h>
#include <stdio.h>

enum { RESET = 0, READ = 2, WRITE = 3, VERIFY = 4, FORMAT = 5, PAUSE = 0xFF };

typedef struct {
    uint8_t ah, count;          /* sectors; ticks of a pause */
    uint8_t c, h, r;
    uint16_t es;                /* the buffer's segment */
    uint64_t content;           /* what a write writes */
} Call;

enum { DROP, CUT_GATE, LOSE, STICK, GAP, HOLD, STRAY };

typedef struct {
    uint8_t kind, c, h;
    uint16_t word, steps, count;
} Fault;

enum { MOST_FAULTS = 8, MOST_CALLS = 10 };

typedef struct {
    uint64_t number;
    bool resets;                /* the guest resets the drive after each error, as it should */
    int fault_count, call_count;
    Fault faults[MOST_FAULTS];
    Call calls[MOST_CALLS];
} Round;

uint64_t random_next(uint64_t *state);
uint32_t random_below(uint64_t *state, uint32_t limit);

void round_draw(Round *round, uint64_t seed, uint64_t number);
void round_plan(const Round *round, char *text, size_t room);
void call_content(const Call *call, uint8_t *bytes);    /* of a write: 512 bytes a sector; of a format: its sector IDs */
size_t call_length(const Call *call);                   /* bytes of the buffer that the call is about */
void call_tell(const Call *call, FILE *to);

#endif
