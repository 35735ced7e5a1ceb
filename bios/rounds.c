#include "rounds.h"
#include "track.h"
#include <string.h>

/* ---- random numbers from a seed */

uint64_t random_next(uint64_t *state) {
    uint64_t z = *state += 0x9E3779B97F4A7C15;
    z = (z ^ z >> 30) * 0xBF58476D1CE4E5B9;
    z = (z ^ z >> 27) * 0x94D049BB133111EB;
    return z ^ z >> 31;
}

uint32_t random_below(uint64_t *state, uint32_t limit) { return (uint32_t)(random_next(state) >> 32) % limit; }

static bool one_in(uint64_t *state, uint32_t n) { return random_below(state, n) == 0; }

/* From 1 to `most`; each length in bits is as likely as another. */
static uint16_t any_length(uint64_t *state, uint32_t most) {
    uint32_t bits = 1;
    while (bits < 16 && most >> bits) bits++;
    uint32_t value = random_below(state, 1u << (1 + random_below(state, bits))) % (most + 1);
    return (uint16_t)(value ? value : 1);
}

/* ---- calls */

size_t call_length(const Call *call) {
    if (call->ah == READ || call->ah == WRITE) return 512u * call->count;
    return call->ah == FORMAT ? 4u * call->count : 0;
}

void call_content(const Call *call, uint8_t *bytes) {
    uint64_t state = call->content;
    if (call->ah == FORMAT) {
        for (uint8_t r = 1; r <= call->count; r++) {
            const uint8_t key[4] = {call->c, call->h, r, 2};
            memcpy(bytes + 4 * (r - 1), key, 4);
        }
        return;
    }
    for (size_t sector = 0; sector < call->count; sector++) {
        uint8_t *at = bytes + 512 * sector, byte = (uint8_t)random_next(&state);
        bool is_noise = !one_in(&state, 4);
        for (size_t i = 0; i < 512; i++) at[i] = is_noise ? (uint8_t)random_next(&state) : byte;
    }
}

void call_tell(const Call *call, FILE *to) {
    static const char *const names[] = {"reset", "", "read", "write", "verify", "format"};
    if (call->ah == PAUSE) fprintf(to, "pause of %u ticks", call->count);
    else if (call->ah == RESET) fprintf(to, "reset");
    else if (call->ah == FORMAT) fprintf(to, "format C %u H %u", call->c, call->h);
    else fprintf(to, "%s C %u H %u R %u to %u", names[call->ah], call->c, call->h, call->r, call->r + call->count - 1);
}

static Call draw_sectors(uint64_t *state, uint8_t ah, uint8_t c, uint8_t h) {
    Call call = {.ah = ah, .c = c, .h = h, .content = random_next(state)};
    call.r = (uint8_t)(1 + random_below(state, SECTORS));
    uint32_t room = SECTORS + 1u - call.r;
    call.count = (uint8_t)(one_in(state, 3) ? room : one_in(state, 2) ? 1 : 1 + random_below(state, room));
    call.es = (uint16_t)(0x1000 + random_below(state, 0xB00));
    return call;
}

static Call draw_call(uint64_t *state, uint8_t c, uint8_t h, const Call *before) {
    uint32_t kind = random_below(state, 20);
    uint8_t near = (uint8_t)(one_in(state, 4) ? random_below(state, 80) : c);
    if (before && before->ah == WRITE && kind < 9) {            /* what was written is read, or verified */
        Call call = *before;
        call.ah = kind < 6 ? READ : VERIFY;
        call.es = (uint16_t)(0x1000 + random_below(state, 0xB00));
        return call;
    }
    if (kind < 6) return draw_sectors(state, WRITE, near, (uint8_t)(one_in(state, 4) ? !h : h));
    if (kind < 9) return draw_sectors(state, VERIFY, near, h);
    if (kind < 12) return (Call){.ah = FORMAT, .count = SECTORS, .c = near, .h = h, .r = 1, .es = 0x1000};
    if (kind == 12) return (Call){.ah = RESET};
    if (kind == 13) return (Call){.ah = PAUSE, .count = (uint8_t)(1 + random_below(state, 60))};
    return draw_sectors(state, READ, one_in(state, 4) ? (uint8_t)random_below(state, 80) : near, h);
}

/* ---- faults, near the places that the calls touch */

static uint16_t draw_word(uint64_t *state, const Call *call) {
    uint32_t sector = call->r - 1u + random_below(state, call->count ? call->count : 1), begin = 146 + 682 * (sector % SECTORS);
    switch (random_below(state, 5)) {
    case 0: return (uint16_t)random_below(state, TRACK_WORDS);
    case 1: return (uint16_t)(begin + random_below(state, 22));
    case 2: return (uint16_t)(begin + 44 + random_below(state, 20));
    default: return (uint16_t)(begin + 44 + random_below(state, WINDOW_WORDS));
    }
}

static uint16_t draw_count(uint64_t *state, uint32_t most) {
    return one_in(state, 3) ? 1 : one_in(state, 2) ? (uint16_t)(1 + random_below(state, 5)) : any_length(state, most);
}

static Fault draw_fault(uint64_t *state, const Round *round) {
    const Call *call = &round->calls[random_below(state, (uint32_t)round->call_count)];
    static const uint8_t kinds[] = {DROP, DROP, DROP, DROP, CUT_GATE, CUT_GATE, LOSE, LOSE, STICK, GAP, HOLD, STRAY, STRAY};
    Fault fault = {.kind = kinds[random_below(state, sizeof kinds)]};
    bool is_far = one_in(state, 8);
    fault.c = is_far ? (uint8_t)random_below(state, 80) : call->c;
    fault.h = one_in(state, 8) ? !call->h : call->h;
    fault.word = draw_word(state, call);
    fault.count = draw_count(state, 10000);
    if (fault.kind == LOSE || fault.kind == STICK) {
        fault.c = (uint8_t)random_below(state, call->c + 2u);
        fault.count = draw_count(state, 120);
    }
    if (fault.kind == GAP) fault.steps = any_length(state, 255);
    if (fault.kind == HOLD) fault.steps = one_in(state, 2) ? any_length(state, 20) : any_length(state, 255);
    if (fault.kind == STRAY) fault.steps = one_in(state, 3) ? (uint16_t)(1 + random_below(state, 65535)) : any_length(state, 65535);
    if (fault.kind == STRAY) fault.count = draw_count(state, 300);
    return fault;
}

void round_draw(Round *round, uint64_t seed, uint64_t number) {
    uint64_t from = random_next(&seed) + number * 0xD1342543DE82EF95, state = random_next(&from);
    memset(round, 0, sizeof *round);
    round->number = number;
    round->resets = !one_in(&state, 2);
    uint8_t c = (uint8_t)random_below(&state, 80), h = (uint8_t)random_below(&state, 2);
    int calls = 2 + (int)random_below(&state, 6);
    for (int i = 0; i < calls; i++) round->calls[i] = draw_call(&state, c, h, i ? &round->calls[i - 1] : NULL);
    round->call_count = calls;
    round->fault_count = one_in(&state, 12) ? 0 : 1 + (int)random_below(&state, one_in(&state, 3) ? MOST_FAULTS : 3);
    for (int i = 0; i < round->fault_count; i++) round->faults[i] = draw_fault(&state, round);
}

void round_plan(const Round *round, char *text, size_t room) {
    static const char *const names[] = {"drop", "cut", "lose", "stick", "gap", "hold", "stray"};
    *text = 0;
    for (int i = 0; i < round->fault_count; i++) {
        const Fault *f = &round->faults[i];
        size_t at = strlen(text);
        if (f->kind <= CUT_GATE) snprintf(text + at, room - at, "%s 0 %u %u %u %u\n", names[f->kind], f->c, f->h, f->word, f->count);
        else if (f->kind <= STICK) snprintf(text + at, room - at, "%s 0 %u %u\n", names[f->kind], f->c, f->count);
        else snprintf(text + at, room - at, "%s %u %u\n", names[f->kind], f->steps, f->count);
    }
}
