/* faults ROM IMAGE SEED FROM COUNT PER_WORD FIFO SLOW EXAMPLES: SeaBIOS boots on the bare controller, and then does
 * COUNT rounds of calls of INT 13h. Each round has a plan of its own, and each call is judged. FIFO is the byte of a
 * CONFIGURE that is sent after each reset; if it is -1, none is sent. If SLOW isn't 0, heads move as slowly as
 * SPECIFY says. */
#include "cpu.h"
#include "examine.h"
#include "floppy.h"
#include "judge.h"
#include "pc.h"
#include <stdlib.h>
#include <string.h>

enum { BLOCK = 0x600, BUFFER_BYTES = 0x2800, MOST_WORDS = 62500 * 60 };

static uint64_t seed, next_round, last_round, limit;
static bool is_done;

static Round round_now;
static Tally tally, of_round;           /* of all rounds; of this one */
static uint64_t not_at_zero, not_at_zero_again;     /* floppy_counts.not_at_zero at the beginning of this round, and when its faults were taken away */

/* What the guest does: the calls of the round, and then, without faults, calls that have to work again. */
static Call calls_again[170], call_now;
static int at, again_count, again_at;
static bool owes_reset, is_again, is_out, was_unheard;
static uint8_t before[BUFFER_BYTES];    /* the buffer as the call got it */

/* ---- a call is laid out for the guest, and its answer is read */

static void set16(unsigned place, unsigned value) { pc_ram[place] = (uint8_t)value, pc_ram[place + 1] = (uint8_t)(value >> 8); }

static void lay(const Call *call) {
    uint8_t *buffer = pc_ram + 16 * call->es;
    call_now = *call;
    is_out = true;
    limit = floppy_counts.words + MOST_WORDS;
    set16(BLOCK, (unsigned)call->ah << 8 | call->count);
    set16(BLOCK + 2, 0);
    set16(BLOCK + 4, (unsigned)call->c << 8 | call->r);
    set16(BLOCK + 6, (unsigned)call->h << 8);
    set16(BLOCK + 8, call->es);
    set16(BLOCK + 14, call->ah == PAUSE ? call->count : 0);
    if (!call->es) return;
    memset(buffer, 0x5A, BUFFER_BYTES);
    if (call->ah == WRITE || call->ah == FORMAT) call_content(call, buffer);
    memcpy(before, buffer, BUFFER_BYTES);
}

/* Memory that the call must not write is as it was. */
static bool is_memory_kept(const Call *call) {
    size_t own = call->ah == READ ? call_length(call) : 0;
    return !call->es || !memcmp(pc_ram + 16 * call->es + own, before + own, BUFFER_BYTES - own);
}

static void plan(const char *text) {
    if (bare_plan(text)) return;
    fprintf(stderr, "the plan of round %llu isn't understood\n", (unsigned long long)round_now.number);
    exit(3);
}

/* The calls without faults: a reset, a format of each track that isn't standard, and a sector that is written and
 * read. If the BIOS missed that a recalibration failed, a second recalibration comes first, before any far seek. */
static void begin_again(void) {
    uint64_t state = round_now.number;
    uint8_t c = (uint8_t)random_below(&state, 80);
    Call sector = {.ah = WRITE, .count = 1, .c = c, .r = (uint8_t)(1 + random_below(&state, SECTORS)), .es = 0x1000, .content = random_next(&state)};
    plan("");
    is_again = true;
    not_at_zero_again = floppy_counts.not_at_zero;
    again_at = again_count = 0;
    calls_again[again_count++] = (Call){.ah = RESET};
    if (was_unheard) {
        calls_again[again_count++] = (Call){.ah = VERIFY, .count = 1, .r = 1, .es = 0x1000};
        calls_again[again_count++] = (Call){.ah = RESET};
    }
    for (uint8_t track = 0; track < 160; track++)
        if (!track_is_standard(judge_fields(track / 2, track % 2), track / 2, track % 2))
            calls_again[again_count++] = (Call){.ah = FORMAT, .count = SECTORS, .c = track / 2, .h = track % 2, .r = 1, .es = 0x1000};
    calls_again[again_count++] = sector;
    sector.ah = READ;
    calls_again[again_count++] = sector;
    if (tells_calls) puts("    plan: none any more");
}

static void tell_call(bool is_error, Verdict verdict) {
    if (!tells_calls) return;
    printf("    ");
    call_tell(&call_now, stdout);
    if (call_now.ah != PAUSE) printf(": %s", is_error ? "error " : "well");
    if (is_error) printf("%02X", pc_ram[BLOCK + 11]);
    printf("%s%s\n", verdict > TOLD ? "  <- " : "", verdict > TOLD ? judge_why : "");
}

/* This call may fail once, after a recalibration that didn't reach cylinder 0, if the controller reported that. */
static void fails_again(void) {
    if (was_unheard || floppy_counts.not_at_zero == not_at_zero_again) {
        of_round.of[STUCK]++;
        return;
    }
    was_unheard = true;
    of_round.of[UNHEARD]++;
    begin_again();
}

static void count_call(bool is_error, Verdict verdict) {
    if (!is_again || verdict == WRONG) tally_call(&of_round, call_now.ah, verdict);
    if (is_again && (is_error || (verdict != WELL && verdict != UNREAD))) fails_again();
    if (is_error && !is_again && call_now.ah != RESET) owes_reset = round_now.resets;
}

static void take_answer(void) {
    bool is_error = call_now.ah != PAUSE && pc_ram[BLOCK + 12] & 1;
    Verdict verdict = judge(&round_now, &call_now, is_error, pc_ram + 16 * call_now.es);
    if (!is_memory_kept(&call_now)) {
        verdict = WRONG;
        snprintf(judge_why, sizeof judge_why, "memory beside the buffer changed");
    }
    is_out = false;
    tell_call(is_error, verdict);
    count_call(is_error, verdict);
}

/* ---- rounds */

static void begin_round(void) {
    char text[1000];
    memset(&of_round, 0, sizeof of_round);
    round_draw(&round_now, seed, next_round++);
    examine_begin(&round_now);
    not_at_zero = floppy_counts.not_at_zero;
    is_again = owes_reset = is_out = was_unheard = false;
    at = 0;
    round_plan(&round_now, text, sizeof text);
    plan(text);
}

static void end_round(void) {
    of_round.rounds = 1;
    of_round.not_at_zero = floppy_counts.not_at_zero - not_at_zero;
    examine_end(&round_now, &of_round);
    tally_add(&tally, &of_round);
}

static void check_medium(void) {
    if (judge_rest() && (round_now.number % 64 || judge_flat())) return;
    of_round.of[FALSE_ANSWER]++;
    if (tells_calls) printf("    the medium isn't as it was known\n");
}

/* Called when the guest asks for its next call. */
static void asked(void) {
    static bool is_begun;
    if (!is_begun) judge_new(), begin_round(), is_begun = true;
    if (is_out) take_answer();
    if (is_again && again_at == again_count) {
        check_medium();
        end_round();
        is_done = next_round == last_round;
        if (is_done) return;
        begin_round();
    }
    if (owes_reset && !is_again) {
        owes_reset = false;
        lay(&(Call){.ah = RESET});
        return;
    }
    if (!is_again && at == round_now.call_count) begin_again();
    lay(is_again ? &calls_again[again_at++] : &round_now.calls[at++]);
}

/* ---- the PC */

static bool is_over(void) { return is_done || floppy_counts.words > limit; }

static uint8_t *load(const char *name, size_t *length) {
    FILE *file = fopen(name, "rb");
    if (!file) { perror(name); exit(2); }
    uint8_t *bytes = malloc(8 << 20);
    *length = fread(bytes, 1, 8 << 20, file);
    fclose(file);
    return bytes;
}

/* The PC with the BIOS and the disk in these files. */
static void assemble(const char *bios, const char *image) {
    size_t length;
    pc_new(NULL);
    floppy_new(&bare_controller, ADAPT_NONE, pc_ram, NULL);
    uint8_t *bytes = load(image, &length);
    if (!bare_controller.insert(bytes, length)) { fprintf(stderr, "%s is no image\n", image); exit(2); }
    free(bytes);
    bytes = load(bios, &length);
    cpu_new(bytes, length);
    free(bytes);
    pc_asked = asked;
}

int main(int count, char **words) {
    if (count != 10) { fputs("faults ROM IMAGE SEED FROM COUNT PER_WORD FIFO SLOW EXAMPLES\n", stderr); return 2; }
    seed = strtoull(words[3], NULL, 10);
    next_round = strtoull(words[4], NULL, 10);
    last_round = next_round + strtoull(words[5], NULL, 10);
    cpu_per_word = (uint32_t)strtoul(words[6], NULL, 10);
    floppy_fifo = (int)strtol(words[7], NULL, 10);
    for (int kind = 0; kind < KINDS; kind++) examples_wanted[kind] = kind >= STUCK ? 3 : atoi(words[9]);
    cpu_slice = 8;
    limit = 2 * MOST_WORDS;
    assemble(words[1], words[2]);
    if (atoi(words[8])) chip_strap_steps();
    const char *why = cpu_run(UINT64_MAX, is_over);
    if (!is_done) {                     /* a call doesn't come back */
        of_round.of[STUCK]++;
        if (tells_calls) printf("    "), call_tell(&call_now, stdout), printf(" doesn't come back: %s\n", why);
        if (next_round > 0) end_round();
    }
    tally_tell(&tally);
    return 0;
}
