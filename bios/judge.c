#include "judge.h"
#include "machine.h"
#include <string.h>

enum { CYLINDERS = 80, TRACKS = 160, FLAT_BYTES = 1474560 };

char judge_why[200];

static uint16_t known[TRACKS][TRACK_WORDS], now[TRACK_WORDS];
static Fields fields[TRACKS];
static uint8_t map[20];                 /* the tracks that the call wrote, as the library reports them */

const Fields *judge_fields(uint8_t c, uint8_t h) { return &fields[2 * c + h]; }

static void know(int track) {
    chip_track((uint8_t)(track / 2), track % 2, known[track], TRACK_WORDS);
    track_fields(&fields[track], known[track]);
}

void judge_new(void) {
    for (int track = 0; track < TRACKS; track++) know(track);
    chip_written_tracks(map);
}

static Verdict wrong(const char *why) {
    snprintf(judge_why, sizeof judge_why, "%s", why);
    return WRONG;
}

/* Whether no track was written but this one; if it is -1, whether none was written. */
static bool only(int track) {
    for (int t = 0; t < TRACKS; t++)
        if (map[t / 8] >> t % 8 & 1 && t != track) return false;
    return true;
}

/* Looks for a planned cut such that, from `begin` on, the words before it are the new ones, and those from it to the
 * end are the old ones. */
static bool is_cut(const Round *round, uint8_t c, uint8_t h, const uint16_t *wanted, const uint16_t *old, size_t begin, size_t count) {
    for (int i = 0; i < round->fault_count; i++) {
        const Fault *f = &round->faults[i];
        if (f->kind != CUT_GATE || f->c != c || f->h != h || f->word < begin || f->word >= begin + count) continue;
        size_t before = f->word - begin;
        if (!memcmp(now + begin, wanted, 2 * before) && !memcmp(now + f->word, old + f->word, 2 * (count - before))) return true;
    }
    return false;
}

/* Judges a written sector. Its window has to be the new one. If an error was reported, the sector may also be
 * damaged, or have the old window. */
static Verdict judge_window(const Round *round, const Field *field, uint8_t c, const uint8_t *bytes, bool is_error) {
    uint16_t wanted[WINDOW_WORDS];
    const uint16_t *old = known[2 * c + field->key[1]];
    static Fields after;
    track_window(wanted, bytes);
    if (!memcmp(now + field->window, wanted, sizeof wanted)) return WELL;
    if (is_error) {
        track_fields(&after, now);
        const Field *left = track_find(&after, field->key[0], field->key[1], field->key[2]);
        bool is_old = left && left->is_whole && field->is_whole && !memcmp(left->bytes, field->bytes, 512);
        return !left || (left->is_whole && !is_old && memcmp(left->bytes, bytes, 512)) ? wrong("an error, and a whole sector that nobody wrote") : TOLD;
    }
    if (!is_cut(round, c, field->key[1], wanted, old, field->window, WINDOW_WORDS)) return wrong("said to be written, and isn't on the medium");
    snprintf(judge_why, sizeof judge_why, "C %u H %u R %u said to be written: the drive stopped at a planned cut", field->key[0], field->key[1], field->key[2]);
    return CUT;
}

static Verdict worse(Verdict a, Verdict b) { return a > b ? a : b; }

static Verdict judge_write(const Round *round, const Call *call, bool is_error, uint8_t heads) {
    uint8_t bytes[SECTORS * 512];
    bool is_inside[TRACK_WORDS] = {false};
    int track = 2 * heads + call->h;
    Verdict verdict = is_error ? TOLD : WELL;
    call_content(call, bytes);
    if (!only(track)) return wrong("a write changed another track");
    for (int i = 0; i < call->count; i++) {
        const Field *field = track_find(&fields[track], call->c, call->h, (uint8_t)(call->r + i));
        if (!field && !is_error) return wrong("said to be written, and there is no such sector");
        if (!field) continue;
        memset(is_inside + field->window, true, WINDOW_WORDS);
        Verdict sector = judge_window(round, field, heads, bytes + 512 * i, is_error);
        if (sector == WRONG) return WRONG;
        if (!is_error) verdict = worse(verdict, sector);
    }
    for (int at = 0; at < TRACK_WORDS; at++)
        if (!is_inside[at] && now[at] != known[track][at]) return wrong("a write changed words beside its sectors");
    return verdict;
}

static Verdict judge_format(const Round *round, const Call *call, bool is_error, uint8_t heads) {
    static uint16_t wanted[TRACK_WORDS];
    int track = 2 * heads + call->h;
    if (!only(track)) return wrong("a format changed another track");
    if (is_error) return TOLD;
    track_format(wanted, call->c, call->h, 0);
    if (!memcmp(now, wanted, sizeof wanted)) return WELL;
    if (!is_cut(round, heads, call->h, wanted, known[track], 0, TRACK_WORDS)) return wrong("said to be formatted, and isn't");
    snprintf(judge_why, sizeof judge_why, "C %u H %u said to be formatted: the drive stopped at a planned cut", call->c, call->h);
    return CUT;
}

static Verdict judge_read(const Call *call, bool is_error, uint8_t heads, const uint8_t *buffer) {
    if (!only(-1)) return wrong("a read changed the medium");
    if (is_error) return TOLD;
    for (int i = 0; i < call->count; i++) {
        const Field *field = track_find(&fields[2 * heads + call->h], call->c, call->h, (uint8_t)(call->r + i));
        if (!field) return wrong("said to be read, and there is no such sector");
        if (!field->is_whole) return wrong("said to be read, and is damaged");
        if (memcmp(field->bytes, buffer + 512 * i, 512)) return wrong("said to be read, and isn't what is there");
    }
    return WELL;
}

/* SeaBIOS reports success for any verify, wherever the heads are. */
static Verdict judge_verify(const Call *call, bool is_error) {
    if (!only(-1)) return wrong("a verify changed the medium");
    if (is_error) return TOLD;
    for (int i = 0; i < call->count; i++) {
        const Field *field = track_find(&fields[2 * call->c + call->h], call->c, call->h, (uint8_t)(call->r + i));
        if (field && field->is_whole) continue;
        snprintf(judge_why, sizeof judge_why, "C %u H %u R %u said to be verified: it is %s", call->c, call->h, call->r + i, field ? "damaged" : "absent");
        return UNREAD;
    }
    return WELL;
}

static Verdict judge_kind(const Round *round, const Call *call, bool is_error, uint8_t heads, const uint8_t *buffer) {
    switch (call->ah) {
    case WRITE: return judge_write(round, call, is_error, heads);
    case FORMAT: return judge_format(round, call, is_error, heads);
    case READ: return judge_read(call, is_error, heads, buffer);
    case VERIFY: return judge_verify(call, is_error);
    default: return !only(-1) ? wrong("the medium changed with nothing to write") : is_error ? TOLD : WELL;
    }
}

Verdict judge(const Round *round, const Call *call, bool is_error, const uint8_t *buffer) {
    uint8_t heads = chip_cylinder();
    bool is_on_medium = heads < CYLINDERS, moves = call->ah == WRITE || call->ah == FORMAT || call->ah == READ;
    chip_written_tracks(map);
    if (!is_on_medium) {                /* nothing can be read or written there; a format succeeds there all the same */
        if (!only(-1)) return wrong("the medium changed with the heads beside it");
        if (is_error || !moves) return is_error ? TOLD : WELL;
        if (call->ah != FORMAT) return wrong("said well with the heads beside the medium");
        snprintf(judge_why, sizeof judge_why, "C %u H %u said to be formatted: the heads were on %u", call->c, call->h, heads);
        return ELSEWHERE;
    }
    chip_track(heads, call->h, now, TRACK_WORDS);
    Verdict verdict = judge_kind(round, call, is_error, heads, buffer);
    if (moves && !is_error && heads != call->c && verdict != WRONG) {
        snprintf(judge_why, sizeof judge_why, "C %u H %u said well: the heads were on %u", call->c, call->h, heads);
        verdict = ELSEWHERE;
    }
    if (map[(2 * heads + call->h) / 8] >> (2 * heads + call->h) % 8 & 1) know(2 * heads + call->h);
    return verdict;
}

bool judge_rest(void) {
    chip_written_tracks(map);
    for (int track = 0; track < TRACKS; track++) {
        chip_track((uint8_t)(track / 2), track % 2, now, TRACK_WORDS);
        if (memcmp(now, known[track], sizeof now)) return false;
    }
    return only(-1);
}

bool judge_flat(void) {
    static uint8_t flat[FLAT_BYTES];
    bool is_flat = true;
    for (int track = 0; track < TRACKS; track++) is_flat &= track_is_standard(&fields[track], (uint8_t)(track / 2), track % 2);
    if (chip_flat(flat, FLAT_BYTES) != is_flat) return false;
    for (int i = 0; is_flat && i < TRACKS * SECTORS; i++) {
        int track = i / SECTORS;
        const Field *field = track_find(&fields[track], (uint8_t)(track / 2), track % 2, (uint8_t)(i % SECTORS + 1));
        if (memcmp(field->bytes, flat + 512 * i, 512)) return false;
    }
    return true;
}
