/* A disk and a controller as this program computes them: what each sector has, where the heads are, what commands
 * set, and which results wait. Each command says what it answers and which bytes pass, by the 82077AA data sheet and
 * docs/C.md. Nothing here asks the library.
 *
 * The disk has standard tracks of 18 sectors, and one drive is selected throughout. */
#ifndef MODEL_H
#define MODEL_H
#include "guest.h"

#define FORMATTED 6             /* cylinders */
#define INNERMOST 82            /* where the heads stop */
#define MODEL_MOST (40 * 512)

/* Places in the bytes of a command. */
enum { UNIT = 1, KEY = 2, RECORD = 4, EOT = 6, COUNT = 8 };

/* Codes without MFM, and EC. */
enum { KIND = 0x1F, OF_WRITE = 0x05, OF_WRITE_DELETED = 0x09, OF_READ_DELETED = 0x0C, OF_READ_ID = 0x0A, OF_FORMAT = 0x0D, OF_VERIFY = 0x16, COUNTS = 0x80 };

typedef struct {
    uint8_t bytes[512];
    int is_deleted, has_bad_key, has_bad_content;
} Sector;

typedef struct {
    Sector sectors[FORMATTED][2][18];
    int heads;                  /* the cylinder under the heads */
    int cylinders[4];           /* the present cylinder number of each drive */
    int pending[4];             /* ST0 of each drive's result, -1 if there is none */
    uint8_t step_rate, head_load, last_sector, perpendicular, options, precompensation;
    int is_locked, is_strapped;
} Model;

typedef struct {
    uint8_t result[10];
    int results;
    size_t passed;
    uint8_t bytes[MODEL_MOST];
} Outcome;

static inline void one_byte(Outcome *out, int byte) {
    out->result[0] = (uint8_t)byte;
    out->results = 1;
}

/* Seven result bytes, with the head and the drive of a command. */
static inline void seven(Outcome *out, const uint8_t *sent, int st0, int st1, int st2, const uint8_t *key) {
    out->results = 7;
    out->result[0] = (uint8_t)(st0 | (sent[UNIT] & 7));
    out->result[1] = (uint8_t)st1;
    out->result[2] = (uint8_t)st2;
    memcpy(out->result + 3, key, 4);
}

/* ---- heads */

static inline void move_to(Model *model, int drive, int target) {
    int heads = model->heads + target - model->cylinders[drive];
    model->heads = heads < 0 ? 0 : heads > INNERMOST ? INNERMOST : heads;
    model->cylinders[drive] = target;
}

static inline void reckon_seek(Model *model, int drive, int target) {
    move_to(model, drive, target);
    model->pending[drive] = 0x20 | drive;
}

/* Moves by at most 79 pulses; no more are needed from cylinder 79 on. */
static inline void reckon_recalibrate(Model *model, int drive) {
    int is_there = model->heads <= 79;
    model->heads = is_there ? 0 : model->heads - 79;
    model->cylinders[drive] = 0;
    model->pending[drive] = (is_there ? 0x20 : 0x70) | drive;
}

static inline void reckon_relative(Model *model, int drive, int is_inward, int count) {
    int target = model->cylinders[drive] + (is_inward ? count : -count);
    reckon_seek(model, drive, target < 0 ? 0 : target > 255 ? 255 : target);
}

static inline void reckon_sense(Model *model, Outcome *out) {
    for (int drive = 0; drive < 4; drive++) {
        if (model->pending[drive] < 0) continue;
        out->results = 2;
        out->result[0] = (uint8_t)model->pending[drive];
        out->result[1] = (uint8_t)model->cylinders[drive];
        model->pending[drive] = -1;
        return;
    }
    one_byte(out, 0x80);
}

/* ---- what is set */

/* A reset by DOR or DSR, and the poll after it. */
static inline void reckon_reset(Model *model) {
    for (int drive = 0; drive < 4; drive++) {
        model->cylinders[drive] = 0;
        model->pending[drive] = 0xC0 | drive;
    }
    model->perpendicular &= 0x3C;
    model->options = model->is_locked ? model->options & 0x2F : 0x20;
    if (!model->is_locked) model->precompensation = 0;
}

static inline void reckon_perpendicular(Model *model, uint8_t mode) {
    if (mode & 0x80) model->perpendicular = mode & 0x3F;
    else model->perpendicular = (uint8_t)((model->perpendicular & 0x3C) | (mode & 0x03));
}

static inline void reckon_registers(const Model *model, Outcome *out) {
    const uint8_t lock = model->is_locked ? 0x80 : 0;
    const uint8_t rest[] = {model->step_rate, model->head_load, model->last_sector, (uint8_t)(lock | model->perpendicular), (uint8_t)(model->options & 0x7F), model->precompensation};
    for (int drive = 0; drive < 4; drive++) out->result[drive] = (uint8_t)model->cylinders[drive];
    memcpy(out->result + 4, rest, 6);
    out->results = 10;
}

/* ---- data commands */

static inline int is_writing(const uint8_t *sent) { return (sent[0] & KIND) == OF_WRITE || (sent[0] & KIND) == OF_WRITE_DELETED; }

static inline int head_of(const uint8_t *sent) { return sent[UNIT] >> 2 & 1; }

static inline int has_marks(const Model *model) { return model->heads < FORMATTED; }

/* A data command begins: the waiting result of its drive is dropped. */
static inline void begin_data(Model *model, const uint8_t *sent) { model->pending[sent[UNIT] & 3] = -1; }

/* A command of sectors begins: if seeks are implied, the heads first go to the cylinder that it names, and its ST0
 * will have SE. Returns that bit. */
static inline int begin_sectors(Model *model, const uint8_t *sent) {
    begin_data(model, sent);
    model->last_sector = sent[EOT];
    if (!model->is_strapped && !(model->options & EIS)) return 0;
    move_to(model, sent[UNIT] & 3, sent[KEY]);
    return 0x20;
}

/* The sector with its ID, if the track has an intact one. */
static inline Sector *sector_of(Model *model, const uint8_t *sent) {
    const uint8_t *key = sent + KEY;
    if (!has_marks(model) || key[0] != model->heads || key[1] != head_of(sent) || key[2] < 1 || key[2] > 18 || key[3] != 2) return NULL;
    Sector *sector = &model->sectors[model->heads][key[1]][key[2] - 1];
    return sector->has_bad_key ? NULL : sector;
}

/* The same command at the next sector. */
static inline void next_sector(uint8_t *at) {
    uint8_t *key = at + KEY;
    if (key[2] != at[EOT]) {
        key[2]++;
        return;
    }
    key[2] = 1;
    if (!(at[0] & MT) || head_of(at)) key[0]++;
    if (!(at[0] & MT)) return;
    at[UNIT] ^= 4;
    key[1] ^= 1;
}

static inline int is_at_last(const uint8_t *at) { return at[RECORD] == at[EOT] && (!(at[0] & MT) || head_of(at)); }

static inline size_t least(size_t one, size_t other) { return one < other ? one : other; }

/* Passes the bytes of a sector, up to `count` in all. Bytes that aren't given are 00. */
static inline void pass_sector(Sector *sector, const uint8_t *sent, size_t count, const uint8_t *given, Outcome *out) {
    size_t moved = least(512, count - out->passed);
    if (is_writing(sent)) {
        memset(sector->bytes, 0, 512);
        memcpy(sector->bytes, given + out->passed, moved);
        sector->is_deleted = (sent[0] & KIND) == OF_WRITE_DELETED;
        sector->has_bad_content = 0;
    } else memcpy(out->bytes + out->passed, sector->bytes, moved);
    out->passed += moved;
}

/* No sector has the ID. The FIFO has taken bytes for it all the same. */
static inline void miss(const Model *model, const uint8_t *at, size_t count, int cm, Outcome *out) {
    size_t room = model->options & FIFO_OFF ? 1 : 16;
    if (is_writing(at)) out->passed += least(room, count - out->passed);
    if (has_marks(model)) seven(out, at, 0x40, 0x04, cm | (at[KEY] == model->heads ? 0 : 0x10), at + KEY);
    else seven(out, at, 0x40, 0x01, cm, at + KEY);
}

/* How far a command of sectors is: its bytes at a sector, how many sectors a VERIFY with EC still has (else -1), and
 * CM. */
typedef struct {
    uint8_t at[9];
    int left, cm;
} Course;

/* The command's results at this sector, if it ends there; else 0. */
static inline int ends_at(const Course *course, int is_other, size_t count, Outcome *out) {
    const uint8_t *at = course->at;
    uint8_t behind[9];
    int is_verify = (at[0] & KIND) == OF_VERIFY, is_over = is_other && at[0] & SK;
    int is_counted = is_verify ? course->left == 0 || (course->left < 0 && is_at_last(at)) : !is_over && out->passed == count;
    memcpy(behind, at, 9);
    next_sector(behind);
    if (is_counted || (is_other && !is_over)) seven(out, at, 0, 0, course->cm, behind + KEY);
    else if (is_at_last(at)) seven(out, at, 0x40, 0x80, course->cm, at + KEY);
    else return 0;
    return 1;
}

/* Does one sector of the command. Returns whether the command ends there. */
static inline int reckon_sector(Model *model, Course *course, size_t count, const uint8_t *given, Outcome *out) {
    uint8_t *at = course->at;
    Sector *sector = sector_of(model, at);
    if (sector == NULL) {
        miss(model, at, count, course->cm, out);
        return 1;
    }
    int is_other = !is_writing(at) && sector->is_deleted != ((at[0] & KIND) == OF_READ_DELETED), is_over = is_other && at[0] & SK;
    int is_bad = sector->has_bad_content && !is_writing(at) && !is_over;
    if (!is_over && (at[0] & KIND) != OF_VERIFY) pass_sector(sector, at, count, given, out);
    if (is_bad) {
        seven(out, at, 0x40, 0x20, 0x20 | course->cm | (is_other ? 0x40 : 0), at + KEY);
        return 1;
    }
    if (!is_over && course->left > 0) course->left--;
    if (is_other) course->cm = 0x40;
    if (ends_at(course, is_other, count, out)) return 1;
    next_sector(at);
    return 0;
}

/* READ DATA, READ DELETED DATA, WRITE DATA, WRITE DELETED DATA, with the terminal count after `count` bytes; and
 * VERIFY. */
static inline void reckon_sectors(Model *model, const uint8_t *sent, size_t count, const uint8_t *given, Outcome *out) {
    Course course;
    memcpy(course.at, sent, 9);
    course.cm = 0;
    course.left = -1;
    if ((sent[0] & KIND) == OF_VERIFY && sent[UNIT] & COUNTS) course.left = sent[COUNT] == 0 ? 256 : sent[COUNT];
    out->passed = 0;
    int seek_end = begin_sectors(model, sent);
    while (!reckon_sector(model, &course, count, given, out)) {}
    out->result[0] |= (uint8_t)seek_end;
}

/* READ TRACK of a formatted track whose sector IDs are intact, with the N of its sectors: as many sectors as EOT says,
 * from the index on, over and over. */
static inline void reckon_track(Model *model, const uint8_t *sent, size_t count, Outcome *out) {
    int most = sent[EOT] == 0 ? 256 : sent[EOT], is_met = 0, st1 = 0, st2 = 0, is_counted = 0;
    int seek_end = begin_sectors(model, sent);
    out->passed = 0;
    for (int i = 0; i < most && !is_counted; i++) {
        Sector *sector = &model->sectors[model->heads][head_of(sent)][i % 18];
        const uint8_t key[] = {(uint8_t)model->heads, (uint8_t)head_of(sent), (uint8_t)(i % 18 + 1), 2};
        is_met |= memcmp(key, sent + KEY, 4) == 0;
        if (sector->has_bad_content) st1 = st2 = 0x20;
        pass_sector(sector, sent, count, sent, out);
        is_counted = out->passed == count;
    }
    st1 |= (is_met ? 0 : 0x04) | (is_counted ? 0 : 0x80);
    seven(out, sent, (st1 ? 0x40 : 0) | seek_end, st1, st2, sent + KEY);
}

/* A command without MFM, or of a size that no field has. If it names a sector ID, it gets that ID back. */
static inline void reckon_unfit(Model *model, const uint8_t *sent, Outcome *out) {
    static const uint8_t none[] = {0, 0, 0, 0};
    int kind = sent[0] & KIND, has_key = kind != OF_READ_ID && kind != OF_FORMAT;
    begin_data(model, sent);
    if (has_key) model->last_sector = sent[EOT];
    if (kind == OF_FORMAT) model->last_sector = sent[KEY + 1];
    out->passed = 0;
    seven(out, sent, 0x40, has_marks(model) && sent[0] & 0x40 ? 0x04 : 0x01, 0, has_key ? sent + KEY : none);
}

/* READ ID. It gives the ID of any sector of the track; here its record is 00, which stands for any. */
static inline void reckon_id(Model *model, const uint8_t *sent, Outcome *out) {
    const uint8_t none[] = {0, 0, 0, 0}, key[] = {(uint8_t)model->heads, (uint8_t)head_of(sent), 0, 2};
    begin_data(model, sent);
    out->passed = 0;
    if (has_marks(model)) seven(out, sent, 0, 0, 0, key);
    else seven(out, sent, 0x40, 0x01, 0, none);
}

#endif
