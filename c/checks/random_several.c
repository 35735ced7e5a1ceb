/* random_several COMMANDS [SEED] - compares random commands of several sectors with the same commands sent sector by
 * sector.
 *
 * Two controllers have the same disk. One takes each command as it is. The other gets a command of its own for each
 * sector, with EOT as its record and the terminal count after it. The same bytes have to pass. The results have to
 * be those that the rules in docs/C.md make of the single results, and the images have to be the same. Each 250
 * commands begin with a fresh disk, some of whose sectors are deleted, or damaged in the sector ID, the data mark or
 * the data.
 *
 * After each fourth command, a third controller gets one or more commands of any kind: several sectors by DMA or at
 * the data port, VERIFY, READ TRACK, what no medium can have, overlapping seeks of four drives, settings, resets.
 * Their results are computed by model.h alone. */
#include "guest.h"
#include "flat.h"
#include "model.h"

#define CYLINDERS 12
#define SMALL (14 + CYLINDERS * 2 * 25000)
#define MOST (40 * 512)
#define ROUND 250

enum { WHOLE, BAD_KEY, BAD_MARK, BAD_DATA };

typedef struct {
    uint8_t code, head, key[4], eot;    /* key: C, H, R, N */
    uint8_t cylinder;                   /* where the heads are */
    int is_strapped, options;           /* how seeks are implied, if they are */
    size_t count;
} Command;

/* What the rules say of a command, computed from the single ones. */
typedef struct {
    size_t passed;
    uint8_t result[7];
    int results;
} Wanted;

static Guest several, single;
static uint8_t flat[FLAT], image[IMAGE], disk[SMALL], one[SMALL], other[SMALL];
static uint8_t given[MOST + 512], taken[MOST + 512], spare[512];
static uint8_t is_deleted[CYLINDERS][2][19];
static unsigned long differences, sectors, passed_over, damaged, ends[6];
static uint64_t state;

static unsigned below(unsigned bound) {
    state = state * 6364136223846793005u + 1442695040888963407u;
    return (unsigned)(state >> 33) % bound;
}

/* ---- disks */

static void damage(int c, int h, int r, int kind) {
    static const int words[] = {0, 16 + 2, 44 + 15, 44 + 16 + 300};   /* from the 00s before the sector ID on */
    uint8_t *low = disk + 14 + (c * 2 + h) * 25000 + (146 + 682 * (r - 1) + words[kind]) * 2 + 1;
    *low ^= 0x01;
}

/* Makes a fresh disk for both. Deleted sectors are written by single commands. */
static void fresh_disk(void) {
    Guest writer;
    memcpy(disk, image, SMALL);
    disk[9] = CYLINDERS;
    make_guest(&writer, disk, SMALL);
    memset(is_deleted, 0, sizeof is_deleted);
    for (int i = 0; i < 25; i++) {
        uint8_t c = (uint8_t)below(CYLINDERS), h = (uint8_t)below(2), r = (uint8_t)(1 + below(18));
        const uint8_t bytes[] = {WRITE_DELETED, (uint8_t)(h << 2), c, h, r, 2, r, 0x1B, 0xFF};
        seek(&writer, c);
        transfer(&writer, bytes, given, 512);
        need(writer.results == 7 && (writer.result[0] & 0xC0) == 0, "a deleted sector is written");
        is_deleted[c][h][r] = 1;
    }
    image_of(&writer, disk, SMALL);
    MUST(telwyddus_controller_free(&writer.controller));
    for (int i = 0; i < 8; i++) {
        /* Each draw has a statement of its own here and below: C leaves open in which order it evaluates arguments. */
        int kind = (int)(1 + below(3)), r = (int)(1 + below(18)), h = (int)below(2), c = (int)below(CYLINDERS);
        damage(c, h, r, kind);
    }
    MUST(telwyddus_controller_free(&several.controller));
    MUST(telwyddus_controller_free(&single.controller));
    make_guest(&several, disk, SMALL);
    make_guest(&single, disk, SMALL);
}

static void compare_images(unsigned long number) {
    image_of(&several, one, SMALL);
    image_of(&single, other, SMALL);
    if (memcmp(one, other, SMALL) == 0) return;
    differences++;
    for (size_t i = 0; i < SMALL; i++)
        if (one[i] != other[i]) {
            printf("command %lu: the images differ from byte %lu on\n", number, (unsigned long)i);
            break;
        }
}

/* ---- sector by sector */

/* Whether seeks are implied. */
static int implies(const Command *now) { return now->is_strapped || now->options & EIS; }

/* Whether a field may have its size. A size that no field has implies no seek. */
static int is_sized(const Command *now) { return now->key[3] >= 1 && now->key[3] <= 6; }

static int is_write(const Command *now) { return (now->code & 0x1F) == 0x05 || (now->code & 0x1F) == 0x09; }
static int wants_deleted(const Command *now) { return (now->code & 0x1F) == 0x0C; }

static int mark_at(const Command *at) {
    uint8_t r = at->key[2];
    return at->cylinder < CYLINDERS && r >= 1 && r <= 18 && is_deleted[at->cylinder][at->head][r];
}

/* The mark of the sector isn't a wanted one. */
static int is_other(const Command *at) { return !is_write(at) && mark_at(at) != wants_deleted(at); }

/* The next sector. */
static void go_on(Command *at) {
    if (at->key[2] != at->eot) {
        at->key[2]++;
        return;
    }
    at->key[2] = 1;
    if (!(at->code & MT)) {
        at->key[0]++;
        return;
    }
    if (at->head) at->key[0]++;
    at->head ^= 1;
    at->key[1] ^= 1;
}

static int is_last(const Command *at) { return at->key[2] == at->eot && (!(at->code & MT) || at->head); }

/* The single command for a sector. */
static void send_single(const Command *at, uint8_t *place, size_t count) {
    uint8_t code = is_write(at) ? at->code & 0x5F : READ;
    const uint8_t bytes[] = {code, (uint8_t)(at->head << 2), at->key[0], at->key[1], at->key[2], at->key[3], at->key[2], 0x1B, 0xFF};
    transfer(&single, bytes, place, count);
    if (is_write(at) && single.results == 7 && (single.result[0] & 0xC0) == 0)
        is_deleted[at->cylinder][at->head][at->key[2]] = (at->code & 0x1F) == 0x09;
}

/* The command ends at a sector. ST0 has SE if it made an implied seek. */
static void tell(Wanted *wanted, const Command *at, const Command *key, int st0, int st1, int st2) {
    int seek_end = implies(at) && is_sized(at) ? 0x20 : 0;
    wanted->results = 7;
    wanted->result[0] = (uint8_t)(st0 | seek_end | at->head << 2);
    wanted->result[1] = (uint8_t)st1;
    wanted->result[2] = (uint8_t)st2;
    memcpy(wanted->result + 3, key->key, 4);
}

static void reckon(const Command *command_sent, uint8_t *place, Wanted *wanted) {
    Command at = *command_sent, behind;
    int skips = at.code & SK, met = 0;
    wanted->passed = 0;
    for (;;) {
        size_t rest = at.count - wanted->passed, moved = rest < 512 ? rest : 512;
        int wrong = is_other(&at), over = wrong && skips;
        if (over) send_single(&at, spare, 512);
        else send_single(&at, place + wanted->passed, moved);
        if (single.results == 1) {
            wanted->results = 1;
            wanted->result[0] = single.result[0];
            ends[0]++;
            return;
        }
        int has_bad_check = (single.result[1] & 0x20) != 0, failed = (single.result[0] & 0xC0) != 0 && !(over && has_bad_check);
        if (!over) wanted->passed += single.passed;
        if (failed) {
            ends[1]++;
            /* CM of the single READ DATA says that its sector is deleted. Here it says that a mark isn't a wanted one. */
            int is_met = met || (wrong && has_bad_check);
            tell(wanted, &at, &at, 0x40, single.result[1], (single.result[2] & ~0x40) | (is_met ? 0x40 : 0));
            return;
        }
        sectors++;
        passed_over += over;
        damaged += has_bad_check;
        met |= wrong;
        if (!is_write(&at)) need(((single.result[2] & 0x40) != 0) == mark_at(&at), "the mark is the one that was written");
        behind = at;
        go_on(&behind);
        if ((!over && wanted->passed == at.count) || (wrong && !skips)) {
            ends[wrong && !skips ? 3 : 2]++;
            tell(wanted, &at, &behind, 0, 0, met ? 0x40 : 0);
            return;
        }
        if (is_last(&at)) {
            ends[4]++;
            tell(wanted, &at, &at, 0x40, 0x80, met ? 0x40 : 0);
            return;
        }
        at = behind;
    }
}

/* ---- random commands */

static void draw(Command *now) {
    static const uint8_t codes[] = {READ, READ, READ, READ_DELETED, WRITE, WRITE, WRITE_DELETED};
    now->code = codes[below(7)];
    if (below(3)) now->code |= MT;
    if (below(3) == 0 && (!is_write(now) || below(10) == 0)) now->code |= SK;
    now->cylinder = (uint8_t)below(CYLINDERS);
    now->head = (uint8_t)below(2);
    now->key[1] = now->head;
    now->key[2] = (uint8_t)(1 + below(18));
    now->key[3] = 2;
    now->eot = below(5) ? 18 : (uint8_t)below(22);
    if (below(50) == 0) now->key[3] = (uint8_t)below(8);
    if (below(50) == 0) now->key[1] ^= 1;
    if (below(50) == 0) now->key[2] = (uint8_t)below(256);
    now->count = below(3) ? 512 * (1 + below(below(2) ? 6 : 38)) : 1 + below(below(2) ? 1200 : MOST);
    if (below(8) == 0) now->count = MOST;
    now->is_strapped = below(3) == 0;
    int fifo = below(2) ? (int)FIFO_OFF : (int)below(16), implied = below(2) ? (int)EIS : 0;
    now->options = fifo | implied;
    if (below(40) == 0) now->cylinder = (uint8_t)(CYLINDERS + below(4));
    now->key[0] = now->cylinder;
    if (!implies(now) && below(30) == 0) now->key[0]++;
}

/* Sends the command as it is to the first controller. */
static void send_whole(const Command *now, uint8_t *place) {
    const uint8_t bytes[] = {now->code, (uint8_t)(now->head << 2), now->key[0], now->key[1], now->key[2], now->key[3], now->eot, 0x1B, 0xFF};
    configure(&several, (uint8_t)now->options);
    MUST(telwyddus_controller_strap_seeks(&several.controller, (uint8_t)now->is_strapped));
    if (!implies(now) || !is_sized(now)) seek(&several, now->cylinder);
    transfer(&several, bytes, place, now->count);
}

static void report(unsigned long number, const Command *now, const Wanted *wanted) {
    differences++;
    printf("command %lu: %02X head %u key %02X %02X %02X %02X EOT %02X, %lu bytes, options %02X, strap %d, heads at %u\n", number, (unsigned)now->code,
        (unsigned)now->head, (unsigned)now->key[0], (unsigned)now->key[1], (unsigned)now->key[2], (unsigned)now->key[3], (unsigned)now->eot,
        (unsigned long)now->count, (unsigned)now->options, now->is_strapped, (unsigned)now->cylinder);
    printf("  %lu bytes passed, %lu wanted; results", (unsigned long)several.passed, (unsigned long)wanted->passed);
    for (int i = 0; i < several.results; i++) printf(" %02X", (unsigned)several.result[i]);
    printf(", wanted");
    for (int i = 0; i < wanted->results; i++) printf(" %02X", (unsigned)wanted->result[i]);
    printf("\n");
}

static void try_one(unsigned long number) {
    Command now;
    Wanted wanted;
    draw(&now);
    for (size_t i = 0; i < MOST; i++) taken[i] = given[i] = is_write(&now) ? (uint8_t)below(256) : 0;
    configure(&single, (uint8_t)(now.options & ~EIS));
    seek(&single, now.cylinder);
    if (is_write(&now) && now.code & SK) {
        wanted.passed = 0;
        wanted.results = 1;
        wanted.result[0] = 0x80;
        ends[0]++;
    } else reckon(&now, taken, &wanted);
    send_whole(&now, given);
    if (several.passed != wanted.passed || several.results != wanted.results || memcmp(several.result, wanted.result, (size_t)wanted.results) != 0
        || memcmp(given, taken, several.passed) != 0) report(number, &now, &wanted);
}

/* ---- commands of any kind, compared with what model.h computes */

#define OTHER (14 + FORMATTED * 2 * 25000)

static Guest chip;
static Model model;
static Outcome reckoned;
static uint8_t moved[MODEL_MOST + 512];
static unsigned long tried[4];      /* data commands by DMA; data commands at the port; seeks; questions and settings */

/* Cylinders 0 to 3 are whole. On cylinder 4 some contents are damaged, on cylinder 5 some sector IDs. */
static void begin_others(void) {
    static uint8_t start_image[OTHER];
    memcpy(start_image, image, OTHER);
    start_image[9] = FORMATTED;
    memset(&model, 0, sizeof model);
    for (int i = 0; i < FORMATTED * 36; i++) memcpy(model.sectors[i / 36][i / 18 % 2][i % 18].bytes, flat + 512 * i, 512);
    for (int i = 0; i < 16; i++) {
        int c = 4 + i % 2, h = (int)below(2), r = (int)(1 + below(18));
        Sector *sector = &model.sectors[c][h][r - 1];
        if (sector->has_bad_key || sector->has_bad_content) continue;
        start_image[14 + (c * 2 + h) * 25000 + (146 + 682 * (r - 1) + (c == 5 ? 18 : 60 + 300)) * 2 + 1] ^= 0x01;
        if (c == 5) sector->has_bad_key = 1;
        else sector->has_bad_content = 1, sector->bytes[300] ^= 0x01;
    }
    for (int drive = 0; drive < 4; drive++) model.pending[drive] = -1;
    model.options = 0x20;
    make_guest(&chip, start_image, OTHER);
}

/* The last command answered what was computed; for a READ ID that is any record of the track. */
static void compare(const uint8_t *sent, size_t passed) {
    int is_id = (sent[0] & 0x5F) == 0x4A && reckoned.result[6] == 2;
    if (is_id && chip.result[5] >= 1 && chip.result[5] <= 18) reckoned.result[5] = chip.result[5];
    if (chip.results == reckoned.results && memcmp(chip.result, reckoned.result, (size_t)chip.results) == 0 && passed == reckoned.passed) return;
    differences++;
    printf("model: %02X %02X %02X %02X %02X %02X %02X %02X %02X, heads at %d, options %02X, ND %d:", (unsigned)sent[0], (unsigned)sent[1], (unsigned)sent[2], (unsigned)sent[3],
        (unsigned)sent[4], (unsigned)sent[5], (unsigned)sent[6], (unsigned)sent[7], (unsigned)sent[8], model.heads, (unsigned)model.options, model.head_load & 1);
    for (int i = 0; i < chip.results; i++) printf(" %02X", (unsigned)chip.result[i]);
    printf(", %lu bytes; reckoned:", (unsigned long)passed);
    for (int i = 0; i < reckoned.results; i++) printf(" %02X", (unsigned)reckoned.result[i]);
    printf(", %lu bytes\n", (unsigned long)reckoned.passed);
}

/* A command that isn't executed. */
static void ask(const uint8_t *sent, int count) {
    reckoned.passed = 0;
    command(&chip, sent, count);
    compare(sent, 0);
    tried[3]++;
}

static void sense_once(void) {
    static const uint8_t sent[9] = {0x08};
    reckon_sense(&model, &reckoned);
    ask(sent, 1);
}

static void dump(void) {
    static const uint8_t sent[9] = {0x0E};
    reckon_registers(&model, &reckoned);
    ask(sent, 1);
}

/* Passes the command's bytes at the data port, with the terminal count after `most`. Returns how many passed. */
static size_t pass_by_port(uint8_t *place, size_t most) {
    size_t passed = 0;
    uint32_t made;
    for (long i = 0; i < 2000000; i++) {
        uint8_t is = in(&chip, MSR);
        if (!(is & NON_DMA)) return passed;
        if (!(is & RQM)) {
            if (has_line(&chip, TELWYDDUS_INT)) make_steps(&chip, 1);
            else MUST(telwyddus_controller_run(&chip.controller, 100000, &made, &chip.lines));
            continue;
        }
        need(passed < most, "no byte is asked for after the terminal count");
        if (is & DIO) place[passed++] = in(&chip, BYTES);
        else out(&chip, BYTES, place[passed++]);
        if (passed == most) MUST(telwyddus_controller_tc(&chip.controller, &chip.lines));
    }
    need(0, "the command ends");
    return 0;
}

/* Sends a data command for which `reckoned` has been computed already. */
static void send(const uint8_t *sent, int bytes, size_t most) {
    int is_by_port = model.head_load & 1;
    size_t passed;
    channel(&chip, moved, most);
    if (is_by_port) {
        put(&chip, sent, bytes);
        passed = pass_by_port(moved, most);
        finish(&chip);
    } else {
        command(&chip, sent, bytes);
        passed = chip.passed;
    }
    chip.left = 0;
    tried[is_by_port]++;
    compare(sent, passed);
    if (!is_writing(sent) && passed == reckoned.passed && memcmp(moved, reckoned.bytes, passed) != 0) {
        differences++;
        printf("model: %02X at cylinder %d: other bytes\n", (unsigned)sent[0], model.heads);
    }
}

/* ---- heads */

static void await_heads(void) {
    make_steps(&chip, 800);
    need(in(&chip, MSR) & RQM, "heads stand");
}

/* Sends a command that moves heads. If others still move, the command waits. */
static void move(const uint8_t *sent, int bytes) {
    for (int i = 0; i < 800 && !(in(&chip, MSR) & RQM); i++) make_steps(&chip, 1);
    put(&chip, sent, bytes);
    tried[2]++;
}

static void try_seek(int drive) {
    const uint8_t unit = (uint8_t)drive, target = (uint8_t)(below(4) ? below(FORMATTED + 3) : below(256));
    const uint8_t recalibrate_it[] = {0x07, unit}, seek_it[] = {0x0F, unit, target}, out_it[] = {0x8F, unit, target}, in_it[] = {0xCF, unit, target};
    switch (below(4)) {
    case 0: move(recalibrate_it, 2), reckon_recalibrate(&model, drive); break;
    case 1: move(out_it, 3), reckon_relative(&model, drive, 0, target); break;
    case 2: move(in_it, 3), reckon_relative(&model, drive, 1, target); break;
    default: move(seek_it, 3), reckon_seek(&model, drive, target);
    }
}

/* Overlapping seeks; their results are taken, or some of them are. */
static void try_seeks(void) {
    int count = (int)(1 + below(3)), senses = (int)below(6);
    for (int i = 0; i < count; i++) {
        try_seek((int)below(4));
        if (below(2)) make_steps(&chip, (int)below(100));
    }
    await_heads();
    for (int i = 0; i < senses; i++) sense_once();
}

/* Moves the heads of drive 0 to a cylinder, whose number may be another one. */
static void go_to(int cylinder, int is_in_step) {
    static const uint8_t recalibrate_it[] = {0x07, 0};
    int offset = model.cylinders[0] - model.heads;
    while ((is_in_step && offset != 0) || cylinder + offset < 0 || cylinder + offset > 255) {
        move(recalibrate_it, 2);
        reckon_recalibrate(&model, 0);
        await_heads();
        offset = model.cylinders[0] - model.heads;
    }
    const uint8_t seek_it[] = {0x0F, 0, (uint8_t)(cylinder + offset)};
    move(seek_it, 3);
    reckon_seek(&model, 0, cylinder + offset);
    await_heads();
}

/* ---- what is set */

static void try_reset(void) {
    if (below(2)) out(&chip, MSR, 0x80);
    else out(&chip, DOR, 0x18), out(&chip, DOR, 0x1C);
    reckon_reset(&model);
    need(run(&chip, 1000), "INT follows the reset");
}

static void try_setting(void) {
    const uint8_t byte = (uint8_t)below(256), options = (uint8_t)(below(3) ? below(128) : 0x20), is_on = (uint8_t)(below(3) == 0);
    const uint8_t specify[9] = {0x03, byte, (uint8_t)(below(256) & 0xFE)}, by_port[9] = {0x03, byte, 0x03}, configure_it[9] = {0x13, 0, options, byte};
    const uint8_t lock[9] = {(uint8_t)(is_on ? 0x94 : 0x14)}, perpendicular[9] = {0x12, byte};
    reckoned.results = 0;
    switch (below(6)) {
    case 0:
        model.step_rate = byte, model.head_load = is_on ? by_port[2] : specify[2];
        ask(is_on ? by_port : specify, 3);
        break;
    case 1:
        model.options = options, model.precompensation = byte;
        ask(configure_it, 4);
        break;
    case 2:
        model.is_locked = is_on;
        one_byte(&reckoned, is_on ? 0x10 : 0x00);
        ask(lock, 1);
        break;
    case 3:
        reckon_perpendicular(&model, byte);
        ask(perpendicular, 2);
        break;
    case 4:
        model.is_strapped = is_on;
        MUST(telwyddus_controller_strap_seeks(&chip.controller, is_on));
        break;
    default: try_reset();
    }
}

/* ---- data commands */

/* Nine bytes with a sector ID of a cylinder, mostly one that is there. */
static void draw_sectors(uint8_t *sent, uint8_t code, int cylinder) {
    uint8_t head = (uint8_t)below(2);
    sent[0] = code;
    sent[UNIT] = (uint8_t)(head << 2 | (below(4) ? 0 : below(4)));
    sent[KEY] = (uint8_t)cylinder;
    sent[KEY + 1] = below(50) ? head : head ^ 1;
    sent[RECORD] = (uint8_t)(below(50) ? 1 + below(18) : below(256));
    sent[KEY + 3] = (uint8_t)(below(50) ? 2 : 1 + below(6));
    sent[EOT] = (uint8_t)(below(5) ? 18 : below(22));
    sent[7] = 0x1B;
    sent[COUNT] = (uint8_t)(below(4) ? below(40) : 0xFF);
}

/* Deleted sectors are only on cylinders 0 and 1, where none is damaged. */
static void try_sectors(void) {
    static const uint8_t codes[] = {READ, READ, WRITE, WRITE, READ_DELETED, WRITE_DELETED, 0x56, 0x56};
    uint8_t sent[9], code = codes[below(8)];
    int is_marked = code == READ_DELETED || code == WRITE_DELETED || below(3) == 0;
    int cylinder = (int)(is_marked ? below(2) : below(40) ? below(FORMATTED) : FORMATTED + below(4));
    size_t most = below(3) ? 512 * (1 + below(below(2) ? 6 : 38)) : 1 + below(below(2) ? 1200 : MODEL_MOST);
    if (below(2)) code |= MT;
    draw_sectors(sent, code, cylinder);
    if ((code & KIND) == OF_VERIFY && below(2)) sent[UNIT] |= COUNTS;
    if (is_marked && below(2) && !is_writing(sent)) sent[0] |= SK;
    if (below(8)) go_to(cylinder, below(2) != 0);
    for (size_t i = 0; i < most; i++) moved[i] = is_writing(sent) ? (uint8_t)below(256) : 0;
    reckon_sectors(&model, sent, most, moved, &reckoned);
    send(sent, 9, most);
}

/* This is on cylinders 2 to 4, on which no sector is deleted and all sector IDs are intact. */
static void try_track(void) {
    uint8_t sent[9];
    int cylinder = (int)(2 + below(3));
    size_t most = below(2) ? 512 * (1 + below(4)) : 1 + below(3000);
    draw_sectors(sent, 0x42, cylinder);
    sent[EOT] = (uint8_t)(below(30) ? 1 + below(4) : 17 + below(4));
    if (below(2)) sent[RECORD] = (uint8_t)(1 + below(4));
    sent[KEY + 3] = 2;
    sent[UNIT] &= 4;
    go_to(cylinder, 1);
    reckon_track(&model, sent, most, &reckoned);
    send(sent, 9, most);
}

/* What this medium can't have, and READ ID. */
static void try_short(void) {
    static const uint8_t codes[] = {0x02, 0x05, 0x06, 0x09, 0x0A, 0x0C, 0x0D, 0x16}, sizes[] = {0x00, 0x07, 0x08, 0xFF};
    uint8_t sent[9], code = codes[below(8)];
    int is_unfit = below(4) != 0, is_single = code == 0x0A || below(2);
    if (below(3) == 0) go_to((int)below(FORMATTED + 2), 0);
    if (!is_unfit) code = (uint8_t)(0x4A | (below(2) ? 0xA0 : 0x00));
    else if (!is_single) code |= 0x40;
    draw_sectors(sent, code, (int)below(FORMATTED));
    if (is_unfit && !is_single) sent[(code & KIND) == OF_FORMAT ? KEY : KEY + 3] = sizes[below(4)];
    if (is_unfit) reckon_unfit(&model, sent, &reckoned);
    else reckon_id(&model, sent, &reckoned);
    send(sent, (code & KIND) == OF_READ_ID ? 2 : (code & KIND) == OF_FORMAT ? 6 : 9, 512);
}

static void try_other(void) {
    switch (below(10)) {
    case 0: case 1: case 2: try_sectors(); break;
    case 3: try_track(); break;
    case 4: case 5: try_short(); break;
    case 6: case 7: try_seeks(); break;
    default: try_setting();
    }
    if (below(2)) dump();
    if (below(4) == 0) sense_once();
}

/* At the end each sector is read. */
static void end_others(void) {
    static const uint8_t specify[9] = {0x03, 0xDF, 0x02}, off[9] = {0x13, 0, 0x20, 0};
    model.step_rate = 0xDF, model.head_load = 0x02, reckoned.results = 0;
    ask(specify, 3);
    model.options = 0x20, model.precompensation = 0, reckoned.results = 0;
    ask(off, 4);
    model.is_strapped = 0;
    MUST(telwyddus_controller_strap_seeks(&chip.controller, 0));
    for (int i = 0; i < FORMATTED * 36; i++) {
        const uint8_t c = (uint8_t)(i / 36), h = (uint8_t)(i / 18 % 2), r = (uint8_t)(i % 18 + 1), sent[9] = {READ, (uint8_t)(h << 2), c, h, r, 2, r, 0x1B, 0xFF};
        if (i % 36 == 0) go_to(c, 0);
        reckon_sectors(&model, sent, 512, moved, &reckoned);
        send(sent, 9, 512);
    }
    printf("by the model: %lu data commands by DMA, %lu at the data port, %lu seeks, %lu others\n", tried[0], tried[1], tried[2], tried[3]);
    MUST(telwyddus_controller_free(&chip.controller));
}

int main(int count, char **words) {
    unsigned long commands = count > 1 ? strtoul(words[1], NULL, 10) : 1000;
    state = count > 2 ? strtoull(words[2], NULL, 10) : 1;
    for (size_t i = 0; i < FLAT; i++) flat[i] = (uint8_t)below(256);
    import_flat(flat, image);
    make_guest(&several, image, IMAGE);
    make_guest(&single, image, IMAGE);
    begin_others();
    for (unsigned long i = 0; i < commands; i++) {
        if (i % ROUND == 0) fresh_disk();
        try_one(i);
        if (i % 50 == 49 || i == commands - 1) compare_images(i);
        if (i % 4 == 0) try_other();
        if (i == commands - 1) end_others();
    }
    printf("%lu commands of %lu sectors, %lu of which were passed over, %lu with a bad check: %lu ended with the count, %lu at the other mark, %lu with EN, %lu failed, %lu invalid\n",
        commands, sectors, passed_over, damaged, ends[2], ends[3], ends[4], ends[1], ends[0]);
    printf("%lu differences\n", differences);
    MUST(telwyddus_controller_free(&several.controller));
    MUST(telwyddus_controller_free(&single.controller));
    return differences != 0;
}
