/* drives - what is done to drives and their media while they turn: the write-protect tab, the shape, single tracks,
 * flat files, and the tracks that were written. It also tries the cable, a new plan, the reset pin, the first bytes
 * of a state, its greatest length, states without media, and moves to other slots. It makes its own disk. */
#include "common.h"

enum { WORDS = 12500, SECTOR = 512, SIDE = 18, FLAT = 1474560 };

static telwyddus_controller controller;
static uint8_t lines;

/* ---- the controller at its ports */

static void out(uint16_t port, uint8_t value) { MUST(telwyddus_controller_write(&controller, port, value, &lines)); }

static uint8_t in(uint16_t port) {
    uint8_t value;
    MUST(telwyddus_controller_read(&controller, port, &value, &lines));
    return value;
}

static void run(uint32_t most) {
    uint32_t made;
    MUST(telwyddus_controller_run(&controller, most, &made, &lines));
}

/* Does a command up to its results, with bytes by DMA if it has any; returns how many bytes passed. */
static size_t command(const uint8_t *bytes, size_t count, uint8_t *data, size_t length, uint8_t results[7]) {
    size_t moved = 0, wanted;
    for (size_t i = 0; i < count; i++) out(0x3F5, bytes[i]);
    for (uint32_t turns = 0; turns < 200000 && !(lines & TELWYDDUS_INT); turns++) {
        if (!(lines & TELWYDDUS_DRQ)) {
            run(100000);
            continue;
        }
        if (lines & TELWYDDUS_TO_MEMORY) MUST(telwyddus_controller_dack_read(&controller, &data[moved], &lines));
        else MUST(telwyddus_controller_dack_write(&controller, data[moved], &lines));
        wanted = ++moved;
        if (wanted == length) MUST(telwyddus_controller_tc(&controller, &lines));
    }
    check((lines & TELWYDDUS_INT) != 0, "the command ends");
    for (int i = 0; i < 7; i++) results[i] = in(0x3F5);
    return moved;
}

/* Takes the controller out of reset, with bay 0, its motor, 500 kbit/s, and the heads over cylinder 0; returns ST0
 * of the RECALIBRATE. */
static uint8_t begin(void) {
    out(0x3F2, 0x00);
    out(0x3F2, 0x1C);
    out(0x3F7, 0x00);
    run(100000);
    for (int i = 0; i < 4; i++) {
        out(0x3F5, 0x08);
        in(0x3F5);
        if (i == 0) in(0x3F5);
        if (!(in(0x3F4) & 0x10)) break;
        in(0x3F5);
    }
    out(0x3F5, 0x07);
    out(0x3F5, 0x00);
    run(1000000);
    out(0x3F5, 0x08);
    uint8_t status = in(0x3F5);
    in(0x3F5);
    return status;
}

static const uint8_t READ[9] = {0x46, 0, 0, 0, 1, 2, 18, 0x1B, 0xFF}, WRITE[9] = {0x45, 0, 0, 0, 1, 2, 18, 0x1B, 0xFF};

/* ---- trays */

static uint8_t *flat, *again;

static void shapes(telwyddus_tray *tray) {
    telwyddus_shape shape;
    MUST(telwyddus_tray_shape(tray, &shape));
    check(shape.words == WORDS && shape.kilobits == 500 && shape.cylinders == 80 && shape.heads == 2 && shape.is_protected == 0, "a shape of 1.44 MB");
    MUST(telwyddus_tray_protect(tray, 7));
    MUST(telwyddus_tray_shape(tray, &shape));
    check(shape.is_protected == 1, "its tab is moved");
    MUST(telwyddus_tray_protect(tray, 0));
}

/* The tray's flat file of a geometry is the file that the tray was made of. */
static int gives_back(telwyddus_tray *tray, uint8_t cylinders, uint8_t heads, uint8_t sectors, uint8_t n, uint16_t kilobits) {
    size_t length = 0, wanted = (size_t)cylinders * heads * sectors * (128u << n);
    uint8_t cylinder = 7, head = 7;
    memset(again, 0, FLAT);
    if (telwyddus_tray_write_flat_as(tray, cylinders, heads, sectors, n, kilobits, again, wanted - 1, &length, &cylinder, &head)
        != TELWYDDUS_TOO_SHORT || length != wanted) return 0;
    MUST(telwyddus_tray_write_flat_as(tray, cylinders, heads, sectors, n, kilobits, again, wanted, &length, &cylinder, &head));
    return length == wanted && memcmp(again, flat, wanted) == 0 && cylinder == 7 && head == 7;
}

/* The tray has no flat file of a geometry: the call says so, and gives a cylinder and a head. */
static int has_none(telwyddus_tray *tray, uint8_t cylinders, uint8_t heads, uint8_t sectors, uint16_t kilobits, uint32_t code, int place) {
    size_t length = 5;
    uint8_t cylinder = 7, head = 7;
    return telwyddus_tray_write_flat_as(tray, cylinders, heads, sectors, 2, kilobits, again, FLAT, &length, &cylinder, &head) == code
        && length == 5 && cylinder * 256 + head == place;
}

/* Flat files of other geometries. */
static void forms(void) {
    telwyddus_tray tray = {0};
    telwyddus_shape shape;
    MUST(telwyddus_tray_read_flat_as(&tray, flat, 40 * 2 * 9 * SECTOR, 40, 2, 9, 2, 250));
    MUST(telwyddus_tray_shape(&tray, &shape));
    check(shape.cylinders == 40 && shape.heads == 2 && shape.kilobits == 250, "360 KB");
    check(gives_back(&tray, 40, 2, 9, 2, 250), "and its flat file");
    check(has_none(&tray, 40, 2, 8, 250, TELWYDDUS_UNFIT, 0), "a ninth sector isn't left out");
    check(has_none(&tray, 40, 2, 10, 250, TELWYDDUS_UNFIT, 0), "a tenth isn't there");
    check(has_none(&tray, 40, 1, 9, 250, TELWYDDUS_UNFIT, 0xFFFF), "two heads aren't one");
    check(has_none(&tray, 80, 2, 9, 250, TELWYDDUS_UNFIT, 0xFFFF), "40 cylinders aren't 80");
    check(has_none(&tray, 40, 2, 9, 500, TELWYDDUS_UNFIT, 0xFFFF), "250 kbit/s isn't 500");
    check(has_none(&tray, 40, 2, 9, 300, TELWYDDUS_OUT_OF_RANGE, 0x707), "300 kbit/s is none");
    check(has_none(&tray, 40, 3, 9, 250, TELWYDDUS_OUT_OF_RANGE, 0x707), "nor are three heads a number");
    MUST(telwyddus_tray_free(&tray));
    check(has_none(&tray, 40, 2, 9, 250, TELWYDDUS_EMPTY, 0x707), "no tray, no file");
    MUST(telwyddus_tray_read_flat_as(&tray, flat, 40 * 8 * SECTOR, 40, 1, 8, 2, 250));
    MUST(telwyddus_tray_shape(&tray, &shape));
    check(shape.cylinders == 40 && shape.heads == 1, "160 KB");
    check(gives_back(&tray, 40, 1, 8, 2, 250), "and its flat file");
    MUST(telwyddus_tray_free(&tray));
    MUST(telwyddus_tray_read_flat_as(&tray, flat, 2 * 2 * 20 * SECTOR, 2, 2, 20, 2, 500));
    check(gives_back(&tray, 2, 2, 20, 2, 500), "20 sectors a track");
    MUST(telwyddus_tray_free(&tray));
    MUST(telwyddus_tray_read_flat_as(&tray, flat, 77 * 2 * 8 * 1024, 77, 2, 8, 3, 500));
    check(gives_back(&tray, 77, 2, 8, 3, 500), "sectors of 1,024 bytes");
    check(has_none(&tray, 77, 2, 8, 500, TELWYDDUS_UNFIT, 0), "which aren't of 512");
    MUST(telwyddus_tray_free(&tray));
    MUST(telwyddus_tray_read_flat_as(&tray, flat, 2 * 2 * 21 * SECTOR, 2, 2, 21, 2, 500));
    check(gives_back(&tray, 2, 2, 21, 2, 500), "21 sectors a track");
    MUST(telwyddus_tray_free(&tray));
    check(telwyddus_tray_read_flat_as(&tray, flat, 2 * 2 * 22 * SECTOR, 2, 2, 22, 2, 500) == TELWYDDUS_UNFIT, "no room for 22");
    check(telwyddus_tray_read_flat_as(&tray, flat, SECTOR, 81, 2, 18, 2, 500) == TELWYDDUS_OUT_OF_RANGE, "no 81 cylinders");
    check(telwyddus_tray_read_flat_as(&tray, flat, SECTOR, 80, 2, 18, 2, 300) == TELWYDDUS_OUT_OF_RANGE, "no 300 kbit/s");
    check(telwyddus_tray_read_flat_as(&tray, flat, SECTOR, 80, 2, 18, 2, 500) == TELWYDDUS_BAD_IMAGE, "another length");
}

static void tracks(telwyddus_tray *tray) {
    static uint16_t one[WORDS], two[WORDS];
    size_t length = 0;
    check(telwyddus_tray_track(tray, 0, 0, NULL, 0, &length) == TELWYDDUS_TOO_SHORT && length == WORDS, "a track's length is told");
    check(telwyddus_tray_track(tray, 80, 0, one, WORDS, &length) == TELWYDDUS_OUT_OF_RANGE, "no cylinder 80");
    check(telwyddus_tray_track(tray, 0, 2, one, WORDS, &length) == TELWYDDUS_OUT_OF_RANGE, "no head 2");
    MUST(telwyddus_tray_track(tray, 3, 1, one, WORDS, &length));
    MUST(telwyddus_tray_track(tray, 4, 0, two, WORDS, &length));
    check(memcmp(one, two, sizeof one) != 0, "two tracks");
    check(telwyddus_tray_set_track(tray, 4, 0, one, WORDS - 1) == TELWYDDUS_OUT_OF_RANGE, "a word too few");
    MUST(telwyddus_tray_set_track(tray, 4, 0, one, WORDS));
    uint16_t three[WORDS];
    MUST(telwyddus_tray_track(tray, 4, 0, three, WORDS, &length));
    check(memcmp(one, three, sizeof one) == 0, "a track is the other's");
    MUST(telwyddus_tray_set_track(tray, 4, 0, two, WORDS));
}

/* ---- a medium in its bay */

static void in_its_bay(void) {
    static uint16_t words[WORDS];
    telwyddus_shape shape;
    uint8_t cylinder, head, results[7], sector[SECTOR];
    size_t length;
    MUST(telwyddus_controller_shape(&controller, 0, &shape));
    check(shape.words == WORDS && shape.is_protected == 0, "the shape in the bay");
    check(telwyddus_controller_shape(&controller, 1, &shape) == TELWYDDUS_NO_MEDIUM, "none in the other");
    MUST(telwyddus_controller_track(&controller, 0, 79, 1, words, WORDS, &length));
    MUST(telwyddus_controller_flat(&controller, 0, again, FLAT, &length, &cylinder, &head));
    check(length == FLAT && memcmp(flat, again, FLAT) == 0, "the flat file out of the bay");

    telwyddus_tracks map;
    MUST(telwyddus_controller_written_tracks(&controller, 0, &map));
    for (int i = 0; i < 20; i++) check(map.bytes[i] == 0, "no track is written yet");
    memset(sector, 0x5A, SECTOR);
    check(command(WRITE, 9, sector, SECTOR, results) == SECTOR && (results[0] & 0xC0) == 0, "a sector is written");
    memcpy(flat, sector, SECTOR);
    MUST(telwyddus_controller_written_tracks(&controller, 0, &map));
    check(map.bytes[0] == 1, "track 0 is written");
    for (int i = 1; i < 20; i++) check(map.bytes[i] == 0, "and no other");
    MUST(telwyddus_controller_written_tracks(&controller, 0, &map));
    check(map.bytes[0] == 0, "that is forgotten");
    MUST(telwyddus_controller_flat(&controller, 0, again, FLAT, &length, &cylinder, &head));
    check(memcmp(flat, again, FLAT) == 0, "the flat file has it");

    uint8_t change = in(0x3F7) & 0x80;
    MUST(telwyddus_controller_protect(&controller, 0, 1));
    check((in(0x3F7) & 0x80) == change, "the change line stays");
    command(WRITE, 9, sector, SECTOR, results);
    check((results[0] & 0xC0) == 0x40 && results[1] == 0x02, "not writable");
    MUST(telwyddus_controller_protect(&controller, 0, 0));
    check(command(WRITE, 9, sector, SECTOR, results) == SECTOR && (results[0] & 0xC0) == 0, "writable again");
    check(telwyddus_controller_protect(&controller, 1, 1) == TELWYDDUS_NO_MEDIUM, "no tab without a medium");
}

static void planned_anew(void) {
    static const char once[] = "drop 0 0 0 300 1\n", often[] = "drop 0 0 0 300 99\ndrop 1 0 0 300 99\n";
    uint8_t results[7], sector[SECTOR];
    size_t line = 99;
    check(telwyddus_controller_plan(&controller, 0, (const uint8_t *)"no plan", 7, &line) == TELWYDDUS_BAD_PLAN && line == 1, "no plan");
    MUST(telwyddus_controller_plan(&controller, 0, (const uint8_t *)once, sizeof once - 1, &line));
    command(READ, 9, sector, SECTOR, results);
    check((results[0] & 0xC0) == 0x40 && results[1] == 0x20 && results[2] == 0x20, "a word is lost");
    check(command(READ, 9, sector, SECTOR, results) == SECTOR && (results[0] & 0xC0) == 0, "once");
    MUST(telwyddus_controller_plan(&controller, 1, (const uint8_t *)often, sizeof often - 1, &line));
    check(command(READ, 9, sector, SECTOR, results) == SECTOR && (results[0] & 0xC0) == 0, "what is planned for bay 1 isn't bay 0's");
    MUST(telwyddus_controller_plan(&controller, 0, (const uint8_t *)often, sizeof often - 1, &line));
    command(READ, 9, sector, SECTOR, results);
    check((results[0] & 0xC0) == 0x40, "a word is lost again");
    MUST(telwyddus_controller_plan(&controller, 0, NULL, 0, &line));
    check(command(READ, 9, sector, SECTOR, results) == SECTOR && (results[0] & 0xC0) == 0, "no fault is left");
}

/* ---- the cable */

static void cables(telwyddus_tray *tray) {
    check(telwyddus_controller_attach(&controller, 0, 0) == TELWYDDUS_HAS_MEDIUM, "a medium is in");
    check(telwyddus_controller_attach(&controller, 2, 0) == TELWYDDUS_OUT_OF_RANGE, "no bay 2");
    MUST(telwyddus_controller_eject(&controller, 0, tray, &lines));
    MUST(telwyddus_controller_attach(&controller, 0, 0));
    check(telwyddus_controller_insert(&controller, 0, tray, &lines) == TELWYDDUS_OUT_OF_RANGE, "it takes no medium");
    check((in(0x3F7) & 0x80) == 0, "no change line");
    check((begin() & 0x10) != 0, "no track 0");
    MUST(telwyddus_controller_attach(&controller, 0, 1));
    MUST(telwyddus_controller_insert(&controller, 0, tray, &lines));
    check((begin() & 0xF0) == 0x20, "track 0 again");
}

/* ---- the reset pin, and states */

static void dumps(uint8_t dump[10]) {
    out(0x3F5, 0x0E); /* DUMPREG */
    for (int i = 0; i < 10; i++) dump[i] = in(0x3F5);
}

static void pin(void) {
    uint32_t nanoseconds;
    uint8_t dump[10];
    check((begin() & 0xF0) == 0x20, "a reset by DOR");
    dumps(dump);
    check(dump[6] == SIDE, "DUMPREG keeps EOT of the last read");
    out(0x3F5, 0x94); /* LOCK */
    in(0x3F5);
    out(0x3F3, 0x02);
    check(in(0x3F3) == 0xFE, "TDR keeps its two bits");
    MUST(telwyddus_controller_reset(&controller, &lines));
    check(in(0x3F3) == 0xFC, "and the pin clears them");
    check((lines & (TELWYDDUS_INT | TELWYDDUS_DRQ)) == 0, "the lines are down");
    MUST(telwyddus_controller_word_time(&controller, &nanoseconds));
    check(nanoseconds == 32000, "250 kbit/s, as at power-up");
    check((begin() & 0xF0) == 0x20, "and it works");
    dumps(dump);
    check((dump[7] & 0x80) == 0, "LOCK is gone");
    check(dump[6] == 0, "and so is EOT");
}

static void states(void) {
    static const uint8_t name[8] = {'T', 'E', 'L', 'W', 'Y', 'D', 'D', 4};
    telwyddus_controller other = {0};
    size_t length = 0;
    uint32_t nanoseconds;
    check(telwyddus_controller_save(&controller, NULL, 0, &length) == TELWYDDUS_TOO_SHORT, "a state's length");
    uint8_t *bytes = (uint8_t *)malloc(length);
    MUST(telwyddus_controller_save(&controller, bytes, length, &length));
    check(memcmp(bytes, name, 8) == 0, "it begins with its name");
    bytes[7]++;
    check(telwyddus_controller_restore(&other, bytes, length, &lines) == TELWYDDUS_BAD_STATE, "another form is none");
    bytes[7]--;
    MUST(telwyddus_controller_new(&other));
    MUST(telwyddus_controller_word_time(&other, &nanoseconds));
    check(nanoseconds == 32000, "a new one is at 250 kbit/s");
    MUST(telwyddus_controller_restore(&other, bytes, length, &lines));
    MUST(telwyddus_controller_word_time(&other, &nanoseconds));
    check(nanoseconds == 16000, "a restore may change the word time");
    MUST(telwyddus_controller_free(&other));
    free(bytes);
}

/* With two media of the most cylinders, heads and words, and with planned faults, the longest state is within the
 * bound of the header, and near it. */
static void longest(void) {
    enum { WHOLE = 14 + 80 * 2 * 16384 * 2 };
    static const uint8_t head[14] = {'R', 'T', 'I', 'M', 'A', 'G', 'E', '2', 0, 80, 2, 0, 0x40, 0};
    static const char plan[] = "drop 0 0 0 300 9\ndrop 1 79 1 12000 1\ncut 1 40 0 7 2\n";
    telwyddus_controller large = {0};
    telwyddus_tray tray = {0};
    uint8_t *image = (uint8_t *)calloc(WHOLE, 1);
    size_t length = 0, line;
    memcpy(image, head, sizeof head);
    MUST(telwyddus_controller_new_planned(&large, (const uint8_t *)plan, sizeof plan - 1, &line));
    for (uint32_t bay = 0; bay < 2; bay++) {
        MUST(telwyddus_tray_read(&tray, image, WHOLE));
        MUST(telwyddus_controller_insert(&large, bay, &tray, &lines));
        MUST(telwyddus_tray_free(&tray));
    }
    check(telwyddus_controller_save(&large, NULL, 0, &length) == TELWYDDUS_TOO_SHORT, "the longest state's length");
    check(length <= TELWYDDUS_CONTROLLER_STATE_MOST(3) && length + 1024 > TELWYDDUS_CONTROLLER_STATE_MOST(3), "is within the most, and near it");
    check(TELWYDDUS_CONTROLLER_STATE_MOST(3) == 2 * (size_t)WHOLE + 1024 + 3 * 10, "two image files, 1,024 bytes, and 10 a fault");
    MUST(telwyddus_controller_free(&large));
    free(image);
}

/* ---- states without media */

static uint8_t *state_of(telwyddus_controller *of, size_t *length) {
    check(telwyddus_controller_save_bare(of, NULL, 0, length) == TELWYDDUS_TOO_SHORT, "a bare state's length");
    uint8_t *bytes = (uint8_t *)malloc(*length);
    MUST(telwyddus_controller_save_bare(of, bytes, *length, length));
    return bytes;
}

/* Passes the bytes of a sector that is under way, from one place to another; with the last one the results come. */
static void take(uint8_t *data, size_t from, size_t to, uint8_t results[7]) {
    for (size_t at = from; at < to;) {
        if (!(lines & TELWYDDUS_DRQ)) {
            run(100000);
            continue;
        }
        MUST(telwyddus_controller_dack_read(&controller, &data[at++], &lines));
        if (at == SECTOR) MUST(telwyddus_controller_tc(&controller, &lines));
    }
    if (to < SECTOR) return;
    while (!(lines & TELWYDDUS_INT)) run(100000);
    for (int i = 0; i < 7; i++) results[i] = in(0x3F5);
}

static void goes_on_bare(void) {
    static const uint8_t name[8] = {'T', 'E', 'L', 'W', 'Y', 'D', 'B', 4};
    uint8_t one[SECTOR], two[SECTOR], first[7], second[7];
    size_t length;
    for (int i = 0; i < 9; i++) out(0x3F5, READ[i]);
    take(one, 0, 200, first);
    memcpy(two, one, 200);
    uint8_t *bytes = state_of(&controller, &length);
    check(memcmp(bytes, name, 8) == 0 && length < 30000, "it has a name of its own, and no cells");
    take(one, 200, SECTOR, first);
    check(memcmp(one, flat, SECTOR) == 0 && (first[0] & 0xC0) == 0, "the read ends");
    MUST(telwyddus_controller_restore_bare(&controller, bytes, length, &lines));
    take(two, 200, SECTOR, second);
    check(memcmp(one, two, SECTOR) == 0 && memcmp(first, second, 7) == 0, "and ends once more, from its middle");
    free(bytes);
}

/* What was written before a bare state is restored is still reported after that. */
static void joins_writes(void) {
    uint8_t results[7], sector[SECTOR], written;
    telwyddus_tracks map;
    size_t length;
    MUST(telwyddus_controller_written(&controller, 0, &written));
    MUST(telwyddus_controller_written_tracks(&controller, 0, &map));
    uint8_t *bytes = state_of(&controller, &length);
    memcpy(sector, flat, SECTOR);
    check(command(WRITE, 9, sector, SECTOR, results) == SECTOR && (results[0] & 0xC0) == 0, "a sector is written again");
    MUST(telwyddus_controller_restore_bare(&controller, bytes, length, &lines));
    MUST(telwyddus_controller_is_written(&controller, 0, &written));
    check(written == 1, "that is told after a bare state that doesn't tell it");
    MUST(telwyddus_controller_written_tracks(&controller, 0, &map));
    check(map.bytes[0] == 1, "and so is its track");
    free(bytes);
}

/* A controller refuses these bytes, and stays as it was. */
static void refuses(telwyddus_controller *other, const uint8_t *bytes, size_t length, uint32_t code, const char *what) {
    size_t before, behind;
    uint8_t *was = state_of(other, &before);
    check(telwyddus_controller_restore_bare(other, bytes, length, &lines) == code, what);
    uint8_t *is = state_of(other, &behind);
    check(before == behind && memcmp(was, is, before) == 0, "and all stays");
    free(was);
    free(is);
}

static void bare(void) {
    telwyddus_controller other = {0};
    telwyddus_tray tray = {0};
    size_t length, whole = 0;
    goes_on_bare();
    joins_writes();
    uint8_t *bytes = state_of(&controller, &length);
    check(telwyddus_controller_restore_bare(&other, bytes, length, &lines) == TELWYDDUS_EMPTY, "there is none to restore it onto");
    MUST(telwyddus_controller_new(&other));
    refuses(&other, bytes, length, TELWYDDUS_UNFIT, "no medium is in");
    MUST(telwyddus_tray_read_flat(&tray, flat, FLAT / 2));
    MUST(telwyddus_controller_insert(&other, 0, &tray, &lines));
    refuses(&other, bytes, length, TELWYDDUS_UNFIT, "one of 720 KB is in");
    refuses(&other, bytes, length - 1, TELWYDDUS_BAD_STATE, "a byte too few");
    check(telwyddus_controller_restore(&other, bytes, length, &lines) == TELWYDDUS_BAD_STATE, "a bare state is no whole one");
    free(bytes);
    check(telwyddus_controller_save(&controller, NULL, 0, &whole) == TELWYDDUS_TOO_SHORT, "a whole state's length");
    bytes = (uint8_t *)malloc(whole);
    MUST(telwyddus_controller_save(&controller, bytes, whole, &whole));
    refuses(&other, bytes, whole, TELWYDDUS_BAD_STATE, "a whole state is no bare one");
    free(bytes);
    MUST(telwyddus_tray_free(&tray));
    MUST(telwyddus_controller_free(&other));
}

/* ---- moves to other slots */

/* The whole state of a controller. */
static uint8_t *whole_of(telwyddus_controller *of, size_t *length) {
    check(telwyddus_controller_save(of, NULL, 0, length) == TELWYDDUS_TOO_SHORT, "a whole state's length");
    uint8_t *bytes = (uint8_t *)malloc(*length);
    MUST(telwyddus_controller_save(of, bytes, *length, length));
    return bytes;
}

/* A controller moves when half of a command is sent: by a call, and back by its bytes. The state has its order,
 * drives, media, written tracks and faults. */
static void moves(void) {
    telwyddus_controller other = {0}, third = {0};
    uint8_t sector[SECTOR], results[7], is_lines = 0x55;
    size_t before, behind;
    check(telwyddus_controller_move(&other, &third) == TELWYDDUS_EMPTY, "there is nothing to move");
    for (int i = 0; i < 5; i++) out(0x3F5, READ[i]);
    uint8_t *was = whole_of(&controller, &before);
    MUST(telwyddus_controller_new(&third));
    check(telwyddus_controller_move(&controller, &third) == TELWYDDUS_FULL, "a full slot takes none");
    MUST(telwyddus_controller_free(&third));
    check(telwyddus_controller_move(&controller, &third) == TELWYDDUS_FULL, "and says so before it looks at the other");
    MUST(telwyddus_controller_move(&other, &controller));
    check(telwyddus_controller_lines(&controller, &is_lines) == TELWYDDUS_EMPTY && is_lines == 0x55, "its old slot is empty");
    uint8_t *is = whole_of(&other, &behind);
    check(before == behind && memcmp(was, is, before) == 0, "and it is as it was");
    memcpy(&controller, &other, sizeof other);
    memset(&other, 0, sizeof other);
    check(telwyddus_controller_free(&other) == TELWYDDUS_EMPTY, "it is moved back by its bytes");
    for (int i = 5; i < 9; i++) out(0x3F5, READ[i]);
    take(sector, 0, SECTOR, results);
    check(memcmp(sector, flat, SECTOR) == 0 && (results[0] & 0xC0) == 0, "and its command goes on");
    free(was);
    free(is);
}

int main(void) {
    telwyddus_tray tray = {0};
    flat = (uint8_t *)malloc(FLAT);
    again = (uint8_t *)malloc(FLAT);
    for (size_t i = 0; i < FLAT; i++) flat[i] = (uint8_t)(i * 7 + i / SECTOR);
    MUST(telwyddus_tray_read_flat(&tray, flat, FLAT));
    shapes(&tray);
    forms();
    tracks(&tray);
    MUST(telwyddus_controller_new(&controller));
    MUST(telwyddus_controller_insert(&controller, 0, &tray, &lines));
    MUST(telwyddus_tray_free(&tray));
    check((begin() & 0xF0) == 0x20, "the heads find track 0");
    in_its_bay();
    planned_anew();
    cables(&tray);
    pin();
    states();
    longest();
    bare();
    moves();
    MUST(telwyddus_tray_free(&tray));
    MUST(telwyddus_controller_free(&controller));
    free(flat);
    free(again);
    return 0;
}
