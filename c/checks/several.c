/* several - commands of several sectors at the bare controller, as a BIOS and DOS send them.
 *
 * A guest writes whole cylinders of 36 sectors, in one command each, and reads them back; `export` on a shelf then
 * gives the wanted flat file. Then there is one command for each rule of MT, SK, EOT and the terminal count. It
 * checks how many bytes pass, and the result bytes by the table in docs/C.md. Most commands make an implied seek, so
 * their ST0 has SE (20). The program does the same for VERIFY and READ TRACK, and with the bytes at the data port.
 * It checks what is reported about seeks with the strap for step times and without, and that nothing happens while
 * the controller is held in reset. At last it formats a track with 21 sectors, and the disk then has no flat file. */
#include "guest.h"
#include "flat.h"

#define CYLINDERS 80
#define TRACK (18 * 512)
#define ENDLESS (sizeof buffer)

/* DRV0 BUSY of MSR. */
enum { SEEKING = 0x01 };

static Guest guest;
static uint8_t flat[FLAT], back[FLAT], image[IMAGE], buffer[3 * TRACK];

/* A sector's place in a flat file. */
static uint8_t *sector(uint8_t *bytes, int c, int h, int r) { return bytes + ((c * 2 + h) * 18 + r - 1) * 512; }

/* ---- whole cylinders */

static void whole_cylinders(void) {
    unsigned long steps = guest.steps;
    for (size_t i = 0; i < FLAT; i++) flat[i] = (uint8_t)(i * 31 + i / 512 * 7 + i / TRACK);
    for (int c = 0; c < CYLINDERS; c++) {
        const uint8_t bytes[] = {WRITE | MT, 0, (uint8_t)c, 0, 1, 2, 18, 0x1B, 0xFF};
        transfer(&guest, bytes, sector(flat, c, 0, 1), 2 * TRACK);
        need(guest.results == 7 && guest.result[0] == 0x24 && guest.passed == 2 * TRACK, "a cylinder is written");
    }
    for (int c = 0; c < CYLINDERS; c++) {
        const uint8_t bytes[] = {READ | MT, 0, (uint8_t)c, 0, 1, 2, 18, 0x1B, 0xFF};
        transfer(&guest, bytes, sector(back, c, 0, 1), 2 * TRACK);
        need(guest.results == 7 && guest.result[0] == 0x24 && guest.passed == 2 * TRACK, "a cylinder is read");
    }
    check(memcmp(flat, back, FLAT) == 0, "what is read is what was written");
    memset(back, 0, FLAT);
    image_of(&guest, image, IMAGE);
    export_flat(image, back);
    check(memcmp(flat, back, FLAT) == 0, "and what export gives");
    printf("%lu device steps for a cylinder of 36 sectors, with its seek\n", (guest.steps - steps) / (2 * CYLINDERS));
}

/* ---- one command for each rule */

typedef struct {
    const char *what;
    uint8_t bytes[9];
    size_t count, passed;       /* bytes of the channel; bytes that have to pass */
    uint8_t wanted[7];
} Case;

static void try_one(const Case *one) {
    transfer(&guest, one->bytes, buffer, one->count);
    int is_so = guest.passed == one->passed && guest.results == 7 && memcmp(guest.result, one->wanted, 7) == 0;
    if (!is_so) {
        printf("%u bytes, results", (unsigned)guest.passed);
        for (int i = 0; i < guest.results; i++) printf(" %02X", guest.result[i]);
        printf("\n");
    }
    check(is_so, one->what);
}

static void try_all(const Case *cases, size_t count) {
    for (size_t i = 0; i < count; i++) try_one(&cases[i]);
}

#define TRY(cases) try_all(cases, sizeof cases / sizeof cases[0])
#define GAP 0x1B, 0xFF

static const Case ends[] = {
    {"MT goes on from head 0 to head 1", {READ | MT, 0, 5, 0, 17, 2, 18, GAP}, 4 * 512, 4 * 512, {0x24, 0, 0, 5, 1, 3, 2}},
    {"after EOT of head 1: the next cylinder", {READ | MT, 0, 5, 0, 1, 2, 18, GAP}, 2 * TRACK, 2 * TRACK, {0x24, 0, 0, 6, 0, 1, 2}},
    {"after EOT of head 0: the other head", {READ | MT, 0, 5, 0, 18, 2, 18, GAP}, 512, 512, {0x20, 0, 0, 5, 1, 1, 2}},
    {"after EOT of head 1 alone", {READ | MT, 4, 5, 1, 18, 2, 18, GAP}, 512, 512, {0x24, 0, 0, 6, 0, 1, 2}},
    {"without MT after EOT: the next cylinder, the same head", {READ, 4, 5, 1, 18, 2, 18, GAP}, 512, 512, {0x24, 0, 0, 6, 1, 1, 2}},
    {"without MT below EOT: the next record", {READ, 4, 5, 1, 3, 2, 18, GAP}, 5 * 512, 5 * 512, {0x24, 0, 0, 5, 1, 8, 2}},
    {"no terminal count: EN after EOT of head 1", {READ | MT, 0, 5, 0, 1, 2, 18, GAP}, ENDLESS, 2 * TRACK, {0x64, 0x80, 0, 5, 1, 18, 2}},
    {"no terminal count, no MT: EN after EOT", {READ, 0, 5, 0, 10, 2, 18, GAP}, ENDLESS, 9 * 512, {0x60, 0x80, 0, 5, 0, 18, 2}},
    {"the terminal count within a sector", {READ | MT, 0, 7, 0, 3, 2, 18, GAP}, 700, 700, {0x20, 0, 0, 7, 0, 5, 2}},
    {"the terminal count with a sector's last byte", {READ | MT, 0, 7, 0, 3, 2, 18, GAP}, 512, 512, {0x20, 0, 0, 7, 0, 4, 2}},
    {"R beyond the track: ND", {READ, 0, 7, 0, 19, 2, 19, GAP}, 512, 0, {0x60, 0x04, 0, 7, 0, 19, 2}},
    {"EOT below R: R counts on, up to ND", {READ, 0, 7, 0, 5, 2, 3, GAP}, ENDLESS, 14 * 512, {0x60, 0x04, 0, 7, 0, 19, 2}},
    {"EOT below R, with a count", {READ, 0, 7, 0, 5, 2, 3, GAP}, 1024, 1024, {0x20, 0, 0, 7, 0, 7, 2}},
    {"EOT beyond the track: R counts on, up to ND", {READ, 0, 7, 0, 17, 2, 20, GAP}, ENDLESS, 1024, {0x60, 0x04, 0, 7, 0, 19, 2}},
    {"the head isn't that of the key: ND", {READ, 4, 7, 0, 1, 2, 18, GAP}, 512, 0, {0x64, 0x04, 0, 7, 0, 1, 2}},
    {"another size: ND", {READ, 0, 7, 0, 1, 3, 18, GAP}, 1024, 0, {0x60, 0x04, 0, 7, 0, 1, 3}},
};

static const Case marks[] = {
    {"SK 0: a deleted sector is read, and ends the command", {READ, 0, 9, 0, 3, 2, 18, GAP}, 6 * 512, 3 * 512, {0x20, 0, 0x40, 9, 0, 6, 2}},
    {"SK 1: it is passed over", {READ | SK, 0, 9, 0, 3, 2, 18, GAP}, 5 * 512, 5 * 512, {0x20, 0, 0x40, 9, 0, 9, 2}},
    {"SK 1 up to EOT, no terminal count", {READ | SK, 0, 9, 0, 3, 2, 8, GAP}, ENDLESS, 5 * 512, {0x60, 0x80, 0x40, 9, 0, 8, 2}},
    {"SK 1, and it is the last", {READ | SK, 0, 9, 0, 5, 2, 5, GAP}, 512, 0, {0x60, 0x80, 0x40, 9, 0, 5, 2}},
    {"READ DELETED of it", {READ_DELETED, 0, 9, 0, 5, 2, 18, GAP}, 512, 512, {0x20, 0, 0, 9, 0, 6, 2}},
    {"READ DELETED, SK 0: a sector that isn't deleted ends it", {READ_DELETED, 0, 9, 0, 3, 2, 18, GAP}, 1024, 512, {0x20, 0, 0x40, 9, 0, 4, 2}},
    {"READ DELETED, SK 1: such are passed over", {READ_DELETED | SK, 0, 9, 0, 3, 2, 18, GAP}, 512, 512, {0x20, 0, 0x40, 9, 0, 6, 2}},
    {"READ DELETED with MT", {READ_DELETED | MT, 0, 10, 0, 17, 2, 18, GAP}, 4 * 512, 4 * 512, {0x24, 0, 0, 10, 1, 3, 2}},
};

/* The place at which the deleted sector's data are damaged. */
static const Case bad_checks[] = {
    {"SK 1, its check is bad: it is passed over all the same", {READ | SK, 0, 9, 0, 3, 2, 18, GAP}, 5 * 512, 5 * 512, {0x20, 0, 0x40, 9, 0, 9, 2}},
    {"and where it is the last", {READ | SK, 0, 9, 0, 5, 2, 5, GAP}, 512, 0, {0x60, 0x80, 0x40, 9, 0, 5, 2}},
    {"SK 0, its check is bad: DE, DD and CM", {READ, 0, 9, 0, 3, 2, 18, GAP}, 6 * 512, 3 * 512, {0x60, 0x20, 0x60, 9, 0, 5, 2}},
    {"READ DELETED of it, SK 1: DE and DD, without CM", {READ_DELETED | SK, 0, 9, 0, 5, 2, 18, GAP}, 512, 512, {0x60, 0x20, 0x20, 9, 0, 5, 2}},
};

static int is_all(const uint8_t *bytes, size_t count, uint8_t value) {
    for (size_t i = 0; i < count; i++)
        if (bytes[i] != value) return 0;
    return 1;
}

static int is_sector(const uint8_t *bytes, int c, int h, int r) { return memcmp(bytes, sector(flat, c, h, r), 512) == 0; }

/* What a read gave is what `flat` has at that place. */
static void reads(void) {
    TRY(ends);
    try_one(&ends[0]);
    check(is_sector(buffer, 5, 0, 17) && is_sector(buffer + 512, 5, 0, 18) && is_sector(buffer + 1024, 5, 1, 1) && is_sector(buffer + 1536, 5, 1, 2), "its bytes are those of the sectors");
}

static void writes(void) {
    static const Case write = {"WRITE, the terminal count within the third of its sectors", {WRITE | MT, 0, 9, 0, 17, 2, 18, GAP}, 1300, 1300, {0x24, 0, 0, 9, 1, 2, 2}};
    static const Case read = {"they are read, and the one after them", {READ | MT, 0, 9, 0, 17, 2, 18, GAP}, 4 * 512, 4 * 512, {0x24, 0, 0, 9, 1, 3, 2}};
    static const Case beyond = {"WRITE beyond the track: ND", {WRITE, 0, 9, 0, 19, 2, 19, GAP}, 512, 1, {0x60, 0x04, 0, 9, 0, 19, 2}};
    memset(buffer, 0xA5, 1300);
    try_one(&write);
    memset(buffer, 0, sizeof buffer);
    try_one(&read);
    check(is_all(buffer, 1300, 0xA5) && is_all(buffer + 1300, 236, 0), "what wasn't given is 00 up to the sector's end");
    check(is_sector(buffer + 1536, 9, 1, 2), "the next sector is as it was");
    try_one(&beyond);
}

/* Puts in another disk, which is the same except for a cell of the data of sector 5 on cylinder 9, head 0. */
static void damage(void) {
    telwyddus_tray tray = {0};
    image_of(&guest, image, IMAGE);
    image[14 + 9 * 2 * 25000 + (146 + 682 * 4 + 44 + 16 + 300) * 2 + 1] ^= 0x01;
    MUST(telwyddus_controller_eject(&guest.controller, 0, &tray, &guest.lines));
    MUST(telwyddus_tray_free(&tray));
    insert(&guest, image, IMAGE);
}

static void deleted(void) {
    static const Case one = {"WRITE DELETED", {WRITE_DELETED, 0, 9, 0, 5, 2, 18, GAP}, 512, 512, {0x20, 0, 0, 9, 0, 6, 2}};
    static const Case four = {"WRITE DELETED with MT", {WRITE_DELETED | MT, 0, 10, 0, 17, 2, 18, GAP}, 4 * 512, 4 * 512, {0x24, 0, 0, 10, 1, 3, 2}};
    memset(buffer, 0x5D, 4 * 512);
    try_one(&one);
    try_one(&four);
    TRY(marks);
    try_one(&marks[1]);
    check(is_sector(buffer, 9, 0, 3) && is_sector(buffer + 512, 9, 0, 4) && is_sector(buffer + 1024, 9, 0, 6) && is_sector(buffer + 2048, 9, 0, 8), "without the bytes of the one that is passed over");
    damage();
    TRY(bad_checks);
    memset(buffer, 0x5D, 512);
    try_one(&one);
    try_one(&marks[4]);
}

/* ---- commands that this medium can't have, commands sent while heads move, and commands that move no byte by the
 * channel */

static void refused(const char *what, const uint8_t *bytes, int count) {
    channel(&guest, buffer, 512);
    command(&guest, bytes, count);
    check(guest.results == 1 && guest.result[0] == 0x80 && guest.passed == 0, what);
}

static const Case unfit[] = {
    {"size code 0: ND", {READ | MT, 0, 5, 0, 1, 0, 18, GAP}, 512, 0, {0x40, 0x04, 0, 5, 0, 1, 0}},
    {"size code 7: ND", {READ | MT, 0, 5, 0, 1, 7, 18, GAP}, 512, 0, {0x40, 0x04, 0, 5, 0, 1, 7}},
    {"a write of size code 8: ND", {WRITE, 4, 5, 1, 1, 8, 18, GAP}, 512, 0, {0x44, 0x04, 0, 5, 1, 1, 8}},
    {"MFM clear: MA", {0x06 | MT, 0, 5, 0, 1, 2, 18, GAP}, 512, 0, {0x40, 0x01, 0, 5, 0, 1, 2}},
    {"a write with MFM clear: MA", {0x05, 0, 5, 0, 1, 2, 18, GAP}, 512, 0, {0x40, 0x01, 0, 5, 0, 1, 2}},
};

static void refusals(void) {
    static const Case whole = {"while heads seek: it is held, and done", {READ | MT, 0, 20, 0, 17, 2, 18, GAP}, 3 * 512, 3 * 512, {0x04, 0, 0, 20, 1, 2, 2}};
    static const Case again = {"before SENSE INTERRUPT has told that they are there: it is done", {READ, 4, 21, 1, 5, 2, 18, GAP}, 512, 512, {0x04, 0, 0, 21, 1, 6, 2}};
    static const uint8_t skipping[] = {WRITE | MT | SK}, away[] = {0x0F, 0, 20}, further[] = {0x0F, 0, 21};
    configure(&guest, FIFO_OFF);
    TRY(unfit);
    refused("SK on a write: 80", skipping, 1);
    put(&guest, away, 3);
    try_one(&whole);
    check(is_sector(buffer, 20, 0, 17) && is_sector(buffer + 1024, 20, 1, 1), "its bytes are those of the sectors");
    put(&guest, further, 3);
    need(run(&guest, 1000000), "the seek ends");
    try_one(&again);
    sense_interrupt(&guest);
    check(guest.results == 1 && guest.result[0] == 0x80, "and then there is nothing to tell of the seek");
    configure(&guest, FIFO_OFF | EIS);
}

enum { VERIFY = 0x56, READ_TRACK = 0x42, COUNTED = 0x80 };

/* No byte of a VERIFY passes; a READ TRACK begins at the index. */
static const Case verified[] = {
    {"VERIFY up to EOT", {VERIFY, 4, 12, 1, 15, 2, 18, GAP}, 0, 0, {0x24, 0, 0, 13, 1, 1, 2}},
    {"VERIFY with MT", {VERIFY | MT, 0, 12, 0, 1, 2, 18, GAP}, 0, 0, {0x24, 0, 0, 13, 0, 1, 2}},
    {"VERIFY with EC", {VERIFY, COUNTED, 12, 0, 3, 2, 18, 0x1B, 5}, 0, 0, {0x20, 0, 0, 12, 0, 8, 2}},
    {"VERIFY with MT and EC", {VERIFY | MT, COUNTED, 12, 0, 16, 2, 18, 0x1B, 5}, 0, 0, {0x24, 0, 0, 12, 1, 3, 2}},
    {"VERIFY with EC beyond EOT: EN", {VERIFY, COUNTED, 12, 0, 16, 2, 18, 0x1B, 4}, 0, 0, {0x60, 0x80, 0, 12, 0, 18, 2}},
    {"VERIFY beyond the track: ND", {VERIFY, 0, 12, 0, 17, 2, 20, GAP}, 0, 0, {0x60, 0x04, 0, 12, 0, 19, 2}},
    {"VERIFY, a deleted sector ends it", {VERIFY, 0, 9, 0, 3, 2, 18, GAP}, 0, 0, {0x20, 0, 0x40, 9, 0, 6, 2}},
    {"VERIFY with SK and EC passes it over", {VERIFY | SK, COUNTED, 9, 0, 4, 2, 18, 0x1B, 3}, 0, 0, {0x20, 0, 0x40, 9, 0, 8, 2}},
};

static const Case tracks[] = {
    {"READ TRACK of three sectors", {READ_TRACK, 4, 12, 1, 2, 2, 3, GAP}, 3 * 512, 3 * 512, {0x24, 0, 0, 12, 1, 2, 2}},
    {"READ TRACK, no terminal count: EN", {READ_TRACK, 4, 12, 1, 2, 2, 2, GAP}, ENDLESS, 2 * 512, {0x64, 0x80, 0, 12, 1, 2, 2}},
    {"READ TRACK, the terminal count before the sector of its key: ND", {READ_TRACK, 0, 12, 0, 3, 2, 18, GAP}, 600, 600, {0x60, 0x04, 0, 12, 0, 3, 2}},
};

static void verifies(void) {
    TRY(verified);
    TRY(tracks);
    try_one(&tracks[0]);
    check(is_sector(buffer, 12, 1, 1) && is_sector(buffer + 512, 12, 1, 2) && is_sector(buffer + 1024, 12, 1, 3), "its bytes are those of the sectors from the index on");
}

/* Reads a cylinder by the data port, which ends with EN. */
static void by_port(void) {
    static const uint8_t polled[] = {0x03, 0xDF, 0x03}, served[] = {0x03, 0xDF, 0x02}, bytes[] = {READ | MT, 0, 13, 0, 1, 2, 18, GAP};
    static const uint8_t wanted[] = {0x64, 0x80, 0, 13, 1, 18, 2};
    size_t passed = 0;
    command(&guest, polled, 3);
    put(&guest, bytes, 9);
    while (run(&guest, 1000000) && in(&guest, MSR) == (RQM | DIO | NON_DMA | BUSY) && passed < ENDLESS) buffer[passed++] = in(&guest, BYTES);
    finish(&guest);
    check(guest.results == 7 && memcmp(guest.result, wanted, 7) == 0 && passed == 2 * TRACK, "no DMA, by SPECIFY: a cylinder passes by the data port, and EN ends it");
    check(memcmp(buffer, sector(flat, 13, 0, 1), 2 * TRACK) == 0, "its bytes are those of the sectors");
    command(&guest, served, 3);
}

/* ---- seeks, resets, media */

static uint8_t cylinder(void) {
    uint8_t cylinder_now, signs;
    MUST(telwyddus_controller_bay(&guest.controller, 0, &cylinder_now, &signs));
    return cylinder_now;
}

static void seeks(void) {
    static const Case there = {"the strap: the heads seek first", {READ, 0, 40, 0, 1, 2, 18, GAP}, 1024, 1024, {0x20, 0, 0, 40, 0, 3, 2}};
    static const Case not_there = {"without EIS and the strap they don't: ND, and WC", {READ, 0, 41, 0, 1, 2, 18, GAP}, 512, 0, {0x40, 0x04, 0x10, 41, 0, 1, 2}};
    static const Case by_options = {"EIS of CONFIGURE: they do", {READ, 0, 41, 0, 1, 2, 18, GAP}, 512, 512, {0x20, 0, 0, 41, 0, 2, 2}};
    static const Case cleared = {"a reset clears EIS", {READ, 0, 40, 0, 1, 2, 18, GAP}, 512, 0, {0x40, 0x04, 0x10, 40, 0, 1, 2}};
    configure(&guest, FIFO_OFF);
    MUST(telwyddus_controller_strap_seeks(&guest.controller, 1));
    try_one(&there);
    check(cylinder() == 40, "they are there");
    MUST(telwyddus_controller_strap_seeks(&guest.controller, 0));
    try_one(&not_there);
    configure(&guest, FIFO_OFF | EIS);
    try_one(&by_options);
    start(&guest);
    try_one(&cleared);
    configure(&guest, FIFO_OFF | EIS);
}

/* SENSE INTERRUPT gives this. */
static int is_sensed(uint8_t status, uint8_t number) {
    sense_interrupt(&guest);
    return guest.results == 2 && guest.result[0] == status && guest.result[1] == number;
}

/* A SEEK whose last byte comes before the first device step after a reset, and a RECALIBRATE from farther out than
 * its 79 pulses reach: each gives the same results with the strap for step times and without. */
static void step_times(uint8_t strap) {
    static const uint8_t fast[] = {0x03, 0xFF, 0x02}, near[] = {0x0F, 0, 3}, home[] = {0x07, 0};
    int polls = 0;
    MUST(telwyddus_controller_strap_steps(&guest.controller, strap));
    command(&guest, fast, 3);
    out(&guest, DOR, 0x18);
    out(&guest, DOR, 0x1C);
    put(&guest, near, 3);
    make_steps(&guest, 1);
    check(has_line(&guest, TELWYDDUS_INT), "a SEEK before the first step after a reset: INT of the reset comes");
    for (uint8_t drive = 0; drive < 4; drive++) polls += is_sensed(0xC0 | drive, 0);
    need(run(&guest, 1000000), "the seek ends");
    check(polls == 4 && is_sensed(0x20, 3), "C0, C1, C2 and C3 are told, and then 20");
    recalibrate(&guest);
    seek(&guest, 82);
    put(&guest, home, 2);
    need(run(&guest, 1000000), "the heads stand");
    check(is_sensed(0x70, 0) && cylinder() == 3, "RECALIBRATE from cylinder 82 ends with 70 after 79 pulses");
    recalibrate(&guest);
    check(cylinder() == 0, "and once more it comes to cylinder 0");
    MUST(telwyddus_controller_strap_steps(&guest.controller, 0));
}

/* While the controller is held in reset nothing is under way, so no timer is needed. */
static void held(void) {
    uint32_t quiet;
    out(&guest, DOR, 0x08);
    MUST(telwyddus_controller_quiet(&guest.controller, 1000000, &quiet));
    check(quiet == 1000000 && !run(&guest, 1000), "held in reset, with bit 3 of DOR: no line changes in all steps");
    start(&guest);
}

/* What a guest does within a command has no effect. */
static void within(void) {
    const uint8_t bytes[] = {READ | MT, 0, 30, 0, 1, 2, 18, GAP}, sector_one[] = {0x20, 0, 0, 30, 0, 2, 2};
    int is_seeking = 1, sought = 0;
    channel(&guest, buffer, 512);
    put(&guest, bytes, 9);
    while (!run(&guest, 1)) {
        uint8_t is = in(&guest, MSR);
        is_seeking &= is == (BUSY | SEEKING);
        sought += is_seeking;
        out(&guest, BYTES, 0x08);
        need(in(&guest, BYTES) == 0xFF && (is_seeking || is == BUSY), "no byte is given or taken within a command");
    }
    check(sought >= 17 && sought <= 20, "in the implied seek over 17 cylinders MSR is 11, and then it is 10");
    finish(&guest);
    check(guest.results == 7 && memcmp(guest.result, sector_one, 7) == 0 && is_sector(buffer, 30, 0, 1), "bytes that are sent within a command are ignored");
}

static void early_count(void) {
    const uint8_t bytes[] = {READ | MT, 0, 60, 0, 4, 2, 18, GAP}, none[] = {0x20, 0, 0, 60, 0, 5, 2};
    channel(&guest, buffer, 0);
    put(&guest, bytes, 9);
    MUST(telwyddus_controller_tc(&guest.controller, &guest.lines));
    finish(&guest);
    check(guest.results == 7 && memcmp(guest.result, none, 7) == 0 && guest.passed == 0, "the terminal count within an implied seek: no byte passes, one sector is searched");
}

/* Sends a command of four sectors, of which `bytes_passed` bytes pass. */
static void begin_four(size_t bytes_passed) {
    const uint8_t bytes[] = {READ | MT, 0, 60, 0, 1, 2, 18, GAP};
    channel(&guest, buffer, 4 * 512);
    put(&guest, bytes, 9);
    while (guest.passed < bytes_passed) need(!run(&guest, 1), "it goes on");
}

/* Takes the medium out `steps` steps after that. */
static void take_medium(size_t bytes_passed, uint32_t steps, size_t passed, const uint8_t *wanted, const char *what) {
    telwyddus_tray tray = {0};
    begin_four(bytes_passed);
    need(!run(&guest, steps), "it goes on");
    MUST(telwyddus_controller_eject(&guest.controller, 0, &tray, &guest.lines));
    finish(&guest);
    if (guest.passed != passed || memcmp(guest.result, wanted, 7) != 0)
        printf("%u bytes, results %02X %02X %02X, record %u\n", (unsigned)guest.passed, (unsigned)guest.result[0], (unsigned)guest.result[1], (unsigned)guest.result[2], (unsigned)guest.result[5]);
    check(guest.results == 7 && guest.passed == passed && memcmp(guest.result, wanted, 7) == 0, what);
    MUST(telwyddus_controller_insert(&guest.controller, 0, &tray, &guest.lines));
    MUST(telwyddus_tray_free(&tray));
}

/* The channel serves no more after some bytes of the second sector. */
static void starve(void) {
    static const uint8_t wanted[] = {0x60, 0x10, 0, 60, 0, 2, 2};
    begin_four(600);
    do MUST(telwyddus_controller_step(&guest.controller, &guest.lines));
    while (!(guest.lines & TELWYDDUS_INT));
    finish(&guest);
    check(guest.results == 7 && memcmp(guest.result, wanted, 7) == 0, "bytes aren't taken: OR at their sector");
}

/* The same disk, write-protected. */
static void protect(void) {
    static const Case write = {"a protected medium: NW", {WRITE | MT, 0, 60, 0, 1, 2, 18, GAP}, 1024, 1, {0x60, 0x02, 0, 60, 0, 1, 2}};
    telwyddus_tray tray = {0};
    MUST(telwyddus_controller_eject(&guest.controller, 0, &tray, &guest.lines));
    MUST(telwyddus_tray_free(&tray));
    image[8] |= 1;
    insert(&guest, image, IMAGE);
    try_one(&write);
}

static void breaks(void) {
    static const Case again = {"the next command is as ever", {READ | MT, 0, 60, 0, 18, 2, 18, GAP}, 1024, 1024, {0x24, 0, 0, 60, 1, 2, 2}};
    static const uint8_t within_data[] = {0x60, 0x20, 0x20, 60, 0, 2, 2}, between[] = {0x60, 0x01, 0, 60, 0, 2, 2};
    begin_four(700);
    start(&guest);
    check(in(&guest, MSR) == RQM, "a reset ends a command");
    configure(&guest, FIFO_OFF | EIS);
    try_one(&again);
    take_medium(700, 0, 1024, within_data, "the medium is taken out within a sector's data: its check fails");
    take_medium(512, 10, 512, between, "the medium is taken out between two sectors: no address mark comes");
    try_one(&again);
}

/* ---- what a flat sector file can't have */

/* Formats a track with `count` sectors of 512 bytes. */
static void format(uint8_t c, uint8_t h, uint8_t count, uint8_t gap) {
    const uint8_t bytes[] = {FORMAT, (uint8_t)(h << 2), 2, count, gap, 0xF6};
    for (uint8_t r = 1; r <= count; r++) {
        const uint8_t key[] = {c, h, r, 2};
        memcpy(buffer + 4 * (r - 1), key, 4);
    }
    seek(&guest, c);
    channel(&guest, buffer, 4 * (size_t)count);
    command(&guest, bytes, 6);
    need(guest.results == 7 && (guest.result[0] & 0xC0) == 0 && guest.left == 0, "a track is formatted");
}

/* What a tray answers for the guest's disk, and the track that it names. */
static uint32_t flat_code(uint8_t *c, uint8_t *h) {
    telwyddus_tray tray = {0};
    size_t told;
    image_of(&guest, image, IMAGE);
    MUST(telwyddus_tray_read(&tray, image, IMAGE));
    uint32_t code = telwyddus_tray_write_flat(&tray, back, FLAT, &told, c, h);
    MUST(telwyddus_tray_free(&tray));
    return code;
}

/* 21 sectors of 512 bytes with so much gap 3: what a FORMAT answers. */
static void tight(uint8_t gap, const uint8_t *told, const char *what) {
    const uint8_t bytes[] = {FORMAT, 4, 2, 21, gap, 0xF6};
    for (uint8_t r = 1; r <= 21; r++) {
        const uint8_t key[] = {34, 1, r, 2};
        memcpy(buffer + 4 * (r - 1), key, 4);
    }
    seek(&guest, 34);
    channel(&guest, buffer, 4 * 21);
    command(&guest, bytes, 6);
    check(guest.results == 7 && memcmp(guest.result, told, 7) == 0, what);
}

/* Before the first sector there are 146 words, and each sector has 574 and its gap. With a gap of 15 the index comes
 * right after the last sector's CRC, on word 12,500. */
static void tight_tracks(void) {
    static const Case last = {"the last of them is read", {READ, 4, 34, 1, 21, 2, 21, GAP}, 512, 512, {0x24, 0, 0, 35, 1, 1, 2}};
    static const uint8_t whole[] = {0x04, 0, 0, 34, 1, 21, 2}, done[] = {0x04, 0, 0, 0, 0, 0, 0}, cut[] = {0x44, 0x01, 0x01, 0, 0, 0, 0};
    tight(16, cut, "21 sectors with a gap of 16 don't fit");
    tight(14, whole, "with 14 they fit, gaps and all");
    tight(15, done, "with 15 the index cuts the gap after the last sector alone");
    try_one(&last);
}

static void flat_files(void) {
    static const Case last = {"the last of 21 sectors is read", {READ, 4, 33, 1, 21, 2, 21, GAP}, 512, 512, {0x24, 0, 0, 34, 1, 1, 2}};
    uint8_t c = 0, h = 0;
    check(flat_code(&c, &h) == TELWYDDUS_UNFIT && c == 9 && h == 0, "a sector is marked deleted: the disk has no flat file, and the track is told");
    for (uint8_t marked = 9; marked <= 10; marked++) {
        format(marked, 0, 18, 0x6C);
        format(marked, 1, 18, 0x6C);
    }
    check(flat_code(&c, &h) == TELWYDDUS_DONE, "once these tracks are formatted again it has one");
    format(33, 1, 21, 12);
    try_one(&last);
    check(flat_code(&c, &h) == TELWYDDUS_UNFIT && c == 33 && h == 1, "a track has 21 sectors: it has none, and the track is told");
}

int main(void) {
    import_flat(flat, image);
    make_guest(&guest, image, IMAGE);
    configure(&guest, FIFO_OFF | EIS);
    whole_cylinders();
    reads();
    writes();
    deleted();
    refusals();
    verifies();
    by_port();
    within();
    early_count();
    breaks();
    starve();
    seeks();
    step_times(0);
    step_times(1);
    held();
    configure(&guest, FIFO_OFF | EIS);
    tight_tracks();
    format(34, 1, 18, 0x6C);
    flat_files();
    protect();
    MUST(telwyddus_controller_free(&guest.controller));
    return 0;
}
