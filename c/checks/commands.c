/* commands - each command of the bare controller, as the 82077AA data sheet has it.
 *
 * The wanted results were worked out by hand from the data sheet and docs/C.md. If another result comes, it is
 * printed, and the rest is tried all the same. by_port.c tries the bytes that pass without DMA, and several.c tries
 * several sectors a command. */
#include "texts.h"
#include "flat.h"

#define CYLINDERS 8
#define SMALL (14 + CYLINDERS * 2 * 25000)
#define ENDLESS (sizeof buffer)
#define LATEST 65536            /* steps up to INT, if nothing is found */

static uint8_t flat[FLAT], image[SMALL], now[SMALL], blank[SMALL], buffer[36 * 512];

/* ---- the disk, and what every part of this file does */

static uint8_t *sector(int c, int h, int r) { return flat + ((c * 2 + h) * 18 + r - 1) * 512; }

/* A cell of a standard sector in the image: a cell of the word at a place counted from the first 00 before its
 * sector ID. */
static void damage(int c, int h, int r, int place) { image[14 + (c * 2 + h) * 25000 + (146 + 682 * (r - 1) + place) * 2 + 1] ^= 0x01; }

/* On cylinder 3, head 1, the content of record 9 is damaged; on cylinder 5, head 0, each sector ID is. */
static void make_disk(void) {
    for (size_t i = 0; i < FLAT; i++) flat[i] = (uint8_t)(i * 31 + i / 512 * 7);
    import_some(flat, image, CYLINDERS);
    damage(3, 1, 9, 60 + 300);
    for (int r = 1; r <= 18; r++) damage(5, 0, r, 18);
}

/* Selects a drive by DOR, with both motors on. */
static void choose(uint8_t drive) { out(&guest, DOR, (uint8_t)(0x3C | drive)); }

static int heads(uint32_t bay) {
    uint8_t cylinder, signs;
    MUST(telwyddus_controller_bay(&guest.controller, bay, &cylinder, &signs));
    return cylinder;
}

static int is_written(uint32_t bay) {
    uint8_t written;
    MUST(telwyddus_controller_is_written(&guest.controller, bay, &written));
    return written;
}

/* Makes a reset, by DSR or by DOR, and reads the four results after it. Drive 0 is selected. */
static void wake(int by_dsr) {
    if (by_dsr) out(&guest, MSR, 0x80);
    else out(&guest, DOR, 0x38), out(&guest, DOR, 0x3C);
    need(run(&guest, 1000), "INT follows the reset");
    for (int i = 0; i < 4; i++) sense_interrupt(&guest);
}

/* Does a data command with a channel of `count` bytes, of which `passed` have to pass. */
static void does(const char *sent, size_t count, size_t passed, const char *wanted, const char *what) {
    int is_so = execute(sent, buffer, count);
    if (guest.passed != passed) printf("  %lu bytes passed, %lu wanted\n", (unsigned long)guest.passed, (unsigned long)passed);
    expect_result(is_so && guest.passed == passed, wanted, what);
}

/* Formats a track under the heads of drive 0. */
static void lay(uint8_t head, uint8_t c, const char *records) {
    uint8_t numbers[18];
    uint8_t count = (uint8_t)bytes_of(records, numbers);
    const uint8_t bytes[] = {FORMAT, (uint8_t)(head << 2), 2, count, 0x50, 0xF6};
    for (uint8_t i = 0; i < count; i++) {
        const uint8_t key[] = {c, head, numbers[i], 2};
        memcpy(buffer + 4 * i, key, 4);
    }
    channel(&guest, buffer, 4 * (size_t)count);
    command(&guest, bytes, 6);
    need(guest.results == 7 && (guest.result[0] & 0xC0) == 0, "a track is formatted");
}

#define ALL "01 02 03 04 05 06 07 08 09 0A 0B 0C 0D 0E 0F 10 11 12"

/* Fills the buffer with these sectors of the flat file, one after the other. */
static int has_sectors(int c, int h, const char *records) {
    uint8_t numbers[36];
    int count = bytes_of(records, numbers), same = 0;
    for (int i = 0; i < count; i++) same += memcmp(buffer + 512 * i, sector(c, h, numbers[i]), 512) == 0;
    return same == count;
}

/* ---- results of seeks and resets, and what is set */

static void power_up(void) {
    MUST(telwyddus_controller_new(&guest.controller));
    insert_in(&guest, 0, image, SMALL);
    expect(status() == 0x00, "held in reset MSR is 00");
    choose(0);
    out(&guest, CCR, 0);
    expect(status() == 0x80 && !is_int(), "out of it 80");
    expect(run(&guest, 10), "INT follows the reset");
    senses("C0 00", "SENSE INTERRUPT after a reset reports drive 0, and lets INT fall");
    senses("C1 00", "then of drive 1");
    senses("C2 00", "of drive 2");
    senses("C3 00", "of drive 3");
    senses("80", "and then there is nothing to tell");
    gives("0E", "00 00 00 00 00 00 00 00 20 00", "DUMPREG at power-up: all 00 but EFIFO");
}

static void settings(void) {
    gives("03 DF 02", "", "SPECIFY has no result");
    gives("0E", "00 00 00 00 DF 02 00 00 20 00", "DUMPREG gives its two bytes");
    gives("13 00 D7 2A", "", "CONFIGURE has none");
    gives("0E", "00 00 00 00 DF 02 00 00 57 2A", "DUMPREG gives its last two bytes, the upper bit clear");
    moves("0F 00 03", "20 03", "SEEK of drive 0");
    moves("0F 01 05", "21 05", "of drive 1");
    moves("0F 02 07", "22 07", "of drive 2");
    moves("0F 03 09", "23 09", "of drive 3");
    gives("0E", "03 05 07 09 DF 02 00 00 57 2A", "DUMPREG gives the cylinder number of each drive");
    expect(heads(0) == 3 + 5 + 7 + 9 && heads(1) == 0, "all pulses went to the drive that DOR selects");
    moves("07 02", "22 00", "RECALIBRATE of drive 2");
    gives("0E", "03 05 00 09 DF 02 00 00 57 2A", "DUMPREG gives that it is at 0");
    moves("07 00", "20 00", "RECALIBRATE of drive 0");
    does("46 00 00 00 01 02 09 1B FF", 512, 512, "20 00 00 00 00 02 02", "a READ of EOT 09, with SE, since CONFIGURE set EIS");
    gives("0E", "00 05 00 09 DF 02 09 00 57 2A", "DUMPREG gives that EOT");
    seek(&guest, 7);
    lay(1, 2, "01 02 03");
    gives("0E", "07 05 00 09 DF 02 03 00 57 2A", "and the number of sectors of a FORMAT");
    does("06 00 00 00 01 02 0B 1B FF", 0, 0, "40 01 00 00 00 01 02", "a READ without MFM");
    gives("0E", "07 05 00 09 DF 02 0B 00 57 2A", "and its EOT, though it is refused");
}

/* Bits 5 to 2 say which drives are perpendicular, bits 1 and 0 are GAP and WGATE, and bit 7 is LOCK. */
static void perpendicular(void) {
    gives("94", "10", "LOCK gives its bit");
    gives("0E", "07 05 00 09 DF 02 0B 80 57 2A", "DUMPREG gives LOCK");
    gives("12 BF", "", "PERPENDICULAR MODE has no result");
    gives("0E", "07 05 00 09 DF 02 0B BF 57 2A", "with OW it sets which drives are perpendicular, GAP and WGATE");
    gives("12 00", "", "without OW");
    gives("0E", "07 05 00 09 DF 02 0B BC 57 2A", "it leaves which drives are perpendicular");
    gives("12 42", "", "without OW, with bits that there are");
    gives("0E", "07 05 00 09 DF 02 0B BE 57 2A", "it sets GAP and WGATE");
    gives("12 94", "", "with OW");
    gives("0E", "07 05 00 09 DF 02 0B 94 57 2A", "it sets those of drives 2 and 0 alone");
    gives("12 03", "", "and GAP and WGATE");
    gives("0E", "07 05 00 09 DF 02 0B 97 57 2A", "they are set");
}

static void resets(void) {
    wake(0);
    gives("0E", "00 00 00 00 DF 02 0B 94 07 2A", "a reset by DOR: LOCK keeps EFIFO, FIFOTHR and PRETRK; GAP, WGATE and cylinders are 00");
    gives("12 03", "", "GAP and WGATE again");
    wake(1);
    gives("0E", "00 00 00 00 DF 02 0B 94 07 2A", "a reset by DSR: the same");
    gives("14", "00", "UNLOCK gives 00");
    gives("0E", "00 00 00 00 DF 02 0B 14 07 2A", "and changes nothing else");
    wake(1);
    gives("0E", "00 00 00 00 DF 02 0B 14 20 00", "a reset by DSR then turns the FIFO off, and forgets PRETRK");
    gives("13 00 30 2A", "", "polling and FIFO off");
    wake(0);
    gives("0E", "00 00 00 00 DF 02 0B 14 20 00", "a reset by DOR: the same, and polling is on");
    out(&guest, DOR, 0x38);
    expect(status() == 0x00, "held in reset MSR is 00");
    out(&guest, DOR, 0x3C);
    gives("13 00 30 00", "", "polling is turned off before the first step");
    expect(!run(&guest, 1000), "then no INT follows the reset");
    senses("80", "and SENSE INTERRUPT has nothing to tell");
    gives("12 80", "", "all of PERPENDICULAR MODE is off again");
}

enum { TDR = 0x3F3 };

/* TDR keeps two bits. No reset but the pin clears it. */
static void tape_drive(void) {
    expect(in(&guest, TDR) == 0xFC, "TDR at power-up: its two bits are 00, and the others are read as 1");
    out(&guest, TDR, 0xFE);
    expect(in(&guest, TDR) == 0xFE, "they are read back");
    out(&guest, TDR, 0x01);
    expect(in(&guest, TDR) == 0xFD, "and no other bit is kept");
    wake(0);
    wake(1);
    expect(in(&guest, TDR) == 0xFD, "resets by DOR and DSR leave TDR as it is");
    out(&guest, TDR, 0x00);
    expect(in(&guest, TDR) == 0xFC && status() == 0x80, "it is clear again");
}

/* How many bytes of a READ pass one after the other once they are asked for. */
static int first_request(void) {
    int count = 0;
    uint8_t byte;
    channel(&guest, buffer, 0);
    say("46 00 00 00 01 02 12 1B FF");
    for (int i = 0; i < 40000 && !has_line(&guest, TELWYDDUS_DRQ); i++) make_steps(&guest, 1);
    for (; has_line(&guest, TELWYDDUS_DRQ); count++) MUST(telwyddus_controller_dack_read(&guest.controller, &byte, &guest.lines));
    MUST(telwyddus_controller_tc(&guest.controller, &guest.lines));
    finish(&guest);
    return count;
}

static void locked_fifo(void) {
    moves("07 00", "20 00", "the heads are on cylinder 0");
    expect(first_request() == 1, "with the FIFO off a byte is asked for alone");
    gives("13 00 07 00", "", "the FIFO is turned on, with a threshold of 8");
    expect(first_request() == 8, "then 16 less 8 are asked for");
    gives("94", "10", "LOCK");
    wake(0);
    expect(first_request() == 8, "after a reset by DOR, LOCK has kept it");
    wake(1);
    wake(1);
    expect(first_request() == 8, "and after two by DSR");
    gives("14", "00", "UNLOCK");
    wake(0);
    expect(first_request() == 1, "without LOCK a reset turns the FIFO off");
}

/* ---- command codes */

/* A code, the bits that may also be 1 (for READ ID also bits that it doesn't have), and how many bytes follow. */
typedef struct {
    uint8_t code, bits;
    int count;
} Known;

static const Known known[] = {
    {0x02, 0x40, 8}, {0x03, 0x00, 2}, {0x04, 0x00, 1}, {0x05, 0xC0, 8}, {0x06, 0xE0, 8}, {0x07, 0x00, 1}, {0x08, 0x00, 0}, {0x09, 0xC0, 8},
    {0x0A, 0xE0, 1}, {0x0C, 0xE0, 8}, {0x0D, 0x40, 5}, {0x0E, 0x00, 0}, {0x0F, 0x00, 2}, {0x8F, 0x40, 2}, {0x10, 0x00, 0}, {0x12, 0x00, 1},
    {0x13, 0x00, 3}, {0x14, 0x80, 0}, {0x16, 0xE0, 8},
};

static int parameters(int code) {
    for (size_t i = 0; i < sizeof known / sizeof known[0]; i++)
        if ((code & ~known[i].bits) == known[i].code) return known[i].count;
    return -1;
}

/* A code takes as many bytes as its command has, all of them 00. If there is no such command, its one result byte is
 * 80, and no INT comes. */
static int is_taken(int code) {
    int count = parameters(code), is_so = 1;
    wake(0);
    out(&guest, BYTES, (uint8_t)code);
    if (count < 0) return status() == 0xD0 && !run(&guest, 100) && in(&guest, BYTES) == 0x80 && status() == 0x80;
    for (int i = 0; i < count; i++) {
        is_so = is_so && status() == 0x90;
        out(&guest, BYTES, 0x00);
    }
    return is_so && status() != 0x90;
}

static void codes(void) {
    int taken = 0;
    for (int code = 0; code < 256; code++) {
        int is_so = is_taken(code);
        if (!is_so) printf("  code %02X, MSR %02X\n", (unsigned)code, (unsigned)status());
        taken += is_so;
    }
    expect(taken == 256, "each code takes the bytes of its command, or there is none: 80, and no INT");
    wake(0);
    gives("14", "00", "UNLOCK");
    gives("03 DF 02", "", "SPECIFY");
    gives("18", "80", "PART ID isn't there");
    gives("11", "80", "nor is SCAN EQUAL");
    gives("D9", "80", "nor SCAN LOW OR EQUAL");
    gives("DD", "80", "nor SCAN HIGH OR EQUAL");
    gives("10", "90", "VERSION tells an enhanced controller");
}

/* ---- seeks */

static void relative(void) {
    choose(0);
    moves("07 00", "20 00", "RECALIBRATE");
    moves("0F 00 0A", "20 0A", "SEEK to 10");
    moves("CF 00 03", "20 0D", "RELATIVE SEEK three in");
    moves("8F 00 05", "20 08", "five out");
    moves("CF 00 00", "20 08", "none in");
    expect(heads(0) == 8, "the heads are there");
    moves("8F 00 14", "20 00", "twenty out: it ends on cylinder 0");
    expect(heads(0) == 0, "where the heads are");
    moves("CF 00 C8", "20 C8", "200 in");
    moves("CF 00 64", "20 FF", "100 in: it ends on 255");
    expect(heads(0) == 82, "the heads are on the drive's last cylinder");
    gives("0E", "FF 00 00 00 DF 02 ?? ?? ?? ??", "DUMPREG gives 255");
    moves("8F 00 FF", "20 00", "255 out");
    expect(heads(0) == 0, "and the heads are back");
    choose(1);
    moves("CF 01 06", "21 06", "of drive 1 six in");
    gives("0E", "00 06 00 00 DF 02 ?? ?? ?? ??", "DUMPREG gives that drive's");
    expect(heads(0) == 0 && heads(1) == 6, "its heads are there, the others where they were");
    moves("8F 01 06", "21 00", "and six out");
    choose(0);
}

/* Seeks of both drives, one of them sent while the other drive moves. */
static void overlapped(void) {
    int is_so = 1;
    say("0F 00 0A");
    expect(status() == 0x81, "while drive 0 seeks MSR is 81");
    say("0F 01");
    expect(status() == 0x91, "91 among the bytes of the next command");
    say("03");
    for (int i = 0; i < 10; i++) {
        is_so = is_so && status() == 0x11 && !is_int();
        make_steps(&guest, 1);
    }
    expect(is_so && status() == 0x11 && heads(0) == 10, "a SEEK of drive 1 is held while the heads of drive 0 move: MSR is 11");
    make_steps(&guest, 1);
    expect(is_int() && status() == 0x83, "then INT rises, and both seek bits are set");
    choose(1);
    make_steps(&guest, 6);
    expect(is_int() && status() == 0x83 && heads(0) == 10 && heads(1) == 3, "each drive is where it was sent");
    out(&guest, BYTES, 0x08);
    expect(status() == 0xD2 && !is_int(), "SENSE INTERRUPT takes the first: MSR is D2");
    finish(&guest);
    expect_result(status() == 0x82, "20 0A", "it tells of drive 0");
    senses("21 03", "the next of drive 1");
    expect(status() == 0x80, "no seek bit is left");
    senses("80", "and nothing to tell");
}

static void in_turn(void) {
    choose(0);
    say("0F 00 0C");
    say("07 01");
    expect(run(&guest, 100) && status() == 0x83, "a RECALIBRATE of drive 1 is held");
    choose(1);
    out(&guest, BYTES, 0x08);
    finish(&guest);
    expect_result(!is_int() && status() == 0x82, "20 0C", "the result of drive 0 is sensed while drive 1 moves");
    expect(run(&guest, 100), "INT comes again");
    senses("21 00", "with the result of drive 1");
    moves("0F 01 02", "21 02", "drive 1 on 2");
    choose(1);
    say("0F 01 04");
    need(run(&guest, 100), "the seek ends");
    choose(0);
    say("0F 00 05");
    make_steps(&guest, 20);
    expect(is_int() && status() == 0x83, "both seeks have ended, that of drive 1 first");
    senses("20 05", "SENSE INTERRUPT tells of the lowest drive first");
    senses("21 04", "then of the other");
    say("0F 00 09");
    say("0F 00 01");
    expect(status() == 0x11, "a SEEK of the same drive is held");
    make_steps(&guest, 20);
    senses("20 01", "and its result is the one that is told");
    senses("80", "alone");
    expect(heads(0) == 1 && heads(1) == 4, "each drive is where it was sent last");
}

/* Commands that need no heads are done while heads move. */
static void while_moving(void) {
    uint32_t made;
    moves("07 00", "20 00", "RECALIBRATE");
    say("0F 00 3C");
    gives("03 AF 02", "", "SPECIFY is taken while heads move");
    gives("12 83", "", "PERPENDICULAR MODE");
    gives("94", "10", "LOCK");
    gives("0E", "?? ?? 00 00 AF 02 ?? 83 20 00", "DUMPREG");
    expect(guest.result[0] <= 60, "with a cylinder number on the way");
    gives("14", "00", "UNLOCK");
    gives("12 80", "", "PERPENDICULAR MODE");
    gives("10", "90", "VERSION");
    gives("18", "80", "a code that isn't there");
    gives("08", "80", "SENSE INTERRUPT has nothing to tell yet");
    out(&guest, BYTES, 0x10);
    expect(status() == 0xD1, "while such a result waits MSR is D1");
    finish(&guest);
    expect(status() == 0x81, "and then 81");
    MUST(telwyddus_controller_run(&guest.controller, 1000, &made, &guest.lines));
    expect(is_int() && made == 61, "the seek takes its 60 pulses all the same");
    senses("20 3C", "and is there");
    gives("03 DF 02", "", "SPECIFY as it was");
    moves("07 00", "20 00", "RECALIBRATE");
}

/* ---- commands that are held while heads move, and commands after a seek without SENSE INTERRUPT */

/* Sent while drive 0 goes from cylinder 0 to 5. Once the heads are there, MSR is this. */
static void is_held(const char *sent, uint8_t then, const char *what) {
    int is_so = 1;
    say("0F 00 05");
    channel(&guest, buffer, 512);
    say(sent);
    for (int i = 0; i < 6; i++) {
        is_so = is_so && status() == 0x11;
        make_steps(&guest, 1);
    }
    expect(is_so && status() == then, what);
}

static void held(void) {
    choose(0);
    is_held("04 00", 0xD1, "SENSE DRIVE STATUS is held, and then has its result");
    finish(&guest);
    expect_result(is_int(), "28", "of a drive that isn't on cylinder 0; INT is of the seek");
    senses("20 05", "which is sensed then");
    moves("07 00", "20 00", "RECALIBRATE");
    gives("04 00", "38", "on cylinder 0 ST3 says so");
    is_held("13 00 27 05", 0x81, "CONFIGURE is held, and done");
    senses("20 05", "the seek is sensed then");
    gives("0E", "05 ?? 00 00 DF 02 ?? 00 27 05", "DUMPREG has what it set");
    moves("07 00", "20 00", "RECALIBRATE");
    is_held("CF 00 02", 0x81, "RELATIVE SEEK is held");
    make_steps(&guest, 3);
    senses("20 07", "and counts from where the heads then are");
    moves("07 00", "20 00", "RECALIBRATE");
    is_held("07 00", 0x81, "RECALIBRATE is held");
    make_steps(&guest, 6);
    senses("20 00", "and goes back");
    is_held("46 04 05 01 03 02 12 1B FF", 0x10, "a READ is held, and begins");
    expect(!is_int(), "without INT of the seek");
    finish(&guest);
    expect_result(guest.passed == 512 && has_sectors(5, 1, "03"), "04 00 00 05 01 04 02", "it reads its sector");
    senses("80", "and the result of the seek is gone");
    moves("07 00", "20 00", "RECALIBRATE");
}

static void unsensed(void) {
    say("0F 00 02");
    need(run(&guest, 100), "the seek ends");
    expect(status() == 0x81, "a seek isn't sensed");
    does("46 00 02 00 01 02 12 1B FF", 512, 512, "00 00 00 02 00 02 02", "a READ is taken all the same, and INT is down within it");
    expect(has_sectors(2, 0, "01"), "and reads its sector");
    senses("80", "the result of the seek is gone");
    choose(1);
    say("0F 01 01");
    need(run(&guest, 100), "the seek ends");
    choose(0);
    channel(&guest, buffer, 512);
    say("46 00 02 00 02 02 12 1B FF");
    expect(status() == 0x12 && !is_int(), "where that of the other drive isn't sensed its seek bit stays");
    finish(&guest);
    expect_result(has_sectors(2, 0, "02") && status() == 0x82, "00 00 00 02 00 03 02", "the READ is done");
    does("4A 00", 0, 0, "00 00 00 02 00 ?? 02", "and a READ ID");
    senses("21 01", "and the result of the other drive is there");
    senses("80", "alone");
}

/* ---- commands that this medium can't have */

/* INT comes with ST0, ST1, ST2 and this sector ID; no byte passes. */
static int is_refused(const uint8_t *bytes, int count, uint8_t st1, const uint8_t *key) {
    const uint8_t wanted[] = {(uint8_t)(0x40 | (bytes[1] & 7)), st1, 0, key[0], key[1], key[2], key[3]};
    channel(&guest, buffer, 0);
    put(&guest, bytes, count);
    int is_so = status() == 0x10 && !is_int() && run(&guest, LATEST) && status() == 0xD0;
    finish(&guest);
    is_so = is_so && !is_int() && guest.passed == 0 && guest.results == 7 && memcmp(guest.result, wanted, 7) == 0;
    if (is_so) return 1;
    printf("  code %02X N %02X:", (unsigned)bytes[0], (unsigned)bytes[5]);
    for (int i = 0; i < guest.results; i++) printf(" %02X", (unsigned)guest.result[i]);
    printf(", %lu bytes\n", (unsigned long)guest.passed);
    return 0;
}

/* A code with a size code, at head 1 of drive 1. A FORMAT and a READ ID name no sector ID. */
static int is_refused_with(uint8_t code, uint8_t n, uint8_t st1) {
    static const uint8_t none[] = {0, 0, 0, 0};
    const uint8_t nine[] = {code, 0x05, 3, 1, 9, n, 18, 0x1B, 0xFF}, six[] = {code, 0x05, n, 9, 0x1B, 0xF6};
    switch (code & 0x1F) {
    case 0x0A: return is_refused(nine, 2, st1, none);
    case 0x0D: return is_refused(six, 6, st1, none);
    default: return is_refused(nine, 9, st1, nine + 2);
    }
}

/* Tries each of them. If address marks pass, ND is set with MFM; else MA is. */
static void refused_by(int has_marks, const char *what) {
    static const uint8_t single[] = {0x02, 0x05, 0x85, 0x09, 0x06, 0xA6, 0x0C, 0x0A, 0x0D, 0x16, 0xB6}, sizes[] = {0x00, 0x07, 0x08, 0xFF};
    static const uint8_t sized[] = {0x42, 0x45, 0xC5, 0x49, 0x46, 0xE6, 0x4C, 0x4D, 0x56, 0xD6};
    int refused = 0;
    for (size_t i = 0; i < sizeof single; i++) refused += is_refused_with(single[i], 2, 0x01);
    for (size_t i = 0; i < sizeof sized; i++)
        for (size_t j = 0; j < sizeof sizes; j++) refused += is_refused_with(sized[i], sizes[j], has_marks ? 0x04 : 0x01);
    expect(refused == 11 + 10 * 4, what);
}

/* The medium of bay 1 is the same as when it went in. */
static void is_untouched(const uint8_t *wanted, const char *what) {
    size_t told;
    MUST(telwyddus_controller_image(&guest.controller, 1, now, SMALL, &told));
    expect(told == SMALL && !is_written(1) && memcmp(now, wanted, SMALL) == 0, what);
}

static void refusals(void) {
    static const uint8_t damaged[] = {0x46, 0x00, 5, 0, 1, 7, 18, 0x1B, 0xFF};
    telwyddus_tray tray = {0};
    size_t told;
    choose(1);
    moves("07 01", "21 00", "RECALIBRATE of drive 1");
    refused_by(0, "no medium: commands without MFM, and of size code 0 or above 6, end with MA");
    MUST(telwyddus_tray_blank(&tray, CYLINDERS, 500));
    MUST(telwyddus_tray_write(&tray, blank, SMALL, &told));
    MUST(telwyddus_controller_insert(&guest.controller, 1, &tray, &guest.lines));
    MUST(telwyddus_tray_free(&tray));
    refused_by(0, "an empty medium: the same");
    is_untouched(blank, "and it is as it was");
    MUST(telwyddus_controller_eject(&guest.controller, 1, &tray, &guest.lines));
    MUST(telwyddus_tray_free(&tray));
    insert_in(&guest, 1, image, SMALL);
    refused_by(1, "a formatted medium: MA without MFM, ND else");
    out(&guest, CCR, 2);
    expect(is_refused_with(0x46, 7, 0x01), "at another rate: MA");
    out(&guest, CCR, 0);
    is_untouched(image, "and it is as it was");
    choose(0);
    seek(&guest, 5);
    expect(is_refused(damaged, 9, 0x04, damaged + 2), "where no address field is intact: ND, since address marks pass");
}

/* ---- which cylinder passes, and which sector ID */

static void cylinders(void) {
    seek(&guest, 4);
    does("46 00 05 00 01 02 12 1B FF", 512, 0, "40 04 10 05 00 01 02", "READ of another cylinder than the one that passes: WC");
    does("CC 04 05 01 01 02 12 1B FF", 512, 0, "44 04 10 05 01 01 02", "READ DELETED");
    does("45 00 03 00 01 02 12 1B FF", 512, 1, "40 04 10 03 00 01 02", "WRITE");
    does("49 00 FF 00 01 02 12 1B FF", 512, 1, "40 04 10 FF 00 01 02", "WRITE DELETED, where FF was sent and doesn't pass");
    does("56 00 05 00 01 02 12 1B FF", 0, 0, "40 04 10 05 00 01 02", "VERIFY");
    does("46 00 04 00 63 02 63 1B FF", 512, 0, "40 04 00 04 00 63 02", "no such record, and the cylinder is right: no WC");
    does("46 00 04 01 01 02 12 1B FF", 512, 0, "40 04 00 04 01 01 02", "another head in the key: no WC");
    does("46 00 04 00 01 03 12 1B FF", 1024, 0, "40 04 00 04 00 01 03", "another size: no WC");
    seek(&guest, 6);
    lay(0, 0xFF, ALL);
    does("46 00 06 00 01 02 12 1B FF", 512, 0, "40 04 12 06 00 01 02", "cylinder FF passes: WC and BC");
    does("46 00 FF 00 01 02 12 1B FF", 512, 512, "00 00 00 FF 00 02 02", "which is read where it is asked for");
    seek(&guest, 7);
    lay(1, 2, ALL);
    does("C6 00 07 00 12 02 12 1B FF", 1024, 512, "44 04 10 07 01 01 02", "with MT the track of head 1 is of another cylinder: WC");
}

static void identify(void) {
    static const char *const sent[] = {"4A 04", "6A 04", "CA 04", "EA 04"};
    int found = 0;
    seek(&guest, 2);
    for (int i = 0; i < 4; i++) {
        int is_so = execute(sent[i], buffer, 0);
        found += is_so && are_bytes(guest.result, guest.results, "04 00 00 02 01 ?? 02") && guest.result[5] >= 1 && guest.result[5] <= 18;
    }
    expect(found == 4, "READ ID gives a key of the track, by 4A, 6A, CA and EA");
    seek(&guest, 5);
    does("4A 00", 0, 0, "40 04 00 00 00 00 00", "where no key is intact: ND");
    choose(1);
    does("0A 01", 0, 0, "41 01 00 00 00 00 00", "without MFM: MA");
    choose(0);
}

/* ---- VERIFY */

static void verifies(const char *sent, const char *wanted, const char *what) { does(sent, 0, 0, wanted, what); }

static void verify(void) {
    uint8_t was;
    MUST(telwyddus_controller_written(&guest.controller, 0, &was));
    seek(&guest, 2);
    verifies("56 00 02 00 01 02 04 1B FF", "00 00 00 03 00 01 02", "VERIFY up to EOT: the key is the one after it");
    verifies("56 80 02 00 01 02 12 1B 03", "00 00 00 02 00 04 02", "with EC three sectors");
    verifies("56 80 02 00 02 02 04 1B 03", "00 00 00 03 00 01 02", "with EC as many as there are up to EOT");
    verifies("56 80 02 00 02 02 04 1B 04", "40 80 00 02 00 04 02", "with EC more than that: EN");
    verifies("56 80 02 00 01 02 12 1B 00", "40 80 00 02 00 12 02", "with EC and 00, which is 256: EN");
    verifies("D6 00 02 00 11 02 12 1B FF", "04 00 00 03 00 01 02", "with MT both heads");
    verifies("D6 04 02 01 0A 02 12 1B FF", "04 00 00 03 00 01 02", "with MT from head 1 on that one alone");
    verifies("D6 80 02 00 11 02 12 1B 04", "04 00 00 02 01 03 02", "with MT and EC four sectors, of which two under head 1");
    verifies("D6 80 02 00 11 02 12 1B 02", "00 00 00 02 01 01 02", "with MT and EC the last two under head 0");
    verifies("56 00 02 00 11 02 14 1B FF", "40 04 00 02 00 13 02", "a sector that isn't there: ND, with its key");
    verifies("56 00 02 00 01 03 12 1B FF", "40 04 00 02 00 01 03", "another size: ND");
    expect(was && !is_written(0), "nothing is written");
    MUST(telwyddus_controller_strap_seeks(&guest.controller, 1));
    verifies("56 00 04 00 01 02 01 1B FF", "20 00 00 05 00 01 02", "by the strap VERIFY seeks, and ST0 has SE");
    MUST(telwyddus_controller_strap_seeks(&guest.controller, 0));
    expect(heads(0) == 4, "and the heads are there");
    gives("0E", "04 ?? ?? ?? ?? ?? 01 ?? ?? ??", "as DUMPREG says, and its EOT");
}

/* Record 5 of cylinder 3, head 0, is deleted; record 9 of head 1 is damaged. */
static void verify_marks(void) {
    uint8_t byte;
    seek(&guest, 3);
    memcpy(buffer, sector(3, 0, 5), 512);
    does("49 00 03 00 05 02 12 1B FF", 512, 512, "00 00 00 03 00 06 02", "a sector is written deleted");
    verifies("56 00 03 00 03 02 12 1B FF", "00 00 40 03 00 06 02", "SK 0: a deleted sector ends a VERIFY, with CM");
    verifies("76 80 03 00 04 02 12 1B 02", "00 00 40 03 00 07 02", "SK 1, with EC: it is passed over, and doesn't count");
    verifies("76 00 03 00 04 02 07 1B FF", "00 00 40 04 00 01 02", "SK 1 up to EOT: it is passed over, and the VERIFY is done all the same");
    verifies("F6 00 03 00 04 02 12 1B FF", "44 20 60 03 01 09 02", "with MT it goes on under head 1, up to the damaged sector");
    verifies("76 80 03 00 04 02 07 1B 04", "40 80 40 03 00 07 02", "with EC a sector is missing: EN");
    verifies("56 04 03 01 07 02 12 1B FF", "44 20 20 03 01 09 02", "a check is wrong: DE, with its key");
    choose(1);
    verifies("56 01 00 00 01 02 01 1B FF", "01 00 00 01 00 01 02", "a VERIFY at drive 1");
    choose(0);
    channel(&guest, buffer, 0);
    say("56 00 03 00 01 02 04 1B FF");
    make_steps(&guest, 2000);
    expect(status() == 0x10, "a VERIFY runs");
    MUST(telwyddus_controller_tc(&guest.controller, &guest.lines));
    expect(telwyddus_controller_dack_read(&guest.controller, &byte, &guest.lines) == TELWYDDUS_NOT_ASKED, "no byte is asked for");
    out(&guest, BYTES, 0x08);
    expect(in(&guest, BYTES) == 0xFF && status() == 0x10, "none is given or taken at the port");
    finish(&guest);
    expect_result(1, "00 00 00 04 00 01 02", "and a terminal count doesn't end it");
}

/* ---- READ TRACK */

/* Five sectors under head 1 of cylinder 6, in the order 1, 3, 5, 2, 4. */
static void lay_five(void) {
    static const char *const sent[] = {"45 04 06 01 01 02 05 1B FF", "45 04 06 01 02 02 05 1B FF", "45 04 06 01 03 02 05 1B FF", "45 04 06 01 04 02 05 1B FF",
        "45 04 06 01 05 02 05 1B FF"};
    seek(&guest, 6);
    lay(1, 6, "01 03 05 02 04");
    for (int r = 1; r <= 5; r++) {
        int is_so = execute(sent[r - 1], sector(6, 1, r), 512);
        need(is_so && (guest.result[0] & 0xC0) == 0, "a sector is written");
    }
}

/* The sectors that are read, by their records. */
static void reads(const char *sent, size_t count, size_t passed, const char *wanted, const char *records, const char *what) {
    memset(buffer, 0, sizeof buffer);
    does(sent, count, passed, wanted, what);
    expect(has_sectors(6, 1, records), "its bytes are those of the sectors, as they pass");
}

static void track(void) {
    lay_five();
    reads("42 04 06 01 01 02 05 1B FF", 2560, 2560, "04 00 00 06 01 01 02", "01 03 05 02 04", "READ TRACK with the terminal count after the last sector");
    reads("42 04 06 01 01 02 05 1B FF", ENDLESS, 2560, "44 80 00 06 01 01 02", "01 03 05 02 04", "without one: EN");
    reads("42 04 06 01 03 02 05 1B FF", 1024, 1024, "04 00 00 06 01 03 02", "01 03", "with one after the second sector");
    reads("42 04 06 01 01 02 05 1B FF", 700, 700, "04 00 00 06 01 01 02", "01", "with one within the second");
    reads("42 04 06 01 04 02 05 1B FF", 1024, 1024, "44 04 00 06 01 04 02", "01 03", "its key wasn't met up to there: ND");
    reads("42 04 06 01 09 02 05 1B FF", 2560, 2560, "44 04 00 06 01 09 02", "01 03 05 02 04", "its key isn't on the track: ND");
    reads("42 04 06 01 09 02 02 1B FF", ENDLESS, 1024, "44 84 00 06 01 09 02", "01 03", "and without a terminal count: EN and ND");
    reads("42 04 06 01 04 02 07 1B FF", 3584, 3584, "04 00 00 06 01 04 02", "01 03 05 02 04 01 03", "EOT beyond the sectors: it goes round");
    reads("42 04 06 01 01 02 01 1B FF", 512, 512, "04 00 00 06 01 01 02", "01", "EOT 1: the first alone");
    reads("42 04 06 01 01 02 00 1B FF", 1024, 1024, "04 00 00 06 01 01 02", "01 03", "EOT 00, which is 256");
    gives("0E", "06 ?? ?? ?? ?? ?? 00 ?? ?? ??", "DUMPREG gives that EOT");
    seek(&guest, 0);
    MUST(telwyddus_controller_strap_seeks(&guest.controller, 1));
    reads("42 04 06 01 01 02 05 1B FF", 512, 512, "24 00 00 06 01 01 02", "01", "by the strap READ TRACK seeks, and ST0 has SE");
    MUST(telwyddus_controller_strap_seeks(&guest.controller, 0));
    expect(heads(0) == 6, "and the heads are there");
}

/* The terminal count comes between two sectors. */
static void count_between(void) {
    size_t passed = 0, asked = 0;
    seek(&guest, 6);
    say("42 04 06 01 01 02 05 1B FF");
    for (long i = 0; i < 100000 && passed < 512; i++) {
        make_steps(&guest, 1);
        for (; has_line(&guest, TELWYDDUS_DRQ); passed++) MUST(telwyddus_controller_dack_read(&guest.controller, buffer, &guest.lines));
    }
    make_steps(&guest, 20);
    MUST(telwyddus_controller_tc(&guest.controller, &guest.lines));
    for (long i = 0; i < 100000 && !is_int(); i++) {
        make_steps(&guest, 1);
        for (; has_line(&guest, TELWYDDUS_DRQ); asked++) MUST(telwyddus_controller_dack_read(&guest.controller, buffer, &guest.lines));
    }
    finish(&guest);
    expect_result(passed == 512 && asked == 0, "04 00 00 06 01 01 02", "with a terminal count between two sectors no byte more is asked for");
}

/* From the first byte to the results READ TRACK takes less than a turn. It takes as many bytes of each sector as its own
 * N says. */
static void one_turn(void) {
    size_t passed = 0;
    long first = 0, last = 0;
    seek(&guest, 2);
    say("42 00 02 00 01 02 12 1B FF");
    for (long i = 0; i < 100000 && !is_int(); i++) {
        make_steps(&guest, 1);
        if (passed == 0) first = i;
        last = i;
        for (; has_line(&guest, TELWYDDUS_DRQ); passed++) MUST(telwyddus_controller_dack_read(&guest.controller, buffer, &guest.lines));
    }
    finish(&guest);
    expect_result(passed == 18 * 512 && last - first < 12500, "40 80 00 02 00 01 02", "18 sectors pass in one turn");
    memset(buffer, 0, sizeof buffer);
    does("42 00 02 00 01 01 03 1B FF", ENDLESS, 3 * 256, "40 A4 20 02 00 01 01", "READ TRACK with an N that is less than the sectors': DE and DD");
    for (int r = 1; r <= 3; r++) expect(memcmp(buffer + 256 * (r - 1), sector(2, 0, r), 256) == 0, "the first bytes of each");
}

/* Standard tracks: a whole one, and one whose ninth content is damaged. */
static void whole_track(void) {
    seek(&guest, 2);
    does("42 00 02 00 12 02 12 1B FF", 18 * 512, 18 * 512, "00 00 00 02 00 12 02", "READ TRACK of 18 sectors");
    expect(has_sectors(2, 0, ALL), "each in its order");
    seek(&guest, 3);
    does("42 04 03 01 01 02 0A 1B FF", 10 * 512, 10 * 512, "44 20 20 03 01 01 02", "a check is wrong within: DE, and all sectors are read");
    buffer[8 * 512 + 300] ^= 0x01;
    expect(has_sectors(3, 1, "01 02 03 04 05 06 07 08 09 0A"), "the damaged one too, as it is");
}

static void track_fails(void) {
    telwyddus_tray tray = {0};
    seek(&guest, 6);
    channel(&guest, buffer, 0);
    say("42 04 06 01 01 02 05 1B FF");
    for (long i = 0; i < 100000 && !is_int(); i++) make_steps(&guest, 1);
    finish(&guest);
    expect_result(1, "44 10 00 06 01 01 02", "READ TRACK whose bytes aren't taken: OR");
    MUST(telwyddus_controller_eject(&guest.controller, 1, &tray, &guest.lines));
    MUST(telwyddus_tray_free(&tray));
    choose(1);
    does("42 01 00 00 01 02 05 1B FF", 512, 0, "41 01 00 00 00 01 02", "READ TRACK of no medium: MA");
    insert_in(&guest, 1, blank, SMALL);
    does("42 01 00 00 01 02 05 1B FF", 512, 0, "41 01 00 00 00 01 02", "of a track that isn't formatted: MA");
    choose(0);
}

int main(void) {
    make_disk();
    power_up();
    settings();
    perpendicular();
    resets();
    tape_drive();
    locked_fifo();
    codes();
    relative();
    overlapped();
    in_turn();
    while_moving();
    held();
    unsensed();
    refusals();
    cylinders();
    identify();
    verify();
    verify_marks();
    track();
    count_between();
    one_turn();
    whole_track();
    track_fails();
    expect_no_more();
    return 0;
}
