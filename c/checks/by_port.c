/* by_port - the non-DMA mode: SPECIFY sets ND, and the bytes of data commands pass at the data port.
 *
 * At each look MSR and INT say whether a byte is asked for. MSR is F0 with INT up for a byte to be read, B0 with INT
 * up for a byte to be written, and else 30 with INT down. How many bytes pass one after the other, with no step
 * between, follows from the threshold by the FIFO's rule in the 82077AA data sheet. DRQ stays down. */
#include "texts.h"
#include "flat.h"

#define CYLINDERS 6
#define SMALL (14 + CYLINDERS * 2 * 25000)
#define TRACK (18 * 512)
#define ENDLESS (sizeof buffer)

enum { TO_HOST = 0xF0, FROM_HOST = 0xB0 };

static uint8_t flat[FLAT], image[SMALL], buffer[3 * TRACK];

static uint8_t *sector(int c, int h, int r) { return flat + ((c * 2 + h) * 18 + r - 1) * 512; }

/* ---- bytes at the port */

/* What passed: how many bytes, in which portions, and whether MSR, INT and DRQ were right at each look. */
static size_t passed;
static int portion[2 * TRACK], portions, is_as_wanted;

/* Reads MSR, which has to be that of execution or `asks`, and checks INT with it. */
static int is_asked(uint8_t asks) {
    uint8_t is = status();
    is_as_wanted = is_as_wanted && (is == 0x30 || is == asks) && is_int() == (is == asks) && !has_line(&guest, TELWYDDUS_DRQ);
    return is == asks;
}

/* Lets bytes pass while they are asked for, and at most `count`. */
static void pass_portion(uint8_t asks, uint8_t *place, size_t count, int tells) {
    size_t before = passed;
    for (; passed < count && is_asked(asks); passed++) {
        if (asks == TO_HOST) place[passed] = in(&guest, BYTES);
        else out(&guest, BYTES, place[passed]);
    }
    if (passed == before) return;
    need(portions < 2 * TRACK, "so many portions at most");
    portion[portions++] = (int)(passed - before);
    if (passed == count && tells) MUST(telwyddus_controller_tc(&guest.controller, &guest.lines));
}

/* Runs up to the results, and reads them. After the last byte no further one may be asked for. */
static void pass(const char *sent, uint8_t asks, uint8_t *place, size_t count, int tells) {
    uint32_t made;
    passed = 0;
    portions = 0;
    is_as_wanted = 1;
    say(sent);
    for (long i = 0; i < 400000 && (status() & 0xF0) != 0xD0; i++) {
        pass_portion(asks, place, count, tells);
        if (passed == count && is_asked(asks)) is_as_wanted = 0;
        if (is_int()) make_steps(&guest, 1);
        else MUST(telwyddus_controller_run(&guest.controller, 100000, &made, &guest.lines));
    }
    is_as_wanted = is_as_wanted && is_int();
    finish(&guest);
    is_as_wanted = is_as_wanted && !is_int();
}

/* The bytes of each of `fields` fields passed in portions of these sizes: `first` the first, `more` the later ones,
 * and the last has what is left. */
static int are_portions(size_t field, int fields, int first, int more) {
    int at = 0;
    for (int i = 0; i < fields; i++) {
        size_t left = field;
        for (int most = first; left > 0; most = more, at++) {
            int wanted = left < (size_t)most ? (int)left : most;
            if (at == portions || portion[at] != wanted) return 0;
            left -= (size_t)wanted;
        }
    }
    return at == portions;
}

static void expect_passed(int is_so, size_t count, const char *wanted, const char *what) {
    if (passed != count) printf("  %lu bytes passed, %lu wanted\n", (unsigned long)passed, (unsigned long)count);
    if (!is_as_wanted) printf("  MSR, INT or DRQ isn't as it has to be\n");
    expect_result(is_so && is_as_wanted && passed == count, wanted, what);
}

/* ---- whole tracks */

/* Options of CONFIGURE, and the bytes of a portion to the host and from it: of the first portion of a field, and of
 * the later ones. */
typedef struct {
    const char *sent, *what;
    int read, first, written;
} Mode;

static const Mode modes[] = {
    {"13 00 20 00", "the FIFO is off", 1, 1, 1},
    {"13 00 00 00", "a threshold of 1", 15, 16, 15},
    {"13 00 04 00", "a threshold of 5", 11, 16, 11},
    {"13 00 07 00", "a threshold of 8", 8, 16, 8},
    {"13 00 0F 00", "a threshold of 16", 1, 16, 1},
};

static void whole_track(const Mode *mode, uint8_t salt) {
    static uint8_t written[TRACK];
    gives(mode->sent, "", mode->what);
    for (size_t i = 0; i < TRACK; i++) written[i] = (uint8_t)(i * 13 + i / 512 + salt);
    pass("45 04 01 01 01 02 12 1B FF", FROM_HOST, written, TRACK, 0);
    expect_passed(are_portions(512, 18, mode->first, mode->written), TRACK, "44 80 00 01 01 12 02", "a track is written, and ends with EN");
    pass("46 04 01 01 01 02 12 1B FF", TO_HOST, buffer, ENDLESS, 0);
    expect_passed(are_portions(512, 18, mode->read, mode->read), TRACK, "44 80 00 01 01 12 02", "it is read, and ends with EN");
    expect(memcmp(buffer, written, TRACK) == 0, "what is read was written");
}

/* Formats a track, and reads each of its sectors. */
static void whole_format(const Mode *mode) {
    uint8_t keys[72];
    size_t same = 0;
    gives(mode->sent, "", mode->what);
    for (uint8_t i = 0; i < 18; i++) {
        const uint8_t key[] = {1, 0, (uint8_t)(i + 1), 2};
        memcpy(keys + 4 * i, key, 4);
    }
    pass("4D 00 02 12 6C A5", FROM_HOST, keys, sizeof keys, 0);
    expect_passed(are_portions(72, 1, mode->first, mode->written), 72, "00 00 00 01 00 12 02", "a track is formatted by the keys of its sectors");
    pass("46 00 01 00 01 02 12 1B FF", TO_HOST, buffer, ENDLESS, 0);
    for (size_t i = 0; i < TRACK; i++) same += buffer[i] == 0xA5;
    expect_passed(same == TRACK, TRACK, "40 80 00 01 00 12 02", "and has its fill bytes");
}

/* ---- the terminal count, other commands */

static void counts(void) {
    gives("13 00 20 00", "", "the FIFO is off");
    pass("46 04 02 01 03 02 12 1B FF", TO_HOST, buffer, 1024, 1);
    expect_passed(memcmp(buffer, sector(2, 1, 3), 1024) == 0, 1024, "04 00 00 02 01 05 02", "the terminal count may be told all the same");
    pass("46 04 02 01 03 02 12 1B FF", TO_HOST, buffer, 700, 1);
    expect_passed(memcmp(buffer, sector(2, 1, 3), 700) == 0, 700, "04 00 00 02 01 05 02", "within a sector no byte more is asked for");
    pass("C6 00 02 00 12 02 12 1B FF", TO_HOST, buffer, ENDLESS, 0);
    expect_passed(memcmp(buffer, sector(2, 0, 18), 19 * 512) == 0, 19 * 512, "44 80 00 02 01 12 02", "with MT from head 0 to head 1, up to EN");
    seek(&guest, 3);
    memset(buffer, 0xC3, 600);
    pass("C5 00 03 00 12 02 12 1B FF", FROM_HOST, buffer, 600, 1);
    expect_passed(1, 600, "04 00 00 03 01 02 02", "a write over both heads, with a terminal count");
    memset(buffer, 0, sizeof buffer);
    pass("C6 00 03 00 12 02 12 1B FF", TO_HOST, buffer, 1024, 1);
    expect_passed(buffer[0] == 0xC3 && buffer[599] == 0xC3 && buffer[600] == 0 && buffer[1023] == 0, 1024, "04 00 00 03 01 02 02", "what wasn't given is 00");
}

static void others(void) {
    uint8_t byte;
    pass("56 00 02 00 01 02 03 1B FF", TO_HOST, buffer, 0, 0);
    expect_passed(1, 0, "00 00 00 03 00 01 02", "VERIFY asks for no byte");
    pass("4A 00", TO_HOST, buffer, 0, 0);
    expect_passed(1, 0, "00 00 00 02 00 ?? 02", "nor does READ ID");
    pass("46 00 02 00 01 07 12 1B FF", TO_HOST, buffer, 0, 0);
    expect_passed(1, 0, "40 04 00 02 00 01 07", "nor one that this medium can't have");
    pass("46 00 03 00 01 02 12 1B FF", TO_HOST, buffer, 0, 0);
    expect_passed(1, 0, "40 04 10 03 00 01 02", "nor one whose sector isn't there");
    pass("42 00 02 00 01 02 02 1B FF", TO_HOST, buffer, ENDLESS, 0);
    expect_passed(memcmp(buffer, sector(2, 0, 1), 1024) == 0 && are_portions(512, 2, 1, 1), 1024, "40 80 00 02 00 01 02", "READ TRACK gives its bytes");
    say("46 00 02 00 05 02 05 1B FF");
    expect(status() == 0x30 && in(&guest, BYTES) == 0xFF && status() == 0x30, "where none is asked for the port gives FF");
    out(&guest, BYTES, 0x08);
    need(run(&guest, 40000), "a byte comes");
    expect(telwyddus_controller_dack_read(&guest.controller, &byte, &guest.lines) == TELWYDDUS_NOT_ASKED && status() == 0xF0, "DACK takes none");
    make_steps(&guest, 40);
    expect(status() == 0xD0, "a byte that isn't read in time ends the command");
    finish(&guest);
    expect_result(1, "40 10 00 02 00 05 02", "with OR");
}

/* DOR keeps INT and DRQ from the bus: MSR says the same as without that. */
static void gate(void) {
    size_t count = 0;
    int is_down = 1;
    out(&guest, DOR, 0x14);
    expect(in(&guest, DOR) == 0x14, "DOR is read as it was written");
    say("46 00 02 00 05 02 05 1B FF");
    for (long i = 0; i < 40000 && (status() & 0xF0) != 0xD0; i++) {
        if (status() == 0xF0) buffer[count++] = in(&guest, BYTES);
        is_down = is_down && !is_int() && !has_line(&guest, TELWYDDUS_DRQ);
        make_steps(&guest, 1);
    }
    expect(count == 512 && memcmp(buffer, sector(2, 0, 5), 512) == 0, "where DOR keeps INT in, MSR asks for the bytes all the same");
    expect(is_down && !is_int(), "and INT stays down");
    out(&guest, DOR, 0x1C);
    expect(is_int() && in(&guest, DOR) == 0x1C, "until DOR lets it out");
    finish(&guest);
    expect_result(1, "40 80 00 02 00 05 02", "with its results");
}

static void by_channel(void) {
    gives("03 DF 02", "", "SPECIFY clears ND");
    int is_so = execute("46 00 02 00 05 02 12 1B FF", buffer, 512);
    expect_result(is_so && guest.passed == 512 && memcmp(buffer, sector(2, 0, 5), 512) == 0, "00 00 00 02 00 06 02", "then DMA moves the bytes");
}

int main(void) {
    for (size_t i = 0; i < FLAT; i++) flat[i] = (uint8_t)(i * 31 + i / 512 * 7);
    import_some(flat, image, CYLINDERS);
    make_guest(&guest, image, SMALL);
    gives("03 DF 03", "", "SPECIFY sets ND");
    seek(&guest, 1);
    for (size_t i = 0; i < sizeof modes / sizeof modes[0]; i++) whole_track(&modes[i], (uint8_t)i);
    for (size_t i = 0; i < sizeof modes / sizeof modes[0]; i++) whole_format(&modes[i]);
    seek(&guest, 2);
    counts();
    seek(&guest, 2);
    others();
    gate();
    by_channel();
    expect_no_more();
    return 0;
}
