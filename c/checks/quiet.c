/* quiet - for how long a device of an emulator needs no timer.
 *
 * A guest resets the controller, and seeks with the strap for step times and without it. Then it reads a sector by DMA
 * with the FIFO on. It writes a sector and formats a track, with the FIFO on and off. At each moment the program asks
 * `quiet`, makes as many steps one by one, and compares both lines after each of them. Where the number was worked out by hand, it has to be that number, and the step after it has to change a line. The
 * program also counts the timers that a device like c/examples/device.c sets: it waits for the steps of `quiet` and one
 * more, or for 32 steps if `quiet` gives 0. */
#include "guest.h"
#include "flat.h"

#define SLICE 32
#define SECOND 62500            /* device steps of 16 us */

static Guest guest;
static uint8_t flat[FLAT], image[IMAGE], buffer[512];

static uint32_t quiet(void) {
    uint32_t steps;
    MUST(telwyddus_controller_quiet(&guest.controller, UINT32_MAX, &steps));
    return steps;
}

static uint8_t lines_now(void) {
    uint8_t lines;
    MUST(telwyddus_controller_lines(&guest.controller, &lines));
    return lines & (TELWYDDUS_INT | TELWYDDUS_DRQ);
}

/* Makes steps one by one; returns how many of them left both lines as they were. */
static uint32_t steps_alike(uint32_t most) {
    uint8_t before = lines_now();
    for (uint32_t i = 0; i < most; i++) {
        make_steps(&guest, 1);
        if (lines_now() != before) return i;
    }
    return most;
}

/* `quiet` gives this number, and the step after so many changes a line. */
static void is_exact(uint32_t wanted, const char *what) {
    uint32_t given = quiet();
    if (given != wanted) printf("quiet gives %u, and %u is wanted\n", (unsigned)given, (unsigned)wanted);
    check(given == wanted && steps_alike(wanted + 1) == wanted, what);
}

/* Makes steps as a device does that has a timer, until INT is up: no line changes in quiet steps. Returns how many timers
 * came, and at most so many steps are made. */
static unsigned long timers(uint32_t most) {
    unsigned long timers_set = 0, end = guest.steps + most;
    serve(&guest);
    while (!(lines_now() & TELWYDDUS_INT) && guest.steps < end) {
        uint32_t still = quiet(), due;
        if (still == UINT32_MAX) break;
        need(steps_alike(still) == still, "no line changes in quiet steps");
        timers_set++;
        due = still == 0 ? SLICE : 1;
        while (due > 0 && !(lines_now() & TELWYDDUS_INT)) {
            uint32_t made;
            MUST(telwyddus_controller_run(&guest.controller, due, &made, &guest.lines));
            due -= made;
            guest.steps += made;
            serve(&guest);
        }
    }
    return timers_set;
}

/* After a reset INT comes in the first step. Then nothing runs, with the motor on. */
static void resets(void) {
    out(&guest, DOR, 0x18);
    check(quiet() == UINT32_MAX, "held in reset: no timer");
    out(&guest, DOR, 0x1C);
    is_exact(0, "a reset is over: INT comes in the next step");
    check(quiet() == UINT32_MAX, "INT is up, and stays up: no timer");
    for (int i = 0; i < 4; i++) sense_interrupt(&guest);
    check(quiet() == UINT32_MAX && steps_alike(1000) == 1000, "nothing runs: no timer");
    printf("%lu timers for an emulated second in which only the motor is on\n", timers(SECOND));
}

static void seek_to(uint8_t cylinder) {
    const uint8_t bytes[] = {0x0F, 0, cylinder};
    put(&guest, bytes, 3);
}

static void sense(uint8_t cylinder) {
    sense_interrupt(&guest);
    need(guest.results == 2 && guest.result[0] == 0x20 && guest.result[1] == cylinder, "the heads are there");
}

/* A SEEK over 40 cylinders gives 40 pulses, one a step, and ends in the step after them. */
static void seeks(void) {
    const uint8_t home[] = {0x07, 0}, name[] = {0x4A, 0};
    seek_to(40);
    is_exact(40, "a SEEK over 40 cylinders: 40 steps, then INT");
    sense(40);
    put(&guest, home, 2);
    is_exact(40, "a RECALIBRATE from cylinder 40: 40 steps, then INT");
    sense(0);
    seek_to(7);
    put(&guest, name, 2);
    need((in(&guest, MSR) & 0xF0) == BUSY, "READ ID is held");
    check(quiet() == 7 && steps_alike(7) == 7, "a command is held: 7 steps");
    finish(&guest);
    seek_to(0);
    printf("%lu timer for a SEEK over 7 cylinders\n", timers(SECOND));
    sense(0);
}

/* With SRT D a pulse comes each 187 steps, the first in the first step. The last command is given 187 steps after the last
 * pulse, and ends in the step after it. So INT comes in step 1 + 187 + 1 after one pulse, and after ten in step 1 + 10 *
 * 187 + 1. */
static void paced(void) {
    const uint8_t fast[] = {0x03, 0xDF, 0x02}, home[] = {0x07, 0};
    unsigned long steps;
    MUST(telwyddus_controller_strap_steps(&guest.controller, 1));
    command(&guest, fast, 3);
    seek_to(1);
    is_exact(188, "a SEEK over one cylinder, with the strap for step times");
    sense(1);
    seek_to(11);
    is_exact(1871, "over ten cylinders");
    sense(11);
    seek_to(51);
    steps = guest.steps;
    printf("%lu timer", timers(SECOND));
    printf(" for a SEEK over 40 cylinders that lasts %lu steps\n", guest.steps - steps);
    sense(51);
    put(&guest, home, 2);
    is_exact(1 + 51 * 187, "a RECALIBRATE from cylinder 51");
    sense(0);
    MUST(telwyddus_controller_strap_steps(&guest.controller, 0));
}

/* A read of a sector by DMA, with the FIFO on and threshold 6. */
static void reads(void) {
    const uint8_t bytes[] = {READ, 0, 0, 0, 9, 2, 18, 0x1B, 0xFF};
    unsigned long count, steps = guest.steps;
    configure(&guest, 5);
    channel(&guest, buffer, 512);
    put(&guest, bytes, 9);
    count = timers(SECOND);
    finish(&guest);
    check(guest.results == 7 && guest.result[0] == 0 && guest.passed == 512 && memcmp(buffer, flat + 8 * 512, 512) == 0, "a sector is read in time");
    printf("%lu timers for a read of a sector that lasts %lu steps\n", count, guest.steps - steps);
}

/* A write of a sector by DMA, with these options of CONFIGURE: 05 sets the FIFO on with threshold 6, and 20 sets it off.
 * Each timer but a few is set for a byte, or for 10 bytes with the FIFO on. */
static void writes(uint8_t options, unsigned long most_timers) {
    const uint8_t bytes[] = {WRITE, 0, 0, 0, 9, 2, 18, 0x1B, 0xFF}, again[] = {READ, 0, 0, 0, 9, 2, 18, 0x1B, 0xFF};
    unsigned long count, steps = guest.steps;
    static uint8_t sector[512];
    for (int i = 0; i < 512; i++) sector[i] = (uint8_t)(i * 5 + options);
    configure(&guest, options);
    channel(&guest, sector, 512);
    put(&guest, bytes, 9);
    count = timers(SECOND);
    finish(&guest);
    check(guest.results == 7 && guest.result[0] == 0 && guest.passed == 512 && count <= most_timers, "a sector is written in time, with few timers");
    printf("%lu timers for a write of a sector that lasts %lu steps\n", count, guest.steps - steps);
    transfer(&guest, again, buffer, 512);
    check(guest.results == 7 && guest.result[0] == 0 && memcmp(buffer, sector, 512) == 0, "the sector is written");
}

/* A FORMAT of a track of 18 sectors by DMA. */
static void formats(uint8_t options, unsigned long most_timers) {
    const uint8_t bytes[] = {FORMAT, 0, 2, 18, 0x6C, 0xF6};
    unsigned long count, steps = guest.steps;
    static uint8_t keys[4 * 18];
    for (uint8_t r = 1; r <= 18; r++) {
        const uint8_t key[] = {0, 0, r, 2};
        memcpy(keys + 4 * (r - 1), key, 4);
    }
    configure(&guest, options);
    channel(&guest, keys, sizeof keys);
    put(&guest, bytes, 6);
    count = timers(SECOND);
    finish(&guest);
    check(guest.results == 7 && guest.result[0] == 0 && guest.passed == sizeof keys && count <= most_timers, "a track is formatted in time, with few timers");
    printf("%lu timers for a FORMAT of a track that lasts %lu steps\n", count, guest.steps - steps);
}

int main(void) {
    for (size_t i = 0; i < FLAT; i++) flat[i] = (uint8_t)(i * 31 + i / 512 * 7);
    import_flat(flat, image);
    make_guest(&guest, image, IMAGE);
    resets();
    recalibrate(&guest);
    seeks();
    paced();
    reads();
    writes(0x05, 100);
    writes(0x20, 600);
    formats(0x05, 40);
    formats(0x20, 120);
    MUST(telwyddus_controller_free(&guest.controller));
    return 0;
}
