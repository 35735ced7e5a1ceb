/* A guest at the ports of a bare controller, with a DMA channel of its own. */
#ifndef GUEST_H
#define GUEST_H
#include "common.h"

/* Ports, bits of MSR, codes of commands with MFM, and the bits MT and SK of these. */
enum { DOR = 0x3F2, MSR = 0x3F4, BYTES = 0x3F5, CCR = 0x3F7 };
enum { RQM = 0x80, DIO = 0x40, NON_DMA = 0x20, BUSY = 0x10 };
enum { READ = 0x46, READ_DELETED = 0x4C, WRITE = 0x45, WRITE_DELETED = 0x49, FORMAT = 0x4D, MT = 0x80, SK = 0x20 };
enum { EIS = 0x40, FIFO_OFF = 0x20 };

typedef struct {
    telwyddus_controller controller;
    uint8_t *place;             /* the channel: where its next byte is, */
    size_t left, passed;        /* how many are still to pass, with the terminal count after the last, and how many passed */
    uint8_t lines;              /* as the last call gave them */
    unsigned long steps;        /* device steps so far */
    uint8_t result[10];         /* the result bytes of the last command, */
    int results;                /* and how many it had */
} Guest;

static inline void need(int is_so, const char *what) {
    if (!is_so) {
        printf("%s: NO\n", what);
        exit(1);
    }
}

/* The lines that a call gave are those that there are. */
static inline void compare_lines(Guest *guest) {
    uint8_t lines;
    MUST(telwyddus_controller_lines(&guest->controller, &lines));
    need(lines == guest->lines, "a call gives the lines as they are after it");
}

/* ---- the channel */

/* Lets bytes pass while they are asked for, and calls the terminal count after the last. */
static inline uint8_t serve(Guest *guest) {
    MUST(telwyddus_controller_lines(&guest->controller, &guest->lines));
    while (guest->lines & TELWYDDUS_DRQ) {
        need(guest->left > 0, "DRQ is down after the terminal count");
        if (guest->lines & TELWYDDUS_TO_MEMORY) MUST(telwyddus_controller_dack_read(&guest->controller, guest->place, &guest->lines));
        else MUST(telwyddus_controller_dack_write(&guest->controller, *guest->place, &guest->lines));
        guest->place++;
        guest->passed++;
        if (--guest->left == 0) MUST(telwyddus_controller_tc(&guest->controller, &guest->lines));
    }
    compare_lines(guest);
    return guest->lines;
}

static inline void channel(Guest *guest, uint8_t *place, size_t count) {
    guest->place = place;
    guest->left = count;
    guest->passed = 0;
}

/* Makes up to `most` steps; returns whether INT is up. */
static inline int run(Guest *guest, uint32_t most) {
    uint8_t lines = serve(guest);
    while (!(lines & TELWYDDUS_INT) && most > 0) {
        uint32_t made;
        MUST(telwyddus_controller_run(&guest->controller, most, &made, &guest->lines));
        compare_lines(guest);
        most -= made;
        guest->steps += made;
        lines = serve(guest);
    }
    return lines & TELWYDDUS_INT;
}

static inline int has_line(Guest *guest, int line) {
    uint8_t lines;
    MUST(telwyddus_controller_lines(&guest->controller, &lines));
    return (lines & line) != 0;
}

static inline void make_steps(Guest *guest, int count) {
    for (int i = 0; i < count; i++) MUST(telwyddus_controller_step(&guest->controller, &guest->lines));
    guest->steps += (unsigned long)count;
}

/* ---- ports */

static inline uint8_t in(Guest *guest, uint16_t port) {
    uint8_t value;
    MUST(telwyddus_controller_read(&guest->controller, port, &value, &guest->lines));
    compare_lines(guest);
    return value;
}

static inline void out(Guest *guest, uint16_t port, uint8_t value) {
    MUST(telwyddus_controller_write(&guest->controller, port, value, &guest->lines));
    compare_lines(guest);
}

/* Sends the bytes of a command, as long as the controller takes them. */
static inline void put(Guest *guest, const uint8_t *bytes, int count) {
    for (int i = 0; i < count && (in(guest, MSR) & (RQM | DIO)) == RQM; i++) out(guest, BYTES, bytes[i]);
}

/* Runs a command to its end, if it has one, and reads its result bytes. */
static inline void finish(Guest *guest) {
    if (in(guest, MSR) & BUSY && !(in(guest, MSR) & RQM)) need(run(guest, 20000000), "the command ends");
    for (guest->results = 0; (in(guest, MSR) & (RQM | DIO | BUSY)) == (RQM | DIO | BUSY); guest->results++) {
        need(guest->results < 10, "ten result bytes at most");
        guest->result[guest->results] = in(guest, BYTES);
    }
    need((in(guest, MSR) & ~0x0F) == RQM, "the next command is awaited");
}

static inline void command(Guest *guest, const uint8_t *bytes, int count) {
    put(guest, bytes, count);
    finish(guest);
}

/* Sends a command of nine bytes, with a channel of `count` bytes. */
static inline void transfer(Guest *guest, const uint8_t *bytes, uint8_t *place, size_t count) {
    channel(guest, place, count);
    command(guest, bytes, 9);
    guest->left = 0;
}

static inline void configure(Guest *guest, uint8_t options) {
    const uint8_t bytes[] = {0x13, 0, options, 0};
    command(guest, bytes, 4);
}

static inline void sense_interrupt(Guest *guest) {
    const uint8_t bytes[] = {0x08};
    command(guest, bytes, 1);
}

static inline void move_heads(Guest *guest, const uint8_t *bytes, int count, uint8_t cylinder) {
    put(guest, bytes, count);
    need(run(guest, 1000000), "the seek ends");
    sense_interrupt(guest);
    need(guest->results == 2 && guest->result[0] == 0x20 && guest->result[1] == cylinder, "the heads are there");
}

static inline void seek(Guest *guest, uint8_t cylinder) {
    const uint8_t bytes[] = {0x0F, 0, cylinder};
    move_heads(guest, bytes, 3, cylinder);
}

static inline void recalibrate(Guest *guest) {
    const uint8_t bytes[] = {0x07, 0};
    move_heads(guest, bytes, 2, 0);
}

/* Takes the controller out of reset, with drive 0 and its motor on, at 500 kbit/s. The four interrupts after a reset
 * are taken. The heads are on cylinder 0, where the controller believes them to be after a reset. */
static inline void start(Guest *guest) {
    out(guest, DOR, 0x18);
    out(guest, DOR, 0x1C);
    out(guest, CCR, 0);
    need(run(guest, 1000), "INT follows the reset");
    for (int i = 0; i < 4; i++) sense_interrupt(guest);
    recalibrate(guest);
}

/* ---- media */

static inline void insert_in(Guest *guest, uint32_t bay, const uint8_t *image, size_t length) {
    telwyddus_tray tray = {0};
    MUST(telwyddus_tray_read(&tray, image, length));
    MUST(telwyddus_controller_insert(&guest->controller, bay, &tray, &guest->lines));
    MUST(telwyddus_tray_free(&tray));
}

static inline void insert(Guest *guest, const uint8_t *image, size_t length) { insert_in(guest, 0, image, length); }

static inline void make_guest(Guest *guest, const uint8_t *image, size_t length) {
    memset(guest, 0, sizeof *guest);
    MUST(telwyddus_controller_new(&guest->controller));
    insert(guest, image, length);
    start(guest);
}

static inline void image_of(Guest *guest, uint8_t *image, size_t length) {
    size_t told;
    MUST(telwyddus_controller_image(&guest->controller, 0, image, length, &told));
    need(told == length, "the image is as long as ever");
}

#endif
