/* A machine around the bare controller: channel 2 of an 8237, 1 MiB of memory, the latch of interrupt line 6, and
 * the parts of a plan that are about the bus. */
#include "machine.h"
#include <stdio.h>
#include <string.h>

static uint8_t memory[1 << 20];
static uint16_t address, count;
static uint8_t page, mode, command, status;
static bool second_byte, is_masked = true, latch, line;

/* ---- from a plan: the steps after port accesses, the steps before a request is granted, and spurious interrupts */

typedef struct { uint32_t steps[64], left[64], count, at; } Delays;
static Delays gaps, holds, strays;
static uint32_t ahead, hold, until_stray;       /* steps that a gap has made already; steps that a request still has to wait; steps until the next spurious interrupt */
static bool is_asked;                           /* a request is up, and its latency was taken from the plan */

static uint32_t next_of(Delays *delays) {
    while (delays->at < delays->count && !delays->left[delays->at]) delays->at++;
    if (delays->at == delays->count) return 0;
    delays->left[delays->at]--;
    return delays->steps[delays->at];
}

static bool take_line(const char *line, const char *form, Delays *delays) {
    unsigned steps, times;
    if (sscanf(line, form, &steps, &times) != 2) return true;
    if (delays->count == 64) return false;
    delays->steps[delays->count] = steps;
    delays->left[delays->count++] = times;
    return true;
}

bool bare_plan(const char *text) {
    size_t line;
    gaps = holds = strays = (Delays){0};
    until_stray = 0;
    if (!chip_plan(text, &line)) return false;
    for (const char *at = text; at && *at; at = strchr(at, '\n'), at += at != NULL)
        if (!take_line(at, " gap %u %u", &gaps) || !take_line(at, " hold %u %u", &holds) || !take_line(at, " stray %u %u", &strays)) return false;
    until_stray = next_of(&strays);
    return true;
}

/* ---- the channel */

static bool grants(void) { return !is_masked && !(command & 4) && (mode & 0xF0) == 0x40 && (mode & 0x0C) != 0x0C; }

/* Called after every call of the library: moves bytes by DMA while the controller asks and no latency is left, and
 * looks for the line's edge. */
static void attend(void) {
    uint8_t lines;
    while ((lines = chip_lines()) & CHIP_DRQ && grants()) {
        if (!is_asked) hold = next_of(&holds);
        is_asked = true;
        if (hold) break;
        uint8_t kind = mode >> 2 & 3, *place = memory + ((page & 15) << 16 | address);
        if (lines & CHIP_TO_MEMORY) {
            uint8_t byte = chip_dack_read();
            if (kind == 1) *place = byte;
        } else chip_dack_write(kind == 2 ? *place : 0xFF);
        address++;
        if (!count--) {
            status |= 4;
            is_masked = true;
            chip_tc();
        }
        if (!(chip_lines() & CHIP_DRQ)) is_asked = false;
    }
    lines = chip_lines();
    if (!(lines & CHIP_DRQ)) is_asked = false, hold = 0;
    if (lines & CHIP_INT && !line) latch = true;
    line = lines & CHIP_INT;
}

/* Makes steps, at most `most`, up to one in which anything changes; returns how many it made. */
static uint32_t pass(uint32_t most) {
    uint32_t made = most;
    if (hold && hold < made) made = hold;
    if (until_stray && until_stray < made) made = until_stray;
    made = chip_run(made);
    if (hold) hold -= made;
    if (until_stray && !(until_stray -= made)) {
        latch = true;
        until_stray = next_of(&strays);
    }
    attend();
    return made;
}

static void gap(void) {
    uint32_t steps = next_of(&gaps);
    ahead += steps;
    while (steps) steps -= pass(steps);
}

static uint16_t with_half(uint16_t old, uint8_t value) {
    second_byte = !second_byte;
    return (uint16_t)(second_byte ? (old & 0xFF00) | value : value << 8 | (old & 0xFF));
}

static uint8_t half_of(uint16_t value) {
    second_byte = !second_byte;
    return (uint8_t)(second_byte ? value : value >> 8);
}

static uint8_t in(uint16_t port) {
    uint8_t value = 0xFF;
    switch (port) {
    case 0x04: return half_of(address);
    case 0x05: return half_of(count);
    case 0x08: value = status; status = 0; return value;
    case 0x81: return page;
    }
    if (port < 0x10) return 0xFF;
    value = chip_in(port);
    attend();
    gap();
    return value;
}

static void out(uint16_t port, uint8_t value) {
    switch (port) {
    case 0x04: address = with_half(address, value); return;
    case 0x05: count = with_half(count, value); return;
    case 0x08: command = value; return;
    case 0x0A: if ((value & 3) == 2) is_masked = value & 4; return;
    case 0x0B: if ((value & 3) == 2) mode = value; return;
    case 0x0C: second_byte = false; return;
    case 0x0D: second_byte = false; status = command = 0; is_masked = true; return;
    case 0x0E: is_masked = false; return;
    case 0x0F: is_masked = value & 4; return;
    case 0x81: page = value; return;
    }
    if (port < 0x10) return;
    chip_out(port, value);
    attend();
    gap();
}

static uint32_t run(uint32_t most) {
    uint32_t made = ahead < most ? ahead : most;
    ahead -= made;
    attend();
    while (made < most && !latch) made += pass(most - made);
    return made;
}

static bool take_irq(void) {
    bool was_set = latch;
    latch = false;
    return was_set;
}

static void get(uint32_t from, uint8_t *to, size_t length) { memcpy(to, memory + from, length); }
static void set(uint32_t to, const uint8_t *from, size_t length) { memcpy(memory + to, from, length); }

const Machine bare_controller = {chip_make, chip_insert, chip_image, in, out, run, take_irq, get, set};
