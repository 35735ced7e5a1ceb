/* The floppy machine on the bus, its DMA, and the adapter. */
#include "floppy.h"
#include <string.h>

struct floppy_counts floppy_counts;
#define N floppy_counts

int floppy_fifo = -1;

static const Machine *machine;
static uint8_t *ram;
static FILE *log_to;

static void note(const char *what, uint16_t port, uint8_t value) {
    if (log_to) fprintf(log_to, "%llu %s %03X %02X\n", (unsigned long long)N.words, what, port, value);
}

static uint8_t raw_in(uint16_t port) {
    uint8_t value = machine->in(port);
    note("in", port, value);
    return value;
}

/* A read of MSR has no side effect, so the adapter looks at it without a line in the log. */
static uint8_t peek_msr(void) { return machine->in(0x3F4); }

static void raw_out(uint16_t port, uint8_t value) {
    note("out", port, value);
    machine->out(port, value);
}

static uint32_t raw_run(uint32_t most) {
    uint32_t made = machine->run(most);
    N.words += made;
    return made;
}

static bool raw_irq(void) {
    bool was_set = machine->take_irq();
    if (was_set) note("irq", 6, 1);
    return was_set;
}

/* ---- DMA: what the PC programmed, from which this file knows the bytes that pass */

static struct { bool flip; uint16_t base, count; uint8_t page, mode; } dma;

static void dma_snoop_out(uint16_t port, uint8_t v) {
    uint16_t *r = port == 4 ? &dma.base : &dma.count;
    switch (port) {
    case 0x04: case 0x05:
        *r = (uint16_t)(dma.flip ? v << 8 | (*r & 0xFF) : (*r & 0xFF00) | v);
        dma.flip = !dma.flip;
        break;
    case 0x0B: if ((v & 3) == 2) dma.mode = v; break;
    case 0x0C: case 0x0D: dma.flip = false; break;
    case 0x81: dma.page = v; break;
    }
}

/* The region of the transfer. It has at most two pieces, since the address wraps within its page. */
static void dma_copy(bool to_machine) {
    uint32_t page = (uint32_t)(dma.page & 15) << 16, left = dma.count + 1u, place = dma.base;
    while (left) {
        uint32_t piece = 0x10000 - place < left ? 0x10000 - place : left;
        if (to_machine) machine->set(page + place, ram + page + place, piece);
        else machine->get(page + place, ram + page + place, piece);
        left -= piece;
        place = 0;
    }
}

/* ---- the adapter: MT, SK and several sectors a command, which the controller doesn't have
 *
 * A command for many sectors becomes many commands. DMA is set anew for each. If it were set to the whole count, the
 * FIFO of a write would take bytes of the next sector, and these would be lost when the command ends. */

static struct {
    int level;
    uint8_t cmd[9], given, need, cyl[4];
    bool held;                          /* its bytes are kept back */
    bool data, mt;                      /* it reads or writes sectors; it does so on both sides */
    bool running, seeking;              /* such a command goes on by itself; it does so after a seek of the adapter's own */
    bool moving;                        /* a command that writes the PC's memory */
    bool sensing;                       /* ST0 of a SENSE INTERRUPT is the next byte */
    uint32_t place, rest;               /* the address within the page; the bytes that are still to be moved */
    uint8_t result[7], at, left;        /* results kept for the PC */
} A;

static uint8_t bytes_of(uint8_t code) {
    switch (code & 0x1F) {
    case 0x03: case 0x0F: return 3;
    case 0x04: case 0x07: case 0x0A: return 2;
    case 0x13: return 4;
    case 0x05: case 0x06: case 0x09: return 9;
    case 0x0D: return 6;
    default: return 1;
    }
}

static bool last_sector(void) { return A.cmd[4] == A.cmd[6] && !(A.mt && !A.cmd[3]); }

static uint32_t sector_bytes(void) { return 128u << (A.cmd[5] & 7); }

static void hidden_out(uint16_t port, uint8_t v) {
    N.hidden++;
    raw_out(port, v);
}

/* Sets DMA for the next sector alone. For the last sector it sets all that is left, so that no TC comes there. */
static void set_piece(void) {
    uint32_t n = last_sector() || A.rest < sector_bytes() ? A.rest : sector_bytes();
    hidden_out(0x0A, 0x06);
    hidden_out(0x0C, 0);
    hidden_out(0x04, (uint8_t)A.place);
    hidden_out(0x04, (uint8_t)(A.place >> 8));
    hidden_out(0x05, (uint8_t)(n - 1));
    hidden_out(0x05, (uint8_t)((n - 1) >> 8));
    hidden_out(0x0A, 0x02);
    dma.flip = false;
}

/* MSR as the PC sees it. */
static uint8_t seen_msr(void) {
    if (A.left) return 0xD0 | (peek_msr() & 15);
    if (A.held) return A.given == A.need ? 0x10 : 0x90;
    return peek_msr();
}

static void send_held(void) {
    A.held = false;
    for (int i = 0; i < A.need; i++) raw_out(0x3F5, A.cmd[i]);
}

/* Called when the PC has given the last byte of a data command. */
static void complete(uint8_t kind) {
    N.data_commands++;
    if (A.data || kind == 0x0D) dma_copy(true);
    A.running = A.level >= ADAPT_MULTI && A.data;
    A.moving = (dma.mode & 0x0C) == 0x04 && A.data;
    A.place = dma.base;
    A.rest = dma.count + 1u;
    if (A.running && A.rest > sector_bytes() && !last_sector()) set_piece();
    if (!A.held) return;
    uint8_t d = A.cmd[1] & 3;
    uint8_t c = A.data ? A.cmd[2] : ram[((uint32_t)(dma.page & 15) << 16) + dma.base];
    if (c == A.cyl[d]) { send_held(); return; }
    A.cyl[d] = c;
    A.seeking = true;
    hidden_out(0x3F5, 0x0F);
    hidden_out(0x3F5, A.cmd[1]);
    hidden_out(0x3F5, c);
}

static void command_byte(uint8_t v) {
    uint8_t msr = seen_msr(), kind = v & 0x1F;
    if ((msr & 0xC0) != 0x80) {
        if (!A.left && !A.held) raw_out(0x3F5, v);
        return;
    }
    if (!(msr & 0x10)) {
        A.given = 0;
        A.need = bytes_of(v);
        A.data = v & 0x40 && (kind == 5 || kind == 6 || kind == 9);
        A.mt = v & 0x80;
        A.held = A.level == ADAPT_SEEK && (A.data || kind == 0x0D);
        N.commands[v]++;
        A.sensing = v == 0x08;
        if (A.level && A.data) v &= 0x5F;
    }
    A.cmd[A.given++] = v;
    kind = A.cmd[0] & 0x1F;
    if (A.given == A.need) {
        if (kind == 0x07) A.cyl[A.cmd[1] & 3] = 0;
        if (kind == 0x0F) A.cyl[A.cmd[1] & 3] = A.cmd[2];
        if (A.data || kind == 0x0D || kind == 0x0A) {
            bool held = A.held;
            complete(kind);
            if (held) return;
        }
    }
    if (!A.held) raw_out(0x3F5, v);
}

/* Called at the interrupt of a read or write: begins the next sector, or returns false if the command is over. */
static bool goes_on(void) {
    if (peek_msr() != 0xD0) return true;        /* this isn't the end of the command: the interrupt isn't passed on */
    for (int i = 0; i < 7; i++) A.result[i] = raw_in(0x3F5);
    N.hidden += 7;
    if (!(A.result[0] & 0xC0) && A.rest > sector_bytes()) {
        A.rest -= sector_bytes();
        A.place += sector_bytes();
        if (A.cmd[4] == A.cmd[6]) { A.cmd[4] = 1; A.cmd[3] = 1; A.cmd[1] |= 4; }
        else A.cmd[4]++;
        set_piece();
        for (int i = 0; i < 9; i++) hidden_out(0x3F5, A.cmd[i]);
        N.continued++;
        return true;
    }
    A.running = false;
    A.at = 0;
    A.left = 7;
    return false;
}

/* ---- what the PC sees */

static uint8_t dor;

static void configure(void) {
    const uint8_t bytes[] = {0x13, 0x00, (uint8_t)floppy_fifo, 0x00};
    for (int i = 0; i < 4; i++) hidden_out(0x3F5, bytes[i]);
}

void floppy_new(const Machine *used, int adapt, uint8_t *pc_ram, FILE *log) {
    machine = used;
    machine->make();
    A.level = adapt;
    ram = pc_ram;
    log_to = log;
}

bool floppy_has(uint16_t port) {
    return (port >= 0x3F2 && port <= 0x3F5) || port == 0x3F7 || port < 0x10 || port == 0x81;
}

uint8_t floppy_in(uint16_t port) {
    N.ins++;
    if (port == 0x3F4 && (A.left || A.held)) return seen_msr();
    if (A.left && port == 0x3F5) { A.left--; return A.result[A.at++]; }
    if (port == 4 || port == 5) dma.flip = !dma.flip;
    uint8_t value = raw_in(port);
    if (port != 0x3F5) return value;
    if (A.sensing && value & 0x10) N.not_at_zero++;
    A.sensing = false;
    return value;
}

void floppy_out(uint16_t port, uint8_t v) {
    N.outs++;
    dma_snoop_out(port, v);
    if (port == 0x3F5) { command_byte(v); return; }
    if ((port == 0x3F2 && !(v & 4)) || (port == 0x3F4 && v & 0x80)) {
        A.running = A.moving = A.seeking = A.held = false;
        A.left = 0;
    }
    bool leaves_reset = port == 0x3F2 && v & 4 && !(dor & 4);
    if (port == 0x3F2) dor = v;
    raw_out(port, v);
    if (leaves_reset && floppy_fifo >= 0) configure();
}

/* The latch was set: does what the adapter has to do then, and returns whether the PC gets the interrupt. */
static bool interrupt(void) {
    if (A.seeking) {
        A.seeking = false;
        hidden_out(0x3F5, 0x08);
        for (int i = 0; i < 2; i++, N.hidden++) raw_in(0x3F5);
        raw_run(1);                     /* otherwise INT could rise again unseen: NW comes in the first step */
        send_held();
        return false;
    }
    if (A.running && goes_on()) return false;
    if (A.moving && (A.left || peek_msr() == 0xD0)) {
        dma_copy(false);
        A.moving = false;
    }
    N.irqs++;
    return true;
}

bool floppy_words(uint32_t count) {
    bool told = false;
    while (count) {
        count -= raw_run(count);
        if (raw_irq()) told |= interrupt();
    }
    return told;
}
