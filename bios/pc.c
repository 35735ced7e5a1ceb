#include "pc.h"
#include "floppy.h"
#include <string.h>

uint8_t pc_ram[RAM_BYTES];
struct pc_counts pc_counts;
bool pc_verbose;
void (*pc_asked)(void);
static FILE *printed;
char pc_tail[4096];

static uint64_t words;                  /* word times since the start */

/* ---- two 8259 */

static struct Pic { uint8_t irr, isr, imr, base, icw; bool isr_read, icw4; } pic[2];

void pc_irq(int line, bool on) {
    struct Pic *p = &pic[line >> 3];
    if (on) p->irr |= (uint8_t)(1 << (line & 7));
    else p->irr &= (uint8_t)~(1 << (line & 7));
}

static int highest(const struct Pic *p, uint8_t extra) {
    uint8_t want = (uint8_t)((p->irr | extra) & ~p->imr);
    for (int i = 0; i < 8; i++) {
        if (p->isr >> i & 1) return -1;
        if (want >> i & 1) return i;
    }
    return -1;
}

static int pending_line(void) {
    int low = highest(&pic[1], 0);
    int line = highest(&pic[0], low >= 0 ? 4 : 0);
    return line == 2 && low >= 0 ? 8 + low : line;
}

int pc_pending(void) {
    int line = pending_line();
    return line < 0 ? -1 : pic[line >> 3].base + (line & 7);
}

int pc_take(void) {
    int line = pending_line();
    if (line < 0) return -1;
    if (line > 7) pic[0].isr |= 4;
    pic[line >> 3].isr |= (uint8_t)(1 << (line & 7));
    pic[line >> 3].irr &= (uint8_t)~(1 << (line & 7));
    return pic[line >> 3].base + (line & 7);
}

static void pic_out(struct Pic *p, int a, uint8_t v) {
    if (!a) {
        if (v & 0x10) { *p = (struct Pic){.icw = 1, .icw4 = v & 1}; }
        else if (v & 8) { if (v & 2) p->isr_read = v & 1; }
        else if ((v & 0xE0) == 0x20) p->isr &= (uint8_t)(p->isr - 1);
        else if ((v & 0xE0) == 0x60) p->isr &= (uint8_t)~(1 << (v & 7));
        return;
    }
    switch (p->icw) {
    case 1: p->base = v & 0xF8; p->icw = 2; break;
    case 2: p->icw = p->icw4 ? 3 : 0; break;
    case 3: p->icw = 0; break;
    default: p->imr = v;
    }
}

static uint8_t pic_in(struct Pic *p, int a) { return a ? p->imr : p->isr_read ? p->isr : p->irr; }

/* ---- 8254: 1.193182 MHz, 19.09 clocks in a word time */

static struct Timer {
    uint32_t load, count;               /* 0 stands for 65536 */
    uint16_t latch;
    uint8_t mode, access;
    bool high_w, high_r, latched, gate, out;
} timer[3];
static uint64_t clocks;

static uint8_t port61, refresh;

static void timer_clocks(int i, uint32_t n) {
    struct Timer *t = &timer[i];
    if (i == 2 && !(port61 & 1)) return;
    while (n) {
        uint32_t k = n < t->count ? n : t->count;
        t->count -= k;
        n -= k;
        if (t->count) break;
        t->count = t->mode == 0 ? 0x10000 : t->load;
        if (t->mode == 0) t->out = true;
        if (i == 0) { pc_irq(0, true); pc_counts.ticks++; }
    }
}

static void timer_out(int i, uint8_t v) {
    if (i == 3) {
        int c = v >> 6;
        if (c == 3) {                   /* read-back command: of the counts alone */
            for (int k = 0; k < 3 && !(v & 0x20); k++)
                if (v >> (k + 1) & 1) { timer[k].latch = (uint16_t)timer[k].count; timer[k].latched = true; }
            return;
        }
        struct Timer *t = &timer[c];
        if (!(v & 0x30)) { t->latch = (uint16_t)t->count; t->latched = true; return; }
        t->access = v >> 4 & 3;
        t->mode = v >> 1 & 3;
        t->high_w = t->high_r = t->out = false;
        return;
    }
    struct Timer *t = &timer[i];
    uint32_t old = t->load & 0xFFFF, new;
    if (t->access == 1) new = v;
    else if (t->access == 2) new = (uint32_t)v << 8;
    else if (!t->high_w) { t->load = (old & 0xFF00) | v; t->high_w = true; return; }
    else { new = (old & 0xFF) | (uint32_t)v << 8; t->high_w = false; }
    t->load = t->count = new ? new : 0x10000;
    t->out = false;
}

static uint8_t timer_in(int i) {
    if (i == 3) return 0xFF;
    struct Timer *t = &timer[i];
    uint16_t v = t->latched ? t->latch : (uint16_t)t->count;
    if (t->access == 1) { t->latched = false; return (uint8_t)v; }
    if (t->access == 2) { t->latched = false; return (uint8_t)(v >> 8); }
    t->high_r = !t->high_r;
    if (t->high_r) return (uint8_t)v;
    t->latched = false;
    return (uint8_t)(v >> 8);
}

/* ---- CMOS */

static uint8_t cmos[128], cmos_at;

static void cmos_new(void) {
    static const uint8_t set[][2] = {
        {0x00, 0x00}, {0x02, 0x30}, {0x04, 0x12}, {0x06, 7}, {0x07, 0x28}, {0x08, 0x11}, {0x09, 0x26},
        {0x0A, 0x26}, {0x0B, 0x02}, {0x0D, 0x80}, {0x32, 0x20},
        {0x10, 0x40},                   /* drive A: 1.44 MB */
        {0x14, 0x01 | 0x04 | 0x20},     /* a diskette drive, 80 columns */
        {0x15, 0x80}, {0x16, 0x02},     /* 640 KB */
        {0x17, 0x00}, {0x18, 0x3C}, {0x30, 0x00}, {0x31, 0x3C},     /* 15 MB above 1 MB */
        {0x2D, 0x20}, {0x38, 0x00}, {0x3D, 0x01},                   /* boot from the floppy */
    };
    for (size_t i = 0; i < sizeof set / 2; i++) cmos[set[i][0]] = set[i][1];
    unsigned sum = 0;
    for (int i = 0x10; i < 0x2E; i++) sum += cmos[i];
    cmos[0x2E] = (uint8_t)(sum >> 8);
    cmos[0x2F] = (uint8_t)sum;
}

static uint8_t cmos_in(void) {
    if (cmos_at == 0x0A) return (cmos[0x0A] & 0x7F) | (words % 62500 < 16 ? 0x80 : 0);
    if (cmos_at == 0x0C) { uint8_t v = cmos[0x0C]; cmos[0x0C] = 0; return v; }
    if (cmos_at == 0x00) {              /* seconds */
        unsigned s = (unsigned)(words / 62500 % 60);
        return (uint8_t)(s / 10 << 4 | s % 10);
    }
    return cmos[cmos_at];
}

/* ---- keyboard controller */

static struct {
    uint8_t queue[64], head, tail, mode, command, output;
} kbd = {.mode = 0x45, .output = 0x03};

static void kbd_give(uint8_t v) {
    kbd.queue[kbd.tail++ & 63] = v;
    if (kbd.mode & 1) pc_irq(1, true);
}

static uint8_t kbd_take(void) {
    if (kbd.head == kbd.tail) return kbd.queue[(kbd.head - 1) & 63];
    uint8_t v = kbd.queue[kbd.head++ & 63];
    if (kbd.head != kbd.tail && kbd.mode & 1) pc_irq(1, true);
    return v;
}

static void kbd_command(uint8_t v) {
    kbd.command = 0;
    switch (v) {
    case 0x20: kbd_give(kbd.mode); break;
    case 0xAA: kbd_give(0x55); break;
    case 0xAB: case 0xA9: kbd_give(0x00); break;
    case 0xAD: kbd.mode |= 0x10; break;
    case 0xAE: kbd.mode &= 0xEF; break;
    case 0xA7: kbd.mode |= 0x20; break;
    case 0xA8: kbd.mode &= 0xDF; break;
    case 0xC0: kbd_give(0x80); break;
    case 0xD0: kbd_give(kbd.output); break;
    case 0x60: case 0xD1: case 0xD2: case 0xD3: case 0xD4: kbd.command = v; break;
    }
}

static void kbd_data(uint8_t v) {
    uint8_t to = kbd.command;
    kbd.command = 0;
    switch (to) {
    case 0x60: kbd.mode = v; return;
    case 0xD1: kbd.output = v; return;
    case 0xD2: kbd_give(v); return;
    case 0xD3: case 0xD4: return;       /* no mouse */
    case 0xED: case 0xF3: case 0xF0: kbd_give(0xFA); return;
    }
    kbd_give(0xFA);
    if (v == 0xFF) kbd_give(0xAA);
    if (v == 0xF2) { kbd_give(0xAB); kbd_give(0x41); }
    if (v == 0xED || v == 0xF3 || v == 0xF0) kbd.command = v;
}

/* ---- screen */

static uint8_t *cell(int row, int col) { return pc_ram + 0xB8000 + 2 * (80 * row + col); }

static void keep(uint8_t byte) {
    if (printed) { fputc(byte, printed); fflush(printed); }
    size_t n = strlen(pc_tail);
    if (n + 1 >= sizeof pc_tail) { n /= 2; memmove(pc_tail, pc_tail + n, strlen(pc_tail + n) + 1); n = strlen(pc_tail); }
    if (byte) { pc_tail[n] = (char)byte; pc_tail[n + 1] = 0; }
}

static void scroll(int top, int bottom, int lines, uint8_t attr) {
    for (int r = top; r <= bottom; r++)
        for (int c = 0; c < 80; c++) {
            if (lines && r + lines <= bottom) memcpy(cell(r, c), cell(r + lines, c), 2);
            else { cell(r, c)[0] = ' '; cell(r, c)[1] = attr; }
        }
}

static void teletype(uint8_t byte) {
    uint8_t *col = pc_ram + 0x450, *row = pc_ram + 0x451;
    if (byte != '\r' && byte != 7) keep(byte);
    if (byte == '\r') *col = 0;
    else if (byte == '\n') ++*row;
    else if (byte == 8) { if (*col) --*col; }
    else if (byte != 7) {
        if (*row < 25 && *col < 80) { cell(*row, *col)[0] = byte; cell(*row, *col)[1] = 7; }
        if (++*col >= 80) { *col = 0; ++*row; keep('\n'); }
    }
    if (*row > 24) { scroll(0, 24, 1, 7); *row = 24; }
}

void pc_video(Int10 *r) {
    uint8_t *col = pc_ram + 0x450, *row = pc_ram + 0x451, al = (uint8_t)r->ax;
    switch (r->ax >> 8) {
    case 0x00: scroll(0, 24, 0, 7); *col = *row = 0; pc_ram[0x449] = 3; break;
    case 0x02: *row = (uint8_t)(r->dx >> 8); *col = (uint8_t)r->dx; break;
    case 0x03: r->dx = (uint16_t)(*row << 8 | *col); r->cx = 0x0607; break;
    case 0x06: scroll(r->cx >> 8, r->dx >> 8 > 24 ? 24 : r->dx >> 8, al, (uint8_t)(r->bx >> 8)); break;
    case 0x08:
        r->ax = *row < 25 && *col < 80 ? (uint16_t)(cell(*row, *col)[1] << 8 | cell(*row, *col)[0]) : 0;
        break;
    case 0x09: case 0x0A:
        for (int i = 0; i < r->cx && *row < 25 && *col + i < 80; i++) {
            cell(*row, *col + i)[0] = al;
            if (r->ax >> 8 == 9) cell(*row, *col + i)[1] = (uint8_t)r->bx;
        }
        keep(al);
        break;
    case 0x0E: teletype(al); break;
    case 0x0F: r->ax = 80 << 8 | 3; r->bx &= 0x00FF; break;
    case 0x12: if ((r->bx & 0xFF) == 0x10) { r->bx = 0x0003; r->cx = 0; } break;
    case 0x13: {
        uint8_t c = *col, w = *row;
        *row = (uint8_t)(r->dx >> 8);
        *col = (uint8_t)r->dx;
        for (int i = 0; i < r->cx; i++)
            teletype(pc_ram[((uint32_t)(r->es << 4) + (uint16_t)(r->bp + (al & 2 ? 2 * i : i))) & 0xFFFFF]);
        if (!(al & 1)) { *col = c; *row = w; }
        break;
    }
    case 0x1A: r->ax = (r->ax & 0xFF00) | 0x1A; r->bx = 0x0008; break;
    }
}

void pc_screen(FILE *to) {
    for (int r = 0; r < 25; r++) {
        char line[81];
        int n = 0;
        for (int c = 0; c < 80; c++) {
            uint8_t b = cell(r, c)[0];
            line[c] = b >= 32 && b < 127 ? (char)b : b ? '.' : ' ';
            if (line[c] != ' ') n = c + 1;
        }
        fprintf(to, "|%.*s\n", n, line);
    }
}

/* ---- ports and time */

void pc_new(FILE *to) {
    printed = to;
    cmos_new();
    for (int i = 0; i < 3; i++) timer[i] = (struct Timer){.load = 0x10000, .count = 0x10000, .access = 3};
    pic[0].imr = pic[1].imr = 0xFF;
    pic[0].base = 8;
    pic[1].base = 0x70;
}

void pc_words(uint32_t n) {
    words += n;
    clocks += 19090912ull * n;
    uint32_t k = (uint32_t)(clocks / 1000000);
    clocks %= 1000000;
    for (int i = 0; i < 3; i++) timer_clocks(i, k);
}

uint8_t pc_in(uint16_t port) {
    pc_counts.ins++;
    if (floppy_has(port)) return floppy_in(port);
    switch (port) {
    case 0x20: case 0x21: return pic_in(&pic[0], port & 1);
    case 0xA0: case 0xA1: return pic_in(&pic[1], port & 1);
    case 0x40: case 0x41: case 0x42: case 0x43: return timer_in(port & 3);
    case 0x60: return kbd_take();
    case 0x61:
        refresh ^= 0x10;
        return (uint8_t)((port61 & 0x0F) | refresh | (timer[2].out ? 0x20 : 0));
    case 0x64: return (uint8_t)(0x18 | 4 | (kbd.head != kbd.tail));
    case 0x71: return cmos_in();
    case 0x92: return 0x02;
    case 0x402: return 0xE9;            /* SeaBIOS looks for its message port */
    case 0x70: return cmos_at;
    case 0x3DA: { static uint8_t retrace; return retrace ^= 9; }
    }
    pc_counts.unknown_in++;
    if (pc_verbose) fprintf(stderr, "in %03X\n", port);
    return 0xFF;
}

void pc_out(uint16_t port, uint8_t v) {
    pc_counts.outs++;
    if (floppy_has(port)) { floppy_out(port, v); return; }
    switch (port) {
    case 0x20: case 0x21: pic_out(&pic[0], port & 1, v); return;
    case 0xA0: case 0xA1: pic_out(&pic[1], port & 1, v); return;
    case 0x40: case 0x41: case 0x42: case 0x43: timer_out(port & 3, v); return;
    case 0x60: kbd_data(v); return;
    case 0x61: port61 = v & 3; return;
    case 0x64: kbd_command(v); return;
    case 0x70: cmos_at = v & 0x7F; return;
    case 0x71: if (cmos_at != 0x0D) cmos[cmos_at] = v; return;
    case 0x80: case 0x92: case 0xED: return;
    case 0x5E0: if (pc_asked) pc_asked(); return;
    case 0xE9: case 0x400: case 0x401: case 0x402: case 0x403: case 0x500:  /* messages of BIOSes */
        if (pc_verbose) fputc(v, stderr);
        return;
    }
    pc_counts.unknown_out++;
    if (pc_verbose) fprintf(stderr, "out %03X %02X\n", port, v);
}
