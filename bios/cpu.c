/* A processor on libx86emu, its interrupts, and the time for the rest of the PC. */
#include "cpu.h"
#include "floppy.h"
#include "pc.h"
#include <string.h>

x86emu_t *cpu;
uint32_t cpu_per_word = 16, cpu_slice = 1;
bool cpu_traces_int13;
uint64_t cpu_int13_of[256];

static uint64_t extra, done;            /* time in addition to that of instructions; word times that were run */

static void word_times(uint32_t n) {
    done += n;
    pc_words(n);
    if (floppy_words(n)) pc_irq(6, true);
}

static void catch_up(void) {
    uint64_t due = (cpu->x86.R_TSC + extra) / cpu_per_word;
    if (due > done) word_times((uint32_t)(due - done));
}

/* A port access takes the time of an instruction, and the machine catches up before it. */
static void access_time(void) {
    extra++;
    catch_up();
}

static uint8_t *place(u32 addr, unsigned n) {
    if (addr >= 0xFFFE0000u) addr &= 0xFFFFF;
    return addr <= RAM_BYTES - n ? pc_ram + addr : NULL;
}

static unsigned bus(x86emu_t *emu, u32 addr, u32 *val, unsigned type) {
    (void)emu;
    unsigned width = type & 0xFF;
    unsigned n = width == X86EMU_MEMIO_16 ? 2 : width == X86EMU_MEMIO_32 ? 4 : 1;
    uint8_t *p;
    switch (type & ~0xFFu) {
    case X86EMU_MEMIO_R: case X86EMU_MEMIO_X:
        p = place(addr, n);
        *val = 0xFFFFFFFF;
        if (p) *val = n == 1 ? p[0] : n == 2 ? (u32)(p[0] | p[1] << 8)
            : (u32)p[0] | (u32)p[1] << 8 | (u32)p[2] << 16 | (u32)p[3] << 24;
        else if (n == 1) *val = 0xFF;
        else if (n == 2) *val = 0xFFFF;
        return 0;
    case X86EMU_MEMIO_W:
        p = place(addr, n);
        if (!p) return 0;               /* the ROM is shadowed, so it can be written */
        if ((addr >= 0x40 && addr < 0x44) || (addr >= 0xC0000 && addr < 0xC0800)) return 0;    /* the video ROM and INT 10h */
        for (unsigned i = 0; i < n; i++) p[i] = (uint8_t)(*val >> (8 * i));
        return 0;
    case X86EMU_MEMIO_I:
        access_time();
        *val = 0;
        for (unsigned i = 0; i < n; i++) *val |= (u32)pc_in((uint16_t)(addr + i)) << (8 * i);
        return 0;
    case X86EMU_MEMIO_O:
        access_time();
        for (unsigned i = 0; i < n; i++) pc_out((uint16_t)(addr + i), (uint8_t)(*val >> (8 * i)));
        return 0;
    }
    return 1;
}

/* Software interrupts come through here. */
static int interrupt(x86emu_t *emu, u8 num, unsigned type) {
    x86emu_regs_t *x = &emu->x86;
    if ((type & 0xFF) != INTR_TYPE_SOFT) return 0;
    if (num == 0xF1) {
        Int10 r = {x->R_AX, x->R_BX, x->R_CX, x->R_DX, x->R_BP, x->R_ES};
        pc_video(&r);
        x->R_AX = r.ax; x->R_BX = r.bx; x->R_CX = r.cx; x->R_DX = r.dx;
        return 1;
    }
    if (num == 0x13) {
        cpu_int13_of[x->R_AH]++;
        if (cpu_traces_int13)
            fprintf(stderr, "[%llu] int 13 AX=%04X CX=%04X DX=%04X ES:BX=%04X:%04X\n",
                    (unsigned long long)floppy_counts.words, x->R_AX, x->R_CX, x->R_DX, x->R_ES, x->R_BX);
    }
    return 0;
}

/* MOV SS, POP SS and STI hold interrupts off for one instruction. */
static bool shadow(void) {
    const uint8_t *b = cpu->x86.instr_buf;
    unsigned n = cpu->x86.instr_len;
    while (n > 1 && (*b == 0x66 || *b == 0x67 || (*b & 0xE7) == 0x26)) { b++; n--; }
    return n && (*b == 0xFB || *b == 0x17 || (*b == 0x8E && n > 1 && (b[1] >> 3 & 7) == 2));
}

static void push16(uint16_t v) {
    x86emu_regs_t *x = &cpu->x86;
    x->R_SP -= 2;
    uint8_t *p = place(x->R_SS_BASE + x->R_SP, 2);
    if (p) { p[0] = (uint8_t)v; p[1] = (uint8_t)(v >> 8); }
}

/* Makes a hardware interrupt: in real mode by itself, in protected mode by the library. */
static void deliver(int vector) {
    x86emu_regs_t *x = &cpu->x86;
    if (x->R_CR0 & 1) {
        x86emu_intr_raise(cpu, (u8)vector, INTR_TYPE_FAULT, 0);
        return;
    }
    uint8_t *v = pc_ram + 4 * vector;
    push16((uint16_t)x->R_FLG);
    push16(x->R_CS);
    push16(x->R_IP);
    x->R_FLG &= ~(u32)(F_IF | F_TF);
    x86emu_set_seg_register(cpu, x->R_CS_SEL, (u16)(v[2] | v[3] << 8));
    x->R_EIP = (u32)(v[0] | v[1] << 8);
}

static bool serve(void) {
    if (!(cpu->x86.R_FLG & F_IF) || pc_pending() < 0) return false;
    while (shadow()) {
        cpu->max_instr = cpu->x86.R_TSC + 1;
        x86emu_run(cpu, X86EMU_RUN_MAX_INSTR);
        if (!(cpu->x86.R_FLG & F_IF)) return false;
    }
    int v = pc_take();
    if (v < 0) return false;
    deliver(v);
    return true;
}

/* While the processor is halted, time passes until a line is up. */
static void sleep_words(uint64_t most_words) {
    while (pc_pending() < 0 && floppy_counts.words < most_words) {
        extra += (uint64_t)cpu_per_word * cpu_slice;
        catch_up();
    }
}

const char *cpu_run(uint64_t most_words, bool (*is_over)(void)) {
    while (floppy_counts.words < most_words) {
        uint64_t now = cpu->x86.R_TSC + extra, next = (done + cpu_slice) * (uint64_t)cpu_per_word;
        /* While an interrupt waits, a stretch between STI and CLI must not be missed: firmware allows interrupts for
         * a few instructions only. */
        bool waits = pc_pending() >= 0;
        cpu->max_instr = cpu->x86.R_TSC + (next > now && !waits ? next - now : 1);
        unsigned why = x86emu_run(cpu, X86EMU_RUN_MAX_INSTR);
        catch_up();
        if (!(why & X86EMU_RUN_MAX_INSTR)) {
            if (cpu->x86.instr_buf[0] != 0xF4) return "the processor stopped";
            if (!(cpu->x86.R_FLG & F_IF)) return "halted with interrupts off";
            sleep_words(most_words);
        }
        serve();
        if (is_over && is_over()) return "it is over";
    }
    return "word times are over";
}

/* Stands in for a video BIOS: a ROM whose INT 10h is INT F1h, which is served here in C. */
static void video_rom(void) {
    static const uint8_t rom[] = {0xCD, 0xF1, 0xCF};    /* int F1; iret */
    memcpy(pc_ram + 0xC0000 + 0x20, rom, sizeof rom);
    static const uint8_t vector[] = {0x20, 0x00, 0x00, 0xC0};
    memcpy(pc_ram + 0x40, vector, 4);
}

void cpu_new(const uint8_t *rom, size_t length) {
    size_t k = length > 0x40000 ? 0x40000 : length;
    memset(pc_ram + 0xC0000, 0xFF, 0x40000);
    video_rom();
    memcpy(pc_ram + 0x100000 - k, rom + length - k, k);
    cpu = x86emu_new(X86EMU_PERM_RWX, X86EMU_PERM_RW);
    x86emu_set_memio_handler(cpu, bus);
    x86emu_set_intr_handler(cpu, interrupt);
    x86emu_reset(cpu);
    x86emu_set_seg_register(cpu, cpu->x86.R_CS_SEL, 0xF000);
    cpu->x86.R_EIP = 0xFFF0;
}
