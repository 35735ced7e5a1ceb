/* Cases for the processor of js/pc: libx86emu executes random instructions from random states, and this program writes
 * each case to its output: the state before, the instruction, and the state after.
 *
 *     cases N SEED
 *
 * Memory and input ports have bytes that are computed from their address, so a case needs to list only what was
 * written. Of an interrupt in protected mode, a case has the number alone. All numbers have 32 bits, the lowest byte
 * first. against/compare.mjs reads them. */
#define _POSIX_C_SOURCE 200809L
#include <setjmp.h>
#include <signal.h>
#include <stdbool.h>
#include <stdio.h>
#include <stdlib.h>
#include <string.h>
#include <x86emu.h>

enum { REAL, WIDE, NARROW };            /* real mode; protected mode with code of 32 bits, and of 16 */
enum { MOST_WRITTEN = 256, LENGTH = 16, PORT = 1 << 30, NO_INTERRUPT = 0xFFFF };

static uint64_t state;
static uint32_t salt;
static x86emu_t *cpu;
static struct { uint32_t at, value; } written[MOST_WRITTEN];
static unsigned count, vector, kind;
static uint8_t code[LENGTH];
static uint32_t code_at;

static uint32_t draw(void) {
    state = state * 6364136223846793005u + 1442695040888963407u;
    return (uint32_t)(state >> 33) ^ (uint32_t)(state << 15 >> 33 << 31);
}
static bool one_in(uint32_t n) { return draw() % n == 0; }

/* The byte that stands at an address, or comes from a port. compare.mjs computes the same. */
static uint8_t byte_at(uint32_t at) {
    uint32_t x = (at ^ salt) * 0x9E3779B1u;
    x ^= x >> 15;
    x *= 0x85EBCA6Bu;
    return (uint8_t)(x >> 24);
}

static void put(uint32_t at, uint8_t value) {
    unsigned i = 0;
    while (i < count && written[i].at != at) i++;
    if (i == count) count++;
    if (count > MOST_WRITTEN) exit(3);
    written[i].at = at;
    written[i].value = value;
}

static uint8_t get(uint32_t at) {
    for (unsigned i = 0; i < count; i++)
        if (written[i].at == at) return (uint8_t)written[i].value;
    return at - code_at < LENGTH ? code[at - code_at] : byte_at(at);
}

static unsigned bus(x86emu_t *emu, u32 at, u32 *value, unsigned type) {
    (void)emu;
    unsigned width = type & 0xFF, n = width == X86EMU_MEMIO_16 ? 2 : width == X86EMU_MEMIO_32 ? 4 : 1;
    unsigned what = type & ~0xFFu;
    if (what == X86EMU_MEMIO_W || what == X86EMU_MEMIO_O) {
        for (unsigned i = 0; i < n; i++) put(what == X86EMU_MEMIO_O ? PORT + (uint16_t)at + i : at + i, (uint8_t)(*value >> 8 * i));
        return 0;
    }
    *value = 0;
    for (unsigned i = 0; i < n; i++) *value |= (uint32_t)(what == X86EMU_MEMIO_I ? byte_at(PORT + (uint16_t)at + i) : get(at + i)) << 8 * i;
    return 0;
}

/* In real mode an interrupt is entered. In protected mode that is left out. */
static int interrupt(x86emu_t *emu, u8 number, unsigned type) {
    (void)type;
    vector = number;
    return (emu->x86.R_CR0 & 1) != 0;
}

static uint32_t number(void) {
    static const uint32_t edges[] = {0, 1, 2, 7, 8, 15, 16, 0x7F, 0x80, 0xFF, 0x100, 0x7FFF, 0x8000, 0xFFFF, 0x10000, 0x7FFFFFFF, 0x80000000, 0xFFFFFFFF};
    return one_in(3) ? edges[draw() % (sizeof edges / sizeof *edges)] : one_in(3) ? draw() & 0xFF : draw();
}

static bool is_prefix(uint8_t byte) { return (byte & 0xE7) == 0x26 || (byte & 0xFC) == 0x64 || byte == 0xF0 || byte == 0xF2 || byte == 0xF3; }

/* What libx86emu has, and the processor of js/pc doesn't: instructions of later processors, those for local tables and
 * tasks. HLT is left out too. */
static bool is_left_out(uint8_t first, uint8_t second) {
    static const uint8_t later[] = {0x00, 0x0B, 0x0D, 0xA2, 0xFF};
    if (first == 0xF4 || first == 0x63 || first == 0xF1 || is_prefix(first)) return true;
    if (first != 0x0F) return false;
    for (unsigned i = 0; i < sizeof later; i++)
        if (second == later[i]) return true;
    return (second >= 0x10 && second < 0x20) || (second >= 0x28 && second < 0x80) || second == 0xB0 || second == 0xB1 || second >= 0xC0;
}

static void draw_code(void) {
    unsigned at = 0;
    static const uint8_t prefixes[] = {0x66, 0x66, 0x66, 0x67, 0x67, 0x26, 0x2E, 0x36, 0x3E, 0x64, 0x65, 0xF2, 0xF3};
    for (unsigned i = 0; i < LENGTH; i++) code[i] = (uint8_t)draw();
    if (one_in(2)) code[at++] = prefixes[draw() % sizeof prefixes];
    if (at && one_in(3) && code[0] != 0x66) code[at++] = 0x66;
    do {
        code[at] = one_in(4) ? 0x0F : (uint8_t)draw();
        code[at + 1] = one_in(3) ? 0xC0 | (uint8_t)draw() : (uint8_t)draw();
    } while (is_left_out(code[at], code[at + 1]));
}

static bool is_repeated(void) {
    for (unsigned i = 0; is_prefix(code[i]); i++)
        if (code[i] == 0xF2 || code[i] == 0xF3) return true;
    return false;
}

static void draw_segments(void) {
    x86emu_regs_t *x = &cpu->x86;
    for (unsigned i = 0; i < 6; i++) {
        x->seg[i].sel = (u16)draw();
        x->seg[i].base = kind == REAL ? (u32)x->seg[i].sel << 4 : one_in(2) ? 0 : draw() & 0xFFFFFF;
        x->seg[i].limit = 0xFFFFFFFF;
        x->seg[i].acc = (u16)((i == R_CS_INDEX ? 0x9B : 0x93) | (kind == WIDE ? 0xC00 : 0x800));
    }
    x->gdt.base = draw() & 0xFFFFFF;
    x->gdt.limit = 0xFFFF;
    x->idt.base = kind == REAL ? 0 : draw() & 0xFFFFFF;
    x->idt.limit = 0x3FF;
    x->ldt.base = x->ldt.limit = 0;
    memset(x->crx, 0, sizeof x->crx);
    memset(x->drx, 0, sizeof x->drx);
    x->R_CR0 = kind != REAL;
}

static u32 *const *registers(void) {
    static u32 *all[8];
    x86emu_regs_t *x = &cpu->x86;
    u32 *const now[8] = {&x->R_EAX, &x->R_ECX, &x->R_EDX, &x->R_EBX, &x->R_ESP, &x->R_EBP, &x->R_ESI, &x->R_EDI};
    memcpy(all, now, sizeof all);
    return all;
}

static void draw_state(void) {
    x86emu_regs_t *x = &cpu->x86;
    kind = draw() % 3;
    salt = draw();
    count = 0;
    vector = NO_INTERRUPT;
    draw_segments();
    for (unsigned i = 0; i < 8; i++) *registers()[i] = number();
    if (is_repeated()) x->R_ECX = draw() % 9;
    x->R_EFLG = (draw() & 0xCD5) | 2;
    x->R_EIP = kind == WIDE ? draw() & 0xFFFFF : draw() & 0x7FFF;
    code_at = x->R_CS_BASE + x->R_EIP;
}

static uint8_t told[1 << 13];
static size_t told_count;

static void tell(uint32_t value) {
    for (unsigned i = 0; i < 4; i++) told[told_count++] = (uint8_t)(value >> 8 * i);
}

static void tell_state(void) {
    const x86emu_regs_t *x = &cpu->x86;
    for (unsigned i = 0; i < 8; i++) tell(*registers()[i]);
    tell(x->R_EFLG);
    tell(x->R_EIP);
    for (unsigned i = 0; i < 6; i++) {
        tell(x->seg[i].sel);
        tell(x->seg[i].base);
        tell(x->seg[i].acc >> 10 & 1);
    }
    tell(x->gdt.base);
    tell(x->gdt.limit);
    tell(x->idt.base);
    tell(x->idt.limit);
    tell(x->R_CR0);
}

/* libx86emu divides the lowest number by -1, and by 0 in AAM, on the processor that it runs on. Such a case is left out. */
static sigjmp_buf before_case;
static void divided(int signal) {
    (void)signal;
    siglongjmp(before_case, 1);
}

static void make_case(void) {
    draw_code();
    draw_state();
    told_count = 0;
    tell(salt);
    for (unsigned i = 0; i < LENGTH; i++) told[told_count++] = code[i];
    tell_state();
    if (sigsetjmp(before_case, 1)) {
        cpu->x86.intr_type = 0;
        return;
    }
    cpu->max_instr = cpu->x86.R_TSC + 1;
    x86emu_run(cpu, X86EMU_RUN_MAX_INSTR);
    tell_state();
    tell(vector);
    tell(count);
    for (unsigned i = 0; i < count; i++) {
        tell(written[i].at);
        tell(written[i].value);
    }
    fwrite(told, 1, told_count, stdout);
}

int main(int words, char **word) {
    if (words != 3) return 2;
    state = strtoull(word[2], NULL, 10);
    sigaction(SIGFPE, &(struct sigaction){.sa_handler = divided}, NULL);
    cpu = x86emu_new(X86EMU_PERM_RWX, X86EMU_PERM_RW);
    x86emu_set_memio_handler(cpu, bus);
    x86emu_set_intr_handler(cpu, interrupt);
    x86emu_reset(cpu);
    for (unsigned long left = strtoul(word[1], NULL, 10); left; left--) make_case();
    return 0;
}
