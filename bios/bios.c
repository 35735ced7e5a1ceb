/* Runs a real BIOS on an emulated processor, with a small AT around it and the floppy machine at its ports. */
#include "cpu.h"
#include "floppy.h"
#include "pc.h"
#include <stdlib.h>
#include <string.h>

static const char *stop_why;

static uint8_t *load(const char *name, size_t *n) {
    FILE *f = fopen(name, "rb");
    if (!f) { perror(name); exit(2); }
    uint8_t *p = malloc(8 << 20);
    *n = fread(p, 1, 8 << 20, f);
    fclose(f);
    return p;
}

static _Noreturn void usage(void) {
    fputs("bios --rom FILE [--machine whole|bare] [--adapt none|code|multi|seek] [--strap] [--fifo BYTE] [--ccr N] [--per-word N]\n"
          "     [--words N] [--until TEXT] [--log FILE] [--save FILE] [--int13] [--screen] [--verbose] [IMAGE]\n", stderr);
    exit(2);
}

static void report(void) {
    const x86emu_regs_t *x = &cpu->x86;
    fprintf(stderr, "\n%s at %04X:%08X, after %llu instructions and %llu word times (%.2f s of the PC's time)\n", stop_why, x->R_CS, x->R_EIP,
            (unsigned long long)x->R_TSC, (unsigned long long)floppy_counts.words, 16e-6 * (double)floppy_counts.words);
    fprintf(stderr, "floppy ports: in %llu, out %llu; irq 6 %llu; data commands %llu, and %llu more by the adapter (%llu accesses of its own)\n",
            (unsigned long long)floppy_counts.ins, (unsigned long long)floppy_counts.outs, (unsigned long long)floppy_counts.irqs,
            (unsigned long long)floppy_counts.data_commands, (unsigned long long)floppy_counts.continued, (unsigned long long)floppy_counts.hidden);
    fputs("commands:", stderr);
    for (int c = 0; c < 256; c++)
        if (floppy_counts.commands[c]) fprintf(stderr, " %02X %llu", c, (unsigned long long)floppy_counts.commands[c]);
    fputs("\nint 13 by AH:", stderr);
    for (int c = 0; c < 256; c++)
        if (cpu_int13_of[c]) fprintf(stderr, " %02X %llu", c, (unsigned long long)cpu_int13_of[c]);
    fprintf(stderr, "\nticks %llu; all ports: in %llu, out %llu, unknown %llu, %llu\n", (unsigned long long)pc_counts.ticks,
            (unsigned long long)pc_counts.ins, (unsigned long long)pc_counts.outs, (unsigned long long)pc_counts.unknown_in,
            (unsigned long long)pc_counts.unknown_out);
}

static struct { const char *rom, *until, *save, *disk; const Machine *machine; FILE *log; uint64_t most; int adapt, ccr; bool screen, strap; }
    given = {.machine = &whole_machine, .most = 62500 * 120ull, .adapt = ADAPT_MULTI, .ccr = -1};

static bool is_text_seen(void) { return given.until && strstr(pc_tail, given.until); }

static int level_of(const char *name) {
    static const char *const names[] = {"none", "code", "multi", "seek"};
    for (int i = 0; i < 4; i++)
        if (!strcmp(name, names[i])) return i;
    usage();
}

static void options(int argc, char **argv) {
    for (int i = 1; i < argc; i++) {
        const char *a = argv[i], *v = i + 1 < argc ? argv[i + 1] : NULL;
        if (a[0] != '-') { given.disk = a; continue; }
        if (!strcmp(a, "--int13")) { cpu_traces_int13 = true; continue; }
        if (!strcmp(a, "--screen")) { given.screen = true; continue; }
        if (!strcmp(a, "--strap")) { given.strap = true; continue; }
        if (!strcmp(a, "--verbose")) { pc_verbose = true; continue; }
        if (!v) usage();
        i++;
        if (!strcmp(a, "--rom")) given.rom = v;
        else if (!strcmp(a, "--machine")) given.machine = !strcmp(v, "bare") ? &bare_controller : &whole_machine;
        else if (!strcmp(a, "--adapt")) given.adapt = level_of(v);
        else if (!strcmp(a, "--fifo")) floppy_fifo = (int)strtol(v, NULL, 16);
        else if (!strcmp(a, "--ccr")) given.ccr = atoi(v);
        else if (!strcmp(a, "--per-word")) cpu_per_word = (uint32_t)strtoul(v, NULL, 10);
        else if (!strcmp(a, "--words")) given.most = strtoull(v, NULL, 10);
        else if (!strcmp(a, "--until")) given.until = v;
        else if (!strcmp(a, "--log")) given.log = fopen(v, "w");
        else if (!strcmp(a, "--save")) given.save = v;
        else usage();
    }
    if (!given.rom) usage();
}

static void insert(const char *name) {
    size_t n;
    uint8_t *bytes = load(name, &n);
    if (!given.machine->insert(bytes, n)) { fprintf(stderr, "%s is no image\n", name); exit(2); }
    free(bytes);
}

static void save(const char *name) {
    size_t n;
    uint8_t *bytes = given.machine->image(&n);
    FILE *file = fopen(name, "wb");
    if (!file || fwrite(bytes, 1, n, file) != n || fclose(file)) { perror(name); exit(1); }
    free(bytes);
}

int main(int argc, char **argv) {
    options(argc, argv);
    pc_new(stdout);
    floppy_new(given.machine, given.adapt, pc_ram, given.log);
    if (given.strap) chip_strap();                                  /* the BIOS of Bochs never seeks */
    if (given.ccr >= 0) floppy_out(0x3F7, (uint8_t)given.ccr);      /* the BIOS of Bochs never sets the rate */
    if (given.disk) insert(given.disk);
    size_t n;
    uint8_t *rom = load(given.rom, &n);
    cpu_new(rom, n);
    free(rom);
    stop_why = cpu_run(given.most, is_text_seen);
    if (is_text_seen()) stop_why = "text seen";
    report();
    if (given.screen) pc_screen(stderr);
    if (given.save) save(given.save);
    if (given.log) fclose(given.log);
    return given.until && !is_text_seen();
}
