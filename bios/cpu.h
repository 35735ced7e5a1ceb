/* The processor of the emulated PC, and the time that passes while it works. */
#ifndef CPU_H
#define CPU_H
#include <stdbool.h>
#include <stddef.h>
#include <stdint.h>
#include <x86emu.h>

extern x86emu_t *cpu;
extern uint32_t cpu_per_word;           /* instructions in a word time; 16 at first */
extern uint32_t cpu_slice;              /* word times after which lines are looked at, if no port is accessed; 1 at first */
extern bool cpu_traces_int13;
extern uint64_t cpu_int13_of[256];      /* the number of calls of INT 13h, by AH */

/* Loads a BIOS that ends at 1 MiB, and a processor that begins there. */
void cpu_new(const uint8_t *rom, size_t length);

/* Runs until `is_over` returns true (if it is null, without that end), or until `most_words` word times are over;
 * returns why it stopped. */
const char *cpu_run(uint64_t most_words, bool (*is_over)(void));

#endif
