/* The floppy machine on the bus of the emulated PC: DMA into the PC's memory, and the adapter for commands that the
 * controller doesn't have. */
#ifndef FLOPPY_H
#define FLOPPY_H
#include "machine.h"
#include <stdio.h>

/* What the adapter does for a BIOS. It does nothing; or it clears MT and SK; or it makes one command for many
 * sectors into many commands; or in addition it seeks to the cylinder that a command names, as the BIOS of Bochs
 * expects. */
enum { ADAPT_NONE, ADAPT_CODE, ADAPT_MULTI, ADAPT_SEEK };

struct floppy_counts {
    uint64_t words, ins, outs, hidden, irqs, data_commands, continued;
    uint64_t not_at_zero;               /* recalibrations for which the PC got the report that they didn't reach cylinder 0 */
    uint64_t commands[256];
};
extern struct floppy_counts floppy_counts;

/* The options of a CONFIGURE that is sent after each reset; if it is -1, none is sent. */
extern int floppy_fifo;

/* Makes the machine. Accesses and interrupts go to `log`, if it isn't null. */
void floppy_new(const Machine *used, int adapt, uint8_t *pc_ram, FILE *log);

bool floppy_has(uint16_t port);
uint8_t floppy_in(uint16_t port);
void floppy_out(uint16_t port, uint8_t value);
bool floppy_words(uint32_t count);      /* lets word times pass; returns whether the interrupt line rose */

#endif
