/* A small bus of an emulator, for the trial of device.c: a clock with a timer, interrupt line 6, channel 2 of a DMA
 * controller, memory, and the file of a disk. Nothing here knows the library. */
#ifndef BUS_H
#define BUS_H
#include <stddef.h>
#include <stdint.h>
#include <string.h>

#define NEVER UINT64_MAX

typedef struct {
    uint64_t now, timer;        /* nanoseconds; and when the device's timer is due */
    unsigned long timers;       /* how often it was due */
    int irq, edges;             /* line 6, and how often it rose */
    uint8_t memory[1 << 16];
    size_t place, left;         /* channel 2: where its next byte lies, and how many are to come; 0 while it is masked */
    uint8_t file[4 << 20];      /* what was stored last, */
    size_t stored;              /* and how long it is */
} Bus;

static inline void bus_irq(Bus *bus, int level) {
    bus->edges += level && !bus->irq;
    bus->irq = level;
}

/* Says which bytes channel 2 can take or give now, and where they are. There are none while it is masked. */
static inline uint8_t *bus_channel(Bus *bus, size_t *left) {
    *left = bus->left;
    return bus->memory + bus->place;
}

/* Says that `count` bytes have passed. The answer is true with the last byte: that is the terminal count. */
static inline int bus_passed(Bus *bus, size_t count) {
    bus->place += count;
    bus->left -= count;
    return count > 0 && bus->left == 0;
}

static inline int bus_store(Bus *bus, const uint8_t *bytes, size_t length) {
    if (length > sizeof bus->file) return 0;
    memcpy(bus->file, bytes, length);
    bus->stored = length;
    return 1;
}

#endif
