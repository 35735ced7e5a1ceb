/* A floppy machine as an emulated PC sees it: ports, word times, one interrupt latch, and 1 MiB of memory for DMA. */
#ifndef MACHINE_H
#define MACHINE_H
#include <stdbool.h>
#include <stddef.h>
#include <stdint.h>

typedef struct {
    void (*make)(void);
    bool (*insert)(const uint8_t *image, size_t length);                /* into drive A */
    uint8_t *(*image)(size_t *length);                                  /* of drive A; the caller has to free() it */
    uint8_t (*in)(uint16_t port);
    void (*out)(uint16_t port, uint8_t value);
    uint32_t (*run)(uint32_t most);     /* lets word times pass, at most up to the one that sets the latch; returns how many passed */
    bool (*take_irq)(void);
    void (*get)(uint32_t address, uint8_t *to, size_t length);
    void (*set)(uint32_t address, const uint8_t *from, size_t length);
} Machine;

/* The whole machine of the library; and its bare controller with the channel and the latch of chip.c. */
extern const Machine whole_machine, bare_controller;

/* ---- the bare controller, which chip.c uses by way of fdm_tel.c */

enum { CHIP_INT = 1, CHIP_DRQ = 2, CHIP_TO_MEMORY = 4 };

void chip_make(void);
bool chip_insert(const uint8_t *image, size_t length);  /* an image file, or a flat sector file */
uint8_t *chip_image(size_t *length);
uint8_t chip_in(uint16_t port);
void chip_out(uint16_t port, uint8_t value);
uint32_t chip_run(uint32_t most);       /* lets word times pass, at most up to the one in which INT or DRQ changes */
uint8_t chip_lines(void);
uint8_t chip_dack_read(void);           /* only while DRQ is up */
void chip_dack_write(uint8_t byte);
void chip_tc(void);
void chip_strap(void);                  /* seeks are implied from now on */
void chip_strap_steps(void);            /* heads move as slowly as SPECIFY says */
bool chip_plan(const char *text, size_t *line); /* drive A's faults from now on; false: the line of this number isn't understood */

/* The medium in drive A, read past the drive. There are calls for the words of a track, for the tracks that were
 * written since the last call, for its flat file, if it has one, and for the cylinder under the heads. Of the
 * written tracks, track 2 * cylinder + head is bit t % 8 of byte t / 8. */
void chip_track(uint8_t cylinder, uint8_t head, uint16_t *words, size_t count);
void chip_written_tracks(uint8_t map[20]);
bool chip_flat(uint8_t *bytes, size_t length);
uint8_t chip_cylinder(void);

/* Plans the bare controller anew, by a plan's whole text: faults of drive A, gaps, DMA latencies and spurious
 * interrupts. It returns false if the text isn't understood. */
bool bare_plan(const char *text);

#endif
