/* The rest of an AT that a BIOS needs: two 8259, 8254, CMOS, keyboard controller, port 61, screen. */
#ifndef PC_H
#define PC_H
#include <stdbool.h>
#include <stdint.h>
#include <stdio.h>

#define RAM_BYTES (16u << 20)
extern uint8_t pc_ram[RAM_BYTES];

struct pc_counts { uint64_t ticks, unknown_in, unknown_out, ins, outs; };
extern struct pc_counts pc_counts;
extern bool pc_verbose;
extern void (*pc_asked)(void);          /* called at a write of port 5E0, by which a boot sector asks its test rig */
extern char pc_tail[4096];              /* the end of what was printed, in which a text can be looked for */

void pc_new(FILE *to);                  /* what the PC prints goes there */
uint8_t pc_in(uint16_t port);
void pc_out(uint16_t port, uint8_t value);
void pc_words(uint32_t n);              /* time passes: n word times of 16 microseconds */
void pc_irq(int line, bool on);         /* edge triggered */
int pc_pending(void);                   /* the vector, or -1; doesn't take the interrupt */
int pc_take(void);                      /* interrupt acknowledge */
void pc_screen(FILE *to);

/* The registers that INT 10h works on. */
typedef struct { uint16_t ax, bx, cx, dx, bp, es; } Int10;
void pc_video(Int10 *r);

#endif
