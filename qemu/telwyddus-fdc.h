/*
 * A floppy controller (82077AA) with two drives, whose work the library
 * Telwyddus does: what its parts share.
 */
#ifndef HW_BLOCK_TELWYDDUS_FDC_H
#define HW_BLOCK_TELWYDDUS_FDC_H

#include "exec/ioport.h"
#include "hw/block/block.h"
#include "hw/isa/isa.h"
#include "qemu/timer.h"
#include "qom/object.h"
#include "sysemu/block-backend.h"
#include "telwyddus.h"

#define TYPE_TELWYDDUS_FDC "telwyddus-fdc"
OBJECT_DECLARE_SIMPLE_TYPE(TelwyddusFDC, TELWYDDUS_FDC)

#define TYPE_TELWYDDUS_DRIVE "telwyddus-drive"
OBJECT_DECLARE_SIMPLE_TYPE(TelwyddusDrive, TELWYDDUS_DRIVE)

enum { BAYS = 2 };

enum {
    PORT_DOR = 0x3f2,
    PORT_MSR = 0x3f4,
    PORT_DATA = 0x3f5,
    PORT_DIR = 0x3f7,
};

/* A bay with its drive. Its disk is a node of QEMU's block layer */
struct TelwyddusDrive {
    DeviceState parent_obj;

    TelwyddusFDC *controller;
    unsigned bay;
    BlockConf conf;             /* its block backend, with or without a node */
    BlockBackend *beside;       /* file of cells that a flat disk can't have */
    char *image;                /* the name that image0 was given, or "" */
    char *plan;                 /* the file of its faults, or "" */
    char *cells;                /* the name for `beside`, or "" */
    bool is_flat;               /* the disk's bytes are sectors, not cells */
    bool is_protected;          /* by its property; the node may be too */
    bool is_loaded;             /* by a state; not yet compared to the node */
    telwyddus_tracks owed;      /* tracks that are to be written to the node */
    uint32_t stuck_changes;     /* reads of DIR that still have bit 7 set */
    uint32_t commands;          /* data commands since its plan was set */
    uint32_t later_size;        /* the lines of its plan that hold later */
    char *later;

    uint32_t saved_size;        /* the medium, while a state is loaded */
    uint8_t *saved;
};

/*
 * A line of plan0 for the bus: how often, and how many device steps each
 * time
 */
typedef struct TelwyddusPause {
    uint32_t is_stray;  /* then a spurious interrupt comes, else a DACK */
    uint32_t steps;
    uint32_t times;
} TelwyddusPause;

struct TelwyddusFDC {
    ISADevice parent_obj;

    uint32_t iobase;
    uint32_t isairq;
    uint32_t channel;
    uint32_t drives;            /* the other bays have no drive */
    uint32_t speed;             /* times as fast as a drive; 0: no waiting */
    int32_t boot_index[BAYS];

    PortioList ports;
    qemu_irq irq;
    IsaDma *dma;
    QEMUTimer *timer;
    QEMUTimer *stray;
    TelwyddusDrive bays[BAYS];

    telwyddus_controller chip;
    uint8_t lines;              /* of the chip, as the last call gave them */
    bool is_up;                 /* INT, as the guest knows it */
    bool is_held;               /* DREQ, as the channel knows it */
    bool is_asking;             /* now: for bytes, of the channel */
    bool is_owing;              /* a disk couldn't be written: INT waits */
    bool is_writing;            /* now: a node, while other work goes on */
    bool is_within;             /* an access of the guest is under way */
    CPUState *cpu;              /* the processor that had the last access */
    int64_t cpu_time;           /* the time that it had worked by then */
    uint64_t timers;            /* how often the timer has come */
    uint32_t step;              /* nanoseconds of a device step */
    int64_t at;                 /* the end of the last step that is made */
    int64_t until;              /* end of the last step that may be made now */
    uint8_t msr;                /* what these ports answer until `at` */
    uint8_t dir;

    int32_t pause_count;
    TelwyddusPause *pauses;

    uint32_t state_size;        /* while a state is saved or loaded */
    uint8_t *state;
};

/* ---- telwyddus-time.c */

/* These calls always answer DONE while the slot holds a controller */
void telwyddus_must(uint32_t code);

int64_t telwyddus_now(void);

/*
 * Brings the guest's clock and the chip to one time; called before any
 * access
 */
void telwyddus_settle(TelwyddusFDC *s);

/* Makes ahead what is then under way; called after any access */
void telwyddus_go_on(TelwyddusFDC *s);

/* Around each access of the guest, except a read of a port that only looks */
void telwyddus_begin_access(TelwyddusFDC *s);
void telwyddus_end_access(TelwyddusFDC *s);

/* Reads a port; sets INT if it has changed; asks how long a step is */
uint8_t telwyddus_look(TelwyddusFDC *s, uint16_t port);
void telwyddus_tell(TelwyddusFDC *s);
void telwyddus_ask_step(TelwyddusFDC *s);

/* What the channel, the timer, and the timer of spurious interrupts call */
int telwyddus_transfer(void *opaque, int nchan, int pos, int size);
void telwyddus_tick(void *opaque);
void telwyddus_stray(void *opaque);

/* Sets the timer of the next spurious interrupt, if one is planned */
void telwyddus_set_stray(TelwyddusFDC *s);

/* ---- telwyddus-block.c */

/* Reads the node of a backend into a tray: the cells, or the sectors */
bool telwyddus_read_node(BlockBackend *blk, telwyddus_tray *tray,
                         bool *is_flat, Error **errp);

/*
 * Writes to the nodes what the guest has written to the media. If that fails,
 * the machine is paused, and INT waits until a write after it goes on.
 */
void telwyddus_write_back(TelwyddusFDC *s);

/* The same, also for a sector that is being written now: the machine stops */
void telwyddus_write_all(TelwyddusFDC *s);

/* Whether the medium in the bay has the content of the node in the bay */
bool telwyddus_is_same(TelwyddusDrive *d);

/* The image of the medium in a bay; NULL if there is none */
uint8_t *telwyddus_image(TelwyddusDrive *d, size_t *length);

/* ---- telwyddus-media.c */


/* Puts in the saved media, and restores the bare state; status as vmstate's */
int telwyddus_restore(TelwyddusFDC *s);

/* Once the machine runs with a loaded state: the nodes say what is in */
void telwyddus_compare(TelwyddusFDC *s);

/* Gives each bay its drive; realizes them; the properties of the controller */
void telwyddus_init_drives(TelwyddusFDC *s);
bool telwyddus_realize_drives(TelwyddusFDC *s, Error **errp);
void telwyddus_add_properties(ObjectClass *klass);

/* ---- telwyddus-plan.c */

/* Plans the drive of a bay anew by the text of a file; for "" no faults */
bool telwyddus_plan(TelwyddusFDC *s, unsigned bay, const char *name,
                    Error **errp);

/* The steps of the next pause of a kind; 0 if there is no further one */
uint32_t telwyddus_next_pause(TelwyddusFDC *s, bool is_stray);

/* The controller gets the first byte of a command */
void telwyddus_plan_command(TelwyddusFDC *s, uint8_t command);

/* ---- telwyddus-acpi.c */

void telwyddus_add_acpi(ObjectClass *klass);

#endif
