/* telwyddus.h - the diskette path of a PC/AT, simulated device step by device step, for emulators and for tests of
 * drivers. It also has the program `floppy` over files in memory, for tools.
 *
 * It has five parts, each with its own kind of object:
 *   controller  the controller with its two drives, for a bus of your own
 *   machine     the whole machine, for test rigs of drivers
 *   tray        a medium outside a drive
 *   shelf       files in memory, on which the program runs
 *   disk        single sectors, read and written by a call each
 * The code of the library is proved: docs/C.md says what is proved, and how to build the library. It is for C and
 * for C++.
 *
 * c/examples/device.c is a whole device of an emulator over the controller, in some 180 lines; docs/C.md goes
 * through it.
 *
 * SLOTS. A slot holds one object or none. It is yours: it lies on your stack, or in your device's state. Set it to
 * all 0 at first ("= {0}"). Don't write its fields. A call on a slot that holds nothing answers TELWYDDUS_EMPTY and
 * does nothing, so freeing a slot twice is harmless.
 *
 * MOVES. telwyddus_controller_move and its like move an object into another slot; the old slot is empty afterwards.
 * So a C++ class with a slot in it can have a move, and its objects may lie in a std::vector: c/examples/moving.cpp
 * has such a class. You may also move a slot by its bytes, while no call on it runs. Copy it to its new place, and set
 * the old place to all 0 or use it no more. That is sound because nothing outside a slot knows where the slot lies.
 * Never keep both: if you free the copy too, the object is freed twice.
 *
 * WHAT YOU OWE. Pointers aren't null. Only the pointer of a buffer whose length is 0 may be null (the macros at the
 * end of this file allow that). A buffer has the length that you pass with it, and no two pointers of a call
 * overlap. No call comes from a signal handler.
 *
 * THREADS. Slots are independent of each other: calls on two slots may run at the same time. Calls on one slot have
 * to come one at a time, also the calls that only look (lines, bay, image ..), because each call takes the object
 * out of its slot and puts it back. Use a lock; with a lock a slot may also go to another thread. A call with a tray
 * and an object that its medium goes into is a call on two slots, and so is a move. The library keeps nothing outside
 * the slots. What calls at the same time share is malloc, realloc and free, which have to allow that.
 *
 * WHAT YOU GET. Each call answers a code from the list below. If the code is TELWYDDUS_DONE, the call has set what
 * it hands out through pointers. If the code is another one, it has left them as they were, except
 *   - the length, for TELWYDDUS_TOO_SHORT;
 *   - the line, for TELWYDDUS_BAD_PLAN;
 *   - the cylinder and head, for TELWYDDUS_UNFIT;
 *   - the lines, which are set whenever the slot holds a controller after the call.
 * After any other code than DONE the object is as it was too, and so are its drives and media, unless the comment of
 * the call says more. Compilers warn if you ignore the code of a call that can fail in a way that you can't foresee.
 *
 * FULL SLOTS. Some calls make something in a slot: new, new_planned, blank, read, read_flat, read_imd, move, and
 * eject (in the tray). Such a call looks at that slot first. If it holds something already, the answer is TELWYDDUS_FULL,
 * whatever else is wrong, and the slot stays as it is. So any other code means that the slot was empty. An eject
 * looks at its own object and at the bay even before that: EMPTY, OUT_OF_RANGE.
 *
 * TIME. Nothing moves between calls. A device step is a word time, in which 16 cells (a byte) pass under the heads:
 * 16 microseconds at 500 kbit/s, 32 at 250. A medium of 12,500 words a track makes a revolution in 200 milliseconds
 * at 500 kbit/s. So does a medium of 6,250 words at 250 kbit/s. */
#ifndef TELWYDDUS_H
#define TELWYDDUS_H

#include <stddef.h>
#include <stdint.h>

/* The version of this file, as a text and as a number: 10,000 times the first number, plus 100 times the second,
 * plus the third. If the first number changes, a program has to be compiled anew. */
#define TELWYDDUS_VERSION "2.0.0"
#define TELWYDDUS_VERSION_NUMBER 20000

/* TELWYDDUS_CALL marks each call. TELWYDDUS_NEWS marks a call whose code has to be looked at. */
#if defined(__GNUC__)
#define TELWYDDUS_CALL __attribute__((nonnull))
#define TELWYDDUS_NEWS __attribute__((nonnull, warn_unused_result))
#else
#define TELWYDDUS_CALL
#define TELWYDDUS_NEWS
#endif

#ifdef __cplusplus
extern "C" {
#endif

/* The version of the library that runs, as a number like TELWYDDUS_VERSION_NUMBER. */
TELWYDDUS_CALL uint32_t telwyddus_version(void);

typedef struct telwyddus_controller { void *at_; uint32_t tag_; } telwyddus_controller;
typedef struct telwyddus_machine { void *at_; uint32_t tag_; } telwyddus_machine;
typedef struct telwyddus_tray { void *at_; uint32_t tag_; } telwyddus_tray;
typedef struct telwyddus_shelf { void *at_; uint32_t tag_; } telwyddus_shelf;
typedef struct telwyddus_disk { void *at_; uint32_t tag_; } telwyddus_disk;

enum telwyddus_code {
    TELWYDDUS_DONE = 0,
    TELWYDDUS_EMPTY = 1,        /* the slot holds nothing */
    TELWYDDUS_FULL = 2,         /* the slot that was to be filled holds something already */
    TELWYDDUS_NO_MEMORY = 3,    /* there is no memory left */
    TELWYDDUS_OUT_OF_RANGE = 4, /* a bay above 1, addresses beyond memory, a sector that no drive has */
    TELWYDDUS_BAD_IMAGE = 5,    /* the bytes are not those of an image file */
    TELWYDDUS_HAS_MEDIUM = 6,   /* a medium is in the bay already: the new one stays in its tray */
    TELWYDDUS_NO_MEDIUM = 7,    /* no medium is in the bay, or in the tray */
    TELWYDDUS_NOT_ASKED = 8,    /* DRQ is down, or bytes go in the other direction */
    TELWYDDUS_BAD_PLAN = 9,     /* a line of the plan isn't understood */
    TELWYDDUS_TOO_SHORT = 10,   /* the buffer is too short */
    TELWYDDUS_NOT_TEXT = 11,    /* a name, or an argument, isn't UTF-8 */
    TELWYDDUS_NO_FILE = 12,     /* no file has this name */
    TELWYDDUS_NOT_READY = 13,   /* no medium is in the bay that is to be acknowledged */
    TELWYDDUS_CHANGED = 14,     /* the bay wasn't acknowledged since its medium was put in */
    TELWYDDUS_PROTECTED = 15,   /* the medium is write-protected */
    TELWYDDUS_NO_MARK = 16,     /* the track has no address mark, or the sector no data, or the layout doesn't fit on the track */
    TELWYDDUS_NOT_FOUND = 17,   /* the track has address marks, but not this sector */
    TELWYDDUS_BAD_CRC = 18,     /* the sector's data is damaged, or other bytes were read back than were written */
    TELWYDDUS_OVERRUN = 19,     /* a DMA request waited too long */
    TELWYDDUS_SEEK = 20,        /* the heads didn't find track 0 */
    TELWYDDUS_UNFIT = 21,       /* the other file format can't hold the medium, or one track, which is then reported */
    TELWYDDUS_BAD_STATE = 22    /* the bytes are not a saved state */
};

/* The name of a code, such as "NO_MEMORY"; "NO_CODE" if the number isn't a code. */
static inline const char *telwyddus_code_name(uint32_t code) {
    static const char *const names[] = {
        "DONE", "EMPTY", "FULL", "NO_MEMORY", "OUT_OF_RANGE", "BAD_IMAGE", "HAS_MEDIUM", "NO_MEDIUM", "NOT_ASKED", "BAD_PLAN", "TOO_SHORT",
        "NOT_TEXT", "NO_FILE", "NOT_READY", "CHANGED", "PROTECTED", "NO_MARK", "NOT_FOUND", "BAD_CRC", "OVERRUN", "SEEK", "UNFIT",
        "BAD_STATE"
    };
    return code < sizeof names / sizeof *names ? names[code] : "NO_CODE";
}

/* ---------------------------------------------------------------------------------------------------------------------------
 * TRAYS. A tray holds a medium outside a drive. Image files are those of the program `floppy`: they have the raw
 * cells of all tracks. */

/* Makes a tray with the medium of an image file. DONE, FULL, NO_MEMORY, BAD_IMAGE. */
TELWYDDUS_NEWS uint32_t telwyddus_tray_read(telwyddus_tray *tray, const uint8_t *bytes, size_t length);

/* Writes the image file of the tray's medium to the beginning of a buffer. *length is the length of the file, and is
 * set too if the buffer is too short. DONE, EMPTY, NO_MEMORY, NO_MEDIUM, TOO_SHORT. */
TELWYDDUS_NEWS uint32_t telwyddus_tray_write(telwyddus_tray *tray, uint8_t *out, size_t room, size_t *length);

/* Frees a tray and its medium, if it has one. DONE, EMPTY. */
TELWYDDUS_CALL uint32_t telwyddus_tray_free(telwyddus_tray *tray);

/* Moves a tray, with its medium, from one slot to another. `to` has to be empty, and `from` is empty afterwards. The
 * two are different slots. A refusal changes neither. DONE, EMPTY (`from`), FULL (`to`). */
TELWYDDUS_CALL uint32_t telwyddus_tray_move(telwyddus_tray *to, telwyddus_tray *from);

/* Makes a tray with an unformatted medium of 1 to 80 cylinders and two heads, at 500 or 250 kbit/s. DONE, FULL, NO_MEMORY,
 * OUT_OF_RANGE. */
TELWYDDUS_NEWS uint32_t telwyddus_tray_blank(telwyddus_tray *tray, uint8_t cylinders, uint16_t kilobits);

/* Makes a tray with the medium of a flat sector file of 1,474,560 bytes (1.44 MB) or 737,280 (720 KB). The medium
 * has all sectors of the file, and no others. DONE, FULL, NO_MEMORY, BAD_IMAGE for any other length. */
TELWYDDUS_NEWS uint32_t telwyddus_tray_read_flat(telwyddus_tray *tray, const uint8_t *bytes, size_t length);

/* Makes a tray with the medium of a flat sector file of another geometry. It has 1 to 80 cylinders, 1 or 2 heads,
 * and on each track the sectors 1 to `sectors`, of 128 << n bytes (n is 1 to 6), at 500 or 250 kbit/s. For example,
 * 40, 2, 9, 2, 250 is 360 KB, and 80, 2, 21, 2, 500 is the 1.68 MB of DMF. Gap 3 is the longest that the track has
 * room for, up to the standard gap. UNFIT if a track has no room for so many sectors with a gap 3 of 1 byte; as many
 * sectors as FORMAT lays always have room. DONE, FULL, NO_MEMORY, OUT_OF_RANGE if the numbers aren't such a
 * geometry, BAD_IMAGE for another length, UNFIT. */
TELWYDDUS_NEWS uint32_t telwyddus_tray_read_flat_as(telwyddus_tray *tray, const uint8_t *bytes, size_t length, uint8_t cylinders,
    uint8_t heads, uint8_t sectors, uint8_t n, uint16_t kilobits);

/* Writes the flat sector file of the tray's medium to the beginning of a buffer. The file is of 80 cylinders and two
 * heads. It has the sectors 1 to 18 of each track at 500 kbit/s, or 1 to 9 at 250, each of 512 bytes. *length is the
 * length of the file, and is set too if the buffer is too short. The file has each sector of the medium, or the call
 * answers UNFIT.
 * It is UNFIT if an ImageDisk file can't have a track either. It is also UNFIT if a track has more sectors than
 * these, or has one that is marked deleted, or lacks one of these, or has one of them damaged. The cylinder and head
 * of the first such track are set; both are 255 if the medium has another geometry. DONE, EMPTY, NO_MEMORY,
 * NO_MEDIUM, TOO_SHORT, UNFIT. */
TELWYDDUS_NEWS uint32_t telwyddus_tray_write_flat(telwyddus_tray *tray, uint8_t *out, size_t room, size_t *length,
    uint8_t *cylinder, uint8_t *head);

/* Writes the flat sector file of another geometry of the tray's medium. The numbers are those of read_flat_as: of
 * each track the file has the sectors 1 to `sectors`, each of 128 << n bytes. As with write_flat, the file has each
 * sector of the medium, or the call answers UNFIT. Cylinder and head are both 255 if the medium doesn't have so many
 * cylinders and heads, or not that rate. If read_flat_as made the medium of a file, this call gives that file back.
 * DONE, EMPTY, NO_MEMORY, OUT_OF_RANGE if the numbers aren't such a geometry, NO_MEDIUM, TOO_SHORT, UNFIT. */
TELWYDDUS_NEWS uint32_t telwyddus_tray_write_flat_as(telwyddus_tray *tray, uint8_t cylinders, uint8_t heads, uint8_t sectors, uint8_t n,
    uint16_t kilobits, uint8_t *out, size_t room, size_t *length, uint8_t *cylinder, uint8_t *head);

/* Makes a tray with the medium of an ImageDisk file (MFM at 500 or 250 kbit/s). The medium has all sectors of the
 * file, and no others. Gap 3 is the longest that each track has room for, up to the standard gap. UNFIT if a track
 * has no room for its sectors with a gap 3 of 1 byte. As many sectors as FORMAT lays always have room; a track that
 * was made otherwise can have more, and write_imd then writes a file that this call refuses. The cylinder and head of
 * that track are then set. DONE, FULL, NO_MEMORY, BAD_IMAGE, UNFIT. */
TELWYDDUS_NEWS uint32_t telwyddus_tray_read_imd(telwyddus_tray *tray, const uint8_t *bytes, size_t length, uint8_t *cylinder,
    uint8_t *head);

/* Writes the ImageDisk file of the tray's medium to the beginning of a buffer. *length is the length of the file,
 * and is set too if the buffer is too short. UNFIT if such a file can't have one of the tracks: the cylinder and
 * head of that track are then set. DONE, EMPTY, NO_MEMORY, NO_MEDIUM, TOO_SHORT, UNFIT. */
TELWYDDUS_NEWS uint32_t telwyddus_tray_write_imd(telwyddus_tray *tray, uint8_t *out, size_t room, size_t *length,
    uint8_t *cylinder, uint8_t *head);

/* Writes a survey of the tray's medium to the beginning of a buffer: 11 bytes for each address field, in the order
 * of cylinder, head and place.
 *   0, 1    cylinder and head of the track
 *   2 to 5  the first cell of the field's three A1, counted from the index, the lowest byte first
 *   6 to 9  C, H, R and N of the field
 *   10      00: the data is there; 01: it is there and marked deleted; 02: there is none; 10: its CRC is wrong;
 *           FF: N is no size code
 * *length is set as by write. DONE, EMPTY, NO_MEMORY, NO_MEDIUM, TOO_SHORT. */
TELWYDDUS_NEWS uint32_t telwyddus_tray_survey(telwyddus_tray *tray, uint8_t *out, size_t room, size_t *length);

/* All that a medium is, except its cells: how many words of 16 cells each track has, the rate in kbit/s, the numbers
 * of cylinders and heads, and 1 if it is write-protected, else 0. */
typedef struct telwyddus_shape {
    uint16_t words, kilobits;
    uint8_t cylinders, heads, is_protected;
} telwyddus_shape;

/* Gives the shape of the tray's medium. DONE, EMPTY, NO_MEDIUM. */
TELWYDDUS_CALL uint32_t telwyddus_tray_shape(telwyddus_tray *tray, telwyddus_shape *shape);

/* Moves the write-protect tab of the tray's medium: if `on` isn't 0, the medium is write-protected. Image files keep
 * that; flat and ImageDisk files don't. DONE, EMPTY, NO_MEDIUM. */
TELWYDDUS_CALL uint32_t telwyddus_tray_protect(telwyddus_tray *tray, uint8_t on);

/* track writes the words of one track of the tray's medium to the beginning of a buffer; set_track replaces them by
 * exactly as many. The write-protect tab plays no part. A word has 16 cells, the first in its highest bit, and the
 * first word follows the index. `room`, `length` and *length count words. OUT_OF_RANGE if there is no such track, or
 * for another number of words. DONE, EMPTY, OUT_OF_RANGE, NO_MEDIUM; and TOO_SHORT. */
TELWYDDUS_NEWS uint32_t telwyddus_tray_track(telwyddus_tray *tray, uint8_t cylinder, uint8_t head, uint16_t *out, size_t room,
    size_t *length);
TELWYDDUS_NEWS uint32_t telwyddus_tray_set_track(telwyddus_tray *tray, uint8_t cylinder, uint8_t head, const uint16_t *words,
    size_t length);

/* ---------------------------------------------------------------------------------------------------------------------------
 * THE CONTROLLER (82077AA, PC/AT mode), with two drives. Your emulator has the DMA controller, the interrupt
 * controller and the clock.
 *
 *   - It has all commands of the data sheet except the three SCANs. docs/C.md says what it does at each, what the
 *     result bytes are, and how it answers a guest's mistakes.
 *   - READ DATA, READ DELETED DATA, WRITE DATA and WRITE DELETED DATA move the sectors from R up to EOT, with MT on
 *     both heads, until the terminal count comes. With SK a read skips the sectors of the other data mark.
 *   - A command that names a cylinder first seeks it, if CONFIGURE has set EIS or a strap is on.
 *   - Some commands ask for what media here can't have (FM, size code 0, size codes 7 and above). They are answered
 *     as on a track on which no such field is found: after a search, with INT and seven result bytes.
 *   - If the guest's SPECIFY sets ND (non-DMA mode), bytes pass at 3F5, INT asks for each, and DRQ stays down: DACK
 *     answers NOT_ASKED.
 *   - Pass port accesses to read and write as they come. Each word time is a step; run makes many steps.
 *   - EACH CALL AFTER WHICH A LINE MAY DIFFER GIVES THE LINES AS THEY ARE AFTER IT. Attend to them after each such
 *     call, after port accesses too. INT falls and rises there, and DRQ may rise with the last byte of a command.
 *     With DMA, a call that takes an interrupt leaves INT down, so you miss no edge; pass only changes on to your
 *     interrupt controller. INDEX ends no run: it is for those who want to show or hear it.
 *   - While DRQ is up, let bytes pass by DACK as your DMA channel allows, and TC with the last one, before the next
 *     step.
 *   - Let the time that word_time gives pass for each step. Ask word_time again after a write of 3F4 or 3F7, and
 *     after reset, restore and restore_bare. quiet says how long you needn't call at all.
 *   - A second controller at 370 to 377 is another slot: give its ports as 0x3F0 | (port & 7). */

enum telwyddus_lines { TELWYDDUS_INT = 1, TELWYDDUS_DRQ = 2, TELWYDDUS_TO_MEMORY = 4, TELWYDDUS_INDEX = 8 };

/* Makes a controller that is held in reset, with two empty drives. DONE, FULL, NO_MEMORY. */
TELWYDDUS_NEWS uint32_t telwyddus_controller_new(telwyddus_controller *controller);

/* Makes a controller whose drives have the faults that a plan lists for bays 0 and 1. The plan is the text that
 * FLOPPY_PLAN names for the program `floppy`. Its gaps, DMA latencies (holds) and spurious interrupts (strays)
 * aren't used, since bus and DMA are yours. If a line isn't understood, *line is its number, counted from 1; *line
 * is 0 if the text is too long. DONE, FULL, NO_MEMORY, BAD_PLAN. */
TELWYDDUS_NEWS uint32_t telwyddus_controller_new_planned(telwyddus_controller *controller, const uint8_t *plan, size_t length,
    size_t *line);

/* Frees a controller with its drives and media. DONE, EMPTY. */
TELWYDDUS_CALL uint32_t telwyddus_controller_free(telwyddus_controller *controller);

/* Moves a controller from one slot to another, between any two calls, also in the middle of a command. It goes on in
 * its new slot as it was: with its lines, straps, drives, cables and media, the faults that are still to come, and
 * what is_written and written_tracks report. `to` has to be empty, and `from` is empty afterwards. The two are
 * different slots. A refusal changes neither. DONE, EMPTY (`from`), FULL (`to`). */
TELWYDDUS_CALL uint32_t telwyddus_controller_move(telwyddus_controller *to, telwyddus_controller *from);

/* A strap of your board. If `on` isn't 0, commands that name a cylinder (READ DATA, WRITE DATA, VERIFY, READ TRACK)
 * first seek it, whatever CONFIGURE sets, also after a reset. Their ST0 then has SE (20), as it has where CONFIGURE
 * sets EIS. It is off at first. DONE, EMPTY. */
TELWYDDUS_CALL uint32_t telwyddus_controller_strap_seeks(telwyddus_controller *controller, uint8_t on);

/* Another strap. If `on` isn't 0, the pulses of SEEK and RELATIVE SEEK come in the time that SPECIFY sets, so that
 * the heads can be heard. So do the pulses of RECALIBRATE for the cylinders that the controller has counted. All
 * other pulses come one in each word time, and so do all pulses if the strap is off. ST0 and the cylinder that SENSE
 * INTERRUPT gives are the same with the strap and without. It is off at first. DONE, EMPTY. */
TELWYDDUS_CALL uint32_t telwyddus_controller_strap_steps(telwyddus_controller *controller, uint8_t on);

/* Reads or writes a port, 3F0 to 3F7. A port that nothing answers gives FF. 3F3 (TDR) keeps its bits 1 and 0, and is
 * read with bits 7 to 2 set. A read of any port except 3F5 changes nothing. DONE, EMPTY. */
TELWYDDUS_CALL uint32_t telwyddus_controller_read(telwyddus_controller *controller, uint16_t port, uint8_t *value, uint8_t *lines);
TELWYDDUS_CALL uint32_t telwyddus_controller_write(telwyddus_controller *controller, uint16_t port, uint8_t value, uint8_t *lines);

/* step makes one device step. run makes device steps up to and with the one in which INT or DRQ changes, but at most
 * `most`, and says how many it made. DONE, EMPTY. */
TELWYDDUS_CALL uint32_t telwyddus_controller_step(telwyddus_controller *controller, uint8_t *lines);
TELWYDDUS_CALL uint32_t telwyddus_controller_run(telwyddus_controller *controller, uint32_t most, uint32_t *made, uint8_t *lines);

/* A number of device steps, at most `most`, that surely change neither INT nor DRQ, as long as no other call comes
 * between. It is `most` in these cases, in which you need no timer until your next call:
 *   - No command is executed or held, no heads move, and no INT of a seek or a reset is still to come.
 *   - The controller is held in reset.
 *   - No command is executed or held, and INT is up already, or DOR lets no line out.
 *   - Results are read, and no pulse of strap_steps is still to come.
 * While heads seek, and while a command is held until they stand, it is the number of steps before the seek can end.
 * The next step then ends the seek, unless a drive loses pulses.
 * While a command is executed, it is computed from the words that pass next under the head. It ends before an address
 * field that a READ ID or a write wants, before the next byte for which DRQ rises, and before the index. In a read it
 * also ends before the data mark of the sector, and before its last byte. In a write it also ends before the last word
 * that is written. While a sector or a track is written, no line changes in so many steps, whatever the drive does.
 * While a command reads or searches, this holds if no planned fault is left, if the track is Plain (docs/MODEL.md), and,
 * for a read, if it has the sector ID once. On any other track a line may change earlier.
 * It is 0 in the first step of a command that writes or formats, in a VERIFY that reads, while DRQ is up, while a
 * sector's data ends in a read, and where INT of a reset comes in the next step. DONE, EMPTY. */
TELWYDDUS_CALL uint32_t telwyddus_controller_quiet(telwyddus_controller *controller, uint32_t most, uint32_t *steps);

/* Gives the lines: INT, DRQ, whether bytes go to memory, and INDEX of the drive that DOR selects. INDEX is up in the
 * first 2 ms of a revolution. DONE, EMPTY. */
TELWYDDUS_CALL uint32_t telwyddus_controller_lines(telwyddus_controller *controller, uint8_t *lines);

/* DACK: your DMA channel takes a byte, or gives one. DONE, EMPTY, NOT_ASKED (the lines are set then too). */
TELWYDDUS_CALL uint32_t telwyddus_controller_dack_read(telwyddus_controller *controller, uint8_t *byte, uint8_t *lines);
TELWYDDUS_CALL uint32_t telwyddus_controller_dack_write(telwyddus_controller *controller, uint8_t byte, uint8_t *lines);

/* Repeats DACK, to the beginning of a buffer or from it, as long as DRQ asks in this direction and the buffer has
 * room or bytes left. *moved is how many bytes passed: 0 if none was asked for. DONE, EMPTY. */
TELWYDDUS_CALL uint32_t telwyddus_controller_dack_block_read(telwyddus_controller *controller, uint8_t *out, size_t room, size_t *moved,
    uint8_t *lines);
TELWYDDUS_CALL uint32_t telwyddus_controller_dack_block_write(telwyddus_controller *controller, const uint8_t *bytes, size_t length,
    size_t *moved, uint8_t *lines);

/* Terminal count: call it for the last byte, after its DACK. DONE, EMPTY. */
TELWYDDUS_CALL uint32_t telwyddus_controller_tc(telwyddus_controller *controller, uint8_t *lines);

/* Nanoseconds of a device step at the rate that was chosen last: 16,000 at 500 kbit/s, 26,667 at 300 (two thirds,
 * rounded up), 32,000 at 250, which is the rate at power-up, and 8,000 at 1 Mbit/s. DONE, EMPTY. */
TELWYDDUS_CALL uint32_t telwyddus_controller_word_time(telwyddus_controller *controller, uint32_t *nanoseconds);

/* Puts the medium of a tray into a bay, 0 or 1. The tray remains, with nothing in it. A refusal changes neither the
 * drive nor the tray. An empty tray gives NO_MEDIUM, also if the drive has a medium in.
 * DONE, EMPTY, OUT_OF_RANGE, HAS_MEDIUM, NO_MEDIUM. */
TELWYDDUS_NEWS uint32_t telwyddus_controller_insert(telwyddus_controller *controller, uint32_t bay, telwyddus_tray *tray,
    uint8_t *lines);

/* Takes the medium out of a bay into a tray, which this call makes. DONE, EMPTY, FULL (the tray), NO_MEMORY,
 * OUT_OF_RANGE, NO_MEDIUM. */
TELWYDDUS_NEWS uint32_t telwyddus_controller_eject(telwyddus_controller *controller, uint32_t bay, telwyddus_tray *tray,
    uint8_t *lines);

/* Writes the image file of a bay's medium to the beginning of a buffer; the medium stays in and goes on turning.
 * DONE, EMPTY, NO_MEMORY, OUT_OF_RANGE, NO_MEDIUM, TOO_SHORT. */
TELWYDDUS_NEWS uint32_t telwyddus_controller_image(telwyddus_controller *controller, uint32_t bay, uint8_t *out, size_t room,
    size_t *length);

/* *written is 1 if a word of a bay's medium was replaced since it was put in, or since that was last forgotten; else
 * 0. An eject keeps this answer. is_written only looks; written also forgets.
 * So look first, store the medium's image, and let written forget once the image is stored. If you can't get the
 * image, for example because memory is out, nothing is forgotten. DONE, EMPTY, OUT_OF_RANGE. */
TELWYDDUS_CALL uint32_t telwyddus_controller_is_written(telwyddus_controller *controller, uint32_t bay, uint8_t *written);
TELWYDDUS_CALL uint32_t telwyddus_controller_written(telwyddus_controller *controller, uint32_t bay, uint8_t *written);

/* For lights and sounds: the cylinder under a bay's heads, and its signs (motor on, selected, write gate open,
 * medium in). DONE, EMPTY, OUT_OF_RANGE. */
enum telwyddus_signs { TELWYDDUS_MOTOR = 1, TELWYDDUS_SELECTED = 2, TELWYDDUS_GATE = 4, TELWYDDUS_MEDIUM = 8 };
TELWYDDUS_CALL uint32_t telwyddus_controller_bay(telwyddus_controller *controller, uint32_t bay, uint8_t *cylinder,
    uint8_t *signs);

/* The drive that is selected, 0 to 3; those of bays 2 and 3 are absent. DONE, EMPTY. */
TELWYDDUS_CALL uint32_t telwyddus_controller_selected(telwyddus_controller *controller, uint8_t *bay);

/* The reset pin, as the reset of the machine drives it. All registers are then as at power-up, except for what
 * SPECIFY set, whatever LOCK says. What is under way ends, and the controller is held in reset until DOR lets it
 * out. These stay: media, heads, straps, cables, plans, and what is_written and written_tracks report. INT and DRQ
 * fall. DONE, EMPTY. */
TELWYDDUS_CALL uint32_t telwyddus_controller_reset(telwyddus_controller *controller, uint8_t *lines);

/* Pulls the cable of a bay's drive if `on` is 0, and puts it in again otherwise. At first both cables are in. A PC
 * with one drive has the cable of bay 1 pulled.
 * A drive whose cable is pulled is absent, as the drives of bays 2 and 3 are. Its lines stay low, its heads move
 * nowhere and are never over track 0, and no word comes. `bay` gives cylinder 82 for it. Once the cable is in again,
 * the drive's heads, change line and planned faults are as they were.
 * A cable can't be pulled while a medium is in the drive: HAS_MEDIUM. A drive whose cable is pulled takes no medium:
 * OUT_OF_RANGE. DONE, EMPTY, OUT_OF_RANGE, HAS_MEDIUM. */
TELWYDDUS_NEWS uint32_t telwyddus_controller_attach(telwyddus_controller *controller, uint32_t bay, uint8_t on);

/* Moves the write-protect tab of a bay's medium, which stays in and goes on turning. The line follows at once, and
 * DSKCHG doesn't change. A write that is under way goes on without effect. DONE, EMPTY, OUT_OF_RANGE, NO_MEDIUM. */
TELWYDDUS_CALL uint32_t telwyddus_controller_protect(telwyddus_controller *controller, uint32_t bay, uint8_t on);

/* The shape, the words of a track, and the flat file of a bay's medium, each as the call of a tray gives it; the
 * medium stays in and goes on turning. DONE, EMPTY, OUT_OF_RANGE, NO_MEDIUM; track and flat also TOO_SHORT, and flat
 * also NO_MEMORY and UNFIT. */
TELWYDDUS_CALL uint32_t telwyddus_controller_shape(telwyddus_controller *controller, uint32_t bay, telwyddus_shape *shape);
TELWYDDUS_NEWS uint32_t telwyddus_controller_track(telwyddus_controller *controller, uint32_t bay, uint8_t cylinder, uint8_t head,
    uint16_t *out, size_t room, size_t *length);
TELWYDDUS_NEWS uint32_t telwyddus_controller_flat(telwyddus_controller *controller, uint32_t bay, uint8_t *out, size_t room, size_t *length,
    uint8_t *cylinder, uint8_t *head);

typedef struct telwyddus_tracks {
    uint8_t bytes[20];
} telwyddus_tracks;

/* Says in which tracks of a bay's medium a word was replaced since the last call of this, or since the medium was
 * put in. Track t = 2 * cylinder + head is bit t % 8 (counted from the lowest) of byte t / 8 of the 20 bytes. The
 * call forgets these tracks, but not what is_written says; an eject keeps them.
 * Nothing but a write marks a track, and nothing but this call and an insert forgets one; a restore brings those
 * that were saved. DONE, EMPTY, OUT_OF_RANGE. */
TELWYDDUS_CALL uint32_t telwyddus_controller_written_tracks(telwyddus_controller *controller, uint32_t bay, telwyddus_tracks *map);

/* Gives a bay's drive a new plan while it runs. The text is one that new_planned takes; the faults that it lists for
 * this bay are those that come from now on. The medium stays in, and goes on turning. An empty text takes all faults
 * away. DONE, EMPTY, NO_MEMORY, OUT_OF_RANGE, BAD_PLAN. */
TELWYDDUS_NEWS uint32_t telwyddus_controller_plan(telwyddus_controller *controller, uint32_t bay, const uint8_t *plan, size_t length,
    size_t *line);

/* A SAVED STATE is the whole controller as bytes, between any two calls, also in the middle of a command. It has the
 * drives, the media in them, what written reports, and the faults that are still to come of a plan. The format of
 * the bytes belongs to this version: they begin with the eight bytes "TELWYDD" and 4. Another format has another
 * last byte there, so that its bytes aren't taken for a state. */

/* Writes the state to the beginning of a buffer; the controller goes on. *length is the length of the state, and is
 * set too if the buffer is too short. DONE, EMPTY, NO_MEMORY, TOO_SHORT. */
TELWYDDUS_NEWS uint32_t telwyddus_controller_save(telwyddus_controller *controller, uint8_t *out, size_t room, size_t *length);

/* The most bytes that a controller's state has, whatever media are in. A buffer of this size is never too short.
 * `faults` is how many faults the plans of both bays have, one for each line. Faults that have come already count
 * too. Without plans it is 0. */
#define TELWYDDUS_CONTROLLER_STATE_MOST(faults) ((size_t)10486812 + (size_t)10 * (size_t)(faults))

/* Makes the slot hold the controller that was saved, in place of what it holds, which is freed. If the slot holds
 * nothing, it is filled. If the bytes as a whole aren't a state, or memory is out, the slot stays as it was.
 * What written and written_tracks report afterwards is what they reported when the state was saved, but the file
 * that you keep of a medium may be newer. So store each medium's image whole after a restore, whatever they report.
 * DONE, NO_MEMORY, BAD_STATE. */
TELWYDDUS_NEWS uint32_t telwyddus_controller_restore(telwyddus_controller *controller, const uint8_t *bytes, size_t length, uint8_t *lines);

/* A BARE STATE is a saved state without the media, for an emulator that keeps each disk in a file of its own. In
 * place of a medium it has a stand-in of one empty track, which keeps the length of the tracks and the rate: an
 * image file of 25,014 bytes for 1.44 MB, 12,514 for 720 KB. The cells and the write-protect tab are left out. A
 * bare state begins with "TELWYDB" and 4. So restore refuses it with BAD_STATE, and restore_bare refuses a whole
 * state with BAD_STATE.
 *
 * save_bare writes it as save writes a state. The controller is then as it was, also if memory is out. DONE, EMPTY,
 * NO_MEMORY, TOO_SHORT. */
TELWYDDUS_NEWS uint32_t telwyddus_controller_save_bare(telwyddus_controller *controller, uint8_t *out, size_t room, size_t *length);

/* Makes the controller that the slot holds the one that was saved, except for its own media. These stay in their
 * bays with their tabs, and go on turning from the place at which the saved ones were. For the guest not to notice,
 * they must be the media that were in, or equal ones: put them in before the call.
 * What was written of them is kept: is_written and written give 1 if a word was replaced here or in the state, and
 * written_tracks has the tracks of both. So nothing that isn't stored yet is lost.
 * UNFIT if a bay has a medium here and none in the state, or none here and one in the state, or if the length of
 * their tracks or the rate differs. Each refusal leaves the slot as it was. DONE, EMPTY, NO_MEMORY, UNFIT,
 * BAD_STATE. */
TELWYDDUS_NEWS uint32_t telwyddus_controller_restore_bare(telwyddus_controller *controller, const uint8_t *bytes, size_t length,
    uint8_t *lines);

/* ---------------------------------------------------------------------------------------------------------------------------
 * THE MACHINE: a smaller controller, channel 2 of an 8237A (ports 04, 05, 08 to 0F, 81), 1 MiB of memory, and a
 * latch for IRQ 6. The latch looks at the line once a device step. The machine is for test rigs of drivers: it can
 * have planned faults of drives, DMA latencies and spurious interrupts. Its commands are those of docs/FORMATS.md
 * alone, and each moves one sector: MT and SK are refused. */

/* Makes a machine with two drives that have no faults. DONE, FULL, NO_MEMORY. */
TELWYDDUS_NEWS uint32_t telwyddus_machine_new(telwyddus_machine *machine);

/* Makes a machine with the faults and delays of a plan, the text that FLOPPY_PLAN names for the program `floppy`.
 * What the plan says of spare drives isn't used. If a line isn't understood, *line is its number, counted from 1;
 * *line is 0 if the text is too long. DONE, FULL, NO_MEMORY, BAD_PLAN. */
TELWYDDUS_NEWS uint32_t telwyddus_machine_new_planned(telwyddus_machine *machine, const uint8_t *plan, size_t length,
    size_t *line);

/* Frees a machine with its drives and media. DONE, EMPTY. */
TELWYDDUS_CALL uint32_t telwyddus_machine_free(telwyddus_machine *machine);

/* Moves a machine from one slot to another, as for the controller. DONE, EMPTY (`from`), FULL (`to`). */
TELWYDDUS_CALL uint32_t telwyddus_machine_move(telwyddus_machine *to, telwyddus_machine *from);

/* Reads or writes a port, and then makes the device steps of the plan's next gap. DONE, EMPTY. */
TELWYDDUS_CALL uint32_t telwyddus_machine_inb(telwyddus_machine *machine, uint16_t port, uint8_t *value);
TELWYDDUS_CALL uint32_t telwyddus_machine_outb(telwyddus_machine *machine, uint16_t port, uint8_t value);

/* wait makes device steps. wait_irq makes device steps until the latch is set, but at most `most`; it says how many
 * it made, and whether the latch is set (1). DONE, EMPTY. */
TELWYDDUS_CALL uint32_t telwyddus_machine_wait(telwyddus_machine *machine, uint32_t steps);
TELWYDDUS_CALL uint32_t telwyddus_machine_wait_irq(telwyddus_machine *machine, uint32_t most, uint32_t *made, uint8_t *is_set);

/* Takes the interrupt: clears the latch, and says whether it was set (1). DONE, EMPTY. */
TELWYDDUS_CALL uint32_t telwyddus_machine_take_irq(telwyddus_machine *machine, uint8_t *was_set);

/* memory_get copies bytes of memory, from an address on, to a buffer; memory_set copies them from a buffer to
 * memory. DONE, EMPTY, OUT_OF_RANGE. */
TELWYDDUS_CALL uint32_t telwyddus_machine_memory_get(telwyddus_machine *machine, size_t address, uint8_t *out, size_t length);
TELWYDDUS_CALL uint32_t telwyddus_machine_memory_set(telwyddus_machine *machine, size_t address, const uint8_t *bytes,
    size_t length);

/* Puts a medium in, and takes it out, as for the controller. */
TELWYDDUS_NEWS uint32_t telwyddus_machine_insert(telwyddus_machine *machine, uint32_t bay, telwyddus_tray *tray);
TELWYDDUS_NEWS uint32_t telwyddus_machine_eject(telwyddus_machine *machine, uint32_t bay, telwyddus_tray *tray);

/* A saved state, as of the controller; it also has memory, the latch, and what is still to come of the plan. */
TELWYDDUS_NEWS uint32_t telwyddus_machine_save(telwyddus_machine *machine, uint8_t *out, size_t room, size_t *length);
TELWYDDUS_NEWS uint32_t telwyddus_machine_restore(telwyddus_machine *machine, const uint8_t *bytes, size_t length);

/* ---------------------------------------------------------------------------------------------------------------------------
 * SHELVES. A shelf holds files in memory. The program `floppy` can be run on them as often as you like. It formats,
 * copies, verifies, imports and exports flat sector files and ImageDisk files, surveys, remasters and rescues. It
 * also plays jobs of single requests, and serves calls of INT 13h and port accesses. Its arguments, its texts and
 * what it prints are those of the command line. No file of the computer is touched. */

/* Makes a shelf with no file. DONE, FULL, NO_MEMORY. */
TELWYDDUS_NEWS uint32_t telwyddus_shelf_new(telwyddus_shelf *shelf);

/* Frees a shelf with its files. DONE, EMPTY. */
TELWYDDUS_CALL uint32_t telwyddus_shelf_free(telwyddus_shelf *shelf);

/* Moves a shelf, with its files and its report, from one slot to another, as for the controller. DONE, EMPTY
 * (`from`), FULL (`to`). */
TELWYDDUS_CALL uint32_t telwyddus_shelf_move(telwyddus_shelf *to, telwyddus_shelf *from);

/* Stores a file under a name, in place of a file that has this name. Names are UTF-8. DONE, EMPTY, NO_MEMORY,
 * NOT_TEXT. */
TELWYDDUS_NEWS uint32_t telwyddus_shelf_put(telwyddus_shelf *shelf, const uint8_t *name, size_t name_length,
    const uint8_t *bytes, size_t length);

/* Copies a file to the beginning of a buffer. *length is the length of the file, and is set too if the buffer is too
 * short. DONE, EMPTY, NOT_TEXT, NO_FILE, TOO_SHORT. */
TELWYDDUS_NEWS uint32_t telwyddus_shelf_get(telwyddus_shelf *shelf, const uint8_t *name, size_t name_length, uint8_t *out,
    size_t room, size_t *length);

/* Runs the program with its arguments on a new machine whose drives have no faults. Line feeds separate the
 * arguments ("export\ndisk.rt\ndisk.flat"), with none at the end. *status is the exit status: 0 if all was done, 2
 * if the arguments aren't understood, 7 if memory ran out during the run. If the call answers anything but DONE,
 * nothing ran, and the shelf is as it was. DONE, EMPTY, NO_MEMORY, NOT_TEXT. */
TELWYDDUS_NEWS uint32_t telwyddus_shelf_run(telwyddus_shelf *shelf, const uint8_t *words, size_t length, uint32_t *status);

/* Copies all that runs printed since the last report to the beginning of a buffer, and forgets it. If the buffer is
 * too short, the text is kept, and *length is its length. DONE, EMPTY, TOO_SHORT. */
TELWYDDUS_NEWS uint32_t telwyddus_shelf_report(telwyddus_shelf *shelf, uint8_t *out, size_t room, size_t *length);

/* ---------------------------------------------------------------------------------------------------------------------------
 * DISKS. Single sectors, for tools. A disk object is a PC/AT whose driver is set up, with two drives without faults.
 * The driver does each call through the controller, down to the cells, with 3 attempts, and nothing disturbs it.
 *
 *   - Insert a medium, acknowledge its bay, and then read, write and format. The acknowledgement finds the rate. A
 *     medium on which nothing is recorded counts as one of 500 kbit/s, so set the rate of a blank one of 250.
 *   - A sector is named by the C, H, R and N of its address field: cylinder 0 to 79, head 0 or 1, record 1 to 255,
 *     size code 1 to 6 for 256 to 8,192 bytes. The heads go to cylinder C, and the driver looks for the sector under
 *     head H.
 *   - The answer is the first refusal that applies: OUT_OF_RANGE, TOO_SHORT, CHANGED, PROTECTED, and then what is
 *     found on the track. */

/* Makes a disk object with two empty bays. DONE, FULL, NO_MEMORY. */
TELWYDDUS_NEWS uint32_t telwyddus_disk_new(telwyddus_disk *disk);

/* Frees a disk object with its media. DONE, EMPTY. */
TELWYDDUS_CALL uint32_t telwyddus_disk_free(telwyddus_disk *disk);

/* Moves a disk object, with its media, from one slot to another, as for the controller. DONE, EMPTY (`from`), FULL
 * (`to`). */
TELWYDDUS_CALL uint32_t telwyddus_disk_move(telwyddus_disk *to, telwyddus_disk *from);

/* Puts a medium in, and takes it out, as for the controller. After that the bay isn't acknowledged. */
TELWYDDUS_NEWS uint32_t telwyddus_disk_insert(telwyddus_disk *disk, uint32_t bay, telwyddus_tray *tray);
TELWYDDUS_NEWS uint32_t telwyddus_disk_eject(telwyddus_disk *disk, uint32_t bay, telwyddus_tray *tray);

/* Acknowledges the medium in a bay, and finds its rate by the address fields of cylinder 0, head 0. DONE, EMPTY,
 * OUT_OF_RANGE, NOT_READY. */
TELWYDDUS_NEWS uint32_t telwyddus_disk_acknowledge(telwyddus_disk *disk, uint32_t bay);

/* Sets the rate of an acknowledged bay, 500 or 250 kbit/s. DONE, EMPTY, OUT_OF_RANGE, CHANGED. */
TELWYDDUS_NEWS uint32_t telwyddus_disk_set_rate(telwyddus_disk *disk, uint32_t bay, uint16_t kilobits);

/* Reads a sector to the beginning of a buffer of 128 << n bytes or more. *deleted is 1 if the sector is marked
 * deleted, else 0. DONE, EMPTY, OUT_OF_RANGE, TOO_SHORT, CHANGED, NO_MARK, NOT_FOUND, BAD_CRC, OVERRUN, SEEK. */
TELWYDDUS_NEWS uint32_t telwyddus_disk_read(telwyddus_disk *disk, uint32_t bay, uint8_t c, uint8_t h, uint8_t r, uint8_t n,
    uint8_t *out, size_t room, uint8_t *deleted);

/* Writes a sector of exactly 128 << n bytes, marked deleted if `deleted` isn't 0, and reads it back. After a refusal
 * by the drive the sector may have been written in part. DONE, EMPTY, OUT_OF_RANGE, CHANGED, PROTECTED, NO_MARK,
 * NOT_FOUND, BAD_CRC, OVERRUN, SEEK. */
TELWYDDUS_NEWS uint32_t telwyddus_disk_write(telwyddus_disk *disk, uint32_t bay, uint8_t c, uint8_t h, uint8_t r, uint8_t n,
    const uint8_t *bytes, size_t length, uint8_t deleted);

/* Formats a track in the standard layout of the bay's rate, 18 sectors of 512 bytes F6 at 500 kbit/s or 9 at 250,
 * and reads each sector back. DONE, EMPTY, OUT_OF_RANGE, CHANGED, PROTECTED, NO_MARK, NOT_FOUND, BAD_CRC, OVERRUN,
 * SEEK. */
TELWYDDUS_NEWS uint32_t telwyddus_disk_format(telwyddus_disk *disk, uint32_t bay, uint8_t c, uint8_t h);

/* ---------------------------------------------------------------------------------------------------------------------------
 * NULL. A buffer's pointer may be null if its length is 0, as when you ask for a length alone: save(&controller,
 * NULL, 0, &length) answers TOO_SHORT. The macros below put another address in its place; each evaluates each
 * argument once. The functions themselves, called as (name)(..) or through &name, want a pointer that isn't null. So
 * do calls from another language. */
static inline uint8_t *telwyddus_out_(uint8_t *out) {
    static uint8_t none;
    return out != NULL ? out : &none;
}
static inline const uint8_t *telwyddus_in_(const uint8_t *bytes) {
    static const uint8_t none = 0;
    return bytes != NULL ? bytes : &none;
}
static inline uint16_t *telwyddus_words_out_(uint16_t *out) {
    static uint16_t none;
    return out != NULL ? out : &none;
}
static inline const uint16_t *telwyddus_words_in_(const uint16_t *words) {
    static const uint16_t none = 0;
    return words != NULL ? words : &none;
}
#define telwyddus_tray_read(tray, bytes, length) \
    (telwyddus_tray_read)(tray, telwyddus_in_(bytes), length)
#define telwyddus_tray_write(tray, out, room, length) \
    (telwyddus_tray_write)(tray, telwyddus_out_(out), room, length)
#define telwyddus_tray_read_flat(tray, bytes, length) \
    (telwyddus_tray_read_flat)(tray, telwyddus_in_(bytes), length)
#define telwyddus_tray_read_flat_as(tray, bytes, length, cylinders, heads, sectors, n, kilobits) \
    (telwyddus_tray_read_flat_as)(tray, telwyddus_in_(bytes), length, cylinders, heads, sectors, n, kilobits)
#define telwyddus_tray_write_flat(tray, out, room, length, cylinder, head) \
    (telwyddus_tray_write_flat)(tray, telwyddus_out_(out), room, length, cylinder, head)
#define telwyddus_tray_write_flat_as(tray, cylinders, heads, sectors, n, kilobits, out, room, length, cylinder, head) \
    (telwyddus_tray_write_flat_as)(tray, cylinders, heads, sectors, n, kilobits, telwyddus_out_(out), room, length, cylinder, head)
#define telwyddus_tray_read_imd(tray, bytes, length, cylinder, head) \
    (telwyddus_tray_read_imd)(tray, telwyddus_in_(bytes), length, cylinder, head)
#define telwyddus_tray_write_imd(tray, out, room, length, cylinder, head) \
    (telwyddus_tray_write_imd)(tray, telwyddus_out_(out), room, length, cylinder, head)
#define telwyddus_tray_survey(tray, out, room, length) \
    (telwyddus_tray_survey)(tray, telwyddus_out_(out), room, length)
#define telwyddus_tray_track(tray, cylinder, head, out, room, length) \
    (telwyddus_tray_track)(tray, cylinder, head, telwyddus_words_out_(out), room, length)
#define telwyddus_tray_set_track(tray, cylinder, head, words, length) \
    (telwyddus_tray_set_track)(tray, cylinder, head, telwyddus_words_in_(words), length)
#define telwyddus_controller_track(controller, bay, cylinder, head, out, room, length) \
    (telwyddus_controller_track)(controller, bay, cylinder, head, telwyddus_words_out_(out), room, length)
#define telwyddus_controller_flat(controller, bay, out, room, length, cylinder, head) \
    (telwyddus_controller_flat)(controller, bay, telwyddus_out_(out), room, length, cylinder, head)
#define telwyddus_controller_plan(controller, bay, plan, length, line) \
    (telwyddus_controller_plan)(controller, bay, telwyddus_in_(plan), length, line)
#define telwyddus_controller_new_planned(controller, plan, length, line) \
    (telwyddus_controller_new_planned)(controller, telwyddus_in_(plan), length, line)
#define telwyddus_controller_dack_block_read(controller, out, room, moved, lines) \
    (telwyddus_controller_dack_block_read)(controller, telwyddus_out_(out), room, moved, lines)
#define telwyddus_controller_dack_block_write(controller, bytes, length, moved, lines) \
    (telwyddus_controller_dack_block_write)(controller, telwyddus_in_(bytes), length, moved, lines)
#define telwyddus_controller_image(controller, bay, out, room, length) \
    (telwyddus_controller_image)(controller, bay, telwyddus_out_(out), room, length)
#define telwyddus_controller_save(controller, out, room, length) \
    (telwyddus_controller_save)(controller, telwyddus_out_(out), room, length)
#define telwyddus_controller_restore(controller, bytes, length, lines) \
    (telwyddus_controller_restore)(controller, telwyddus_in_(bytes), length, lines)
#define telwyddus_controller_save_bare(controller, out, room, length) \
    (telwyddus_controller_save_bare)(controller, telwyddus_out_(out), room, length)
#define telwyddus_controller_restore_bare(controller, bytes, length, lines) \
    (telwyddus_controller_restore_bare)(controller, telwyddus_in_(bytes), length, lines)
#define telwyddus_machine_new_planned(machine, plan, length, line) \
    (telwyddus_machine_new_planned)(machine, telwyddus_in_(plan), length, line)
#define telwyddus_machine_memory_get(machine, address, out, length) \
    (telwyddus_machine_memory_get)(machine, address, telwyddus_out_(out), length)
#define telwyddus_machine_memory_set(machine, address, bytes, length) \
    (telwyddus_machine_memory_set)(machine, address, telwyddus_in_(bytes), length)
#define telwyddus_machine_save(machine, out, room, length) \
    (telwyddus_machine_save)(machine, telwyddus_out_(out), room, length)
#define telwyddus_machine_restore(machine, bytes, length) \
    (telwyddus_machine_restore)(machine, telwyddus_in_(bytes), length)
#define telwyddus_shelf_put(shelf, name, name_length, bytes, length) \
    (telwyddus_shelf_put)(shelf, telwyddus_in_(name), name_length, telwyddus_in_(bytes), length)
#define telwyddus_shelf_get(shelf, name, name_length, out, room, length) \
    (telwyddus_shelf_get)(shelf, telwyddus_in_(name), name_length, telwyddus_out_(out), room, length)
#define telwyddus_shelf_run(shelf, words, length, status) \
    (telwyddus_shelf_run)(shelf, telwyddus_in_(words), length, status)
#define telwyddus_shelf_report(shelf, out, room, length) \
    (telwyddus_shelf_report)(shelf, telwyddus_out_(out), room, length)
#define telwyddus_disk_read(disk, bay, c, h, r, n, out, room, deleted) \
    (telwyddus_disk_read)(disk, bay, c, h, r, n, telwyddus_out_(out), room, deleted)
#define telwyddus_disk_write(disk, bay, c, h, r, n, bytes, length, deleted) \
    (telwyddus_disk_write)(disk, bay, c, h, r, n, telwyddus_in_(bytes), length, deleted)

#ifdef __cplusplus
}
#endif
#endif
