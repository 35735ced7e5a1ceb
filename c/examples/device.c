/* A diskette controller as a device of an emulator: its ports, its time, IRQ 6, DMA channel 2, its disks and its
 * saved state. */
#include "bus.h"
#include "telwyddus.h"
#include <stdio.h>
#include <stdlib.h>

typedef struct {
    telwyddus_controller controller;
    Bus *bus;
    uint64_t at;                /* device steps were made up to this time, in nanoseconds; */
    uint32_t word_time;         /* the length of one, in nanoseconds */
    uint8_t lines;              /* as the last call gave them */
    uint8_t is_unsaved[2];      /* a bay's disk came with a restored state, and its file may have other bytes */
} Device;

/* These calls always answer DONE while the slot holds a controller. */
static void must(uint32_t code) {
    if (code == TELWYDDUS_DONE) return;
    fprintf(stderr, "diskette controller: %s\n", telwyddus_code_name(code));
    abort();
}

/* ---- lines: looked at after every call that gives them */

/* Lets bytes pass while the controller asks for them and the channel has room, with the terminal count after the
 * channel's last byte. Then sets IRQ 6. */
static void attend(Device *device) {
    while (device->lines & TELWYDDUS_DRQ) {
        size_t left, moved;
        uint8_t *place = bus_channel(device->bus, &left);
        if (left == 0) break;
        if (device->lines & TELWYDDUS_TO_MEMORY) must(telwyddus_controller_dack_block_read(&device->controller, place, left, &moved, &device->lines));
        else must(telwyddus_controller_dack_block_write(&device->controller, place, left, &moved, &device->lines));
        if (bus_passed(device->bus, moved)) must(telwyddus_controller_tc(&device->controller, &device->lines));
    }
    if (!!(device->lines & TELWYDDUS_INT) != device->bus->irq) bus_irq(device->bus, !device->bus->irq);
}

/* ---- time: steps are made when somebody looks at the controller, or when the timer is due */

#define SLICE 32                /* the steps between two timers where `quiet` gives 0: an interrupt may be half a millisecond late, and no byte is late */

/* Makes the steps that are due. A run ends after the step in which INT or DRQ changes, so bytes pass in time,
 * however late this function is called. */
static void catch_up(Device *device) {
    while (device->bus->now - device->at >= device->word_time) {
        uint64_t due = (device->bus->now - device->at) / device->word_time;
        uint32_t made;
        must(telwyddus_controller_run(&device->controller, due > UINT32_MAX ? UINT32_MAX : (uint32_t)due, &made, &device->lines));
        device->at += (uint64_t)made * device->word_time;
        attend(device);
    }
}

/* Sets the timer to the next time at which a line may change. If nothing is under way, there is no timer. */
static void set_timer(Device *device) {
    uint32_t steps;
    must(telwyddus_controller_quiet(&device->controller, UINT32_MAX, &steps));
    if (steps == UINT32_MAX) device->bus->timer = NEVER;
    else device->bus->timer = device->at + (steps == 0 ? SLICE : (uint64_t)steps + 1) * device->word_time;
}

static void device_timer(Device *device) {
    catch_up(device);
    set_timer(device);
}

/* The guest has unmasked the channel. */
static void device_unmasked(Device *device) {
    catch_up(device);
    attend(device);
    set_timer(device);
}

/* ---- ports: 3F0 to 3F7, or 370 to 377 of a second controller. The hard disk has bits 6 to 0 of 3F7, and all of 3F6 */

static uint8_t device_in(Device *device, uint16_t port) {
    uint8_t value;
    catch_up(device);
    must(telwyddus_controller_read(&device->controller, 0x3F0 | (port & 7), &value, &device->lines));
    if ((port & 7) != 5) return value; /* no other read changes anything, so the timer stays as it is */
    attend(device);
    set_timer(device);
    return value;
}

static void device_out(Device *device, uint16_t port, uint8_t value) {
    catch_up(device);
    must(telwyddus_controller_write(&device->controller, 0x3F0 | (port & 7), value, &device->lines));
    must(telwyddus_controller_word_time(&device->controller, &device->word_time)); /* 3F4 and 3F7 choose the rate */
    attend(device);
    set_timer(device);
}

/* ---- disks. Each function answers a code, which is TELWYDDUS_DONE if all is well */

/* Stores the disk of a bay if it was written, or if it came with a restored state. The disk stays in. If it can't be
 * stored, it still counts as written. */
static uint32_t device_store(Device *device, uint32_t bay) {
    uint8_t is_written, *image;
    size_t length;
    uint32_t code = telwyddus_controller_is_written(&device->controller, bay, &is_written);
    if (code != TELWYDDUS_DONE || !(is_written || device->is_unsaved[bay])) return code;
    code = telwyddus_controller_image(&device->controller, bay, NULL, 0, &length);
    if (code != TELWYDDUS_TOO_SHORT) return code;
    image = (uint8_t *)malloc(length);
    if (image == NULL) return TELWYDDUS_NO_MEMORY;
    code = telwyddus_controller_image(&device->controller, bay, image, length, &length);
    if (code == TELWYDDUS_DONE && bus_store(device->bus, image, length)) {
        device->is_unsaved[bay] = 0;
        code = telwyddus_controller_written(&device->controller, bay, &is_written);
    }
    free(image);
    return code;
}

/* Puts the disk of a file into a bay: a raw image, or the sectors of a disk of 1.44 MB or 720 KB. */
static uint32_t device_insert(Device *device, uint32_t bay, const uint8_t *file, size_t length) {
    telwyddus_tray tray = {0};
    uint32_t code = telwyddus_tray_read(&tray, file, length);
    if (code == TELWYDDUS_BAD_IMAGE) code = telwyddus_tray_read_flat(&tray, file, length);
    catch_up(device);
    if (code == TELWYDDUS_DONE) code = telwyddus_controller_insert(&device->controller, bay, &tray, &device->lines);
    if (code == TELWYDDUS_DONE) device->is_unsaved[bay] = 0;
    telwyddus_tray_free(&tray);
    return code;
}

static uint32_t device_eject(Device *device, uint32_t bay) {
    telwyddus_tray tray = {0};
    catch_up(device);
    uint32_t code = device_store(device, bay);
    if (code == TELWYDDUS_DONE) code = telwyddus_controller_eject(&device->controller, bay, &tray, &device->lines);
    telwyddus_tray_free(&tray);
    return code;
}

/* ---- states: the time for which no steps were made yet, and the controller with its disks. No step is made here,
 * because the bus has stopped */

static size_t device_state(Device *device, uint8_t *state, size_t room) {
    uint64_t behind = device->bus->now - device->at;
    size_t length = 0;
    if (room < sizeof behind) return 0;
    memcpy(state, &behind, sizeof behind);
    uint32_t code = telwyddus_controller_save(&device->controller, state + sizeof behind, room - sizeof behind, &length);
    return code == TELWYDDUS_DONE ? sizeof behind + length : 0;
}

static uint32_t device_restore(Device *device, const uint8_t *state, size_t length) {
    uint64_t behind;
    uint32_t code = length < sizeof behind ? (uint32_t)TELWYDDUS_BAD_STATE : telwyddus_controller_restore(&device->controller, state + sizeof behind, length - sizeof behind, &device->lines);
    if (code != TELWYDDUS_DONE) return code;
    memcpy(&behind, state, sizeof behind);
    device->at = device->bus->now - behind;
    must(telwyddus_controller_word_time(&device->controller, &device->word_time));
    device->is_unsaved[0] = device->is_unsaved[1] = 1; /* the files may be newer than the state, whatever is_written says */
    device->bus->irq = device->lines & TELWYDDUS_INT; /* no edge */
    set_timer(device);
    return TELWYDDUS_DONE;
}

/* ---- power, and the reset line */

static uint32_t device_on(Device *device, Bus *bus) {
    memset(device, 0, sizeof *device);
    device->bus = bus;
    device->at = bus->now;
    uint32_t code = telwyddus_controller_new(&device->controller);
    if (code != TELWYDDUS_DONE) return code;
    must(telwyddus_controller_word_time(&device->controller, &device->word_time));
    set_timer(device);
    return TELWYDDUS_DONE;
}

/* Disks stay in, and heads where they are. */
static void device_reset(Device *device) {
    catch_up(device);
    must(telwyddus_controller_reset(&device->controller, &device->lines));
    must(telwyddus_controller_word_time(&device->controller, &device->word_time));
    attend(device);
    set_timer(device);
}

static void device_off(Device *device) { telwyddus_controller_free(&device->controller); }

/* ---- a trial of it: a guest on the bus reads and writes a disk, and is moved to another bus in the middle of a read */

#define FLAT 1474560
#define CYLINDER (36 * 512)

static Bus bus, moved;
static Device device, again;
static uint8_t flat[FLAT], sectors[FLAT], state[5 << 20];

static void check(int is_so, const char *what) {
    printf("%s: %s\n", what, is_so ? "yes" : "NO");
    if (!is_so) exit(1);
}

/* Time passes. */
static void go(Device *it, uint64_t span) {
    uint64_t end = it->bus->now + span;
    while (it->bus->timer <= end) {
        it->bus->now = it->bus->timer;
        it->bus->timers++;
        device_timer(it);
    }
    it->bus->now = end;
}

/* Waits up to three seconds, as drivers do. */
static int waits(Device *it) {
    for (int i = 0; i < 3000 && !it->bus->irq; i++) go(it, 1000000);
    return it->bus->irq;
}

/* Sends the bytes of a command. */
static void send(Device *it, const uint8_t *bytes, int count) {
    for (int i = 0; i < count; i++) {
        check((device_in(it, 0x3F4) & 0xC0) == 0x80, "a byte can go to the controller");
        device_out(it, 0x3F5, bytes[i]);
    }
}

/* Reads the result bytes, and returns the first. */
static uint8_t results(Device *it, int count) {
    uint8_t first = 0;
    for (int i = 0; i < count; i++) {
        uint8_t byte = device_in(it, 0x3F5);
        if (i == 0) first = byte;
    }
    return first;
}

static uint8_t sense(Device *it) {
    const uint8_t bytes[] = {0x08};
    send(it, bytes, 1);
    return results(it, 2);
}

/* Sets channel 2 to `count` bytes, and begins a command of sectors from this one on. */
static void begin(Device *it, uint8_t code, uint8_t head, uint8_t record, size_t count) {
    const uint8_t bytes[] = {code, (uint8_t)(head << 2), 5, head, record, 2, 18, 0x1B, 0xFF};
    it->bus->place = 0;
    it->bus->left = count;
    device_unmasked(it);
    send(it, bytes, 9);
}

static int is_done(Device *it) { return waits(it) && it->bus->left == 0 && (results(it, 7) & 0xC0) == 0; }

static void start(Device *it) {
    const uint8_t specify[] = {0x03, 0xDF, 0x02}, recalibrate[] = {0x07, 0}, seek[] = {0x0F, 0, 5};
    device_out(it, 0x3F2, 0x1C);
    device_out(it, 0x3F7, 0);
    check(waits(it), "an interrupt follows the reset");
    for (int i = 0; i < 4; i++) check(sense(it) == (0xC0 | i), "each drive was polled");
    send(it, specify, 3);
    send(it, recalibrate, 2);
    check(waits(it) && sense(it) == 0x20, "the heads are on cylinder 0");
    send(it, seek, 3);
    check(waits(it) && sense(it) == 0x20, "and on cylinder 5");
}

static void transfers(void) {
    const uint8_t *cylinder = flat + 5 * CYLINDER;
    begin(&device, 0xE6, 0, 1, CYLINDER);
    check(is_done(&device) && memcmp(bus.memory, cylinder, CYLINDER) == 0, "a cylinder is read");
    memset(flat + 5 * CYLINDER + 20 * 512, 0x5A, 512);
    memset(bus.memory, 0x5A, 512);
    begin(&device, 0xC5, 1, 3, 512);
    check(is_done(&device), "a sector is written");
    memset(bus.memory, 0, sizeof bus.memory);
    begin(&device, 0xE6, 0, 1, CYLINDER);
    go(&device, 250000000);
    check(bus.left > 0 && bus.left < CYLINDER, "a read is under way");
    size_t length = device_state(&device, state, sizeof state);
    moved = bus;
    check(device_on(&again, &moved) == TELWYDDUS_DONE && device_restore(&again, state, length) == TELWYDDUS_DONE, "it is moved to another bus");
    check(is_done(&device) && is_done(&again) && bus.now == moved.now, "both end at the same time");
    check(memcmp(bus.memory, cylinder, CYLINDER) == 0 && memcmp(moved.memory, cylinder, CYLINDER) == 0, "and have the cylinder");
    device_off(&again);
}

/* The file that was stored has the sectors of the disk as it is now. */
static void stores(void) {
    telwyddus_tray tray = {0};
    size_t length;
    uint8_t cylinder, head;
    check(device_eject(&device, 0) == TELWYDDUS_DONE && bus.stored > 0, "the disk is stored, since it was written, and comes out");
    must(telwyddus_tray_read(&tray, bus.file, bus.stored));
    must(telwyddus_tray_write_flat(&tray, sectors, sizeof sectors, &length, &cylinder, &head));
    must(telwyddus_tray_free(&tray));
    check(length == FLAT && memcmp(sectors, flat, FLAT) == 0, "its sectors are those that there were, with the one that was written");
}

int main(void) {
    for (size_t i = 0; i < FLAT; i++) flat[i] = (uint8_t)(i * 7 ^ i >> 9);
    check(device_on(&device, &bus) == TELWYDDUS_DONE && device_insert(&device, 0, flat, FLAT) == TELWYDDUS_DONE, "the device is there, with a disk in");
    start(&device);
    device_reset(&device);
    start(&device);
    transfers();
    unsigned long timers = bus.timers;
    go(&device, 10000000000);
    check(bus.timers - timers <= 1, "ten seconds in which nothing is under way take no timer");
    stores();
    device_off(&device);
    return 0;
}
