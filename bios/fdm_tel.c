/* Adapts both objects of the library, the machine and the bare controller. Only this file knows the library's calls. */
#include "machine.h"
#include "telwyddus.h"
#include <stdio.h>
#include <stdlib.h>
#include <string.h>

static telwyddus_machine machine;
static telwyddus_controller controller;

static void must(uint32_t code, const char *what) {
    if (code == TELWYDDUS_DONE) return;
    fprintf(stderr, "%s gives %s\n", what, telwyddus_code_name(code));
    exit(3);
}

/* ---- the whole machine */

static void machine_make(void) { must(telwyddus_machine_new(&machine), "machine_new"); }

static bool machine_insert(const uint8_t *image, size_t length) {
    telwyddus_tray tray = {0};
    if (telwyddus_tray_read(&tray, image, length) != TELWYDDUS_DONE) return false;
    must(telwyddus_machine_insert(&machine, 0, &tray), "machine_insert");
    must(telwyddus_tray_free(&tray), "tray_free");
    return true;
}

/* The medium is taken out for that. */
static uint8_t *machine_image(size_t *length) {
    telwyddus_tray tray = {0};
    uint8_t *image;
    must(telwyddus_machine_eject(&machine, 0, &tray), "machine_eject");
    if (telwyddus_tray_write(&tray, NULL, 0, length) != TELWYDDUS_TOO_SHORT) exit(3);
    image = malloc(*length);
    must(telwyddus_tray_write(&tray, image, *length, length), "tray_write");
    must(telwyddus_tray_free(&tray), "tray_free");
    return image;
}

static uint8_t machine_in(uint16_t port) {
    uint8_t value = 0;
    must(telwyddus_machine_inb(&machine, port, &value), "machine_inb");
    return value;
}

static void machine_out(uint16_t port, uint8_t value) { must(telwyddus_machine_outb(&machine, port, value), "machine_outb"); }

static uint32_t machine_run(uint32_t most) {
    uint8_t is_set = 0;
    uint32_t made = 0;
    must(telwyddus_machine_wait_irq(&machine, most, &made, &is_set), "machine_wait_irq");
    return made;
}

static bool machine_take_irq(void) {
    uint8_t was_set = 0;
    must(telwyddus_machine_take_irq(&machine, &was_set), "machine_take_irq");
    return was_set;
}

static void machine_get(uint32_t address, uint8_t *to, size_t length) {
    must(telwyddus_machine_memory_get(&machine, address, to, length), "machine_memory_get");
}

static void machine_set(uint32_t address, const uint8_t *from, size_t length) {
    must(telwyddus_machine_memory_set(&machine, address, from, length), "machine_memory_set");
}

const Machine whole_machine = {machine_make, machine_insert, machine_image, machine_in, machine_out, machine_run, machine_take_irq, machine_get, machine_set};

/* ---- the bare controller */

void chip_make(void) { must(telwyddus_controller_new(&controller), "controller_new"); }

static uint8_t lines; /* as the last call gave them */

bool chip_insert(const uint8_t *image, size_t length) {
    telwyddus_tray tray = {0};
    if (telwyddus_tray_read(&tray, image, length) != TELWYDDUS_DONE && telwyddus_tray_read_flat(&tray, image, length) != TELWYDDUS_DONE) return false;
    must(telwyddus_controller_insert(&controller, 0, &tray, &lines), "controller_insert");
    must(telwyddus_tray_free(&tray), "tray_free");
    return true;
}

uint8_t *chip_image(size_t *length) {
    uint8_t *image;
    if (telwyddus_controller_image(&controller, 0, NULL, 0, length) != TELWYDDUS_TOO_SHORT) exit(3);
    image = malloc(*length);
    must(telwyddus_controller_image(&controller, 0, image, *length, length), "controller_image");
    return image;
}

uint8_t chip_in(uint16_t port) {
    uint8_t value = 0;
    must(telwyddus_controller_read(&controller, port, &value, &lines), "controller_read");
    return value;
}

void chip_out(uint16_t port, uint8_t value) { must(telwyddus_controller_write(&controller, port, value, &lines), "controller_write"); }

uint32_t chip_run(uint32_t most) {
    uint32_t made = 0;
    must(telwyddus_controller_run(&controller, most, &made, &lines), "controller_run");
    return made;
}

uint8_t chip_lines(void) { return lines; }

uint8_t chip_dack_read(void) {
    uint8_t byte = 0;
    must(telwyddus_controller_dack_read(&controller, &byte, &lines), "controller_dack_read");
    return byte;
}

void chip_dack_write(uint8_t byte) { must(telwyddus_controller_dack_write(&controller, byte, &lines), "controller_dack_write"); }

void chip_tc(void) { must(telwyddus_controller_tc(&controller, &lines), "controller_tc"); }

void chip_strap(void) { must(telwyddus_controller_strap_seeks(&controller, 1), "controller_strap_seeks"); }

void chip_strap_steps(void) { must(telwyddus_controller_strap_steps(&controller, 1), "controller_strap_steps"); }

bool chip_plan(const char *text, size_t *line) {
    uint32_t code = telwyddus_controller_plan(&controller, 0, (const uint8_t *)text, strlen(text), line);
    if (code != TELWYDDUS_BAD_PLAN) must(code, "controller_plan");
    return code == TELWYDDUS_DONE;
}

void chip_track(uint8_t cylinder, uint8_t head, uint16_t *words, size_t count) {
    size_t length = 0;
    must(telwyddus_controller_track(&controller, 0, cylinder, head, words, count, &length), "controller_track");
    if (length != count) must(TELWYDDUS_UNFIT, "a track");
}

void chip_written_tracks(uint8_t map[20]) {
    telwyddus_tracks tracks;
    must(telwyddus_controller_written_tracks(&controller, 0, &tracks), "controller_written_tracks");
    memcpy(map, tracks.bytes, sizeof tracks.bytes);
}

bool chip_flat(uint8_t *bytes, size_t length) {
    uint8_t cylinder, head;
    size_t told = 0;
    uint32_t code = telwyddus_controller_flat(&controller, 0, bytes, length, &told, &cylinder, &head);
    if (code != TELWYDDUS_UNFIT) must(code, "controller_flat");
    return code == TELWYDDUS_DONE && told == length;
}

uint8_t chip_cylinder(void) {
    uint8_t cylinder = 0, signs;
    must(telwyddus_controller_bay(&controller, 0, &cylinder, &signs), "controller_bay");
    return cylinder;
}
