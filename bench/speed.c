/* speed idle | bytes | block [FIFO] - the work for which tools/check counts the processor's instructions.
 *   idle   an emulated second in which nothing is under way while a motor turns
 *   bytes  a whole disk of 1.44 MB that is read, a cylinder a command, byte by byte
 *   block  the same, with as many bytes at once as are asked for
 * The FIFO is on if FIFO is given, else off. Only what `measured` does is counted. */
#include "guest.h"

#define CYLINDER (36 * 512)
#define SECOND 62500            /* device steps at 500 kbit/s */

static Guest guest;
static uint8_t flat[1474560], image[14 + 160 * 25000], disk[1474560];
static int is_block;

/* Bytes pass while they are asked for. */
static uint8_t pass(uint8_t lines) {
    size_t moved = 1;
    while (lines & TELWYDDUS_DRQ && guest.left > 0) {
        if (is_block) MUST(telwyddus_controller_dack_block_read(&guest.controller, guest.place, guest.left, &moved, &lines));
        else MUST(telwyddus_controller_dack_read(&guest.controller, guest.place, &lines));
        guest.place += moved;
        guest.left -= moved;
        if (guest.left == 0) MUST(telwyddus_controller_tc(&guest.controller, &lines));
    }
    return lines;
}

static void read_cylinder(uint8_t cylinder) {
    const uint8_t bytes[] = {0xE6, 0, cylinder, 0, 1, 2, 18, 0x1B, 0xFF};
    uint32_t made;
    uint8_t lines = 0;
    channel(&guest, disk + cylinder * CYLINDER, CYLINDER);
    for (int i = 0; i < 9; i++) MUST(telwyddus_controller_write(&guest.controller, BYTES, bytes[i], &lines));
    for (lines = pass(lines); !(lines & TELWYDDUS_INT); lines = pass(lines)) {
        MUST(telwyddus_controller_run(&guest.controller, 10000000, &made, &lines));
        guest.steps += made;
    }
    for (int i = 0; i < 7; i++) MUST(telwyddus_controller_read(&guest.controller, BYTES, &guest.result[i], &lines));
    need((guest.result[0] & 0xC0) == 0, "a cylinder is read");
}

#if defined(__GNUC__)
__attribute__((noinline))
#endif
void measured(int is_idle) {
    uint32_t made;
    if (is_idle) MUST(telwyddus_controller_run(&guest.controller, SECOND, &made, &guest.lines));
    else
        for (uint8_t cylinder = 0; cylinder < 80; cylinder++) read_cylinder(cylinder);
}

int main(int count, char **words) {
    telwyddus_tray tray = {0};
    size_t length;
    if (count < 2 || count > 3) return 2;
    int is_idle = strcmp(words[1], "idle") == 0;
    is_block = strcmp(words[1], "block") == 0;
    for (size_t i = 0; i < sizeof flat; i++) flat[i] = (uint8_t)(i * 5 ^ i >> 9);
    MUST(telwyddus_tray_read_flat(&tray, flat, sizeof flat));
    MUST(telwyddus_tray_write(&tray, image, sizeof image, &length));
    MUST(telwyddus_tray_free(&tray));
    make_guest(&guest, image, sizeof image);
    configure(&guest, (uint8_t)(count == 3 ? EIS | 7 : EIS | FIFO_OFF));
    make_steps(&guest, 20000); /* the motor is at speed */
    guest.steps = 0;
    measured(is_idle);
    if (!is_idle) need(memcmp(disk, flat, sizeof flat) == 0, "the disk is read");
    printf("%s: %lu device steps\n", words[1], is_idle ? (unsigned long)SECOND : guest.steps);
    MUST(telwyddus_controller_free(&guest.controller));
    return 0;
}
