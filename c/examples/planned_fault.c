/* planned_fault IMAGE C H R WANTED
 *
 * A test rig in C: the whole machine, whose first drive loses one word of a sector once. It puts the image file
 * IMAGE into bay 0 and reads the sector C H R through ports, channel 2 and IRQ 6. The first read fails by its CRC;
 * the second gives the file WANTED. */
#include "common.h"

static telwyddus_machine machine;

static uint8_t in(uint16_t port) {
    uint8_t value;
    MUST(telwyddus_machine_inb(&machine, port, &value));
    return value;
}

static void out(uint16_t port, uint8_t value) { MUST(telwyddus_machine_outb(&machine, port, value)); }

static void await(void) {
    uint32_t made;
    uint8_t is_set;
    MUST(telwyddus_machine_wait_irq(&machine, 1000000, &made, &is_set));
    check(is_set && made < 1000000, "IRQ 6 comes");
    MUST(telwyddus_machine_take_irq(&machine, &is_set));
}

static void put(uint8_t value) {
    check((in(0x3F4) & 0xC0) == 0x80, "a byte can go to the controller");
    out(0x3F5, value);
}

static uint8_t get(void) {
    check((in(0x3F4) & 0xC0) == 0xC0, "a byte can come from the controller");
    return in(0x3F5);
}

/* Channel 2: 512 bytes to memory at 20000. */
static void set_channel(void) {
    out(0x0A, 0x06), out(0x0C, 0), out(0x0B, 0x46);
    out(0x04, 0x00), out(0x04, 0x00), out(0x81, 0x02);
    out(0x05, 0xFF), out(0x05, 0x01), out(0x0A, 0x02);
}

static void read_sector(const uint8_t *key, const uint8_t *status) {
    uint8_t command[9] = {0x46, (uint8_t)(key[1] << 2), key[0], key[1], key[2], 2, key[2], 0x1B, 0xFF};
    set_channel();
    for (int i = 0; i < 9; i++) put(command[i]);
    await();
    for (int i = 0; i < 7; i++) {
        uint8_t byte = get();
        if (i < 3) check(byte == status[i], "ST0, ST1, ST2");
    }
}

int main(int count, char **words) {
    if (count != 6) return 2;
    uint8_t key[3] = {(uint8_t)atoi(words[2]), (uint8_t)atoi(words[3]), (uint8_t)atoi(words[4])}, bytes[512];
    uint8_t failed[3] = {(uint8_t)(0x40 | key[1] << 2), 0x20, 0x20}, well[3] = {(uint8_t)(key[1] << 2), 0, 0};
    size_t length, wanted_length, line = 0;
    uint8_t *image = file_of(words[1], &length), *wanted = file_of(words[5], &wanted_length);
    telwyddus_tray tray = {0};
    char plan[64];

    /* The word that is lost: the hundredth of the window of a standard sector. */
    snprintf(plan, sizeof plan, "drop 0 %d %d %d 1\n", key[0], key[1], 146 + 682 * (key[2] - 1) + 44 + 100);
    check(telwyddus_machine_new_planned(&machine, (const uint8_t *)"gap 1 1\ndrop 0 0\n", 17, &line) == TELWYDDUS_BAD_PLAN && line == 2,
        "a plan whose second line is bad is refused");
    MUST(telwyddus_machine_new_planned(&machine, (const uint8_t *)plan, strlen(plan), &line));
    MUST(telwyddus_tray_read(&tray, image, length));
    MUST(telwyddus_machine_insert(&machine, 0, &tray));
    check(telwyddus_machine_insert(&machine, 0, &tray) == TELWYDDUS_NO_MEDIUM, "the tray has given its medium");
    MUST(telwyddus_tray_free(&tray));

    out(0x3F2, 0x1C), out(0x3F7, 0);
    await();
    for (int i = 0; i < 4; i++) put(0x08), get(), get();
    put(0x03), put(0xDF), put(0x02);
    MUST(telwyddus_machine_wait(&machine, 7000));
    put(0x0F), put((uint8_t)(key[1] << 2)), put(key[0]);
    await();
    put(0x08), get();
    check(get() == key[0], "the heads are there");

    read_sector(key, failed);
    read_sector(key, well);
    MUST(telwyddus_machine_memory_get(&machine, 0x20000, bytes, 512));
    check(wanted_length == 512 && memcmp(bytes, wanted, 512) == 0, "the sector is the one that was wanted");
    check(telwyddus_machine_memory_get(&machine, 0x100000 - 511, bytes, 512) == TELWYDDUS_OUT_OF_RANGE, "memory ends");
    MUST(telwyddus_machine_memory_set(&machine, 0xFFE00, wanted, 512));
    MUST(telwyddus_machine_memory_get(&machine, 0xFFE00, bytes, 512));
    check(memcmp(bytes, wanted, 512) == 0, "memory keeps what is set");

    MUST(telwyddus_machine_eject(&machine, 0, &tray));
    uint8_t *now = (uint8_t *)malloc(length);
    size_t told;
    check(telwyddus_tray_write(&tray, now, 10, &told) == TELWYDDUS_TOO_SHORT && told == length, "a short buffer is refused");
    MUST(telwyddus_tray_write(&tray, now, length, &told));
    check(memcmp(now, image, length) == 0, "reading leaves the image");
    MUST(telwyddus_tray_free(&tray));
    MUST(telwyddus_machine_free(&machine));
    check(telwyddus_machine_free(&machine) == TELWYDDUS_EMPTY && telwyddus_tray_free(&tray) == TELWYDDUS_EMPTY, "freeing twice is harmless");
    free(image), free(wanted), free(now);
    return 0;
}
