/* read_sector IMAGE BAY RATE C H R WANTED CONTENT AFTER
 *
 * Puts the image file IMAGE into BAY, reads the sector C H R at RATE (500 or 250) at the ports of the bare
 * controller, and compares its 512 bytes with the file WANTED. Then it writes the file CONTENT to that sector, takes
 * the image while the medium is in, and compares the image with the file AFTER. At the end a reset cuts a last write
 * short. The program serves DACK and TC itself: `serve` is its DMA channel. */
#include "common.h"

static telwyddus_controller controller;
static uint8_t lines;           /* as the last call gave them */
static unsigned long steps;

/* ---- the channel: bytes between a buffer and the controller, TC with the last */

static uint8_t *place;
static size_t left;

static uint8_t serve(void) {
    while (lines & TELWYDDUS_DRQ && left > 0) {
        size_t moved;
        if (lines & TELWYDDUS_TO_MEMORY) MUST(telwyddus_controller_dack_block_read(&controller, place, left, &moved, &lines));
        else MUST(telwyddus_controller_dack_block_write(&controller, place, left, &moved, &lines));
        place += moved;
        left -= moved;
        if (left == 0) MUST(telwyddus_controller_tc(&controller, &lines));
    }
    return lines;
}

/* Runs up to `most` steps, with the channel, and stops when INT is up. */
static int run(unsigned long most) {
    while (!(serve() & TELWYDDUS_INT) && most > 0) {
        uint32_t made;
        MUST(telwyddus_controller_run(&controller, most > 1000000 ? 1000000 : (uint32_t)most, &made, &lines));
        most -= made;
        steps += made;
    }
    return serve() & TELWYDDUS_INT;
}

/* ---- ports */

static uint8_t in(uint16_t port) {
    uint8_t value;
    MUST(telwyddus_controller_read(&controller, port, &value, &lines));
    return value;
}

static void out(uint16_t port, uint8_t value) { MUST(telwyddus_controller_write(&controller, port, value, &lines)); }

static void put(uint8_t value) {
    check((in(0x3F4) & 0xC0) == 0x80, "a byte can go to the controller");
    out(0x3F5, value);
}

static uint8_t get(void) {
    check((in(0x3F4) & 0xC0) == 0xC0, "a byte can come from the controller");
    return in(0x3F5);
}

static void sense(uint8_t status, uint8_t cylinder) {
    put(0x08);
    check(get() == status, "ST0");
    check(get() == cylinder, "the cylinder");
}

static void begin(uint8_t code, int bay, const uint8_t *key, uint8_t *bytes) {
    uint8_t command[9] = {code, (uint8_t)(key[1] << 2 | bay), key[0], key[1], key[2], 2, key[2], 0x1B, 0xFF};
    place = bytes;
    left = 512;
    for (int i = 0; i < 9; i++) put(command[i]);
}

static void transfer_ends(uint8_t code, int bay, const uint8_t *key, uint8_t *bytes, const uint8_t *status) {
    begin(code, bay, key, bytes);
    check(run(65536) != 0, "the command ends");
    check(left == 0, "all bytes were moved");
    for (int i = 0; i < 7; i++) {
        uint8_t byte = get();
        if (i < 3) check(byte == status[i], "ST0, ST1, ST2");
    }
}

static void transfer(uint8_t code, int bay, const uint8_t *key, uint8_t *bytes) {
    const uint8_t done[3] = {(uint8_t)(key[1] << 2 | bay), 0, 0};
    transfer_ends(code, bay, key, bytes, done);
}

/* A controller with a plan for its drive: the hundredth word of the window of a standard sector of 1.44 MB is lost
 * once. */
static void new_planned(int bay, const uint8_t *key) {
    char plan[64];
    size_t line = 0;
    check(telwyddus_controller_new_planned(&controller, (const uint8_t *)"gap 1 1\ndrop 0 0\n", 17, &line) == TELWYDDUS_BAD_PLAN && line == 2,
        "a plan whose second line is bad is refused");
    snprintf(plan, sizeof plan, "drop %d %d %d %d 1\n", bay, key[0], key[1], 146 + 682 * (key[2] - 1) + 44 + 100);
    MUST(telwyddus_controller_new_planned(&controller, (const uint8_t *)plan, strlen(plan), &line));
}

/* is_written says that a word of the medium was replaced as often as it is asked, until written has said it and
 * forgotten it. */
static void check_written(int bay, uint8_t wanted) {
    uint8_t written;
    for (int i = 0; i < 2; i++) {
        MUST(telwyddus_controller_is_written(&controller, (uint32_t)bay, &written));
        check(written == wanted, "is_written tells whether words were replaced, and forgets nothing");
    }
    MUST(telwyddus_controller_written(&controller, (uint32_t)bay, &written));
    check(written == wanted, "written tells it too");
    MUST(telwyddus_controller_is_written(&controller, (uint32_t)bay, &written));
    check(!written, "and forgets it");
}

static int is_gate_open(int bay) {
    uint8_t cylinder, signs;
    MUST(telwyddus_controller_bay(&controller, (uint32_t)bay, &cylinder, &signs));
    return signs & TELWYDDUS_GATE;
}

/* A write is cut short: a reset closes the write gate. */
static void interrupt_write(int bay, const uint8_t *key, uint8_t *bytes) {
    begin(0x45, bay, key, bytes);
    for (long i = 0; i < 30000 && !is_gate_open(bay); i++) {
        serve();
        MUST(telwyddus_controller_step(&controller, &lines));
        steps++;
    }
    check(is_gate_open(bay), "the gate opens");
    out(0x3F2, (uint8_t)(0x10 << bay | bay));
    check(!is_gate_open(bay), "a reset closes it");
}

int main(int count, char **words) {
    if (count != 10) return 2;
    int bay = atoi(words[2]);
    uint8_t rate = atoi(words[3]) == 500 ? 0 : 2;
    uint8_t key[3] = {(uint8_t)atoi(words[4]), (uint8_t)atoi(words[5]), (uint8_t)atoi(words[6])}, bytes[512];
    size_t length, wanted_length, content_length, after_length, told;
    uint8_t *image = file_of(words[1], &length), *wanted = file_of(words[7], &wanted_length);
    uint8_t *content = file_of(words[8], &content_length), *after = file_of(words[9], &after_length);
    uint8_t *now = (uint8_t *)malloc(length);
    telwyddus_tray tray = {0};
    uint32_t nanoseconds;

    check(wanted_length == 512 && content_length == 512, "sectors have 512 bytes");
    if (rate == 0) new_planned(bay, key);
    else MUST(telwyddus_controller_new(&controller));
    MUST(telwyddus_tray_read(&tray, image, length));
    MUST(telwyddus_controller_insert(&controller, (uint32_t)bay, &tray, &lines));
    MUST(telwyddus_tray_free(&tray));

    out(0x3F2, (uint8_t)(0x0C | 0x10 << bay | bay));
    out(0x3F7, rate);
    check(run(1000) != 0, "INT follows the reset");
    for (int drive = 0; drive < 4; drive++) sense((uint8_t)(0xC0 | drive), 0);
    put(0x03), put(0xDF), put(0x02);
    run(7000);
    put(0x0F), put((uint8_t)(key[1] << 2 | bay)), put(key[0]);
    check(run(1000000) != 0, "the seek ends");
    sense((uint8_t)(0x20 | bay), key[0]);

    const uint8_t damaged[3] = {(uint8_t)(0x40 | key[1] << 2 | bay), 0x20, 0x20};
    if (rate == 0) transfer_ends(0x46, bay, key, bytes, damaged);
    transfer(0x46, bay, key, bytes);
    check(memcmp(bytes, wanted, 512) == 0, "the sector is the one that was wanted");
    check_written(bay, 0);

    transfer(0x45, bay, key, content);
    MUST(telwyddus_controller_image(&controller, (uint32_t)bay, now, length, &told));
    check(told == after_length && told == length && memcmp(now, after, told) == 0, "the image is the one that was wanted");
    check_written(bay, 1);
    transfer(0x46, bay, key, bytes);
    check(memcmp(bytes, content, 512) == 0, "the sector is the one that was written");

    interrupt_write(bay, key, content);

    MUST(telwyddus_controller_word_time(&controller, &nanoseconds));
    check(nanoseconds == (rate == 0 ? 16000 : 32000), "the word time");
    printf("%lu device steps, %lu microseconds\n", steps, (unsigned long)(steps * (nanoseconds / 1000.0)));
    MUST(telwyddus_controller_free(&controller));
    free(image), free(wanted), free(content), free(after), free(now);
    return 0;
}
