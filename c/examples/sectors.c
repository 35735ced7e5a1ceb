/* sectors IMAGE BAY RATE C H R WANTED CONTENT AFTER FORMATTED FILLED FLAT
 *
 * Reads and writes single sectors by calls, in BAY (0 or 1), at RATE (500 or 250).
 *   - It reads the sector C H R of the image file IMAGE, and compares it with the file WANTED. Then it writes the
 *     file CONTENT to that sector, and compares the image that comes out with the file AFTER.
 *   - It formats a blank medium of 2 cylinders, and compares its image with the image file FORMATTED. It writes all
 *     sectors of that medium, reads them back and surveys it, and compares the image with FILLED. Then it makes an
 *     ImageDisk file of the medium, and a medium of that file.
 *   - It puts a flat sector file in, writes CONTENT to the sector C H R, and compares the image with FLAT. A shelf
 *     exports that image.
 *   - A medium has no flat file if the track C H has a sector more, or if the sector C H R is marked deleted. */
#include "flat.h"

enum { SIZE = 512, CODE = 2, FIELD = 11, CYLINDERS = 2 };

static telwyddus_disk disk;
static uint32_t bay;
static uint16_t rate;
static uint8_t sectors;

/* ---- media between trays, files and the bay */

static void put_in(telwyddus_tray *tray) {
    MUST(telwyddus_disk_insert(&disk, bay, tray));
    MUST(telwyddus_tray_free(tray));
    MUST(telwyddus_disk_acknowledge(&disk, bay));
}

static void is_file(telwyddus_tray *tray, const uint8_t *wanted, size_t wanted_length, const char *what) {
    uint8_t *now = (uint8_t *)malloc(wanted_length);
    size_t told;
    MUST(telwyddus_tray_write(tray, now, wanted_length, &told));
    check(told == wanted_length && memcmp(now, wanted, told) == 0, what);
    free(now);
}

/* ---- one sector of an image */

static void one_sector(const uint8_t *image, size_t length, const uint8_t *key, const uint8_t *wanted, const uint8_t *content) {
    telwyddus_tray tray = {0};
    uint8_t bytes[SIZE], deleted;
    MUST(telwyddus_tray_read(&tray, image, length));
    MUST(telwyddus_disk_insert(&disk, bay, &tray));
    check(telwyddus_disk_insert(&disk, bay, &tray) == TELWYDDUS_NO_MEDIUM, "the tray has no other medium");
    MUST(telwyddus_tray_free(&tray));
    check(telwyddus_disk_read(&disk, bay, key[0], key[1], key[2], CODE, bytes, SIZE, &deleted) == TELWYDDUS_CHANGED, "the bay isn't acknowledged");
    MUST(telwyddus_disk_acknowledge(&disk, bay));
    MUST(telwyddus_disk_read(&disk, bay, key[0], key[1], key[2], CODE, bytes, SIZE, &deleted));
    check(memcmp(bytes, wanted, SIZE) == 0 && deleted == 0, "the sector is the one that was wanted");
    MUST(telwyddus_disk_write(&disk, bay, key[0], key[1], key[2], CODE, content, SIZE, 0));
    MUST(telwyddus_disk_read(&disk, bay, key[0], key[1], key[2], CODE, bytes, SIZE, &deleted));
    check(memcmp(bytes, content, SIZE) == 0 && deleted == 0, "the sector is the one that was written");
}

/* What is refused, and with which code. */
static void refusals(const uint8_t *key) {
    uint8_t bytes[SIZE], deleted = 7;
    memset(bytes, 0x55, SIZE);
    check(telwyddus_disk_read(&disk, 2, key[0], key[1], key[2], CODE, bytes, SIZE, &deleted) == TELWYDDUS_OUT_OF_RANGE, "no such bay");
    check(telwyddus_disk_read(&disk, bay, 80, key[1], key[2], CODE, bytes, SIZE, &deleted) == TELWYDDUS_OUT_OF_RANGE, "no such cylinder");
    check(telwyddus_disk_read(&disk, bay, key[0], key[1], key[2], 7, bytes, SIZE, &deleted) == TELWYDDUS_OUT_OF_RANGE, "no such size");
    check(telwyddus_disk_read(&disk, bay, key[0], key[1], key[2], CODE, bytes, SIZE - 1, &deleted) == TELWYDDUS_TOO_SHORT, "no room");
    check(telwyddus_disk_read(&disk, bay, key[0], key[1], 77, CODE, bytes, SIZE, &deleted) == TELWYDDUS_NOT_FOUND, "no such record");
    check(telwyddus_disk_write(&disk, bay, key[0], key[1], key[2], CODE, bytes, SIZE - 1, 0) == TELWYDDUS_OUT_OF_RANGE, "too few bytes");
    check(telwyddus_disk_read(&disk, 1 - bay, key[0], key[1], key[2], CODE, bytes, SIZE, &deleted) == TELWYDDUS_CHANGED, "nothing is in the other bay");
    check(telwyddus_disk_acknowledge(&disk, 1 - bay) == TELWYDDUS_NOT_READY, "nothing to acknowledge there");
    int left = 0;
    for (int i = 0; i < SIZE; i++) left += bytes[i] == 0x55;
    check(left == SIZE && deleted == 7, "refused reads leave the buffer and the mark");
}

/* ---- a whole medium */

static uint8_t byte_of(int c, int h, int r, int i) { return (uint8_t)(31 * c + 17 * h + 7 * r + 5 * i + (i >> 8)); }

static int is_deleted(int r) { return r == 3; }

/* All sectors hold their bytes and marks. */
static void compare_all(void) {
    int same = 0;
    for (uint8_t c = 0; c < CYLINDERS; c++)
        for (uint8_t h = 0; h < 2; h++)
            for (uint8_t r = 1; r <= sectors; r++) {
                uint8_t bytes[SIZE], deleted;
                MUST(telwyddus_disk_read(&disk, bay, c, h, r, CODE, bytes, SIZE, &deleted));
                same += deleted == is_deleted(r);
                for (int i = 0; i < SIZE; i++) same += bytes[i] == byte_of(c, h, r, i);
            }
    check(same == CYLINDERS * 2 * sectors * (SIZE + 1), "each sector has its bytes and its mark");
}

static void fill_all(void) {
    for (uint8_t c = 0; c < CYLINDERS; c++)
        for (uint8_t h = 0; h < 2; h++)
            for (uint8_t r = 1; r <= sectors; r++) {
                uint8_t bytes[SIZE];
                for (int i = 0; i < SIZE; i++) bytes[i] = byte_of(c, h, r, i);
                MUST(telwyddus_disk_write(&disk, bay, c, h, r, CODE, bytes, SIZE, (uint8_t)is_deleted(r)));
            }
}

static uint32_t place_of(const uint8_t *field) { return field[2] | (uint32_t)field[3] << 8 | (uint32_t)field[4] << 16 | (uint32_t)field[5] << 24; }

/* Its address fields are those of a formatted medium. */
static void survey(telwyddus_tray *tray) {
    static uint8_t fields[CYLINDERS * 2 * 18 * FIELD];
    size_t told, count = (size_t)CYLINDERS * 2 * sectors;
    MUST(telwyddus_tray_survey(tray, fields, sizeof fields, &told));
    check(told == count * FIELD, "it has so many address fields");
    size_t keys = 0, found = 0, places = 0;
    for (size_t i = 0; i < count; i++) {
        const uint8_t *field = fields + i * FIELD;
        uint8_t r = (uint8_t)(i % sectors + 1), h = (uint8_t)(i / sectors % 2), c = (uint8_t)(i / sectors / 2);
        keys += field[0] == c && field[1] == h && field[6] == c && field[7] == h && field[8] == r && field[9] == CODE;
        found += field[10] == is_deleted(r);
        places += i % sectors == 0 || place_of(field - FIELD) < place_of(field);
    }
    check(keys == count && found == count && places == count, "each key stands in its order, with its data");
}

/* The medium goes into an ImageDisk file and comes back. */
static void archive(telwyddus_tray *tray) {
    telwyddus_tray again = {0};
    size_t told;
    uint8_t cylinder, head;
    check(telwyddus_tray_write_imd(tray, NULL, 0, &told, &cylinder, &head) == TELWYDDUS_TOO_SHORT, "its length is told");
    uint8_t *file = (uint8_t *)malloc(told);
    MUST(telwyddus_tray_write_imd(tray, file, told, &told, &cylinder, &head));
    check(memcmp(file, "IMD ", 4) == 0, "an ImageDisk file");
    MUST(telwyddus_tray_read_imd(&again, file, told, &cylinder, &head));
    survey(&again);
    put_in(&again);
    if (rate == 250) MUST(telwyddus_disk_set_rate(&disk, bay, 250));
    compare_all();
    check(telwyddus_tray_read_imd(&again, file, 3, &cylinder, &head) == TELWYDDUS_BAD_IMAGE, "three bytes are no file");
    MUST(telwyddus_disk_eject(&disk, bay, &again));
    MUST(telwyddus_tray_free(&again));
    free(file);
}

static void whole(const uint8_t *formatted, const uint8_t *filled, size_t length) {
    telwyddus_tray tray = {0};
    check(telwyddus_tray_blank(&tray, 81, rate) == TELWYDDUS_OUT_OF_RANGE, "no 81 cylinders");
    check(telwyddus_tray_blank(&tray, CYLINDERS, 300) == TELWYDDUS_OUT_OF_RANGE, "no 300 kbit/s");
    MUST(telwyddus_tray_blank(&tray, CYLINDERS, rate));
    put_in(&tray);
    MUST(telwyddus_disk_set_rate(&disk, bay, rate));
    for (uint8_t c = 0; c < CYLINDERS; c++)
        for (uint8_t h = 0; h < 2; h++) MUST(telwyddus_disk_format(&disk, bay, c, h));
    check(telwyddus_disk_format(&disk, bay, CYLINDERS, 0) == TELWYDDUS_NO_MARK, "no such track");
    MUST(telwyddus_disk_eject(&disk, bay, &tray));
    is_file(&tray, formatted, length, "the formatted medium is the one that was wanted");
    put_in(&tray);
    fill_all();
    compare_all();
    MUST(telwyddus_disk_eject(&disk, bay, &tray));
    is_file(&tray, filled, length, "the filled medium is the one that was wanted");
    survey(&tray);
    archive(&tray);
    MUST(telwyddus_tray_free(&tray));
}

/* ---- what a flat sector file can't have */

/* The medium has no flat file: the call sets the cylinder and head of the track, and leaves all else as it was. */
static void is_unfit(telwyddus_tray *tray, uint8_t c, uint8_t h, const char *what) {
    uint8_t out[] = {0x55}, cylinder = 1, head = 1;
    size_t told = 7;
    uint32_t code = telwyddus_tray_write_flat(tray, out, sizeof out, &told, &cylinder, &head);
    check(code == TELWYDDUS_UNFIT && cylinder == c && head == h && told == 7 && out[0] == 0x55, what);
}

/* The place at which the track that begins there in an ImageDisk file ends. */
static size_t track_end(const uint8_t *file, size_t at) {
    size_t count = file[at + 3], size = (size_t)128 << file[at + 4];
    at += 5 + count;
    for (size_t i = 0; i < count; i++) at += file[at] == 0 ? 1 : file[at] % 2 == 1 ? 1 + size : 2;
    return at;
}

/* Makes the same file with one sector more on a track, with all bytes E5. Gives its length. */
static size_t with_one_more(const uint8_t *file, size_t length, const uint8_t *key, uint8_t *out) {
    size_t at = 0;
    while (file[at++] != 0x1A) {}
    while (file[at + 1] != key[0] || file[at + 2] != key[1]) at = track_end(file, at);
    size_t end = track_end(file, at), records = at + 5 + file[at + 3];
    memcpy(out, file, records);
    out[at + 3]++;
    out[records] = out[at + 3];
    memcpy(out + records + 1, file + records, end - records);
    out[end + 1] = 2;
    out[end + 2] = 0xE5;
    memcpy(out + end + 3, file + end, length - end);
    return length + 3;
}

/* One track has a tenth or nineteenth sector. */
static void one_more(telwyddus_tray *tray, const uint8_t *key) {
    telwyddus_tray more = {0};
    size_t told;
    uint8_t cylinder, head;
    check(telwyddus_tray_write_imd(tray, NULL, 0, &told, &cylinder, &head) == TELWYDDUS_TOO_SHORT, "the length of its ImageDisk file is told");
    uint8_t *file = (uint8_t *)malloc(told), *other = (uint8_t *)malloc(told + 3);
    if (file == NULL || other == NULL) exit(1);
    MUST(telwyddus_tray_write_imd(tray, file, told, &told, &cylinder, &head));
    MUST(telwyddus_tray_read_imd(&more, other, with_one_more(file, told, key, other), &cylinder, &head));
    is_unfit(&more, key[0], key[1], "a track has a sector more than a flat file: it is told");
    MUST(telwyddus_tray_free(&more));
    free(file), free(other);
}

/* A sector is marked deleted. */
static void one_deleted(telwyddus_tray *tray, const uint8_t *key, const uint8_t *content) {
    put_in(tray);
    MUST(telwyddus_disk_write(&disk, bay, key[0], key[1], key[2], CODE, content, SIZE, 1));
    MUST(telwyddus_disk_eject(&disk, bay, tray));
    is_unfit(tray, key[0], key[1], "a sector is marked deleted: its track is told");
}

/* A call that makes something answers FULL for a slot that holds a medium, whatever the call makes. */
static void is_full(telwyddus_tray *tray) {
    uint8_t bytes[] = {1, 2, 3}, cylinder = 9, head = 9;
    int full = telwyddus_tray_read(tray, bytes, sizeof bytes) == TELWYDDUS_FULL;
    full += telwyddus_tray_read_flat(tray, bytes, sizeof bytes) == TELWYDDUS_FULL;
    full += telwyddus_tray_read_imd(tray, bytes, sizeof bytes, &cylinder, &head) == TELWYDDUS_FULL;
    full += telwyddus_tray_blank(tray, 81, 300) == TELWYDDUS_FULL;
    check(full == 4 && cylinder == 9 && head == 9, "a full tray is full, whatever is to go in");
}

/* ---- a flat sector file */

/* The program exports an image, and the bytes are those of a flat file. */
static void exports(const uint8_t *image, size_t length, const uint8_t *file, size_t file_length) {
    static uint8_t back[FLAT];
    telwyddus_shelf shelf = {0};
    MUST(telwyddus_shelf_new(&shelf));
    shelve(&shelf, "disk.rt", image, length);
    check(convert(&shelf, "export\ndisk.rt\nout.flat", "out.flat", back, file_length), "a shelf exports the image");
    check(memcmp(back, file, file_length) == 0, "what it exports has each sector");
    MUST(telwyddus_shelf_free(&shelf));
}

/* The sectors of some cylinders are read, and compared with its bytes. One is written. */
static void flat(const uint8_t *key, const uint8_t *content, const uint8_t *image, size_t length) {
    static uint8_t file[FLAT], again[FLAT];
    telwyddus_tray tray = {0};
    size_t file_length = (size_t)160 * sectors * SIZE, told = 0;
    uint8_t cylinder = 7, head = 7;
    int same = 0;
    for (size_t i = 0; i < file_length; i++) file[i] = (uint8_t)(i * 7 ^ i / 512);
    check(telwyddus_tray_read_flat(&tray, file, file_length - 1) == TELWYDDUS_BAD_IMAGE, "no flat file has so many bytes");
    MUST(telwyddus_tray_read_flat(&tray, file, file_length));
    put_in(&tray);
    for (uint8_t c = 0; c < 80; c += 26)
        for (uint8_t h = 0; h < 2; h++)
            for (uint8_t r = 1; r <= sectors; r++) {
                uint8_t bytes[SIZE], deleted;
                MUST(telwyddus_disk_read(&disk, bay, c, h, r, CODE, bytes, SIZE, &deleted));
                same += deleted == 0 && memcmp(bytes, file + SIZE * ((c * 2 + h) * sectors + r - 1), SIZE) == 0;
            }
    check(same == 4 * 2 * sectors, "the sectors are those of the file");
    MUST(telwyddus_disk_write(&disk, bay, key[0], key[1], key[2], CODE, content, SIZE, 0));
    memcpy(file + SIZE * ((key[0] * 2 + key[1]) * sectors + key[2] - 1), content, SIZE);
    MUST(telwyddus_disk_eject(&disk, bay, &tray));
    is_file(&tray, image, length, "the medium of the flat file is the one that was wanted");
    exports(image, length, file, file_length);
    check(telwyddus_tray_write_flat(&tray, again, file_length - 1, &told, &cylinder, &head) == TELWYDDUS_TOO_SHORT && told == file_length, "the length is told");
    MUST(telwyddus_tray_write_flat(&tray, again, file_length, &told, &cylinder, &head));
    check(told == file_length && memcmp(again, file, file_length) == 0, "its flat file has each sector");
    check(cylinder == 7 && head == 7, "no track is told");
    is_full(&tray);
    one_more(&tray, key);
    one_deleted(&tray, key, content);
    MUST(telwyddus_tray_free(&tray));
    MUST(telwyddus_tray_blank(&tray, 80, rate));
    is_unfit(&tray, 0, 0, "a blank medium lacks the first sector");
    MUST(telwyddus_tray_free(&tray));
    MUST(telwyddus_tray_blank(&tray, CYLINDERS, rate));
    is_unfit(&tray, 255, 255, "a medium of another shape has no flat file");
    MUST(telwyddus_tray_free(&tray));
}

int main(int count, char **words) {
    if (count != 13) return 2;
    telwyddus_tray tray = {0};
    size_t length, wanted_length, content_length, after_length, formatted_length, filled_length, flat_length;
    uint8_t key[3] = {(uint8_t)atoi(words[4]), (uint8_t)atoi(words[5]), (uint8_t)atoi(words[6])};
    uint8_t *image = file_of(words[1], &length), *wanted = file_of(words[7], &wanted_length), *content = file_of(words[8], &content_length);
    uint8_t *after = file_of(words[9], &after_length), *formatted = file_of(words[10], &formatted_length);
    uint8_t *filled = file_of(words[11], &filled_length), *flat_image = file_of(words[12], &flat_length);
    bay = (uint32_t)atoi(words[2]);
    rate = (uint16_t)atoi(words[3]);
    sectors = rate == 500 ? 18 : 9;
    check(wanted_length == SIZE && content_length == SIZE, "sectors have 512 bytes");
    check(formatted_length == filled_length, "media of one form have files of one length");
    MUST(telwyddus_disk_new(&disk));
    one_sector(image, length, key, wanted, content);
    refusals(key);
    MUST(telwyddus_disk_eject(&disk, bay, &tray));
    is_file(&tray, after, after_length, "the image is the one that was wanted");
    MUST(telwyddus_tray_free(&tray));
    whole(formatted, filled, formatted_length);
    flat(key, content, flat_image, flat_length);
    MUST(telwyddus_disk_free(&disk));
    free(image), free(wanted), free(content), free(after), free(formatted), free(filled), free(flat_image);
    puts("each sector is where it was asked for");
    return 0;
}
