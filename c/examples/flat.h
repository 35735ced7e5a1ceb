/* Makes disks of 80 cylinders of flat sector files, and the reverse. It runs the program `floppy` over files in
 * memory. */
#ifndef FLAT_H
#define FLAT_H
#include "common.h"

#define FLAT 1474560
#define IMAGE (14 + 160 * 25000)

static inline void shelve(telwyddus_shelf *shelf, const char *name, const uint8_t *bytes, size_t length) {
    MUST(telwyddus_shelf_put(shelf, (const uint8_t *)name, strlen(name), bytes, length));
}

static inline int convert(telwyddus_shelf *shelf, const char *words, const char *name, uint8_t *out, size_t wanted) {
    uint32_t status;
    size_t length = 0;
    MUST(telwyddus_shelf_run(shelf, (const uint8_t *)words, strlen(words), &status));
    if (status != 0) return 0;
    MUST(telwyddus_shelf_get(shelf, (const uint8_t *)name, strlen(name), out, wanted, &length));
    return length == wanted;
}

/* The image file of the disk that has the sectors of a flat file. */
static inline void import_flat(const uint8_t *flat, uint8_t *image) {
    telwyddus_shelf shelf = {0};
    MUST(telwyddus_shelf_new(&shelf));
    shelve(&shelf, "in.flat", flat, FLAT);
    check(convert(&shelf, "import\nin.flat\ndisk.rt", "disk.rt", image, IMAGE), "a flat file makes a disk");
    MUST(telwyddus_shelf_free(&shelf));
}

/* The image file of the first cylinders of that disk. */
static inline void import_some(const uint8_t *flat, uint8_t *image, uint8_t cylinders) {
    static uint8_t whole[IMAGE];
    telwyddus_tray tray = {0};
    size_t told;
    MUST(telwyddus_tray_read_flat(&tray, flat, FLAT));
    MUST(telwyddus_tray_write(&tray, whole, IMAGE, &told));
    MUST(telwyddus_tray_free(&tray));
    whole[9] = cylinders;
    memcpy(image, whole, 14 + (size_t)cylinders * 2 * 25000);
}

/* The flat file of an image file. */
static inline void export_flat(const uint8_t *image, uint8_t *flat) {
    telwyddus_shelf shelf = {0};
    MUST(telwyddus_shelf_new(&shelf));
    shelve(&shelf, "disk.rt", image, IMAGE);
    check(convert(&shelf, "export\ndisk.rt\nout.flat", "out.flat", flat, FLAT), "a disk makes a flat file");
    MUST(telwyddus_shelf_free(&shelf));
}

#endif
