/* convert - makes disks of flat sector files, and flat sector files of disks. It runs the program `floppy` over
 * files in memory. No file of the computer is read or written. */
#include "common.h"

#define FLAT 1474560

static telwyddus_shelf shelf;
static uint8_t flat[FLAT], back[FLAT];

static const uint8_t *bytes_of(const char *text) { return (const uint8_t *)text; }

static uint32_t run(const char *words) {
    uint32_t status;
    MUST(telwyddus_shelf_run(&shelf, bytes_of(words), strlen(words), &status));
    return status;
}

static void put(const char *name, const uint8_t *bytes, size_t length) {
    MUST(telwyddus_shelf_put(&shelf, bytes_of(name), strlen(name), bytes, length));
}

static uint32_t get(const char *name, uint8_t *out, size_t room, size_t *length) {
    return telwyddus_shelf_get(&shelf, bytes_of(name), strlen(name), out, room, length);
}

/* What was printed since the last call, as a text; it ends with a line feed. */
static char *report(void) {
    size_t length = 0;
    uint32_t code = telwyddus_shelf_report(&shelf, back, 0, &length); /* how long it is */
    char *text = (char *)malloc(length + 1);
    if (text == NULL) exit(1);
    check(code == (length == 0 ? TELWYDDUS_DONE : TELWYDDUS_TOO_SHORT), "a report that doesn't fit is kept");
    if (length > 0) MUST(telwyddus_shelf_report(&shelf, (uint8_t *)text, length, &length));
    text[length] = 0;
    return text;
}

static int ends_with(const char *text, const char *end) {
    size_t all = strlen(text), last = strlen(end);
    return all >= last && strcmp(text + all - last, end) == 0;
}

static void convert(void) {
    size_t length = 0;
    for (size_t i = 0; i < FLAT; i++) flat[i] = (uint8_t)(i * 7 + i / 512);
    put("in.flat", flat, FLAT);
    check(run("import\nin.flat\ndisk.rt") == 0, "a flat file makes a disk");
    check(run("export\ndisk.rt\nout.flat") == 0, "the disk makes a flat file");
    check(get("out.flat", back, 16, &length) == TELWYDDUS_TOO_SHORT && length == FLAT, "its length is told");
    MUST(get("out.flat", back, FLAT, &length));
    check(length == FLAT && memcmp(flat, back, FLAT) == 0, "the bytes are those that went in");
    free(report());
}

static void format(void) {
    char *text;
    check(run("format\nblank.rt\n2") == 0, "a disk of two cylinders is formatted");
    free(report());
    check(run("survey\nblank.rt") == 0, "its fields are listed");
    text = report();
    check(ends_with(text, "survey 72\n"), "there are 72");
    free(text);
    text = report();
    check(text[0] == 0, "a report is had once");
    free(text);
}

static void refuse(void) {
    static const uint8_t no_text[] = {'s', 'u', 'r', 0xFF};
    size_t length = 7;
    uint32_t status = 9;
    check(run("polish\ndisk.rt") == 2, "a word that isn't known: status 2");
    check(run("survey\nnothing.rt") == 5, "a file that isn't there: status 5");
    free(report());
    check(telwyddus_shelf_run(&shelf, no_text, sizeof no_text, &status) == TELWYDDUS_NOT_TEXT && status == 9, "words that aren't UTF-8");
    check(get("nothing.rt", back, FLAT, &length) == TELWYDDUS_NO_FILE && length == 7, "no file of that name");
    check(telwyddus_shelf_new(&shelf) == TELWYDDUS_FULL, "a full slot stays");
}

int main(void) {
    MUST(telwyddus_shelf_new(&shelf));
    convert();
    format();
    refuse();
    MUST(telwyddus_shelf_free(&shelf));
    check(telwyddus_shelf_free(&shelf) == TELWYDDUS_EMPTY, "freed once");
    return 0;
}
