/* starved IMAGE EACH - refuses memory, request by request. Each call is then done, or answers NO_MEMORY; a medium
 * stays where it was; and a call that was refused is done when it is tried again. Nothing is lost: this program
 * counts blocks, and valgrind looks too. The program's heap replaces c/heap.c. IMAGE is a formatted disk of one
 * cylinder at 250 kbit/s. A flat file takes some thousand requests. If EACH is 1, each of them is refused; if it is
 * 97, each 97th is. */
#include "common.h"
#include <stdbool.h>

#define ROOM (4 << 20) /* for the bytes of a state */

/* ---- the heap */

typedef struct { bool is_ok; void *at; } tried;
static char nothing;
static long left = -1; /* how many requests are served before one is refused; all, if below 0 */
static long blocks;    /* how many blocks are in use */
static bool was_short; /* a request was refused in the call that is tried */

static bool refuses(void) {
    bool is_now = left >= 0 && left-- == 0;
    was_short = was_short || is_now;
    return is_now;
}

static tried tell(void *at) { return (tried){at != NULL, at != NULL ? at : &nothing}; }

tried rattle_alloc(size_t size, size_t align) {
    void *at = refuses() ? NULL : malloc(size != 0 ? size : align);
    blocks += at != NULL;
    return tell(at);
}

tried rattle_realloc(void *old, size_t kept, size_t size, size_t align) {
    (void)kept;
    return tell(refuses() ? NULL : realloc(old, size != 0 ? size : align));
}

void rattle_dealloc(void *at) {
    blocks--;
    free(at);
}

/* ---- calls */

/* A call is done, or answers NO_MEMORY if a request was refused in it. Then it is done when it is tried again. A
 * call that takes no memory is a MUST. */
#define TRY(call) do { if (REFUSED(call)) MUST(call); } while (0)
#define REFUSED(call) (was_short = false, is_refused((call), #call, __LINE__))

static bool is_refused(uint32_t code, const char *call, int line) {
    bool was = was_short && code == TELWYDDUS_NO_MEMORY;
    if (!was) must(code, call, line);
    return was;
}

static void is_so(bool is, const char *what) {
    if (!is) check(0, what);
}

static uint8_t *image, *out, *other;
static uint8_t lines;
static size_t length;

static void is_image(telwyddus_tray *tray, const char *what) {
    size_t told;
    TRY(telwyddus_tray_write(tray, out, length, &told));
    is_so(told == length && memcmp(image, out, length) == 0, what);
}

/* ---- scenarios */

/* A medium goes into a drive, is looked at there, and comes out again. */
static void move(void) {
    telwyddus_controller controller = {0};
    telwyddus_tray tray = {0}, back = {0};
    size_t told;
    TRY(telwyddus_controller_new(&controller));
    MUST(telwyddus_controller_strap_seeks(&controller, 1));
    TRY(telwyddus_tray_read(&tray, image, length));
    MUST(telwyddus_controller_insert(&controller, 0, &tray, &lines));
    TRY(telwyddus_controller_image(&controller, 0, out, length, &told));
    if (REFUSED(telwyddus_controller_eject(&controller, 0, &back, &lines))) {
        MUST(telwyddus_controller_image(&controller, 0, out, length, &told));
        is_so(memcmp(image, out, length) == 0, "after a refused eject the medium is in the drive");
        MUST(telwyddus_controller_eject(&controller, 0, &back, &lines));
    }
    is_image(&back, "the medium that comes out went in");
    MUST(telwyddus_tray_free(&tray));
    MUST(telwyddus_tray_free(&back));
    MUST(telwyddus_controller_free(&controller));
}

/* A state is restored over another one, and into an empty slot. After a refusal the slot is as it was. */
static void restore(void) {
    static uint8_t state[ROOM], was[ROOM], now[ROOM];
    telwyddus_controller controller = {0}, again = {0};
    telwyddus_machine machine = {0}, empty = {0};
    telwyddus_tray tray = {0};
    size_t told, was_told, now_told;
    TRY(telwyddus_controller_new(&controller));
    TRY(telwyddus_tray_read(&tray, image, length));
    MUST(telwyddus_controller_insert(&controller, 0, &tray, &lines));
    MUST(telwyddus_tray_free(&tray));
    TRY(telwyddus_controller_save(&controller, state, ROOM, &told));
    TRY(telwyddus_controller_new(&again));
    TRY(telwyddus_controller_save(&again, was, ROOM, &was_told));
    if (REFUSED(telwyddus_controller_restore(&again, state, told, &lines))) {
        MUST(telwyddus_controller_save(&again, now, ROOM, &now_told));
        is_so(now_told == was_told && memcmp(now, was, was_told) == 0, "after a refused restore the slot holds what it held");
        MUST(telwyddus_controller_restore(&again, state, told, &lines));
    }
    TRY(telwyddus_controller_save(&again, now, ROOM, &now_told));
    is_so(now_told == told && memcmp(now, state, told) == 0, "what is restored was saved");
    MUST(telwyddus_controller_free(&controller));
    MUST(telwyddus_controller_free(&again));
    TRY(telwyddus_machine_new(&machine));
    TRY(telwyddus_machine_save(&machine, state, ROOM, &told));
    if (REFUSED(telwyddus_machine_restore(&empty, state, told))) {
        is_so(telwyddus_machine_free(&empty) == TELWYDDUS_EMPTY, "after a refused restore an empty slot is empty");
        MUST(telwyddus_machine_restore(&empty, state, told));
    }
    MUST(telwyddus_machine_free(&machine));
    MUST(telwyddus_machine_free(&empty));
}

/* The controller in a slot is as it was saved. */
static void is_as(telwyddus_controller *controller, const uint8_t *state, size_t length) {
    static uint8_t now[ROOM];
    size_t told;
    TRY(telwyddus_controller_save(controller, now, ROOM, &told));
    is_so(told == length && memcmp(now, state, told) == 0, "the controller is as it was");
}

/* A state is restored without its media, which are in both bays. After a refusal each medium is in its bay. */
static void bare(void) {
    static uint8_t state[ROOM], whole[ROOM];
    telwyddus_controller controller = {0};
    telwyddus_tray tray = {0};
    size_t told, all;
    TRY(telwyddus_controller_new(&controller));
    for (uint32_t bay = 0; bay < 2; bay++) {
        TRY(telwyddus_tray_read(&tray, image, length));
        MUST(telwyddus_controller_insert(&controller, bay, &tray, &lines));
        MUST(telwyddus_tray_free(&tray));
    }
    TRY(telwyddus_controller_save(&controller, whole, ROOM, &all));
    if (REFUSED(telwyddus_controller_save_bare(&controller, state, ROOM, &told))) {
        is_as(&controller, whole, all);
        MUST(telwyddus_controller_save_bare(&controller, state, ROOM, &told));
    }
    if (REFUSED(telwyddus_controller_restore_bare(&controller, state, told, &lines))) {
        is_as(&controller, whole, all);
        MUST(telwyddus_controller_restore_bare(&controller, state, told, &lines));
    }
    is_as(&controller, whole, all);
    MUST(telwyddus_controller_free(&controller));
}

/* A machine, and the program on a shelf. */
static void run(void) {
    static const char name[] = "a.img", words[] = "survey\na.img";
    telwyddus_machine machine = {0};
    telwyddus_shelf shelf = {0};
    uint32_t status;
    TRY(telwyddus_machine_new(&machine));
    TRY(telwyddus_shelf_new(&shelf));
    TRY(telwyddus_shelf_put(&shelf, (const uint8_t *)name, sizeof name - 1, image, length));
    TRY(telwyddus_shelf_run(&shelf, (const uint8_t *)words, sizeof words - 1, &status));
    if (status == 7) MUST(telwyddus_shelf_run(&shelf, (const uint8_t *)words, sizeof words - 1, &status));
    is_so(status == 0, "the run ends well, or with status 7 and well when it is tried again");
    MUST(telwyddus_machine_free(&machine));
    MUST(telwyddus_shelf_free(&shelf));
}

/* Sectors by a disk object: one is written and read, and its track is formatted again. Only `new` and an eject take
 * memory. */
static void sectors(void) {
    telwyddus_disk disk = {0};
    telwyddus_tray tray = {0}, back = {0};
    uint8_t content[512], bytes[512], deleted;
    memset(content, 0x5A, sizeof content);
    TRY(telwyddus_disk_new(&disk));
    TRY(telwyddus_tray_read(&tray, image, length));
    MUST(telwyddus_disk_insert(&disk, 1, &tray));
    MUST(telwyddus_disk_acknowledge(&disk, 1));
    MUST(telwyddus_disk_write(&disk, 1, 0, 1, 5, 2, content, sizeof content, 1));
    MUST(telwyddus_disk_read(&disk, 1, 0, 1, 5, 2, bytes, sizeof bytes, &deleted));
    is_so(deleted == 1 && memcmp(bytes, content, sizeof bytes) == 0, "the sector is the one that was written");
    MUST(telwyddus_disk_format(&disk, 1, 0, 1));
    if (REFUSED(telwyddus_disk_eject(&disk, 1, &back))) {
        MUST(telwyddus_disk_read(&disk, 1, 0, 1, 5, 2, bytes, sizeof bytes, &deleted));
        is_so(deleted == 0 && bytes[0] == 0xF6, "after a refused eject the medium is in the bay, and acknowledged");
        MUST(telwyddus_disk_eject(&disk, 1, &back));
    }
    is_image(&back, "the medium is formatted as it was");
    MUST(telwyddus_tray_free(&tray));
    MUST(telwyddus_tray_free(&back));
    MUST(telwyddus_disk_free(&disk));
}

/* A medium on which nothing is recorded. */
static void blank(void) {
    telwyddus_tray tray = {0};
    size_t told;
    TRY(telwyddus_tray_blank(&tray, 1, 250));
    TRY(telwyddus_tray_survey(&tray, out, length, &told));
    is_so(told == 0, "a blank medium has no address field");
    TRY(telwyddus_tray_write(&tray, out, length, &told));
    is_so(told == length, "it has so many words");
    MUST(telwyddus_tray_free(&tray));
}

/* A medium is surveyed, and goes through an ImageDisk file. */
static void archive(void) {
    telwyddus_tray tray = {0}, again = {0};
    size_t told, wanted;
    uint8_t cylinder, head;
    TRY(telwyddus_tray_read(&tray, image, length));
    TRY(telwyddus_tray_survey(&tray, out, length, &told));
    is_so(told == 2 * 9 * 11, "it has 18 address fields");
    TRY(telwyddus_tray_write_imd(&tray, other, length, &wanted, &cylinder, &head));
    TRY(telwyddus_tray_read_imd(&again, other, wanted, &cylinder, &head));
    TRY(telwyddus_tray_write_imd(&again, out, length, &told, &cylinder, &head));
    is_so(told == wanted && memcmp(out, other, told) == 0, "the medium of an ImageDisk file makes that file");
    is_image(&tray, "the medium is in its tray");
    MUST(telwyddus_tray_free(&tray));
    MUST(telwyddus_tray_free(&again));
}

/* The medium of a flat sector file gives that file again, and its last sector is read by a disk object. */
static void flat(void) {
    static uint8_t file[737280], again[737280];
    size_t told = 0;
    uint8_t cylinder, head;
    telwyddus_disk disk = {0};
    telwyddus_tray tray = {0};
    uint8_t bytes[512], deleted, *last = file + sizeof file - sizeof bytes;
    memset(last, 0xA5, sizeof bytes);
    TRY(telwyddus_tray_read_flat(&tray, file, sizeof file));
    TRY(telwyddus_tray_write_flat(&tray, again, sizeof again, &told, &cylinder, &head));
    is_so(told == sizeof file && memcmp(again, file, sizeof file) == 0, "the flat file of the medium is the same");
    memset(again, 0, sizeof again);
    TRY(telwyddus_tray_write_flat_as(&tray, 80, 2, 9, 2, 250, again, sizeof again, &told, &cylinder, &head));
    is_so(told == sizeof file && memcmp(again, file, sizeof file) == 0, "so is that of its geometry");
    TRY(telwyddus_disk_new(&disk));
    MUST(telwyddus_disk_insert(&disk, 0, &tray));
    MUST(telwyddus_disk_acknowledge(&disk, 0));
    MUST(telwyddus_disk_read(&disk, 0, 79, 1, 9, 2, bytes, sizeof bytes, &deleted));
    is_so(deleted == 0 && memcmp(bytes, last, sizeof bytes) == 0, "the last sector is that of the file");
    MUST(telwyddus_tray_free(&tray));
    MUST(telwyddus_disk_free(&disk));
}

/* Refuses requests, one in each round, until a round has no more requests. If `each` is above 1, it refuses only one
 * in `each` requests. */
static void rounds(void (*part)(void), const char *name, long each) {
    long refused = 0;
    for (long served = 0;; served += each, refused++) {
        left = served;
        part();
        bool is_last = left >= 0;
        left = -1;
        is_so(blocks == 0, "no block is lost");
        if (!is_last) continue;
        printf("%s: %ld requests were refused in turn\n", name, refused);
        is_so(refused > 0, "there were some");
        return;
    }
}

int main(int count, char **words) {
    if (count != 3) return 2;
    image = file_of(words[1], &length);
    out = (uint8_t *)malloc(length);
    other = (uint8_t *)malloc(length);
    if (out == NULL || other == NULL) return 1;
    rounds(move, "a controller", 1);
    rounds(restore, "states", 1);
    rounds(bare, "states without media", 1);
    rounds(run, "a machine and a shelf", 1);
    rounds(sectors, "a desk", 1);
    rounds(blank, "a blank medium", 1);
    rounds(archive, "an ImageDisk file", 1);
    rounds(flat, "a flat file", atol(words[2]));
    free(image), free(out), free(other);
    return 0;
}
