/* calls DEVICE: does on a diskette drive what each line of input asks, and answers with a line. It is for the guest
 * of `faults`, and is linked statically.
 *
 *   write HOW FIRST COUNT SEED   sectors of noise from a seed; HOW is `direct`, or `cached`: through the cache,
 *                                and then fsync
 *   read HOW FIRST COUNT         answers with a number computed from each sector's bytes
 *   format CYLINDER HEAD         FDFMTBEG, FDFMTTRK, FDFMTEND
 *   flush                        FDFLUSH: cache and driver forget what they read
 *   pause MILLISECONDS
 *   quit
 *
 * An answer is `CALL well FORM ..`, or `CALL error FORM NUMBER`. FORM is how many sectors a track the disk has
 * according to Linux, or 0 if Linux doesn't know. */
#define _GNU_SOURCE
#include <errno.h>
#include <fcntl.h>
#include <linux/fd.h>
#include <stdint.h>
#include <stdio.h>
#include <stdlib.h>
#include <string.h>
#include <sys/ioctl.h>
#include <unistd.h>

enum { MOST = 36 };

static const char *device;
static uint8_t buffer[MOST * 512] __attribute__((aligned(4096)));

static uint64_t random_next(uint64_t *state) {
    uint64_t z = *state += 0x9E3779B97F4A7C15;
    z = (z ^ z >> 30) * 0xBF58476D1CE4E5B9;
    z = (z ^ z >> 27) * 0x94D049BB133111EB;
    return z ^ z >> 31;
}

/* The noise of a sector, which depends on the sector's place in the call. */
static void fill(uint8_t *bytes, uint64_t seed, unsigned place) {
    uint64_t state = seed * 64 + place;
    for (int i = 0; i < 64; i++) {
        uint64_t word = random_next(&state);
        memcpy(bytes + 8 * i, &word, 8);
    }
}

/* FNV-1a, 64 bits. */
static uint64_t number_of(const uint8_t *bytes) {
    uint64_t number = 0xCBF29CE484222325;
    for (int i = 0; i < 512; i++) number = (number ^ bytes[i]) * 0x100000001B3;
    return number;
}

static int error_of(ssize_t got, size_t wanted) {
    if (got == (ssize_t)wanted) return 0;
    return got < 0 ? errno : EIO;
}

/* Closes the device, and begins the answer; returns whether all is well. */
static int is_done(int fd, int error) {
    struct floppy_struct form = {0};
    if (fd >= 0) {
        if (ioctl(fd, FDGETPRM, &form)) form.sect = 0;
        if (close(fd) && !error) error = errno;
    }
    if (error) printf("CALL error %u %d\n", form.sect, error);
    else printf("CALL well %u", form.sect);
    return !error;
}

static int opened(const char *how, int flags) { return open(device, flags | (!strcmp(how, "direct") ? O_DIRECT : 0)); }

static void write_sectors(const char *how, unsigned first, unsigned count, uint64_t seed) {
    int fd = opened(how, O_RDWR), error = fd < 0 ? errno : 0;
    for (unsigned i = 0; i < count; i++) fill(buffer + 512 * i, seed, i);
    if (fd >= 0) error = error_of(pwrite(fd, buffer, 512 * count, 512 * (off_t)first), 512 * count);
    if (fd >= 0 && fsync(fd) && !error) error = errno;
    if (is_done(fd, error)) puts("");
}

static void read_sectors(const char *how, unsigned first, unsigned count) {
    int fd = opened(how, O_RDONLY), error = fd < 0 ? errno : 0;
    memset(buffer, 0x5A, sizeof buffer);
    if (fd >= 0) error = error_of(pread(fd, buffer, 512 * count, 512 * (off_t)first), 512 * count);
    if (!is_done(fd, error)) return;
    for (unsigned i = 0; i < count; i++) printf(" %016llx", (unsigned long long)number_of(buffer + 512 * i));
    puts("");
}

/* An open without O_NDELAY lets Linux find the geometry of the disk. Without that nothing can be formatted. */
static void format_track(unsigned cylinder, unsigned head) {
    struct format_descr track = {.device = 0, .head = head, .track = cylinder};
    int fd = open(device, O_RDWR), error = fd < 0 ? errno : 0;
    if (fd >= 0 && (ioctl(fd, FDFMTBEG, NULL) || ioctl(fd, FDFMTTRK, &track))) error = errno;
    if (fd >= 0 && ioctl(fd, FDFMTEND, NULL) && !error) error = errno;
    if (is_done(fd, error)) puts("");
}

static void flush_drive(void) {
    int fd = open(device, O_RDWR | O_NDELAY), error = fd < 0 ? errno : 0;
    if (fd >= 0 && ioctl(fd, FDFLUSH, NULL)) error = errno;
    if (is_done(fd, error)) puts("");
}

static void obey(char *line) {
    char verb[16] = "", how[16] = "";
    unsigned a = 0, b = 0;
    unsigned long long seed = 0;
    sscanf(line, "%15s", verb);
    if (!strcmp(verb, "write") && sscanf(line, "%*s %15s %u %u %llu", how, &a, &b, &seed) == 4 && b <= MOST) write_sectors(how, a, b, seed);
    else if (!strcmp(verb, "read") && sscanf(line, "%*s %15s %u %u", how, &a, &b) == 3 && b <= MOST) read_sectors(how, a, b);
    else if (!strcmp(verb, "format") && sscanf(line, "%*s %u %u", &a, &b) == 2) format_track(a, b);
    else if (!strcmp(verb, "pause") && sscanf(line, "%*s %u", &a) == 1) usleep(1000 * a), puts("CALL well 0");
    else if (!strcmp(verb, "flush")) flush_drive();
    else printf("CALL not understood\n");
}

int main(int count, char **words) {
    static char line[256];
    if (count != 2) return 2;
    device = words[1];
    setvbuf(stdout, NULL, _IOLBF, 0);
    puts("CALL ready");
    while (fgets(line, sizeof line, stdin) && strncmp(line, "quit", 4)) obey(line);
    return 0;
}
