/* fdformat DEVICE [FIRST COUNT]: formats tracks by the same ioctls as util-linux's program of this name, which
 * Debian 12 doesn't have any more. */
#include <fcntl.h>
#include <linux/fd.h>
#include <stdio.h>
#include <stdlib.h>
#include <sys/ioctl.h>

static int fails(const char *what, unsigned track) {
    fprintf(stderr, "track %u: ", track);
    perror(what);
    return 1;
}

int main(int count, char **words) {
    struct floppy_struct shape;
    int device = count < 2 ? -1 : open(words[1], O_RDWR);
    if (device < 0 || ioctl(device, FDGETPRM, &shape) < 0) return fails("no floppy", 0);
    unsigned first = count < 4 ? 0 : (unsigned)atoi(words[2]);
    unsigned end = count < 4 ? shape.track * shape.head : first + (unsigned)atoi(words[3]);
    if (ioctl(device, FDFMTBEG, NULL) < 0) return fails("FDFMTBEG", first);
    for (unsigned track = first; track < end; track++) {
        struct format_descr it = {.device = 0, .head = track % shape.head, .track = track / shape.head};
        if (ioctl(device, FDFMTTRK, &it) < 0) return fails("FDFMTTRK", track);
    }
    if (ioctl(device, FDFMTEND, NULL) < 0) return fails("FDFMTEND", end);
    printf("%u tracks of %u sectors, gap %02X\n", end - first, shape.sect, shape.fmt_gap);
    return 0;
}
