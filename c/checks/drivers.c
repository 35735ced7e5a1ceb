/* drivers - does what the drivers of three systems do at the bare controller, byte by byte, and checks their
 * conclusions.
 *
 * For Linux this is its reset, the questions by which it distinguishes controllers, a first access to a disk, and
 * its transfers without DMA. For FreeBSD and NetBSD it is how they probe a controller and drives. An interrupt is an
 * edge here, as at an 8259. */
#include "texts.h"
#include "flat.h"

#define CYLINDERS 4
#define SMALL (14 + CYLINDERS * 2 * 25000)

static uint8_t flat[FLAT], image[SMALL], buffer[36 * 512], reply[16];
static int line;                /* INT, as it was at the last look */

/* Runs up to an edge of INT, with the channel. */
static int interrupts(unsigned long most) {
    for (unsigned long i = 0; i < most; i++) {
        int was = line;
        line = (serve(&guest) & TELWYDDUS_INT) != 0;
        if (line && !was) return 1;
        make_steps(&guest, 1);
    }
    return 0;
}

/* A port access may let INT fall. */
static void look(void) { line = line && is_int(); }

static uint8_t inb(uint16_t port) {
    uint8_t value = in(&guest, port);
    look();
    return value;
}

static void outb(uint16_t port, uint8_t value) {
    out(&guest, port, value);
    look();
}

/* ---- Linux: wait_til_ready, output_byte, result */

static int ready(void) {
    for (int i = 0; i < 10000; i++) {
        uint8_t is = inb(MSR);
        if (is & RQM) return is;
        make_steps(&guest, 1);
    }
    return -1;
}

static int output_byte(uint8_t byte) {
    int is = ready();
    if (is < 0 || (is & (RQM | DIO | NON_DMA)) != RQM) return -1;
    outb(BYTES, byte);
    return 0;
}

static int output(const char *sent) {
    uint8_t bytes[9];
    int count = bytes_of(sent, bytes);
    for (int i = 0; i < count; i++)
        if (output_byte(bytes[i]) != 0) return -1;
    return 0;
}

static int result(void) {
    for (int i = 0; i < 16; i++) {
        int is = ready();
        if (is < 0) return -1;
        is &= DIO | RQM | BUSY | NON_DMA;
        if ((is & ~BUSY) == RQM) return i;
        if (is != (DIO | RQM | BUSY)) return -1;
        reply[i] = inb(BYTES);
    }
    return -1;
}

/* floppy_interrupt: reads the result bytes, or sends up to four SENSE INTERRUPTs until one is of the drive. */
static int inr(int unit) {
    int count = result(), left = 4;
    if (count != 0) return count;
    do {
        output_byte(0x08);
        count = result();
    } while ((reply[0] & 0x83) != unit && count == 2 && --left);
    return count;
}

static int is_reply(int count, const char *wanted) { return are_bytes(reply, count < 0 ? 0 : count, wanted); }

static void linux_reset(int by_dsr, const char *what) {
    if (by_dsr) outb(MSR, 0x80);
    else outb(DOR, 0x08), outb(DOR, 0x0C);
    int comes = interrupts(1000), count = inr(0), then = result();
    expect(comes && count == 2 && then == 0, what);
}

/* need_more_output: whether the controller takes another byte. */
static int takes_more(void) { return (ready() & (RQM | DIO | NON_DMA)) == RQM; }

/* get_fdc_version: finds an 82077 of 1991 or later. */
static void linux_version(void) {
    int sent = output("0E");
    expect(sent == 0 && is_reply(result(), "?? ?? ?? ?? ?? ?? ?? ?? ?? ??"), "Linux: DUMPREG has ten bytes: no 8272A");
    sent = output("13");
    expect(sent == 0 && takes_more(), "CONFIGURE is taken: no 82072");
    sent = output("00 1A 00");
    output_byte(0x12);
    expect(sent == 0 && takes_more(), "PERPENDICULAR MODE is taken: no 82072A");
    output_byte(0x00);
    sent = output("14");
    expect(sent == 0 && is_reply(result(), "00"), "UNLOCK gives 00: no 82077 before 1991");
    sent = output("18");
    expect(sent == 0 && is_reply(result(), "80"), "PART ID isn't there: an 82077, and no later one");
    expect(!is_int(), "none of these interrupts");
}

static void linux_seek(const char *sent, const char *wanted, const char *what) {
    int taken = output(sent) == 0, comes = interrupts(1000);
    expect(taken && comes && is_reply(inr(0), wanted), what);
}

/* poll_drive and the first request: RECALIBRATE, a SEEK that lets the change line fall, the drive's status. */
static void linux_open(void) {
    outb(DOR, 0x1C);
    outb(CCR, 0);
    expect(output("03 AF 02") == 0 && (inb(0x3F7) & 0x80) != 0, "Linux: the change line is up");
    linux_seek("07 00", "20 00", "RECALIBRATE");
    linux_seek("0F 00 01", "20 01", "SEEK to 1");
    expect((inb(0x3F7) & 0x80) == 0, "lets the change line fall");
    int sent = output("04 00");
    expect(sent == 0 && is_reply(result(), "28"), "SENSE DRIVE STATUS: not protected, not on cylinder 0");
    linux_seek("0F 00 00", "20 00", "SEEK to 0");
}

/* setup_rw_floppy by DMA, and what rw_interrupt concludes from the results. */
static void linux_read(void) {
    channel(&guest, buffer, sizeof buffer);
    int sent = output("E6 00 00 00 01 02 12 1B FF"), comes = interrupts(1000000), count = inr(0);
    int sectors = ((reply[3] - 0) * 2 + reply[4]) * 18 + reply[5] - 1 + (reply[1] & 0x80 ? 1 : 0);
    guest.left = 0;
    expect(sent == 0 && comes && is_reply(count, "04 00 00 01 00 01 02"), "Linux: E6 reads a cylinder");
    expect(sectors == 36 && memcmp(buffer, flat, sizeof buffer) == 0, "of 36 sectors, as its driver counts them");
}

/* floppy_hardint: at an edge bytes pass while MSR asks for them. Returns how many are left once the results are
 * there, else -1. */
static long pass_bytes(uint8_t *place, long count) {
    while (interrupts(200000)) {
        for (; count > 0 && (inb(MSR) & (NON_DMA | RQM)) == (NON_DMA | RQM); count--, place++) {
            if (inb(MSR) & DIO) *place = inb(BYTES);
            else outb(BYTES, *place);
        }
        if (!(inb(MSR) & NON_DMA)) return count;
    }
    return -1;
}

/* A command without DMA. All its bytes pass, and its results come with an interrupt of their own. */
static void passes(const char *sent, uint8_t *place, long bytes, const char *wanted, const char *what) {
    int taken = output(sent) == 0;
    long left = pass_bytes(place, bytes);
    int count = result();
    expect(taken && left == 0 && is_reply(count, wanted), what);
}

/* floppy=nodma. Reads and writes end with EN, which the driver then doesn't take for an error. */
static void linux_without_dma(void) {
    static uint8_t keys[72], written[18 * 512];
    expect(output("03 AF 03") == 0, "Linux without DMA: SPECIFY");
    memset(buffer, 0, sizeof buffer);
    passes("E6 00 00 00 01 02 12 1B FF", buffer, sizeof buffer, "44 80 00 00 01 12 02", "E6 reads a cylinder");
    expect(memcmp(buffer, flat, sizeof buffer) == 0, "of the disk's bytes");
    for (uint8_t i = 0; i < 18; i++) keys[4 * i + 2] = (uint8_t)(i + 1), keys[4 * i + 3] = 2;
    passes("4D 00 02 12 6C F6", keys, sizeof keys, "00 00 00 00 00 12 02", "4D formats a track");
    memset(written, 0x3C, sizeof written);
    passes("45 00 00 00 01 02 12 1B FF", written, sizeof written, "40 80 00 00 00 12 02", "45 writes it");
    passes("E6 00 00 00 01 02 12 1B FF", buffer, sizeof buffer, "44 80 00 00 01 12 02", "E6 reads the cylinder again");
    expect(memcmp(buffer, written, sizeof written) == 0, "with what was written");
}

/* ---- FreeBSD: fdc_initial_reset */

static void freebsd(void) {
    outb(DOR, 0x00);
    outb(DOR, 0x00);
    expect(inb(MSR) == 0x00, "FreeBSD: MSR is 00 in reset");
    outb(DOR, 0x04);
    make_steps(&guest, 6);
    expect(inb(MSR) == 0x80, "and 80 out of it");
    int sent = output("03 DF 3E");
    expect(sent == 0 && result() == 0, "SPECIFY is taken");
    sent = output("10");
    expect(sent == 0 && is_reply(result(), "90"), "VERSION: an enhanced controller");
    sent = output("18");
    expect(sent == 0 && is_reply(result(), "80"), "PART ID isn't there");
}

/* ---- NetBSD: fdprobe */

static void netbsd(uint8_t drive, const char *what) {
    outb(DOR, 0x0C);
    outb(DOR, (uint8_t)(0x0C | drive | 0x10 << drive));
    output_byte(0x07);
    output_byte(drive);
    make_steps(&guest, 125000);
    output_byte(0x08);
    int count = result();
    expect(count == 2 && (reply[0] & 0xF8) == 0x20, what);
}

int main(void) {
    for (size_t i = 0; i < FLAT; i++) flat[i] = (uint8_t)(i * 31 + i / 512 * 7);
    import_some(flat, image, CYLINDERS);
    MUST(telwyddus_controller_new(&guest.controller));
    insert_in(&guest, 0, image, SMALL);
    linux_reset(0, "Linux: a reset by DOR, and four SENSE INTERRUPTs");
    linux_version();
    linux_reset(1, "a reset by DSR, and the same");
    linux_open();
    linux_read();
    linux_without_dma();
    freebsd();
    netbsd(0, "NetBSD: drive 0 is there");
    netbsd(1, "and drive 1");
    expect_no_more();
    return 0;
}
