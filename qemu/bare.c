/* Reads sector 1 of a cylinder at the ports, with no driver. The bytes go to /tmp/a, and the result bytes are
 * printed.
 *   bare CYLINDER CONFIGURE         byte by byte at 3F5; CONFIGURE is the second byte of that command, hexadecimal
 *   bare CYLINDER CONFIGURE WAIT    by channel 2, which is unmasked WAIT microseconds after the command
 * The heads are at cylinder 0, so another cylinder needs implied seeks (40 in CONFIGURE).
 * The kernel keeps the 64 KiB from 80000 on for this program (memmap=64K$0x80000). */
#define _DEFAULT_SOURCE
#include <fcntl.h>
#include <stdio.h>
#include <stdlib.h>
#include <string.h>
#include <sys/io.h>
#include <sys/mman.h>
#include <time.h>
#include <unistd.h>

enum { DOR = 0x3F2, MSR = 0x3F4, DATA = 0x3F5, CCR = 0x3F7, BUFFER = 0x80000, LENGTH = 512 };

static unsigned char *buffer;
static unsigned char bytes[4 * LENGTH], answer[16];
static unsigned count, answers;

static double now(void) {
    struct timespec time;
    clock_gettime(CLOCK_MONOTONIC, &time);
    return time.tv_sec + time.tv_nsec / 1e9;
}

/* The main status register, once a byte can pass. */
static unsigned ready(void) {
    double end = now() + 5;
    unsigned status;
    while (!((status = inb(MSR)) & 0x80))
        if (now() > end) { printf("MSR stays %02X\n", status); exit(1); }
    return status;
}

static void send(unsigned length, const unsigned char *command) {
    for (unsigned i = 0; i < length; i++) {
        if ((ready() & 0x40) != 0) { printf("byte %u isn't taken\n", i); exit(1); }
        outb(command[i], DATA);
    }
}

/* Reads the bytes of data, if there is no DMA, and then the results. */
static void results(void) {
    unsigned status;
    answers = count = 0;
    while ((status = ready()) & 0x40) {
        unsigned char byte = inb(DATA);
        if (status & 0x20) bytes[count++ % sizeof bytes] = byte;
        else answer[answers++ % sizeof answer] = byte;
    }
}

static void sense(void) {
    send(1, (const unsigned char[]){0x08});
    results();
}

static void start(unsigned configure, int is_dma) {
    double end = now() + 0.6;
    outb(0, DOR);
    outb(0x1C, DOR);
    outb(0, CCR);
    for (int i = 0; i < 4; i++) sense();
    send(4, (const unsigned char[]){0x13, 0, (unsigned char)configure, 0});
    send(3, (const unsigned char[]){0x03, 0xDF, (unsigned char)(is_dma ? 2 : 3)});
    send(2, (const unsigned char[]){0x07, 0});
    while (inb(MSR) & 0x0F && now() < end) continue;
    sense();
    usleep(600000);
}

static void set_channel(void) {
    outb(0x06, 0x0A);
    outb(0, 0x0C);
    outb(0x46, 0x0B);
    outb(BUFFER & 255, 0x04);
    outb(BUFFER >> 8 & 255, 0x04);
    outb(BUFFER >> 16, 0x81);
    outb((LENGTH - 1) & 255, 0x05);
    outb((LENGTH - 1) >> 8, 0x05);
}

/* Without DMA a byte waits for 16 microseconds, and Linux's own timer may take as long. Then the command is tried
 * again. */
static void read_bytes(const unsigned char *command) {
    for (int tries = 0; tries < 20; tries++) {
        send(9, command);
        results();
        if (!(answer[1] & 0x10)) return;
    }
}

static void read_by_channel(const unsigned char *command, unsigned wait) {
    set_channel();
    send(9, command);
    usleep((useconds_t)wait);
    outb(0x02, 0x0A);
    results();
}

int main(int words, char **word) {
    int is_dma = words == 4, memory = open("/dev/mem", O_RDWR | O_SYNC);
    if (words < 3 || iopl(3) != 0 || memory < 0) return 2;
    const unsigned char command[] = {0x46, 0, (unsigned char)atoi(word[1]), 0, 1, 2, 1, 0x1B, 0xFF};
    buffer = mmap(NULL, LENGTH, PROT_READ | PROT_WRITE, MAP_SHARED, memory, BUFFER);
    if (buffer == MAP_FAILED) return 2;
    memset(buffer, 0, LENGTH);
    start((unsigned)strtoul(word[2], NULL, 16), is_dma);
    if (is_dma) read_by_channel(command, (unsigned)atoi(word[3]));
    else read_bytes(command);
    for (unsigned i = 0; i < answers; i++) printf("%02X ", answer[i]);
    printf("\n");
    FILE *file = fopen("/tmp/a", "wb");
    if (file == NULL || fwrite(is_dma ? buffer : bytes, 1, is_dma ? LENGTH : count, file) == 0) return 2;
    return fclose(file);
}
