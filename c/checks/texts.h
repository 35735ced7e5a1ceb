/* A guest whose commands and wanted results are texts of hexadecimal bytes, such as "0F 00 0C". In wanted results ??
 * is any byte. */
#ifndef TEXTS_H
#define TEXTS_H
#include "guest.h"

static Guest guest;
static int wrong;               /* how many expectations failed, */
static const char *first_wrong[20];     /* and the first of them */

static inline void expect(int is_so, const char *what) {
    printf("%s: %s\n", what, is_so ? "yes" : "NO");
    if (is_so) return;
    if (wrong < 20) first_wrong[wrong] = what;
    wrong++;
}

/* Checks at the end that no expectation failed. */
static inline void expect_no_more(void) {
    MUST(telwyddus_controller_free(&guest.controller));
    for (int i = 0; i < wrong && i < 20; i++) printf("isn't so: %s\n", first_wrong[i]);
    check(wrong == 0, "all of that is so");
}

/* ---- texts */

static inline const char *behind(const char *text) { return text + (text[2] == 0 ? 2 : 3); }

/* The bytes of a text, and how many they are. */
static inline int bytes_of(const char *text, uint8_t *bytes) {
    int count = 0;
    for (; *text != 0; text = behind(text)) bytes[count++] = (uint8_t)strtoul(text, NULL, 16);
    return count;
}

static inline int are_bytes(const uint8_t *bytes, int count, const char *text) {
    int at = 0;
    for (; *text != 0; text = behind(text), at++)
        if (at == count || (*text != '?' && bytes[at] != (uint8_t)strtoul(text, NULL, 16))) return 0;
    return at == count;
}

/* The last command gave these result bytes, and the further condition holds. */
static inline void expect_result(int is_so, const char *wanted, const char *what) {
    int same = are_bytes(guest.result, guest.results, wanted);
    expect(is_so && same, what);
    if (is_so && same) return;
    printf("  wanted \"%s\"%s, answered", wanted, is_so ? "" : " and more");
    for (int i = 0; i < guest.results; i++) printf(" %02X", (unsigned)guest.result[i]);
    printf("\n");
}

/* ---- commands */

static inline int is_int(void) { return has_line(&guest, TELWYDDUS_INT); }
static inline uint8_t status(void) { return in(&guest, MSR); }

/* Sends the bytes of the command, as long as the controller takes them. */
static inline void say(const char *sent) {
    uint8_t bytes[9];
    int count = bytes_of(sent, bytes);
    put(&guest, bytes, count);
}

/* A command that isn't executed: its result bytes are there at once, and INT stays as it is. */
static inline void gives(const char *sent, const char *wanted, const char *what) {
    int line = is_int(), stays;
    say(sent);
    stays = is_int() == line;
    finish(&guest);
    expect_result(stays && is_int() == line, wanted, what);
}

/* SENSE INTERRUPT, after which INT is down. */
static inline void senses(const char *wanted, const char *what) {
    sense_interrupt(&guest);
    expect_result(!is_int(), wanted, what);
}

/* A command that moves heads: INT comes at its end. */
static inline void moves(const char *sent, const char *wanted, const char *what) {
    int was_down = !is_int();
    say(sent);
    int comes = run(&guest, 300);
    sense_interrupt(&guest);
    expect_result(was_down && comes && !is_int(), wanted, what);
}

/* Does a data command with a channel of `count` bytes. Returns whether INT was down up to its results, up with them,
 * and fell at the first. */
static inline int execute(const char *sent, uint8_t *place, size_t count) {
    channel(&guest, place, count);
    say(sent);
    int is_so = !is_int();
    is_so = run(&guest, 20000000) && (status() & 0xF0) == 0xD0 && is_so;
    guest.result[0] = in(&guest, BYTES);
    is_so = !is_int() && is_so;
    for (guest.results = 1; (status() & 0xF0) == 0xD0; guest.results++) {
        need(guest.results < 10, "ten result bytes at most");
        guest.result[guest.results] = in(&guest, BYTES);
    }
    guest.left = 0;
    return is_so;
}

#endif
