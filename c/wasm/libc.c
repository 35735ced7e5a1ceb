/* As much of C's library as the programs of c/examples, c/checks and bench want, over five functions of the host.
 * js/check links them with it to run them in node. The library itself wants none of it. */
#define va_list __builtin_va_list
#define va_start __builtin_va_start
#define va_arg __builtin_va_arg
#define va_end __builtin_va_end
#include <stdint.h>
#include <stdio.h>
#include <stdlib.h>
#include <string.h>

#define IMPORT(name) __attribute__((import_module("host"), import_name(#name)))
IMPORT(write) void host_write(int to, const char *bytes, uint32_t count);
IMPORT(open) int host_open(const char *name, uint32_t length);
IMPORT(size) uint32_t host_size(int file);
IMPORT(read) uint32_t host_read(int file, uint32_t from, void *to, uint32_t count);
IMPORT(exit) _Noreturn void host_exit(int status);

int own_memcmp(const void *one, const void *other, size_t count) {
    const uint8_t *a = one, *b = other;
    for (size_t i = 0; i < count; i++)
        if (a[i] != b[i]) return a[i] < b[i] ? -1 : 1;
    return 0;
}

size_t own_strlen(const char *text) {
    size_t length = 0;
    while (text[length] != 0) length++;
    return length;
}

int own_strcmp(const char *one, const char *other) {
    while (*one != 0 && *one == *other) one++, other++;
    return (uint8_t)*one - (uint8_t)*other;
}

/* ---- numbers */

static int digit_of(char is) {
    return is >= '0' && is <= '9' ? is - '0' : is >= 'a' && is <= 'z' ? is - 'a' + 10 : is >= 'A' && is <= 'Z' ? is - 'A' + 10 : 99;
}

unsigned long long strtoull(const char *text, char **end, int base) {
    unsigned long long value = 0;
    while (*text == ' ') text++;
    for (; digit_of(*text) < base; text++) value = value * (unsigned)base + (unsigned)digit_of(*text);
    if (end != NULL) *end = (char *)text;
    return value;
}

unsigned long strtoul(const char *text, char **end, int base) { return (unsigned long)strtoull(text, end, base); }

int atoi(const char *text) { return *text == '-' ? -(int)strtoull(text + 1, NULL, 10) : (int)strtoull(text, NULL, 10); }
long atol(const char *text) { return atoi(text); }

/* ---- text */

typedef struct {
    char *out;
    size_t room, length;
} Text;

static void add(Text *text, char is) {
    if (text->length + 1 < text->room) text->out[text->length] = is;
    text->length++;
}

static void add_number(Text *text, unsigned long long value, unsigned base, int is_upper, int width, int is_zeroed, int is_negative) {
    char digits[24];
    int count = 0;
    do digits[count++] = (is_upper ? "0123456789ABCDEF" : "0123456789abcdef")[value % base]; while ((value /= base) != 0);
    if (is_negative && is_zeroed) add(text, '-');
    for (int i = count + is_negative; i < width; i++) add(text, is_zeroed ? '0' : ' ');
    if (is_negative && !is_zeroed) add(text, '-');
    while (count > 0) add(text, digits[--count]);
}

static void add_form(Text *text, const char *form, va_list words) {
    for (; *form != 0; form++) {
        int is_zeroed = 0, width = 0, longs = 0;
        if (*form != '%') {
            add(text, *form);
            continue;
        }
        if (*++form == '0') is_zeroed = 1, form++;
        for (; *form >= '0' && *form <= '9'; form++) width = width * 10 + *form - '0';
        for (; *form == 'l' || *form == 'z'; form++) longs += *form == 'z' ? 2 : 1;
        if (*form == 's') {
            for (const char *at = va_arg(words, const char *); *at != 0; at++) add(text, *at);
        } else if (*form == 'c') {
            add(text, (char)va_arg(words, int));
        } else if (*form == 'd') {
            long long value = longs == 0 ? va_arg(words, int) : longs == 1 ? va_arg(words, long) : va_arg(words, long long);
            add_number(text, value < 0 ? -(unsigned long long)value : (unsigned long long)value, 10, 0, width, is_zeroed, value < 0);
        } else if (*form == 'u' || *form == 'x' || *form == 'X') {
            unsigned long long value = longs == 0 ? va_arg(words, unsigned) : longs == 1 ? va_arg(words, unsigned long) : va_arg(words, unsigned long long);
            add_number(text, value, *form == 'u' ? 10 : 16, *form == 'X', width, is_zeroed, 0);
        } else if (*form == '%') {
            add(text, '%');
        } else {
            abort();
        }
    }
    if (text->room > 0) text->out[text->length < text->room ? text->length : text->room - 1] = 0;
}

int snprintf(char *out, size_t room, const char *form, ...) {
    Text text = {out, room, 0};
    va_list words;
    va_start(words, form);
    add_form(&text, form, words);
    va_end(words);
    return (int)text.length;
}

/* ---- files */

struct own_file {
    int number;
    uint32_t at;
};

static FILE out_file = {1, 0}, error_file = {2, 0};
FILE *const stdout = &out_file, *const stderr = &error_file;

#define PRINT(to, form) \
    static char line[8192]; \
    Text text = {line, sizeof line, 0}; \
    va_list words; \
    va_start(words, form); \
    add_form(&text, form, words); \
    va_end(words); \
    if (text.length >= sizeof line) abort(); \
    host_write(to, line, (uint32_t)text.length); \
    return (int)text.length;

int printf(const char *form, ...) { PRINT(1, form) }
int fprintf(FILE *file, const char *form, ...) { PRINT(file->number, form) }
int puts(const char *text) { return printf("%s\n", text); }
void perror(const char *text) { fprintf(stderr, "%s: can't be had\n", text); }

FILE *fopen(const char *name, const char *mode) {
    int number = host_open(name, (uint32_t)strlen(name));
    FILE *file = number < 0 || *mode != 'r' ? NULL : malloc(sizeof *file);
    if (file != NULL) *file = (FILE){number, 0};
    return file;
}

int fseek(FILE *file, long offset, int whence) {
    if (whence != SEEK_END || offset != 0) abort();
    file->at = host_size(file->number);
    return 0;
}

long ftell(FILE *file) { return (long)file->at; }
void rewind(FILE *file) { file->at = 0; }

size_t fread(void *to, size_t size, size_t count, FILE *file) {
    uint32_t passed = host_read(file->number, file->at, to, (uint32_t)(size * count));
    file->at += passed;
    return passed / size;
}

int fclose(FILE *file) {
    free(file);
    return 0;
}

/* ---- memory */

void *calloc(size_t count, size_t size) {
    void *at = malloc(count * size);
    if (at != NULL) memset(at, 0, count * size);
    return at;
}

/* ---- a program */

void exit(int status) { host_exit(status); }
void abort(void) { host_exit(134); }

/* The program's `main`, which is compiled under this name. */
#ifdef TAKES_WORDS
int the_program(int count, char **words);
#else
int the_program(void);
#endif

char words[4096];       /* the host puts the arguments here, each with a 0 after it */
__attribute__((export_name("words"))) char *words_at(void) { return words; }

__attribute__((export_name("run"))) void run(int count) {
    static char *list[64];
    char *at = words;
    for (int i = 0; i < count && i < 63; i++, at += strlen(at) + 1) list[i] = at;
#ifdef TAKES_WORDS
    exit(the_program(count, list));
#else
    (void)list;
    exit(the_program());
#endif
}
