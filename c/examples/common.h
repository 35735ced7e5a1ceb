/* What the examples share, and the checks of c/checks. */
#ifndef COMMON_H
#define COMMON_H
#include "telwyddus.h"
#include <stdio.h>
#include <stdlib.h>
#include <string.h>

#define MUST(call) must((call), #call, __LINE__)

static void must(uint32_t code, const char *call, int line) {
    if (code != TELWYDDUS_DONE) {
        fprintf(stderr, "line %d: %s: %s\n", line, call, telwyddus_code_name(code));
        exit(1);
    }
}

static inline void check(int is_so, const char *what) {
    printf("%s: %s\n", what, is_so ? "yes" : "NO");
    if (!is_so) exit(1);
}

static inline uint8_t *file_of(const char *name, size_t *length) {
    FILE *file = fopen(name, "rb");
    if (file == NULL) { perror(name); exit(1); }
    fseek(file, 0, SEEK_END);
    *length = (size_t)ftell(file);
    rewind(file);
    uint8_t *bytes = (uint8_t *)malloc(*length + 1);
    if (bytes == NULL || fread(bytes, 1, *length, file) != *length) { perror(name); exit(1); }
    fclose(file);
    return bytes;
}

#endif
