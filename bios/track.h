/* Computes tracks of a 1.44 MB disk without any part of the library: how a format and a write leave them, and which
 * fields are on one. */
#ifndef TRACK_H
#define TRACK_H
#include <stdbool.h>
#include <stddef.h>
#include <stdint.h>

enum { TRACK_WORDS = 12500, WINDOW_WORDS = 530, SECTORS = 18, MOST_FIELDS = 40 };

typedef struct {
    uint8_t key[4];             /* C, H, R, N of an intact address field */
    uint16_t window;            /* the place to which a write puts the first word of its data field */
    bool is_whole;              /* a data field with a right CRC comes after it, and has these bytes */
    uint8_t bytes[512];
} Field;

typedef struct {
    int count;
    Field fields[MOST_FIELDS];
} Fields;

/* `first` is the place of record 1, counted from 0; the other records follow it around the track. */
void track_format(uint16_t words[TRACK_WORDS], uint8_t c, uint8_t h, unsigned first);
void track_window(uint16_t words[WINDOW_WORDS], const uint8_t bytes[512]);
void track_fields(Fields *fields, const uint16_t words[TRACK_WORDS]);
const Field *track_find(const Fields *fields, uint8_t c, uint8_t h, uint8_t r);
bool track_is_standard(const Fields *fields, uint8_t c, uint8_t h);     /* whether its 18 sectors are whole, and there are no others */

#endif
