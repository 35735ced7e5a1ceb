#include "track.h"
#include <string.h>

enum { MARK = 0x4489, INDEX_MARK = 0x5224 };

/* ---- words of bytes, and bytes of cells */

static uint16_t word_of(int last, uint8_t byte) {
    uint16_t word = 0;
    for (int shift = 7; shift >= 0; shift--) {
        int bit = byte >> shift & 1;
        word = (uint16_t)(word << 2 | !(last | bit) << 1 | bit);
        last = bit;
    }
    return word;
}

static uint16_t crc_of(uint16_t crc, uint8_t byte) {
    for (int shift = 7; shift >= 0; shift--) {
        int carry = (crc >> 15 ^ byte >> shift) & 1;
        crc = (uint16_t)(crc << 1 ^ (carry ? 0x1021 : 0));
    }
    return crc;
}

/* The CRC after three marks A1. */
static uint16_t crc_begun(void) { return crc_of(crc_of(crc_of(0xFFFF, 0xA1), 0xA1), 0xA1); }

static uint16_t cells_at(const uint16_t *words, size_t cell) {
    size_t at = cell / 16, shift = cell % 16;
    uint32_t two = (uint32_t)words[at] << 16 | (at + 1 < TRACK_WORDS ? words[at + 1] : 0);
    return (uint16_t)(two >> (16 - shift));
}

static uint8_t byte_of(uint16_t cells) {
    uint8_t byte = 0;
    for (int shift = 14; shift >= 0; shift -= 2) byte = (uint8_t)(byte << 1 | (cells >> shift & 1));
    return byte;
}

/* ---- tracks as they are recorded */

typedef struct { uint16_t *to; size_t at; int last; } Pen;

static void put(Pen *pen, uint8_t byte, int times) {
    for (; times; times--) {
        pen->to[pen->at++] = word_of(pen->last, byte);
        pen->last = byte & 1;
    }
}

/* 12 bytes 00, the marks, these bytes, and the CRC of all but the first. */
static void put_field(Pen *pen, const uint8_t *bytes, size_t count) {
    uint16_t crc = crc_begun();
    put(pen, 0, 12);
    for (int i = 0; i < 3; i++) pen->to[pen->at++] = MARK;
    pen->last = 1;
    for (size_t i = 0; i < count; i++) put(pen, bytes[i], 1), crc = crc_of(crc, bytes[i]);
    put(pen, (uint8_t)(crc >> 8), 1), put(pen, (uint8_t)crc, 1);
}

void track_window(uint16_t words[WINDOW_WORDS], const uint8_t bytes[512]) {
    uint8_t field[513] = {0xFB};
    Pen pen = {.to = words};
    memcpy(field + 1, bytes, 512);
    put_field(&pen, field, sizeof field);
}

void track_format(uint16_t words[TRACK_WORDS], uint8_t c, uint8_t h, unsigned first) {
    uint8_t data[513] = {0xFB};
    Pen pen = {.to = words};
    memset(data + 1, 0xF6, 512);
    put(&pen, 0x4E, 80), put(&pen, 0, 12);
    for (int i = 0; i < 3; i++) words[pen.at++] = INDEX_MARK;
    pen.last = 0;
    put(&pen, 0xFC, 1), put(&pen, 0x4E, 50);
    for (unsigned place = 0; place < SECTORS; place++) {
        uint8_t address[5] = {0xFE, c, h, (uint8_t)((place + SECTORS - first) % SECTORS + 1), 2};
        put_field(&pen, address, sizeof address);
        put(&pen, 0x4E, 22);
        put_field(&pen, data, sizeof data);
        put(&pen, 0x4E, 0x6C);
    }
    put(&pen, 0x4E, TRACK_WORDS - (int)pen.at);
}

/* ---- tracks as they are read, at any phase of the cells */

/* Reads the bytes from a cell on, as many as fit on the track; returns whether their CRC is right. */
static bool hear(const uint16_t *words, size_t cell, uint8_t *bytes, size_t count) {
    uint16_t crc = crc_begun();
    if (cell + 16 * count > 16 * TRACK_WORDS) return false;
    for (size_t i = 0; i < count; i++) bytes[i] = byte_of(cells_at(words, cell + 16 * i)), crc = crc_of(crc, bytes[i]);
    return crc == 0;
}

/* The next cell that comes after three marks, from a cell on; if there is none, a place past the end of the track. */
static size_t behind_marks(const uint16_t *words, size_t cell) {
    uint64_t seen = 0;
    for (size_t at = cell; at < 16 * TRACK_WORDS; at++) {
        seen = (seen << 1 | (words[at / 16] >> (15 - at % 16) & 1)) & 0xFFFFFFFFFFFF;
        if (seen == 0x448944894489) return at + 1;
    }
    return 16 * TRACK_WORDS;
}

static void take_address(Fields *fields, const uint16_t *words, size_t cell) {
    uint8_t bytes[7];
    if (!hear(words, cell, bytes, 7) || fields->count == MOST_FIELDS) return;
    Field *field = &fields->fields[fields->count++];
    memset(field, 0, sizeof *field);
    memcpy(field->key, bytes + 1, 4);
    field->window = (uint16_t)(cell / 16 + 7 + 22);
}

void track_fields(Fields *fields, const uint16_t words[TRACK_WORDS]) {
    Field *last = NULL;                 /* the address field whose data comes next */
    fields->count = 0;
    for (size_t cell = behind_marks(words, 0); cell < 16 * TRACK_WORDS; cell = behind_marks(words, cell)) {
        uint8_t mark = byte_of(cells_at(words, cell)), bytes[515];
        if (mark == 0xFE) {
            int before = fields->count;
            take_address(fields, words, cell);
            last = fields->count > before ? &fields->fields[before] : NULL;
        } else if (last) {
            last->is_whole = mark == 0xFB && last->key[3] == 2 && hear(words, cell, bytes, 515);
            if (last->is_whole) memcpy(last->bytes, bytes + 1, 512);
            last = NULL;
        }
    }
}

const Field *track_find(const Fields *fields, uint8_t c, uint8_t h, uint8_t r) {
    const uint8_t key[4] = {c, h, r, 2};
    for (int i = 0; i < fields->count; i++)
        if (!memcmp(fields->fields[i].key, key, 4)) return &fields->fields[i];
    return NULL;
}

bool track_is_standard(const Fields *fields, uint8_t c, uint8_t h) {
    if (fields->count != SECTORS) return false;
    for (uint8_t r = 1; r <= SECTORS; r++) {
        const Field *field = track_find(fields, c, h, r);
        if (!field || !field->is_whole) return false;
    }
    return true;
}
