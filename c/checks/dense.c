/* dense - tracks with as many sectors as have room, and so with short gaps. A guest formats them by commands of the
 * controller, and writes each sector. Their flat file and their ImageDisk file are written and read back. The media of
 * both then have the same sectors, and a guest reads each of them. */
#include "guest.h"

enum { MOST = 80 * 2 * 21 * 512 };

typedef struct {
    const char *name;
    uint8_t cylinders, sectors, n;
    uint16_t kilobits;
    uint8_t gap;                /* the gap 3 that the guest formats with */
} Table;

/* As many sectors as FORMAT lays on a track, by their size, and with gaps that leave room for them. */
static const Table tables[] = {
    {"21 of 512 bytes, as of DMF", 80, 21, 2, 500, 8}, {"21 with the longest gap", 2, 21, 2, 500, 13},
    {"11 of 1,024", 2, 11, 3, 500, 0x20}, {"37 of 256", 2, 37, 1, 500, 12}, {"38 of 256", 2, 38, 1, 500, 4},
    {"5 of 2,048", 2, 5, 4, 500, 1}, {"2 of 4,096", 2, 2, 5, 500, 1}, {"1 of 8,192", 2, 1, 6, 500, 1},
    {"10 of 512 at 250 kbit/s", 2, 10, 2, 250, 0x10}, {"19 of 256 at 250", 2, 19, 1, 250, 1},
    {"5 of 1,024 at 250", 2, 5, 3, 250, 1}, {"2 of 2,048 at 250", 2, 2, 4, 250, 1}, {"1 of 4,096 at 250", 2, 1, 5, 250, 1},
};

static Guest guest;
static uint8_t wanted[MOST], flat[MOST], track[64 * 512], imd[2 * MOST], again[2 * MOST];

static size_t size_of(const Table *table) { return (size_t)128 << table->n; }
static size_t bytes_of(const Table *table) { return table->sectors * size_of(table); }
static size_t length_of(const Table *table) { return table->cylinders * 2 * bytes_of(table); }

/* ---- what the guest does */

static void begin(const Table *table, telwyddus_tray *tray) {
    memset(&guest, 0, sizeof guest);
    MUST(telwyddus_controller_new(&guest.controller));
    MUST(telwyddus_controller_insert(&guest.controller, 0, tray, &guest.lines));
    start(&guest);
    out(&guest, CCR, table->kilobits == 500 ? 0 : 2);
}

static void format(const Table *table, uint8_t c, uint8_t h) {
    const uint8_t bytes[] = {FORMAT, (uint8_t)(h << 2), table->n, table->sectors, table->gap, 0xF6};
    for (uint8_t r = 1; r <= table->sectors; r++) {
        const uint8_t key[] = {c, h, r, table->n};
        memcpy(track + 4 * (r - 1), key, 4);
    }
    channel(&guest, track, 4 * (size_t)table->sectors);
    command(&guest, bytes, 6);
    need(guest.results == 7 && (guest.result[0] & 0xC0) == 0 && guest.left == 0, "a track is formatted");
}

/* Writes or reads all sectors of a track. */
static void pass(const Table *table, uint8_t code, uint8_t c, uint8_t h, uint8_t *place) {
    const uint8_t bytes[] = {code, (uint8_t)(h << 2), c, h, 1, table->n, table->sectors, 1, 0xFF};
    transfer(&guest, bytes, place, bytes_of(table));
    need(guest.results == 7 && (guest.result[0] & 0xC0) == 0 && guest.passed == bytes_of(table), "each sector of a track passes");
}

/* Makes a medium: formats each track, and then writes over each sector. */
static void make(const Table *table, telwyddus_tray *tray) {
    MUST(telwyddus_tray_blank(tray, table->cylinders, table->kilobits));
    begin(table, tray);
    MUST(telwyddus_tray_free(tray));
    for (uint8_t c = 0; c < table->cylinders; c++) {
        seek(&guest, c);
        for (uint8_t h = 0; h < 2; h++) {
            format(table, c, h);
            pass(table, WRITE, c, h, wanted + (2 * c + h) * bytes_of(table));
        }
    }
    MUST(telwyddus_controller_eject(&guest.controller, 0, tray, &guest.lines));
    MUST(telwyddus_controller_free(&guest.controller));
}

/* The guest reads each sector of a medium as it was written. */
static void reads(const Table *table, telwyddus_tray *tray) {
    begin(table, tray);
    for (uint8_t c = 0; c < table->cylinders; c++) {
        seek(&guest, c);
        for (uint8_t h = 0; h < 2; h++) {
            memset(track, 0, bytes_of(table));
            pass(table, READ, c, h, track);
            need(memcmp(track, wanted + (2 * c + h) * bytes_of(table), bytes_of(table)) == 0, "the guest reads what it wrote");
        }
    }
    MUST(telwyddus_controller_free(&guest.controller));
}

/* ---- files */

/* Both files of a medium are those that the guest's own medium gave. */
static void same_files(const Table *table, telwyddus_tray *tray, size_t imd_length) {
    size_t told;
    uint8_t c, h;
    memset(flat, 0, sizeof flat);
    MUST(telwyddus_tray_write_flat_as(tray, table->cylinders, 2, table->sectors, table->n, table->kilobits, flat, sizeof flat, &told, &c, &h));
    need(told == length_of(table) && memcmp(flat, wanted, told) == 0, "the flat file has what was written");
    MUST(telwyddus_tray_write_imd(tray, again, sizeof again, &told, &c, &h));
    need(told == imd_length && memcmp(again, imd, told) == 0, "the ImageDisk file is the same");
}

static void there_and_back(const Table *table) {
    telwyddus_tray tray = {0}, by_flat = {0}, by_imd = {0};
    size_t imd_length, at;
    uint8_t c, h;
    for (at = 0; at < length_of(table); at++) wanted[at] = (uint8_t)(at * 7 + at / 512 + at / 8192);
    make(table, &tray);
    MUST(telwyddus_tray_write_imd(&tray, imd, sizeof imd, &imd_length, &c, &h));
    same_files(table, &tray, imd_length);
    MUST(telwyddus_tray_read_flat_as(&by_flat, flat, length_of(table), table->cylinders, 2, table->sectors, table->n, table->kilobits));
    MUST(telwyddus_tray_read_imd(&by_imd, imd, imd_length, &c, &h));
    same_files(table, &by_flat, imd_length);
    same_files(table, &by_imd, imd_length);
    reads(table, &by_flat);
    reads(table, &by_imd);
    MUST(telwyddus_tray_free(&tray));
    MUST(telwyddus_tray_free(&by_flat));
    MUST(telwyddus_tray_free(&by_imd));
    check(1, table->name);
}

/* One sector more than FORMAT lays has no room. (37 of 256 bytes aren't the most: 38 of them are another table.) */
static void one_more(void) {
    telwyddus_tray tray = {0};
    for (size_t i = 0; i < sizeof tables / sizeof *tables; i++) {
        Table more = tables[i];
        more.cylinders = 2;
        more.sectors++;
        if (more.n == 1 && more.sectors == 38) continue;
        need(telwyddus_tray_read_flat_as(&tray, wanted, length_of(&more), more.cylinders, 2, more.sectors, more.n, more.kilobits) == TELWYDDUS_UNFIT, "one more has no room");
    }
    check(1, "one more has no room");
}

int main(void) {
    for (size_t i = 0; i < sizeof tables / sizeof *tables; i++) there_and_back(&tables[i]);
    one_more();
    return 0;
}
