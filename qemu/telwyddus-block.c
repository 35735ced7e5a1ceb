/*
 * A floppy controller whose work the library Telwyddus does: its disks as
 * nodes of QEMU's block layer.
 *
 * A node has either the sectors of a disk of 1.44 MB or 720 KB ("flat"), or
 * the bytes of an image file, which has the cells of each track. The length of
 * an image file is no multiple of 512, so the block layer shows zeros behind
 * it. The medium is read when it is put in. Each track that the guest writes
 * goes to the node before the guest learns that its command is over.
 */

#include "qemu/osdep.h"
#include "qapi/error.h"
#include "qapi/qmp/qdict.h"
#include "qemu/bswap.h"
#include "qemu/cutils.h"
#include "qemu/error-report.h"
#include "sysemu/runstate.h"
#include "telwyddus-fdc.h"
#include "trace.h"

enum {
    SECTOR = 512,
    MOST = 5242894,             /* bytes of an image file, at most */
    HEADER = 14,
    WORDS = 16384,              /* words of a track, at most */
    SECTORS = 18,               /* sectors of a track of a flat disk, at most */
    TRACKS = 160,
    IMD_MOST = 65536,           /* a track as an ImageDisk file, at most */
};

/* ---- reading a node */

/* The length of an image file by its header; 0 if it isn't one */
static size_t telwyddus_image_length(const uint8_t *bytes, size_t length)
{
    if (length < HEADER || memcmp(bytes, "RTIMAGE", 7)) {
        return 0;
    }
    return HEADER + (size_t)2 * bytes[9] * bytes[10] * lduw_be_p(bytes + 12);
}

static uint32_t telwyddus_read_bytes(telwyddus_tray *tray, const uint8_t *bytes,
                                     size_t length, bool *is_flat)
{
    size_t image = telwyddus_image_length(bytes, length);

    *is_flat = image == 0;
    if (*is_flat) {
        return telwyddus_tray_read_flat(tray, bytes, length);
    }
    if (image > length || length - image >= SECTOR
        || !buffer_is_zero(bytes + image, length - image)) {
        return TELWYDDUS_BAD_IMAGE;
    }
    return telwyddus_tray_read(tray, bytes, image);
}

/* All bytes of a node; NULL if they are too many, or can't be read */
static uint8_t *telwyddus_node_bytes(BlockBackend *blk, size_t *length,
                                     Error **errp)
{
    g_autofree uint8_t *bytes = NULL;
    int64_t got = blk_getlength(blk);
    int status = got;

    if (got >= 0 && got <= MOST + SECTOR) {
        bytes = g_malloc(got + 1);
        status = blk_pread(blk, 0, got, bytes, 0);
    }
    if (status < 0) {
        error_setg_errno(errp, -status, "the disk can't be read");
        return NULL;
    }
    if (!bytes) {
        error_setg(errp, "%" PRId64 " bytes are too many for a disk", got);
    }
    *length = got;
    return g_steal_pointer(&bytes);
}

/* A file of whole blocks alone: a write of the last track would lengthen it */
static bool telwyddus_takes_blocks(BlockBackend *blk)
{
    return blk_supports_write_perm(blk)
           && blk_get_flags(blk) & BDRV_O_NOCACHE
           && !strcmp(bdrv_get_format_name(blk_bs(blk)), "raw");
}

bool telwyddus_read_node(BlockBackend *blk, telwyddus_tray *tray,
                         bool *is_flat, Error **errp)
{
    size_t length;
    g_autofree uint8_t *bytes = telwyddus_node_bytes(blk, &length, errp);
    uint32_t code;

    if (!bytes) {
        return false;
    }
    code = telwyddus_read_bytes(tray, bytes, length, is_flat);
    if (code != TELWYDDUS_DONE) {
        error_setg(errp, "%s", telwyddus_code_name(code));
    } else if (!*is_flat && telwyddus_takes_blocks(blk)) {
        error_setg(errp, "a disk of cells needs a node that takes single "
                   "bytes: not cache=none");
        telwyddus_tray_free(tray);
        return false;
    }
    return code == TELWYDDUS_DONE;
}

/* ---- the sectors of a track, by an ImageDisk file of this track alone */

typedef struct TelwyddusTrack {
    uint8_t bytes[SECTORS][SECTOR];
    bool is_whole[SECTORS];     /* the medium has this sector, undamaged */
    bool is_fit;                /* there is no sector without a place here */
} TelwyddusTrack;

/* The sector whose record begins at `type`; returns the place behind it */
static const uint8_t *telwyddus_take_sector(TelwyddusTrack *track, int record,
                                            unsigned size, const uint8_t *type)
{
    bool is_short = *type != 0 && *type % 2 == 0;
    size_t length = *type == 0 ? 0 : is_short ? 1 : size;
    bool has_place = record > 0 && record <= SECTORS && size == SECTOR
                     && *type <= 2;

    if (*type == 0 || *type > 4) {
        return type + 1 + length;           /* no data, or damaged ones */
    }
    if (!has_place || track->is_whole[record - 1]) {
        track->is_fit = false;
        return type + 1 + length;
    }
    track->is_whole[record - 1] = true;
    if (is_short) {
        memset(track->bytes[record - 1], type[1], SECTOR);
    } else {
        memcpy(track->bytes[record - 1], type + 1, SECTOR);
    }
    return type + 1 + length;
}

/*
 * The first track of an ImageDisk file with the number of one of its heads:
 * the bytes from its mode on are passed
 */
static const uint8_t *telwyddus_take_track(TelwyddusTrack *track, unsigned t,
                                           unsigned most, const uint8_t *at)
{
    uint8_t cylinder = at[1], head = at[2], count = at[3];
    unsigned size = 128u << at[4];
    const uint8_t *records = at + 5, *next = records + count;
    const uint8_t *cylinders = head & 0x80 ? next : NULL, *heads;

    next += cylinders ? count : 0;
    heads = head & 0x40 ? next : NULL;
    next += heads ? count : 0;
    for (unsigned i = 0; i < count; i++) {
        bool is_here = (cylinders ? cylinders[i] : cylinder) == t / 2
                       && (heads ? heads[i] : head & 1) == t % 2
                       && records[i] <= most;

        next = telwyddus_take_sector(track, is_here ? records[i] : 0, size,
                                     next);
    }
    return next;
}

/* A tray with a medium of one cylinder that has one track of the medium */
static bool telwyddus_copy_track(TelwyddusDrive *d, unsigned t, unsigned rate,
                                 telwyddus_tray *tray)
{
    g_autofree uint16_t *words = g_new(uint16_t, WORDS);
    size_t length;

    return telwyddus_controller_track(&d->controller->chip, d->bay, t / 2,
                                      t % 2, words, WORDS, &length)
               == TELWYDDUS_DONE
           && telwyddus_tray_blank(tray, 1, rate) == TELWYDDUS_DONE
           && telwyddus_tray_set_track(tray, 0, t % 2, words, length)
               == TELWYDDUS_DONE;
}

/* Whether the track could be looked at. One that has no such form isn't fit */
static bool telwyddus_read_track(TelwyddusDrive *d, unsigned t,
                                 TelwyddusTrack *track)
{
    g_autofree uint8_t *imd = g_malloc(IMD_MOST);
    telwyddus_tray tray = { 0 };
    telwyddus_shape shape;
    const uint8_t *at;
    size_t length;
    uint8_t cylinder, head;
    uint32_t code = telwyddus_controller_shape(&d->controller->chip, d->bay,
                                               &shape);

    memset(track, 0, sizeof(*track));
    if (code == TELWYDDUS_DONE
        && telwyddus_copy_track(d, t, shape.kilobits, &tray)) {
        code = telwyddus_tray_write_imd(&tray, imd, IMD_MOST, &length,
                                        &cylinder, &head);
    }
    telwyddus_tray_free(&tray);
    track->is_fit = code == TELWYDDUS_DONE;
    if (code == TELWYDDUS_DONE) {
        at = (uint8_t *)memchr(imd, 0x1a, length) + 1;
        while (at < imd + length) {
            at = telwyddus_take_track(track, t, shape.kilobits == 500 ? 18 : 9,
                                      at);
        }
    }
    return code == TELWYDDUS_DONE || code == TELWYDDUS_UNFIT;
}

/* ---- comparing */

uint8_t *telwyddus_image(TelwyddusDrive *d, size_t *length)
{
    telwyddus_controller *chip = &d->controller->chip;
    g_autofree uint8_t *bytes = NULL;

    if (telwyddus_controller_image(chip, d->bay, NULL, 0, length)
        != TELWYDDUS_TOO_SHORT) {
        return NULL;
    }
    bytes = g_malloc(*length);
    if (telwyddus_controller_image(chip, d->bay, bytes, *length, length)
        != TELWYDDUS_DONE) {
        return NULL;
    }
    return g_steal_pointer(&bytes);
}

static bool telwyddus_is_owed(TelwyddusDrive *d, unsigned t)
{
    return d->owed.bytes[t / 8] >> t % 8 & 1;
}

static void telwyddus_owe(TelwyddusDrive *d, unsigned t, bool is_owed)
{
    d->owed.bytes[t / 8] &= ~(1 << t % 8);
    d->owed.bytes[t / 8] |= is_owed << t % 8;
}

/*
 * Whether all sectors of a track are those of a flat disk. Only undamaged
 * ones are compared. A track that isn't fit is owed from now on.
 */
static bool telwyddus_is_same_track(TelwyddusDrive *d, unsigned t,
                                    unsigned sectors, const uint8_t *flat)
{
    TelwyddusTrack track;

    if (!telwyddus_read_track(d, t, &track)) {
        return false;
    }
    for (unsigned i = 0; i < sectors && !telwyddus_is_owed(d, t); i++) {
        if (track.is_whole[i] && memcmp(track.bytes[i], flat + i * SECTOR,
                                        SECTOR)) {
            return false;
        }
    }
    if (!track.is_fit) {
        telwyddus_owe(d, t, true);
    }
    return true;
}

static bool telwyddus_is_same_flat(TelwyddusDrive *d, const uint8_t *bytes,
                                   size_t length)
{
    unsigned sectors = length / SECTOR / TRACKS;
    telwyddus_shape shape;

    if (telwyddus_controller_shape(&d->controller->chip, d->bay, &shape)
            != TELWYDDUS_DONE
        || shape.cylinders != TRACKS / 2 || shape.heads != 2
        || sectors != (shape.kilobits == 500 ? 18 : 9)) {
        return false;
    }
    for (unsigned t = 0; t < TRACKS; t++) {
        if (!telwyddus_is_same_track(d, t, sectors,
                                     bytes + (size_t)t * sectors * SECTOR)) {
            return false;
        }
    }
    return true;
}

/* Byte 8 has the tab, which the property may have moved */
static bool telwyddus_is_same_image(TelwyddusDrive *d, const uint8_t *bytes,
                                    size_t length)
{
    size_t image;
    g_autofree uint8_t *own = telwyddus_image(d, &image);

    return own && image <= length
           && !memcmp(own + 9, bytes + 9, image - 9);
}

bool telwyddus_is_same(TelwyddusDrive *d)
{
    size_t length;
    g_autofree uint8_t *bytes = telwyddus_node_bytes(d->conf.blk, &length,
                                                     NULL);
    bool is_image;

    if (!bytes) {
        return false;
    }
    is_image = telwyddus_image_length(bytes, length) > 0;
    d->is_flat = !is_image;
    return is_image ? telwyddus_is_same_image(d, bytes, length)
                    : telwyddus_is_same_flat(d, bytes, length);
}

/* ---- the cells of a medium that its flat disk can't have */

/*
 * Opens the file that the property cells0 names. It is made, or else it has
 * to be empty or an image file.
 */
static BlockBackend *telwyddus_open_cells(TelwyddusDrive *d, size_t length,
                                          Error **errp)
{
    int file = qemu_create(d->cells, O_RDWR, 0666, errp);
    QDict *options = qdict_new();
    char magic[7];
    ssize_t got;

    qdict_put_str(options, "driver", "raw");
    if (file < 0) {
        qobject_unref(options);
        return NULL;
    }
    got = pread(file, magic, sizeof(magic), 0);
    if (got != 0 && (got != sizeof(magic) || memcmp(magic, "RTIMAGE", got))) {
        error_setg(errp, "%s has something else than a disk", d->cells);
    } else if (ftruncate(file, length) < 0) {
        error_setg_errno(errp, errno, "%s", d->cells);
    } else {
        close(file);
        return blk_new_open(d->cells, NULL, options, BDRV_O_RDWR, errp);
    }
    close(file);
    qobject_unref(options);
    return NULL;
}

/* From now on the cells go to that file, and the flat disk stays as it is */
static bool telwyddus_go_beside(TelwyddusDrive *d, unsigned t, Error **errp)
{
    size_t length;
    g_autofree uint8_t *bytes = telwyddus_image(d, &length);
    int status;

    if (!bytes || !d->cells || !*d->cells) {
        error_setg(errp, "cylinder %u, head %u has no flat form: name a file "
                   "for its cells by cells%u, and continue", t / 2, t % 2,
                   d->bay);
        return false;
    }
    d->beside = telwyddus_open_cells(d, length, errp);
    if (!d->beside) {
        return false;
    }
    blk_set_enable_write_cache(d->beside, false);
    blk_set_force_allow_inactivate(d->beside);      /* the machine may move */
    status = blk_set_perm(d->beside, BLK_PERM_CONSISTENT_READ | BLK_PERM_WRITE,
                          BLK_PERM_CONSISTENT_READ, errp);
    if (status == 0) {
        status = blk_pwrite(d->beside, 0, length, bytes, 0);
        if (status < 0) {
            error_setg_errno(errp, -status, "%s", d->cells);
        }
    }
    if (status < 0) {
        blk_unref(d->beside);
        d->beside = NULL;
        return false;
    }
    d->is_flat = false;
    warn_report("bay %u: cylinder %u, head %u has no flat form: the cells are "
                "stored in %s", d->bay, t / 2, t % 2, d->cells);
    return true;
}

/* ---- writing back */

/* Writes the words of a track, each with its high byte first */
static int telwyddus_write_cells(TelwyddusDrive *d, unsigned t)
{
    g_autofree uint16_t *words = g_new(uint16_t, WORDS);
    BlockBackend *blk = d->beside ? d->beside : d->conf.blk;
    telwyddus_shape shape;
    size_t length;
    int64_t place;

    telwyddus_must(telwyddus_controller_shape(&d->controller->chip, d->bay,
                                              &shape));
    telwyddus_must(telwyddus_controller_track(&d->controller->chip, d->bay,
                                              t / 2, t % 2, words, WORDS,
                                              &length));
    for (size_t i = 0; i < length; i++) {
        words[i] = cpu_to_be16(words[i]);
    }
    trace_telwyddus_fdc_store(d->bay, t, 2 * length);
    place = HEADER + (int64_t)(t / 2 * shape.heads + t % 2) * 2 * length;
    return blk_pwrite(blk, place, 2 * length, words, 0);
}

/* Writes the sectors that differ, and those between them, at once */
static int telwyddus_write_sectors(TelwyddusDrive *d, unsigned t,
                                   TelwyddusTrack *track)
{
    unsigned sectors = blk_getlength(d->conf.blk) / SECTOR / TRACKS;
    int64_t place = (int64_t)t * sectors * SECTOR;
    uint8_t bytes[SECTORS][SECTOR];
    unsigned first = SECTORS, end = 0;
    int status = blk_pread(d->conf.blk, place, sectors * SECTOR, bytes, 0);

    for (unsigned i = 0; status >= 0 && i < sectors; i++) {
        if (track->is_whole[i] && memcmp(bytes[i], track->bytes[i], SECTOR)) {
            memcpy(bytes[i], track->bytes[i], SECTOR);
            first = MIN(first, i);
            end = i + 1;
        }
    }
    if (status >= 0 && first < end) {
        trace_telwyddus_fdc_store(d->bay, t, (end - first) * SECTOR);
        status = blk_pwrite(d->conf.blk, place + first * SECTOR,
                            (end - first) * SECTOR, bytes[first], 0);
    }
    return status;
}

/* A sector that is damaged, or isn't there, stays on a flat disk as it was */
static int telwyddus_write_flat(TelwyddusDrive *d, unsigned t)
{
    g_autofree TelwyddusTrack *track = g_new(TelwyddusTrack, 1);
    Error *error = NULL;

    if (!telwyddus_read_track(d, t, track)) {
        return -ENOMEM;
    }
    if (track->is_fit) {
        return telwyddus_write_sectors(d, t, track);
    }
    if (!telwyddus_go_beside(d, t, &error)) {
        error_report_err(error);
        return -ENOSPC;
    }
    return telwyddus_write_cells(d, t);
}

/* As QEMU's block devices do where a write fails: the machine is paused */
static void telwyddus_pause(TelwyddusDrive *d, int status)
{
    d->controller->is_owing = true;
    if (runstate_is_running()) {
        blk_error_action(d->conf.blk, BLOCK_ERROR_ACTION_STOP, false, -status);
    }
}

/* Notes what the library says of written tracks; whether any are owed */
static bool telwyddus_note(TelwyddusDrive *d)
{
    telwyddus_controller *chip = &d->controller->chip;
    telwyddus_tracks written;
    uint8_t is_written;

    telwyddus_must(telwyddus_controller_is_written(chip, d->bay, &is_written));
    if (is_written) {
        telwyddus_must(telwyddus_controller_written(chip, d->bay, &is_written));
        telwyddus_must(telwyddus_controller_written_tracks(chip, d->bay,
                                                           &written));
        for (unsigned i = 0; i < sizeof(written.bytes); i++) {
            d->owed.bytes[i] |= written.bytes[i];
        }
    }
    return !buffer_is_zero(d->owed.bytes, sizeof(d->owed.bytes));
}

static void telwyddus_write_bay(TelwyddusDrive *d, bool is_last)
{
    uint8_t cylinder, signs;
    int status;

    if (!telwyddus_note(d) || d->is_loaded || !blk_bs(d->conf.blk)) {
        return;
    }
    telwyddus_must(telwyddus_controller_bay(&d->controller->chip, d->bay,
                                            &cylinder, &signs));
    if (signs & TELWYDDUS_GATE && (d->is_flat || !is_last)) {
        return;                             /* a sector is only half written */
    }
    for (unsigned t = 0; t < TRACKS; t++) {
        if (telwyddus_is_owed(d, t)) {
            status = d->is_flat ? telwyddus_write_flat(d, t)
                                : telwyddus_write_cells(d, t);
            if (status < 0) {
                telwyddus_pause(d, status);
                return;
            }
            telwyddus_owe(d, t, false);
        }
    }
}

/* A write of a node lets other work of QEMU's go on, the DMA channel's too */
static void telwyddus_write_bays(TelwyddusFDC *s, bool is_last)
{
    if (s->is_writing) {
        return;
    }
    s->is_writing = true;
    for (unsigned bay = 0; bay < BAYS && !s->is_owing; bay++) {
        telwyddus_write_bay(&s->bays[bay], is_last);
    }
    s->is_writing = false;
}

void telwyddus_write_back(TelwyddusFDC *s)
{
    telwyddus_write_bays(s, false);
}

void telwyddus_write_all(TelwyddusFDC *s)
{
    telwyddus_write_bays(s, true);
}
