/*
 * A floppy controller whose work the library Telwyddus does: media that come
 * and go, and the properties that name them.
 */

#include "qemu/osdep.h"
#include "qapi/error.h"
#include "qapi/qmp/qdict.h"
#include "qapi/visitor.h"
#include "qemu/error-report.h"
#include "hw/qdev-properties.h"
#include "sysemu/runstate.h"
#include "telwyddus-fdc.h"
#include "trace.h"

/* Whether QEMU got the argument -snapshot: softmmu/vl.c tells it */
bool telwyddus_is_snapshot(void);

/* ---- media in and out */

/* Takes out what is in, and forgets what was written on it */
static void telwyddus_drop(TelwyddusDrive *d)
{
    telwyddus_controller *chip = &d->controller->chip;
    telwyddus_tray out = { 0 };
    telwyddus_tracks written;
    uint8_t is_written;

    if (telwyddus_controller_eject(chip, d->bay, &out, &d->controller->lines)
        == TELWYDDUS_NO_MEMORY) {
        telwyddus_must(TELWYDDUS_NO_MEMORY);
    }
    telwyddus_tray_free(&out);
    telwyddus_must(telwyddus_controller_written(chip, d->bay, &is_written));
    telwyddus_must(telwyddus_controller_written_tracks(chip, d->bay, &written));
    memset(&d->owed, 0, sizeof(d->owed));
    d->is_loaded = false;
    d->controller->is_owing = false;
    if (d->beside) {
        blk_unref(d->beside);
        d->beside = NULL;
    }
}

static void telwyddus_eject(TelwyddusDrive *d)
{
    telwyddus_settle(d->controller);
    telwyddus_drop(d);
    telwyddus_go_on(d->controller);
}

/* Puts in what the node of the bay has; the bay is empty */
static bool telwyddus_insert(TelwyddusDrive *d, Error **errp)
{
    TelwyddusFDC *s = d->controller;
    telwyddus_tray in = { 0 };

    if (d->bay >= s->drives) {
        error_setg(errp, "bay %u has no drive", d->bay);
        return false;
    }
    if (!telwyddus_read_node(d->conf.blk, &in, &d->is_flat, errp)) {
        return false;
    }
    if (d->is_protected || !blk_supports_write_perm(d->conf.blk)) {
        telwyddus_must(telwyddus_tray_protect(&in, 1));
    }
    telwyddus_settle(s);
    telwyddus_must(telwyddus_controller_insert(&s->chip, d->bay, &in,
                                               &s->lines));
    telwyddus_tray_free(&in);
    d->is_loaded = false;
    telwyddus_go_on(s);
    return true;
}

/* Takes the permissions of a device that uses the node, and its disk */
static bool telwyddus_take_node(TelwyddusDrive *d, Error **errp)
{
    bool is_there = blk_bs(d->conf.blk) != NULL;
    bool is_read_only = !is_there || !blk_supports_write_perm(d->conf.blk);

    if (!blkconf_apply_backend_options(&d->conf, is_read_only, false, errp)) {
        return false;
    }
    if (is_there && !telwyddus_insert(d, errp)) {
        blk_set_perm(d->conf.blk, 0, BLK_PERM_ALL, &error_abort);
        return false;
    }
    return true;
}

/* The block layer has taken the node out, or has put one in */
static void telwyddus_change_media(void *opaque, bool is_in, Error **errp)
{
    TelwyddusDrive *d = opaque;

    if (is_in) {
        telwyddus_take_node(d, errp);
    } else {
        telwyddus_eject(d);
        blk_set_perm(d->conf.blk, 0, BLK_PERM_ALL, &error_abort);
        g_free(d->image);
        d->image = NULL;
    }
}

static const BlockDevOps telwyddus_block_ops = {
    .change_media_cb = telwyddus_change_media,
};

/* The node of a file, with the same rules as -drive file=NAME,format=raw */
static BlockDriverState *telwyddus_open(const char *name, Error **errp)
{
    QDict *options = qdict_new();
    int flags = BDRV_O_RDWR;

    qdict_put_str(options, "driver", "raw");
    if (access(name, F_OK) == 0 && access(name, W_OK) != 0) {
        flags = 0;
    }
    if (telwyddus_is_snapshot()) {
        flags |= BDRV_O_SNAPSHOT;
    }
    if (runstate_check(RUN_STATE_INMIGRATE)) {
        flags |= BDRV_O_INACTIVE;
    }
    return bdrv_open(name, NULL, options, flags, errp);
}

static bool telwyddus_is_disk(BlockDriverState *bs, Error **errp)
{
    BlockBackend *blk = blk_new_with_bs(bs, BLK_PERM_CONSISTENT_READ,
                                        BLK_PERM_ALL, errp);
    telwyddus_tray tray = { 0 };
    bool is_flat, is_disk;

    if (!blk) {
        return false;
    }
    is_disk = telwyddus_read_node(blk, &tray, &is_flat, errp);
    telwyddus_tray_free(&tray);
    blk_unref(blk);
    return is_disk;
}

/* What is in stays in if the file can't be opened, or isn't a disk */
static bool telwyddus_change_image(TelwyddusDrive *d, const char *name,
                                   Error **errp)
{
    bool is_named = name && *name, is_done = true;
    BlockDriverState *bs = is_named ? telwyddus_open(name, errp) : NULL;

    if (is_named && (!bs || !telwyddus_is_disk(bs, errp))) {
        bdrv_unref(bs);
        error_prepend(errp, "%s: ", name);
        return false;
    }
    if (blk_bs(d->conf.blk)) {
        blk_remove_bs(d->conf.blk);
        telwyddus_change_media(d, false, NULL);
    }
    if (bs) {
        is_done = blk_insert_bs(d->conf.blk, bs, errp) == 0;
        if (is_done && !telwyddus_take_node(d, errp)) {
            blk_remove_bs(d->conf.blk);
            is_done = false;
        }
        bdrv_unref(bs);
    }
    return is_done;
}

/* ---- the drive as a device: its id is PATH/bay0 or PATH/bay1 */

static void telwyddus_drive_realize(DeviceState *dev, Error **errp)
{
    TelwyddusDrive *d = TELWYDDUS_DRIVE(dev);

    if (!d->conf.blk) {
        d->conf.blk = blk_new(qemu_get_aio_context(), 0, BLK_PERM_ALL);
        blk_attach_dev(d->conf.blk, dev);
    } else if (d->image && *d->image) {
        error_setg(errp, "bay %u: either drive%u or image%u", d->bay, d->bay,
                   d->bay);
        return;
    }
    d->conf.rerror = BLOCKDEV_ON_ERROR_AUTO;
    d->conf.werror = BLOCKDEV_ON_ERROR_AUTO;
    if (d->conf.wce == ON_OFF_AUTO_AUTO) {
        /* The guest can't ask for a flush, so each write is flushed */
        d->conf.wce = ON_OFF_AUTO_OFF;
    }
    if (blk_get_on_error(d->conf.blk, 0) != BLOCKDEV_ON_ERROR_ENOSPC
        && blk_get_on_error(d->conf.blk, 0) != BLOCKDEV_ON_ERROR_REPORT) {
        error_setg(errp, "bay %u: the drive option werror isn't supported",
                   d->bay);
        return;
    }
    blk_set_dev_ops(d->conf.blk, &telwyddus_block_ops, d);
    blk_iostatus_enable(d->conf.blk);
    if (telwyddus_take_node(d, errp) && d->image && *d->image) {
        telwyddus_change_image(d, d->image, errp);
    }
}

static Property telwyddus_drive_properties[] = {
    DEFINE_BLOCK_PROPERTIES(TelwyddusDrive, conf),
    DEFINE_PROP_END_OF_LIST(),
};

static void telwyddus_drive_class_init(ObjectClass *klass, void *data)
{
    DeviceClass *dc = DEVICE_CLASS(klass);

    dc->desc = "a drive of telwyddus-fdc";
    dc->realize = telwyddus_drive_realize;
    dc->user_creatable = false;
    device_class_set_props(dc, telwyddus_drive_properties);
    set_bit(DEVICE_CATEGORY_STORAGE, dc->categories);
}

static const TypeInfo telwyddus_drive_info = {
    .name = TYPE_TELWYDDUS_DRIVE,
    .parent = TYPE_DEVICE,
    .instance_size = sizeof(TelwyddusDrive),
    .class_init = telwyddus_drive_class_init,
};

static void telwyddus_drive_register(void)
{
    type_register_static(&telwyddus_drive_info);
}

type_init(telwyddus_drive_register)

void telwyddus_init_drives(TelwyddusFDC *s)
{
    for (unsigned bay = 0; bay < BAYS; bay++) {
        TelwyddusDrive *d = &s->bays[bay];
        g_autofree char *name = g_strdup_printf("bay%u", bay);
        g_autofree char *drive = g_strdup_printf("drive%u", bay);

        object_initialize_child(OBJECT(s), name, d, TYPE_TELWYDDUS_DRIVE);
        object_property_add_alias(OBJECT(s), drive, OBJECT(d), "drive");
        d->controller = s;
        d->bay = bay;
    }
}

bool telwyddus_realize_drives(TelwyddusFDC *s, Error **errp)
{
    for (unsigned bay = 0; bay < BAYS; bay++) {
        telwyddus_must(telwyddus_controller_attach(&s->chip, bay,
                                                   bay < s->drives));
        if (!telwyddus_plan(s, bay, s->bays[bay].plan, errp)
            || !qdev_realize(DEVICE(&s->bays[bay]), NULL, errp)) {
            return false;
        }
    }
    return true;
}

/* ---- after a state is loaded */

static bool telwyddus_put_saved(TelwyddusDrive *d)
{
    TelwyddusFDC *s = d->controller;
    telwyddus_tracks owed = d->owed;
    telwyddus_tray in = { 0 };
    bool is_done = true;

    telwyddus_drop(d);
    d->owed = owed;
    d->is_loaded = true;
    if (d->saved_size > 0) {
        is_done = telwyddus_tray_read(&in, d->saved, d->saved_size)
                      == TELWYDDUS_DONE
                  && telwyddus_controller_insert(&s->chip, d->bay, &in,
                                                 &s->lines) == TELWYDDUS_DONE;
        telwyddus_tray_free(&in);
    }
    return is_done;
}

int telwyddus_restore(TelwyddusFDC *s)
{
    uint32_t code;

    if (!telwyddus_put_saved(&s->bays[0]) || !telwyddus_put_saved(&s->bays[1])) {
        error_report("telwyddus-fdc: a disk of the state can't be put in");
        return -EINVAL;
    }
    code = telwyddus_controller_restore_bare(&s->chip, s->state, s->state_size,
                                             &s->lines);
    if (code != TELWYDDUS_DONE) {
        error_report("telwyddus-fdc: %s", telwyddus_code_name(code));
        return -EINVAL;
    }
    return 0;
}

static void telwyddus_compare_bay(TelwyddusDrive *d)
{
    telwyddus_controller *chip = &d->controller->chip;
    bool has_node = blk_bs(d->conf.blk) != NULL;
    telwyddus_shape shape;
    bool has_disk = telwyddus_controller_shape(chip, d->bay, &shape)
                    == TELWYDDUS_DONE;
    Error *error = NULL;

    if (has_disk == has_node && (!has_disk || telwyddus_is_same(d))) {
        d->is_loaded = false;
        if (has_node && !blk_supports_write_perm(d->conf.blk)) {
            telwyddus_must(telwyddus_controller_protect(chip, d->bay, 1));
        }
        return;
    }
    warn_report("bay %u: the disk isn't that of the loaded state", d->bay);
    telwyddus_eject(d);
    if (has_node && !telwyddus_insert(d, &error)) {
        warn_report_err(error);
    }
}

void telwyddus_compare(TelwyddusFDC *s)
{
    for (unsigned bay = 0; bay < BAYS; bay++) {
        if (s->bays[bay].is_loaded) {
            telwyddus_compare_bay(&s->bays[bay]);
        }
    }
}

/* ---- properties: `opaque` is the bay */

static char **telwyddus_name(TelwyddusDrive *d, const char *property)
{
    return g_str_has_prefix(property, "plan") ? &d->plan
         : g_str_has_prefix(property, "cells") ? &d->cells : &d->image;
}

static void telwyddus_get_name(Object *obj, Visitor *v, const char *property,
                               void *opaque, Error **errp)
{
    TelwyddusDrive *d = &TELWYDDUS_FDC(obj)->bays[(uintptr_t)opaque];
    char *name = *telwyddus_name(d, property);
    char *shown = name ? name : (char *)"";

    visit_type_str(v, property, &shown, errp);
}

static void telwyddus_set_name(Object *obj, Visitor *v, const char *property,
                               void *opaque, Error **errp)
{
    TelwyddusFDC *s = TELWYDDUS_FDC(obj);
    TelwyddusDrive *d = &s->bays[(uintptr_t)opaque];
    char **name = telwyddus_name(d, property);
    g_autofree char *given = NULL;

    if (!visit_type_str(v, property, &given, errp)) {
        return;
    }
    if (DEVICE(obj)->realized
        && ((name == &d->plan && !telwyddus_plan(s, d->bay, given, errp))
            || (name == &d->image
                && !telwyddus_change_image(d, given, errp)))) {
        return;
    }
    g_free(*name);
    *name = g_steal_pointer(&given);
}

static void telwyddus_get_protect(Object *obj, Visitor *v, const char *property,
                                  void *opaque, Error **errp)
{
    TelwyddusFDC *s = TELWYDDUS_FDC(obj);
    unsigned bay = (uintptr_t)opaque;
    telwyddus_shape shape;
    bool is_protected = s->bays[bay].is_protected;

    if (telwyddus_controller_shape(&s->chip, bay, &shape) == TELWYDDUS_DONE) {
        is_protected = shape.is_protected;
    }
    visit_type_bool(v, property, &is_protected, errp);
}

/* Moves the tab of what is in, and, if set, of what is put in later */
static void telwyddus_set_protect(Object *obj, Visitor *v, const char *property,
                                  void *opaque, Error **errp)
{
    TelwyddusFDC *s = TELWYDDUS_FDC(obj);
    unsigned bay = (uintptr_t)opaque;
    BlockBackend *blk = s->bays[bay].conf.blk;
    bool is_on;

    if (!visit_type_bool(v, property, &is_on, errp)) {
        return;
    }
    if (DEVICE(obj)->realized && !is_on && blk_bs(blk)
        && !blk_supports_write_perm(blk)) {
        error_setg(errp, "bay %u: the node of its disk is read-only", bay);
        return;
    }
    s->bays[bay].is_protected = is_on;
    if (DEVICE(obj)->realized) {
        telwyddus_settle(s);
        telwyddus_controller_protect(&s->chip, bay, is_on);
        telwyddus_go_on(s);
    }
}

static void telwyddus_get_speed(Object *obj, Visitor *v, const char *property,
                                void *opaque, Error **errp)
{
    visit_type_uint32(v, property, &TELWYDDUS_FDC(obj)->speed, errp);
}

static void telwyddus_set_speed(Object *obj, Visitor *v, const char *property,
                                void *opaque, Error **errp)
{
    TelwyddusFDC *s = TELWYDDUS_FDC(obj);

    if (!DEVICE(obj)->realized) {
        visit_type_uint32(v, property, &s->speed, errp);
    } else {
        telwyddus_settle(s);
        visit_type_uint32(v, property, &s->speed, errp);
        telwyddus_ask_step(s);
        telwyddus_go_on(s);
    }
}

static void telwyddus_get_timers(Object *obj, Visitor *v, const char *property,
                                 void *opaque, Error **errp)
{
    visit_type_uint64(v, property, &TELWYDDUS_FDC(obj)->timers, errp);
}

void telwyddus_add_properties(ObjectClass *klass)
{
    object_class_property_add(klass, "timers", "uint64", telwyddus_get_timers,
                              NULL, NULL, NULL);
    object_class_property_add(klass, "speed", "uint32", telwyddus_get_speed,
                              telwyddus_set_speed, NULL, NULL);
    for (uintptr_t bay = 0; bay < BAYS; bay++) {
        g_autofree char *image = g_strdup_printf("image%u", (unsigned)bay);
        g_autofree char *plan = g_strdup_printf("plan%u", (unsigned)bay);
        g_autofree char *cells = g_strdup_printf("cells%u", (unsigned)bay);
        g_autofree char *protect = g_strdup_printf("protect%u", (unsigned)bay);

        object_class_property_add(klass, image, "string", telwyddus_get_name,
                                  telwyddus_set_name, NULL, (void *)bay);
        object_class_property_add(klass, plan, "string", telwyddus_get_name,
                                  telwyddus_set_name, NULL, (void *)bay);
        object_class_property_add(klass, cells, "string", telwyddus_get_name,
                                  telwyddus_set_name, NULL, (void *)bay);
        object_class_property_add(klass, protect, "bool", telwyddus_get_protect,
                                  telwyddus_set_protect, NULL, (void *)bay);
    }
}
