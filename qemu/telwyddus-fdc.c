/*
 * A floppy controller (82077AA) with two drives, whose work the library
 * Telwyddus does: the device, its ports and its saved states. Its time is in
 * telwyddus-time.c, its disks are in telwyddus-block.c and telwyddus-media.c,
 * planned faults in telwyddus-plan.c.
 */

#include "qemu/osdep.h"
#include "qapi/error.h"
#include "qemu/module.h"
#include "hw/acpi/acpi_aml_interface.h"
#include "hw/qdev-properties.h"
#include "migration/vmstate.h"
#include "sysemu/runstate.h"
#include "sysemu/sysemu.h"
#include "telwyddus-fdc.h"
#include "trace.h"

enum {
    CHANGED = 0x80,             /* of DIR: the disk was changed */
    READY = 0x80,               /* of MSR: a byte can pass */
    BUSY = 0x10,                /* of MSR: a command is under way */
};

/* A change line that a plan has stuck: the bit of the selected drive */
static uint8_t telwyddus_fdc_stick(TelwyddusFDC *s, uint8_t value)
{
    uint8_t bay;

    telwyddus_must(telwyddus_controller_selected(&s->chip, &bay));
    if (bay < BAYS && s->bays[bay].stuck_changes > 0) {
        s->bays[bay].stuck_changes--;
        value |= CHANGED;
    }
    return value;
}

/* A read of any port but 3F5 changes nothing */
static uint8_t telwyddus_fdc_status(TelwyddusFDC *s, uint32_t port)
{
    uint8_t value;

    if (s->at > telwyddus_now()) {
        value = port == PORT_MSR ? s->msr
              : port == PORT_DIR ? s->dir : telwyddus_look(s, port);
    } else {
        s->cpu = NULL;          /* the access before this one is over */
        telwyddus_settle(s);
        value = telwyddus_look(s, port);
        telwyddus_tell(s);
    }
    return port == PORT_DIR ? telwyddus_fdc_stick(s, value) : value;
}

static uint32_t telwyddus_fdc_read(void *opaque, uint32_t port)
{
    TelwyddusFDC *s = opaque;
    uint8_t value;

    port = 0x3f0 | (port & 7);
    if (port != PORT_DATA) {
        value = telwyddus_fdc_status(s, port);
    } else {
        telwyddus_begin_access(s);
        value = telwyddus_look(s, port);
        telwyddus_tell(s);
        telwyddus_go_on(s);
        telwyddus_end_access(s);
    }
    trace_telwyddus_fdc_read(port, value);
    return value;
}

static void telwyddus_fdc_write(void *opaque, uint32_t port, uint32_t value)
{
    TelwyddusFDC *s = opaque;

    port = 0x3f0 | (port & 7);
    trace_telwyddus_fdc_write(port, value);
    telwyddus_begin_access(s);
    if (port == PORT_DATA && (telwyddus_look(s, PORT_MSR) & (READY | BUSY))
                             == READY) {
        telwyddus_plan_command(s, value);
    }
    telwyddus_must(telwyddus_controller_write(&s->chip, port, value,
                                              &s->lines));
    telwyddus_ask_step(s);      /* 3F4 and 3F7 choose the rate */
    telwyddus_tell(s);
    telwyddus_go_on(s);
    telwyddus_end_access(s);
}

/*
 * The reset pin. A change of INT that was made ahead isn't passed on any
 * more
 */
static void telwyddus_fdc_reset(DeviceState *dev)
{
    TelwyddusFDC *s = TELWYDDUS_FDC(dev);

    telwyddus_must(telwyddus_controller_reset(&s->chip, &s->lines));
    telwyddus_ask_step(s);
    s->at = telwyddus_now();
    telwyddus_tell(s);
    telwyddus_go_on(s);
}

/* Before the machine runs the nodes may not be active yet */
static void telwyddus_fdc_run_changed(void *opaque, bool is_running,
                                      RunState state)
{
    TelwyddusFDC *s = opaque;

    if (is_running) {
        telwyddus_compare(s);
        s->is_owing = false;
        telwyddus_write_back(s);
    } else {
        telwyddus_write_all(s);
    }
}

static const MemoryRegionPortio telwyddus_fdc_ports[] = {
    { 0, 6, 1, .read = telwyddus_fdc_read, .write = telwyddus_fdc_write },
    { 7, 1, 1, .read = telwyddus_fdc_read, .write = telwyddus_fdc_write },
    PORTIO_END_OF_LIST(),
};

/* The controller with its drives, their plans and media */
static bool telwyddus_fdc_fill(TelwyddusFDC *s, Error **errp)
{
    uint32_t code = telwyddus_controller_new(&s->chip);

    if (code != TELWYDDUS_DONE) {
        error_setg(errp, "telwyddus-fdc: %s", telwyddus_code_name(code));
        return false;
    }
    telwyddus_ask_step(s);
    return telwyddus_realize_drives(s, errp);
}

static void telwyddus_fdc_realize(DeviceState *dev, Error **errp)
{
    TelwyddusFDC *s = TELWYDDUS_FDC(dev);
    ISADevice *isa = ISA_DEVICE(dev);

    s->irq = isa_get_irq(isa, s->isairq);
    s->dma = isa_get_dma(isa_bus_from_device(isa), s->channel);
    if (!s->dma || s->drives > BAYS) {
        error_setg(errp, s->dma ? "drives is 0, 1 or 2"
                                : "ISA controller does not support DMA");
        return;
    }
    s->timer = timer_new_ns(QEMU_CLOCK_VIRTUAL, telwyddus_tick, s);
    s->stray = timer_new_ns(QEMU_CLOCK_VIRTUAL, telwyddus_stray, s);
    s->at = telwyddus_now();
    if (!telwyddus_fdc_fill(s, errp)) {
        timer_free(s->timer);
        timer_free(s->stray);
        telwyddus_controller_free(&s->chip);
        return;
    }
    ISADMA_GET_CLASS(s->dma)->register_channel(s->dma, s->channel,
                                               telwyddus_transfer, s);
    isa_register_portio_list(isa, &s->ports, s->iobase, telwyddus_fdc_ports, s,
                             TYPE_TELWYDDUS_FDC);
    qemu_add_vm_change_state_handler(telwyddus_fdc_run_changed, s);
}

static int telwyddus_fdc_drop_state(void *opaque)
{
    TelwyddusFDC *s = opaque;

    g_free(s->state);
    s->state = NULL;
    s->state_size = 0;
    for (unsigned bay = 0; bay < BAYS; bay++) {
        g_free(s->bays[bay].saved);
        s->bays[bay].saved = NULL;
        s->bays[bay].saved_size = 0;
    }
    return 0;
}

/*
 * No step is made here, because memory and the channel may be saved already.
 * The state has the cells of the media too: a flat node has only sectors, and
 * the machine may stop in the middle of one. What was written is in the nodes
 * since the machine stopped.
 */
static int telwyddus_fdc_pre_save(void *opaque)
{
    TelwyddusFDC *s = opaque;
    size_t length;

    telwyddus_fdc_drop_state(s);
    if (telwyddus_controller_save_bare(&s->chip, NULL, 0, &length)
        != TELWYDDUS_TOO_SHORT) {
        return -ENOMEM;
    }
    s->state_size = length;
    s->state = g_malloc(length);
    for (unsigned bay = 0; bay < BAYS; bay++) {
        s->bays[bay].saved = telwyddus_image(&s->bays[bay], &length);
        s->bays[bay].saved_size = s->bays[bay].saved ? length : 0;
    }
    return telwyddus_controller_save_bare(&s->chip, s->state, s->state_size,
                                          &length)
           == TELWYDDUS_DONE ? 0 : -ENOMEM;
}

static int telwyddus_fdc_pre_load(void *opaque)
{
    TelwyddusFDC *s = opaque;

    telwyddus_fdc_drop_state(s);
    g_free(s->pauses);
    s->pauses = NULL;
    for (unsigned bay = 0; bay < BAYS; bay++) {
        g_free(s->bays[bay].later);
        s->bays[bay].later = NULL;
    }
    return 0;
}

static int telwyddus_fdc_post_load(void *opaque, int version_id)
{
    TelwyddusFDC *s = opaque;
    int status = telwyddus_restore(s);

    telwyddus_fdc_drop_state(s);
    telwyddus_ask_step(s);
    s->is_held = false;         /* i8257 forgets it too: the timer asks again */
    s->is_owing = false;
    s->cpu = NULL;
    return status;
}

static const VMStateDescription telwyddus_pause_vmstate = {
    .name = TYPE_TELWYDDUS_FDC "/pause",
    .version_id = 1,
    .minimum_version_id = 1,
    .fields = (VMStateField[]) {
        VMSTATE_UINT32(is_stray, TelwyddusPause),
        VMSTATE_UINT32(steps, TelwyddusPause),
        VMSTATE_UINT32(times, TelwyddusPause),
        VMSTATE_END_OF_LIST()
    }
};

static const VMStateDescription telwyddus_drive_vmstate = {
    .name = TYPE_TELWYDDUS_DRIVE,
    .version_id = 1,
    .minimum_version_id = 1,
    .fields = (VMStateField[]) {
        VMSTATE_UINT8_ARRAY(owed.bytes, TelwyddusDrive,
                            sizeof(telwyddus_tracks)),
        VMSTATE_UINT32(stuck_changes, TelwyddusDrive),
        VMSTATE_UINT32(commands, TelwyddusDrive),
        VMSTATE_UINT32(later_size, TelwyddusDrive),
        VMSTATE_VBUFFER_ALLOC_UINT32(later, TelwyddusDrive, 1, NULL,
                                     later_size),
        VMSTATE_UINT32(saved_size, TelwyddusDrive),
        VMSTATE_VBUFFER_ALLOC_UINT32(saved, TelwyddusDrive, 1, NULL,
                                     saved_size),
        VMSTATE_END_OF_LIST()
    }
};

/* Version 1 had the media within `state` */
static const VMStateDescription telwyddus_fdc_vmstate = {
    .name = TYPE_TELWYDDUS_FDC,
    .version_id = 2,
    .minimum_version_id = 2,
    .pre_save = telwyddus_fdc_pre_save,
    .post_save = telwyddus_fdc_drop_state,
    .pre_load = telwyddus_fdc_pre_load,
    .post_load = telwyddus_fdc_post_load,
    .fields = (VMStateField[]) {
        VMSTATE_BOOL(is_up, TelwyddusFDC),
        VMSTATE_INT64(at, TelwyddusFDC),
        VMSTATE_UINT8(msr, TelwyddusFDC),
        VMSTATE_UINT8(dir, TelwyddusFDC),
        VMSTATE_TIMER_PTR(timer, TelwyddusFDC),
        VMSTATE_TIMER_PTR(stray, TelwyddusFDC),
        VMSTATE_INT32(pause_count, TelwyddusFDC),
        VMSTATE_STRUCT_VARRAY_ALLOC(pauses, TelwyddusFDC, pause_count, 1,
                                    telwyddus_pause_vmstate, TelwyddusPause),
        VMSTATE_STRUCT_ARRAY(bays, TelwyddusFDC, BAYS, 1,
                             telwyddus_drive_vmstate, TelwyddusDrive),
        VMSTATE_UINT32(state_size, TelwyddusFDC),
        VMSTATE_VBUFFER_ALLOC_UINT32(state, TelwyddusFDC, 1, NULL, state_size),
        VMSTATE_END_OF_LIST()
    }
};

static Property telwyddus_fdc_properties[] = {
    DEFINE_PROP_UINT32("iobase", TelwyddusFDC, iobase, 0x3f0),
    DEFINE_PROP_UINT32("irq", TelwyddusFDC, isairq, 6),
    DEFINE_PROP_UINT32("dma", TelwyddusFDC, channel, 2),
    DEFINE_PROP_UINT32("drives", TelwyddusFDC, drives, BAYS),
    DEFINE_PROP_END_OF_LIST(),
};

static void telwyddus_fdc_class_init(ObjectClass *klass, void *data)
{
    DeviceClass *dc = DEVICE_CLASS(klass);

    dc->desc = "82077AA floppy controller, down to the cells of tracks";
    dc->realize = telwyddus_fdc_realize;
    dc->reset = telwyddus_fdc_reset;
    dc->vmsd = &telwyddus_fdc_vmstate;
    dc->hotpluggable = false;
    dc->fw_name = "fdc";
    device_class_set_props(dc, telwyddus_fdc_properties);
    telwyddus_add_properties(klass);
    telwyddus_add_acpi(klass);
    set_bit(DEVICE_CATEGORY_STORAGE, dc->categories);
}

static void telwyddus_fdc_init(Object *obj)
{
    TelwyddusFDC *s = TELWYDDUS_FDC(obj);

    s->speed = 1;
    telwyddus_init_drives(s);
    device_add_bootindex_property(obj, &s->boot_index[0], "bootindexA",
                                  "/floppy@0", DEVICE(obj));
    device_add_bootindex_property(obj, &s->boot_index[1], "bootindexB",
                                  "/floppy@1", DEVICE(obj));
}

static const TypeInfo telwyddus_fdc_info = {
    .name = TYPE_TELWYDDUS_FDC,
    .parent = TYPE_ISA_DEVICE,
    .instance_size = sizeof(TelwyddusFDC),
    .instance_init = telwyddus_fdc_init,
    .class_init = telwyddus_fdc_class_init,
    .interfaces = (InterfaceInfo[]) {
        { TYPE_ACPI_DEV_AML_IF },
        { },
    },
};

static void telwyddus_fdc_register(void)
{
    type_register_static(&telwyddus_fdc_info);
}

type_init(telwyddus_fdc_register)
