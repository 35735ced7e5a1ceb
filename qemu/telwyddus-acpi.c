/*
 * A floppy controller whose work the library Telwyddus does: its node in the
 * ACPI tables, by which a guest finds it without probing ports.
 */

#include "qemu/osdep.h"
#include "hw/acpi/acpi_aml_interface.h"
#include "telwyddus-fdc.h"

enum {
    DRIVES = 4,                 /* that _FDE has room for */
    NO_TAPE = 2,
};

/* _FDI as of any drive of 1.44 MB; from the third number on as INT 13h has it */
static Aml *telwyddus_drive_node(unsigned bay)
{
    static const uint8_t numbers[] = {
        4,                      /* the type of drive, as in the CMOS */
        79, 18, 1,              /* the last cylinder, record and head */
        0xaf, 0x02, 0x25, 2, 18, 0x1b, 0xff, 0x6c, 0xf6, 0x0f, 0x08,
    };
    Aml *node = aml_device("FLP%c", 'A' + bay);
    Aml *list = aml_package(1 + sizeof(numbers));

    aml_append(list, aml_int(bay));
    for (unsigned i = 0; i < sizeof(numbers); i++) {
        aml_append(list, aml_int(numbers[i]));
    }
    aml_append(node, aml_name_decl("_ADR", aml_int(bay)));
    aml_append(node, aml_name_decl("_FDI", list));
    return node;
}

static Aml *telwyddus_resources(TelwyddusFDC *s)
{
    Aml *list = aml_resource_template();

    aml_append(list, aml_io(AML_DECODE16, s->iobase, s->iobase, 0, 6));
    aml_append(list, aml_io(AML_DECODE16, s->iobase + 7, s->iobase + 7, 0, 1));
    aml_append(list, aml_irq_no_flags(s->isairq));
    aml_append(list, aml_dma(AML_COMPATIBILITY, AML_NOTBUSMASTER,
                             AML_TRANSFER8, s->channel));
    return list;
}

static void telwyddus_build_acpi(AcpiDevAmlIf *device, Aml *scope)
{
    TelwyddusFDC *s = TELWYDDUS_FDC(device);
    uint32_t present[DRIVES + 1] = { [DRIVES] = cpu_to_le32(NO_TAPE) };
    /* The isa-fdc of the machine type pc is FDC0 already */
    Aml *node = aml_device("FDC%d", s->iobase == 0x3f0 ? 1 : 2);

    aml_append(node, aml_name_decl("_HID", aml_eisaid("PNP0700")));
    aml_append(node, aml_name_decl("_UID", aml_int(s->iobase)));
    aml_append(node, aml_name_decl("_CRS", telwyddus_resources(s)));
    for (unsigned bay = 0; bay < MIN(s->drives, BAYS); bay++) {
        present[bay] = cpu_to_le32(1);
        aml_append(node, telwyddus_drive_node(bay));
    }
    aml_append(node, aml_name_decl("_FDE", aml_buffer(sizeof(present),
                                                      (uint8_t *)present)));
    aml_append(scope, node);
}

void telwyddus_add_acpi(ObjectClass *klass)
{
    ACPI_DEV_AML_IF_CLASS(klass)->build_dev_aml = telwyddus_build_acpi;
}
