"""Texts of port accesses on the bare machine.

What the ports give is worked out by hand from the registers and result bytes of docs/FORMATS.md, and from the data
sheets of the 82077AA, the 8237A and the PC/AT's board. Steps are added up from the waits. What memory holds comes from
the disks of tools/disks.py.
"""
from accesses import *
from book import Made
from disks import Disk, formatted, layout
from samples import *

ONE_CYLINDER = Made(formatted(1).file(), "disk 1 500")
ONE_CYLINDER_FIRST = ONE_CYLINDER.with_bytes(7, b"1")


def two_sectors():
    """Two cylinders of 1,200 words a track; the first track has two sectors of bytes A7."""
    disk = Disk(2, 2, 1200)
    disk.tracks[0] = layout([(0, 0, 1, 2), (0, 0, 2, 2)], 16, 0xA7, 1500)[:1200]
    return Made(disk.file(), "head 0 2 2 0 1200", "lay 2 16 167 1500 00000102 00000202", "cut 2414", "fill 7200 0")


TWO = two_sectors()
# Motor 0 on, out of reset, at speed; SPECIFY AF 02, CONFIGURE 00 07 00, 500 kbit/s. The disk is then at word 10.
START = "insert 0 a.rt;out 3F2 1C;wait 6260;irq;" + POLLED + send(3, 0xAF, 2, 0x13, 0, 7, 0) + "out 3F7 00;"
STARTED = "insert ok;irq 1;" + WAS_POLLED
READ_ID = send(0x4A, 0)


def scenes(book):
    for part in boots, answers_of_an_empty_machine, texts, reads, searches:
        part(book)


def boots(book):
    book.scene("a sector is read as a boot program does")
    book.file("a.rt", ONE_CYLINDER_FIRST)
    book.look(0x7BFF, 514)
    book.count("commands")
    book.ports("insert 0 a.rt;out 3F2 0C;wait 1;irq;" + POLLED + "out 3F7 00;" + send(3, 0xAF, 2) + channel(512, 0x7C00)
               + "out 3F2 1C;wait 6250;" + send(7, 0) + "wait 80;irq;out 3F5 08;in 3F5;in 3F5;wait 1;" + send(15, 0, 0)
               + "wait 1;irq;out 3F5 08;in 3F5;in 3F5;" + send(0x46, 0, 0, 0, 1, 2, 1, 0x1B, 0xFF) + "wait 25000;irq;" + RESULTS
               + "in 008;in 004;in 004",
               "insert ok;irq 1;" + WAS_POLLED + "irq 1;in 3F5 20;in 3F5 00;irq 1;in 3F5 20;in 3F5 00;irq 1;"
               + answers(0, 0, 0, 1, 0, 1, 2) + "in 008 04;in 004 00;in 004 7E",
               stored={"a.rt": ONE_CYLINDER.data}, counts=(1,), memory=bytes(1) + b"\xF6" * 512 + bytes(1))


def answers_of_an_empty_machine(book):
    book.scene("ports of an empty machine")
    book.ports("# In reset.;irq;in 3f4;in 0123;in abcd;out 1234 00;;# Out of it.;out 3F2 0C;wait 1;irq;irq;wait 1;irq;in 3F4;"
               "out 3F5 08;in 3F4;in 3F5;in 3F5;in 3F4;out 3F5 1F;in 3F4;in 3F5;in 3F4;eject 0;eject 2",
               "irq 0;in 3F4 00;in 123 FF;in ABCD FF;irq 1;irq 0;irq 0;in 3F4 80;in 3F4 D0;in 3F5 C0;in 3F5 00;in 3F4 80;"
               "in 3F4 D0;in 3F5 80;in 3F4 80;eject refused empty;eject refused 01", 1)
    # The poll comes in the first step after the access that ends the reset: either in the gap after it, or not in it.
    for name, plan, told in (("of one step", "gap 1 1", "irq 1;irq 0;irq 0"), ("of no step", "gap 0 1", "irq 0;irq 1;irq 0")):
        book.scene("a gap " + name + " runs after the access")
        book.plan(plan)
        book.ports("out 3F2 0C;irq;wait 1;irq;irq", told)
    book.scene("the change line is set until a pulse")
    book.file("a.rt", ONE_CYLINDER_FIRST)
    book.ports("out 3F2 1C;wait 1;" + POLLED + "insert 0 a.rt;insert 0 a.rt;in 3F7;out 3F5 04;out 3F5 00;in 3F5;" + send(15, 0, 1)
               + "wait 80;out 3F5 08;in 3F5;in 3F5;in 3F7;out 3F5 04;out 3F5 00;in 3F5;eject 0;in 3F7;eject 0",
               WAS_POLLED + "insert ok;insert refused busy;in 3F7 80;in 3F5 38;in 3F5 20;in 3F5 01;in 3F7 00;in 3F5 28;"
               "eject ok;in 3F7 80;eject refused empty", 1, {"a.rt": ONE_CYLINDER.data})
    book.scene("results after a reset and after codes that are none")
    book.count("steps", "commands", "taken", "direct")
    book.ports("in 3F4;out 3F2 0C;wait 1;irq;irq;in 3F4;out 3F5 08;in 3F4;in 3F5;in 3F5;out 3F5 08;in 3F5;in 3F5;out 3F5 10;"
               "in 3F5;out 3F5 FF;in 3F5",
               "in 3F4 00;irq 1;irq 0;in 3F4 80;in 3F4 D0;in 3F5 C0;in 3F5 00;in 3F5 C1;in 3F5 00;in 3F5 90;in 3F5 80",
               counts=(1, 0, 1, 0))


def texts(book):
    for name, accesses, line in (("a read with a value", "irq;# Nothing.;;in 3F5 00", 4), ("a write of one digit", "out 3F5 8", 1),
                                 ("a wait of 65536 steps", "wait 65535;wait 65536", 2), ("a request among accesses", "in 3F5;ack 0", 2)):
        book.scene(name + " and nothing is done")
        book.count("steps", "taken", "direct")
        book.ports(accesses, f"job line {line} not understood", 3, counts=(0, 0, 0))
    book.scene("a text of accesses that is not there")
    book.run("ports none", "none absent", 5)
    book.scene("an absent image stops accesses and the other medium is not stored")
    book.file("a.rt", ONE_CYLINDER_FIRST)
    book.ports("insert 1 a.rt;insert 0 none;irq", "insert ok;none absent", 5)


def reads(book):
    whole, none = bytes(1) + b"\xA7" * 512 + bytes(1), bytes(514)
    for name, plan, memory, end in (
            ("without gaps", "gap 0 1000;hold 0 100", whole, (0, 0, 0, 0, 0, 2, 2)),
            ("with gaps of 1 step", "gap 1 1000;hold 0 100", whole, (0, 0, 0, 0, 0, 2, 2)),
            ("with gaps of 3 and holds of 8 steps", "gap 3 1000;hold 8 100", whole, (0, 0, 0, 0, 0, 2, 2)),
            ("with gaps of 200 steps", "gap 200 1000;hold 0 100", whole, (0, 0, 0, 0, 0, 2, 2)),
            ("with a stray each 100 steps", "gap 0 1000;hold 0 100;stray 100 10000", whole, (0, 0, 0, 0, 0, 2, 2)),
            ("with a stray each step", "gap 3 1000;hold 8 100;stray 1 10000", whole, (0, 0, 0, 0, 0, 2, 2)),
            ("with holds of 9 steps", "gap 0 1000;hold 9 100", none, (0x40, 0x10, 0, 0, 0, 1, 2)),
            ("with holds of 255 steps and strays", "gap 3 1000;hold 255 100;stray 100 10000", none, (0x40, 0x10, 0, 0, 0, 1, 2))):
        book.scene("a field is read at the ports " + name)
        book.file("a.rt", TWO)
        book.plan(plan)
        book.look(0x21233, 514)
        book.count("commands", "direct")
        book.ports(START + channel(512, 0x21234) + data(0x46, 1) + "wait 3000;in 3F4;" + RESULTS + "in 008",
                   STARTED + "in 3F4 D0;" + answers(*end) + ("in 008 04" if memory == whole else "in 008 00"),
                   counts=(1, 1 + 1), memory=memory)
    book.scene("two bytes go round the end of a page")
    book.file("a.rt", TWO)
    book.look(0x10000, 0x10001)
    book.count("stalls")
    # The count passes 0 and the address is 0001. Then the channel is masked, and the next read overruns.
    book.ports(START + channel(2, 0x1FFFF) + data(0x46, 1) + "wait 3000;irq;" + RESULTS + "in 008;in 008;in 004;in 004;in 005;in 005;"
               + data(0x46, 1) + "wait 3000;irq;" + lines(RESULTS),
               STARTED + "irq 1;" + answers(0, 0, 0, 0, 0, 2, 2) + "in 008 04;in 008 00;in 004 01;in 004 00;in 005 FF;in 005 FF;"
               "irq 1;" + lines(answers(0x40, 0x10, 0, 0, 0, 1, 2)),
               counts=(0,), memory=b"\xA7" + bytes(0xFFFE) + b"\xA7" + bytes(1))


def searches(book):
    book.scene("an id is sought on an empty drive and the search is counted")
    book.count("steps", "commands", "taken")
    book.ports("out 3F2 1C;wait 1;" + READ_ID + "wait 65535;in 3F4;wait 1;in 3F4;in 3F5;in 3F5;in 00A",
               "in 3F4 10;in 3F4 D0;in 3F5 40;in 3F5 01;in 00A FF", counts=(65537, 1, 0))
    # Motor 0 stays on and drive 2 isn't there. The disk turns on to word 410; the second address field ends with word
    # 757.
    book.scene("a search waits while no drive is selected")
    book.file("a.rt", TWO)
    book.count("steps", "commands", "direct")
    book.ports(START + "out 3F2 1E;" + READ_ID + "wait 10000;in 3F4;irq;out 3F2 1C;wait 347;irq;wait 1;irq;" + lines(RESULTS),
               STARTED + "in 3F4 10;irq 0;irq 0;irq 1;" + lines(answers(0, 0, 0, 0, 0, 2, 2)), counts=(6260 + 10348, 1, 1 + 1))
    # A spurious interrupt comes at step 6300. The first address field ends with word 167, and word 50 passed first.
    book.scene("an id is read after a spurious interrupt")
    book.file("a.rt", TWO)
    book.plan("stray 6300 1")
    book.count("steps", "commands", "taken", "direct")
    book.ports(START + "wait 39;irq;wait 1;irq;" + READ_ID + "in 3F4;wait 117;irq;wait 1;irq;" + lines(RESULTS),
               STARTED + "irq 0;irq 1;in 3F4 10;irq 0;irq 1;" + lines(answers(0, 0, 0, 0, 0, 1, 2)),
               counts=(6300 + 118, 1, 3, 1 + 1))
