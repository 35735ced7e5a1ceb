"""Commands of the machine in jobs: with each timing, with spurious interrupts and DMA latencies.

The disk has three cylinders at 250 kbit/s. Under each head there are two sectors of 512 bytes: 11 and 22 on cylinder 0,
33 and 44 on cylinder 1; cylinder 2 is blank. Counts of commands are added up by hand. So are the counts of late DMA
requests, one for each request that is delayed too long.
"""
from book import Made
from disks import Disk, layout, standard, window
from samples import *

FILLS = [(0, 0, 0x11), (0, 1, 0x22), (1, 0, 0x33), (1, 1, 0x44)]


def disk():
    disk = Disk(3, 2, 6250, 2)
    for c, h, fill in FILLS:
        disk.tracks[2 * c + h] = layout([(c, h, 1, 2), (c, h, 2, 2)], 16, fill, 6250)
    return disk


DISK = Made(disk().file(), "head 0 3 2 2 6250",
            *(f"lay 2 16 {fill} 6250 %02X%02X0102 %02X%02X0202" % (c, h, c, h) for c, h, fill in FILLS), "fill 25000 0")
JOB = ("insert 0 a.rt;ack 0;read 0 1 0 2 2 1000;writedel 0 1 1 1 2 1000;read 0 1 1 1 2 3000;dump 31FF 1;format 0 2 1;"
       "read 0 2 1 9 2 200;dump 3FF 1")
REPORT = "insert ok;ack ok;read ok;writedel ok;read ok deleted;031FF 33;format ok;read ok;003FF F6"


def scenes(book):
    for part in paces, strays, fields, overruns:
        part(book)


def paces(book):
    done = disk().write(1, b"\x33" * 512, True, 3)
    done.tracks[5] = layout(standard(2, 1, 9), 0x50, 0xF6, 6250)
    # An acknowledgement looks at both rates. A write and a format read back what they wrote.
    commands = 2 + 1 + 2 + 1 + 10 + 1
    for name, plan in (("gaps of 0 steps", "gap 0 1000"), ("gaps of 1 step", "gap 1 1000"), ("gaps of 3 steps", "gap 3 1000"),
                       ("gaps of 200 steps", "gap 200 1000"),
                       ("a stray each step", "gap 2 50;hold 1 300;" + ";".join(["stray 1 10000"] * 6)),
                       ("a stray each 7 steps", "gap 2 50;hold 1 300;" + ";".join(["stray 7 10000"] * 6)),
                       ("holds of 0 steps", "hold 0 3000"), ("holds of 8 steps", "hold 8 3000")):
        book.scene("heads move and sectors are read and written and formatted with " + name)
        book.file("a.rt", DISK)
        book.plan(plan)
        book.count("commands", "stalls", "faults0")
        book.play(JOB, REPORT, stored={"a.rt": done.file()}, counts=(commands, 0, 0))


SMALL_DISK = Made(Disk(1, 1, 800, 2, 0, [layout([(0, 0, 1, 2)], 16, 0x55, 800)]).file(), "head 0 1 1 2 800", "lay 2 16 85 800 00000102")


def strays(book):
    """A small disk of one track of 800 words with one sector: a command on it ends once in 800 steps. Spurious
    interrupts that come each 53 steps hit each step of a revolution within 53 revolutions."""
    for name, request, answer, count, commands in (("read", "read 0 0 0 1 2 1000", "read ok", 60, 60),
                                                   ("write", "write 0 0 0 1 2 2000", "write ok", 30, 2 * 30),
                                                   ("acknowledgement", "ack 0", "ack ok", 30, 2 * 30)):
        book.scene(f"strays in each step of a turn end no {name}")
        book.file("a.rt", SMALL_DISK)
        book.plan("stray 53 10000")
        book.count("commands", "stalls", "faults0")
        book.play("insert 0 a.rt;ack 0;fill 2000 512 55;" + ";".join([request] * count) + ";dump 2000 1",
                  "insert ok;ack ok;fill ok;" + ";".join([answer] * count) + ";02000 55", counts=(2 + commands, 0, 0))


def fields(book):
    book.scene("half of what is written lies behind what was read")
    book.file("a.rt", DISK)
    book.look(0x1233, 514)
    half = b"\x11" * 256 + bytes(256)
    book.count("commands")
    book.play("insert 0 a.rt;ack 0;read 0 0 0 2 2 1234;writedel 0 0 1 1 2 1334;read 0 0 1 2 2 2000;dump 21FF 2",
              "insert ok;ack ok;read ok;writedel ok;read ok;021FF 22 00",
              stored={"a.rt": disk().write(1, half, True, 1).file()}, counts=(2 + 1 + 2 + 1,),
              memory=bytes(1) + b"\x11" * 512 + bytes(1))
    book.scene("no such sector and another rate")
    book.file("a.rt", DISK)
    book.look(0x1000, 512)
    book.play("tries 1;insert 1 a.rt;ack 1;read 1 0 0 3 2 1000;rate 1 500;read 1 0 0 1 2 1000;rate 1 250;write 1 0 0 3 2 1000",
              "tries ok;insert ok;ack ok;read refused 04;rate ok;read refused 02;rate ok;write refused 04", 1, memory=bytes(512))
    book.scene("heads go to the last cylinder and back")
    book.file("a.rt", DISK)
    book.count("commands", "faults0")
    book.play("tries 1;insert 0 a.rt;ack 0;read 0 79 0 1 2 1000;read 0 1 1 2 2 1000;dump 11FF 1",
              "tries ok;insert ok;ack ok;read refused 02;read ok;011FF 44", 1, counts=(2 + 1 + 1, 0))
    book.scene("a blank track has no mark")
    book.file("a.rt", DISK)
    book.play("insert 0 a.rt;ack 0;read 0 2 0 1 2 1000", "insert ok;ack ok;read refused 02", 1)


def overruns(book):
    job, report = "insert 0 a.rt;ack 0;tries 1;", "insert ok;ack ok;tries ok;"
    book.scene("one request that is held nine steps is one overrun")
    book.file("a.rt", DISK)
    book.plan("hold 9 1")
    book.count("commands", "stalls", "faults0")
    book.play(job + "read 0 0 0 1 2 1000;read 0 0 0 1 2 1000;dump 11FF 1", report + "read refused 08;read ok;011FF 11", 1,
              counts=(4, 1, 0))
    # A read overruns at its first request. A write's first request fills the FIFO before the field comes, and the
    # second request is late. In a format, two sector IDs are left in the FIFO at each further request, and the sectors
    # between take hundreds of steps.
    book.scene("holds of nine steps overrun reads and writes and no format")
    book.file("a.rt", DISK)
    book.plan("hold 9 8")
    book.count("stalls", "faults0")
    formatted = disk()
    formatted.tracks[1] = layout(standard(0, 1, 9), 0x50, 0xF6, 6250)
    # What was in the FIFO is written after the window's zeros, marks and mark byte.
    formatted.tracks[0][190:190 + 16 + 16] = window(bytes(512))[:16 + 16]
    book.play(job + "read 0 0 0 1 2 1000;read 0 0 0 1 2 1000;write 0 0 0 1 2 1000;format 0 0 1",
              report + "read refused 08;read refused 08;write refused 08;format ok", 1, {"a.rt": formatted.file()}, counts=(8, 0))
