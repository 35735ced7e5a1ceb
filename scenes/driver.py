"""The driver in jobs: acknowledgements and rates, attempts, pulses that are lost, and what is refused at once.

The disks have three cylinders of 900 words a track. Under each head there are two sectors of 256 bytes: 11 and 22 on
cylinder 0, 33 and 44 on cylinder 1; cylinder 2 is blank. Counts of data commands are added up by hand. An
acknowledgement looks for a sector ID at 500 kbit/s and then at 250, three times if there is none. An attempt of a read
is one data command, of a write two. An attempt of a format is one, and one more for each sector.
"""
from book import Made
from disks import Disk, formatted, layout, standard, window
from samples import *

FILLS = [(0, 0, 0x11), (0, 1, 0x22), (1, 0, 0x33), (1, 1, 0x44)]


def disk(rate=500):
    disk = Disk(3, 2, 900, 0 if rate == 500 else 2)
    for c, h, fill in FILLS:
        disk.tracks[2 * c + h] = layout([(c, h, 1, 1), (c, h, 2, 1)], 16, fill, 900)
    return disk


def made(rate):
    return Made(disk(rate).file(), f"head 0 3 2 {0 if rate == 500 else 2} 900",
                *(f"lay 1 16 {fill} 900 %02X%02X0101 %02X%02X0201" % (c, h, c, h) for c, h, fill in FILLS), "fill 3600 0")


DISK, DISK_250 = made(500), made(250)
BLANK = Made(Disk(1, 1, 64, 2).file(), "head 0 1 1 2 64", "fill 128 0")


def job(book, name, requests, report, status=0, plan=None, files=None, stored=None, count=(), counts=None, **more):
    book.scene(name)
    for file, disk in (files or {"a.rt": DISK}).items():
        book.file(file, disk)
    if plan:
        book.plan(plan)
    if counts is not None:
        book.count(*count)
    book.play(requests, report, status, stored, counts=counts, **more)


def scenes(book):
    for part in acknowledgements, rates, attempts, pulses, edges, writes, formats:
        part(book)


def acknowledgements(book):
    job(book, "nothing is done before a medium is acknowledged",
        "insert 0 a.rt;read 0 0 0 1 1 0;write 0 0 0 1 1 0;format 0 0 0",
        "insert ok;read refused 06;write refused 06;format refused 06", 1, count=["commands"], counts=(0,))
    job(book, "an empty bay is not ready", "ack 1;read 1 0 0 1 1 0", "ack refused 80;read refused 06", 1,
        count=["commands"], counts=(0,))
    job(book, "another medium is acknowledged anew and read at its own rate",
        "insert 0 a.rt;ack 0;eject 0;insert 0 e.rt;read 0 0 0 1 1 0;ack 0;read 0 0 0 1 1 0;eject 0;read 0 0 0 1 1 0;ack 0",
        "insert ok;ack ok;eject ok;insert ok;read refused 06;ack ok;read ok;eject ok;read refused 06;ack refused 80", 1,
        files={"a.rt": DISK, "e.rt": DISK_250}, count=["commands"], counts=(1 + 2 + 1,))
    # Heads begin at track 0. So in a round that finds out whether there is a medium, the only pulse is the inward one
    # to cylinder 1.
    job(book, "a lost pulse in each of three rounds leaves the change line set", "insert 0 a.rt;ack 0;ack 0",
        "insert ok;ack refused 80;ack ok", 1, plan="lose 0 0 4", count=["commands", "faults0"], counts=(1, 4))
    job(book, "a lost pulse in each of two rounds is made up for", "insert 0 a.rt;ack 0", "insert ok;ack ok",
        plan="lose 0 0 2", count=["commands", "faults0"], counts=(1, 2))


def rates(book):
    job(book, "the rate is found at once or at the second or not at all",
        "insert 0 a.rt;ack 0;insert 1 e.rt;ack 1;read 1 0 0 1 1 0;eject 1;insert 1 b.rt;ack 1;read 1 0 0 1 1 0;ack 2",
        "insert ok;ack ok;insert ok;ack ok;read ok;eject ok;insert ok;ack ok;read refused 02;ack refused 01", 1,
        files={"a.rt": DISK, "e.rt": DISK_250, "b.rt": BLANK}, count=["commands"], counts=(1 + 2 + 1 + 6 + 3,))
    job(book, "the rate is set",
        "insert 0 a.rt;rate 2 250;rate 0 250;ack 0;rate 0 250;read 0 0 0 1 1 0;rate 0 500;read 0 0 0 1 1 0",
        "insert ok;rate refused 01;rate refused 06;ack ok;rate ok;read refused 02;rate ok;read ok", 1,
        count=["commands"], counts=(1 + 3 + 1,))


def attempts(book):
    book.scene("a read is done at the first attempt")
    book.file("a.rt", DISK)
    book.look(0x0FFF, 258)
    book.count("commands")
    book.play("insert 0 a.rt;ack 0;read 0 0 0 1 1 1000", "insert ok;ack ok;read ok", counts=(2,), memory=bytes(1) + b"\x11" * 256 + bytes(1))
    # Word 300 is in the content of record 1.
    job(book, "a read that is disturbed twice is done at the third attempt", "insert 0 a.rt;ack 0;read 0 1 0 1 1 0;dump 0 1",
        "insert ok;ack ok;read ok;00000 33", plan="drop 0 1 0 300 2", count=["commands", "faults0"], counts=(4, 2))
    job(book, "a read that is disturbed three times is refused and the next is done",
        "insert 0 a.rt;ack 0;read 0 1 0 1 1 0;read 0 1 0 1 1 0", "insert ok;ack ok;read refused 10;read ok", 1,
        plan="drop 0 1 0 300 3", count=["commands", "faults0"], counts=(1 + 3 + 1, 3))
    job(book, "no such sector and no mark are sought three times",
        "insert 0 a.rt;ack 0;read 0 0 0 3 1 0;read 0 2 0 1 1 0;dump 0 1", "insert ok;ack ok;read refused 04;read refused 02;00000 00", 1,
        count=["commands", "faults0"], counts=(1 + 3 + 3, 0))
    job(book, "as many attempts are made as are set",
        "insert 0 a.rt;ack 0;tries 1;read 0 0 0 1 1 0;tries 10;read 0 0 0 1 1 0",
        "insert ok;ack ok;tries ok;read refused 08;tries ok;read ok", 1, plan="hold 9 10",
        count=["commands", "stalls", "faults0"], counts=(1 + 1 + 10, 10, 0))


def pulses(book):
    # A recalibration gives 79 pulses, and an attempt makes two recalibrations. The last read reaches track 0 at its
    # second one.
    job(book, "without track 0 no data command is sent",
        "insert 0 a.rt;ack 0;tries 1;read 0 2 0 1 1 0;read 0 0 0 1 1 0;tries 3;read 0 0 0 1 1 0;read 0 0 0 1 1 0;dump 0 1",
        "insert ok;ack ok;tries ok;read refused 02;read refused 40;tries ok;read refused 40;read ok;00000 11", 1,
        plan="stick 0 2 %d" % (79 * (2 + 6 + 1)), count=["commands", "faults0"], counts=(1 + 1 + 1, 79 * 9))


def edges(book):
    job(book, "requests are refused by their edges",
        "insert 0 a.rt;ack 0;read 2 0 0 1 1 0;read 0 80 0 1 1 0;read 0 0 2 1 1 0;read 0 0 0 0 1 0;read 0 0 0 1 0 0;read 0 0 0 1 7 0;"
        "read 0 0 0 1 1 EFF01;read 0 0 0 1 1 EFF00;read 0 0 0 1 1 FF00;read 0 0 0 1 1 FF01;read 1 0 0 1 1 FF01;read 1 0 0 1 1 FF00",
        "insert ok;ack ok;" + "read refused 01;" * 7 + "read ok;read ok;read refused 09;read refused 09;read refused 06", 1,
        count=["commands"], counts=(1 + 2,))
    job(book, "a protected medium of 64 words is neither written nor formatted",
        "insert 0 p.rt;ack 0;write 0 0 0 1 1 0;format 0 0 0", "insert ok;ack ok;write refused 03;format refused 03", 1,
        files={"p.rt": BLANK.with_bytes(8, b"\1")}, count=["commands"], counts=(6,))
    job(book, "formats are refused by their edges",
        "insert 0 e.rt;format 0 0 0;ack 0;format 2 0 0;format 0 80 0;format 0 0 2",
        "insert ok;format refused 06;ack ok;format refused 01;format refused 01;format refused 01", 1,
        files={"e.rt": DISK_250}, count=["commands"], counts=(2,))


def put(track, window):
    """Puts the window of the first sector in place."""
    track[190:190 + len(window)] = window


def writes(book):
    done = disk()
    put(done.tracks[0], window(b"\x44" * 255 + b"\x5A", True))
    job(book, "a sector of 256 bytes is written and read back",
        "insert 0 a.rt;ack 0;read 0 1 1 2 1 2000;fill 20FF 1 5A;writedel 0 0 0 1 1 2000;read 0 0 0 1 1 3000;dump 3000 1;dump 30FF 1;"
        "read 0 0 0 2 1 3000;dump 30FF 1",
        "insert ok;ack ok;read ok;fill ok;writedel ok;read ok deleted;03000 44;030FF 5A;read ok;030FF 11",
        stored={"a.rt": done.file()}, count=["commands"], counts=(1 + 1 + 2 + 1 + 1,))
    zeros = disk()
    put(zeros.tracks[2], window(bytes(256)))
    job(book, "a write whose reading back is disturbed is done again", "insert 0 a.rt;ack 0;write 0 1 0 1 1 0", "insert ok;ack ok;write ok",
        plan="drop 0 1 0 300 1", stored={"a.rt": zeros.file()}, count=["commands", "faults0"], counts=(1 + 4, 1))
    job(book, "a write that is cut off is done again", "insert 0 a.rt;ack 0;write 0 1 0 1 1 0", "insert ok;ack ok;write ok",
        plan="cut 0 1 0 300 1", stored={"a.rt": zeros.file()}, count=["commands", "faults0"], counts=(1 + 4, 1))
    job(book, "a sector that is not there is not written in three attempts", "insert 0 a.rt;ack 0;write 0 1 0 3 1 0",
        "insert ok;ack ok;write refused 04", 1, count=["commands"], counts=(1 + 3,))


def formats(book):
    blank = Made(Disk(2, 2, 6250, 2).file(), "head 0 2 2 2 6250", "fill 50000 0")
    done = Disk(2, 2, 6250, 2)
    for place, c, h in (1, 0, 1), (2, 1, 0):
        done.tracks[place] = layout(standard(c, h, 9), 0x50, 0xF6, 6250)
    # The first sector of cylinder 1 is damaged when it is read back, so the track is formatted again. If the disk has
    # no such track, a format goes nowhere, and nothing is read back.
    job(book, "tracks are formatted and read back",
        "insert 0 e.rt;ack 0;rate 0 250;format 0 0 1;read 0 0 1 9 2 0;dump 1FF 1;format 0 1 0;format 0 2 0",
        "insert ok;ack ok;rate ok;format ok;read ok;001FF F6;format ok;format refused 02", 1,
        plan="drop 0 1 0 300 1", files={"e.rt": blank}, stored={"e.rt": done.file()},
        count=["commands", "faults0"], counts=(6 + 10 + 1 + (2 + 10) + 3 * 2, 1))
    # Nine sectors of 512 bytes don't fit on 900 words: their beginning is recorded.
    short = disk(250)
    short.tracks[0] = layout(standard(0, 0, 9), 0x50, 0xF6, 6250)[:900]
    job(book, "a layout that does not fit is tried three times", "insert 0 e.rt;ack 0;format 0 0 0", "insert ok;ack ok;format refused 02", 1,
        files={"e.rt": DISK_250}, stored={"e.rt": short.file()}, count=["commands"], counts=(2 + 3,))
