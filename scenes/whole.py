"""Commands on whole disks and on files: formats, copies, ImageDisk files, calls of the BIOS, rescues.

Reports are worked out by hand from the rules of docs/FORMATS.md; disks come from tools/disks.py.
"""
from book import Made, raw, text
from disks import Disk, formatted, layout, standard
from samples import *


def scenes(book):
    for part in disks, archives, calls, rescues:
        part(book)


def disks(book):
    book.scene("one cylinder of either rate is formatted")
    book.count("commands")
    # A format is one data command, and one more for each sector that is read back. An acknowledgement finds no mark at
    # either rate in three tries.
    book.run("format a.rt 1", "format ok 2", stored={"a.rt": formatted(1).file()}, counts=(6 + 2 * 19,))
    book.run("formatdd e.rt 1", "format ok 2", stored={"e.rt": formatted(1, 250).file()}, counts=(6 + 2 * 10,))
    # A copy looks for a sector ID at both rates on the one disk. It does so three times on the other disk, which is
    # blank. Then each sector is read, written and read back.
    book.run("copy e.rt b.rt", "copy ok 18", stored={"b.rt": formatted(1, 250).file()}, counts=(2 + 6 + 2 * 10 + 18 * 3,))
    book.run("verify b.rt", "verify 18 of 18", counts=(2 + 18,))
    made = formatted(2).write(5, b"\x11" * 512, True, track=3).write(18, b"\x11" * 512, track=1).file()
    book.scene("a copy keeps contents and deleted marks")
    book.file("a.rt", A)
    book.play("insert 0 a.rt;ack 0;fill 10000 512 11;writedel 0 1 1 5 2 10000;write 0 0 1 18 2 10000",
              "insert ok;ack ok;fill ok;writedel ok;write ok", stored={"a.rt": made})
    book.run("copy a.rt b.rt", "copy ok 72", stored={"b.rt": made})
    book.play("insert 0 b.rt;ack 0;read 0 1 1 5 2 10000;dump 10000 1", "insert ok;ack ok;read ok deleted;10000 11")
    book.scene("a disk of one track is copied to one of two heads")
    book.file("one.rt", ONE)
    book.run("verify one.rt", "verify 18 of 18")
    book.run("copy one.rt two.rt", "copy ok 18", stored={"two.rt": Disk(1, 2, 12500, 0, 0, [formatted(1).tracks[0], [0] * 12500]).file()})
    book.scene("a copy of a disk that is not there")
    book.run("copy none.rt c.rt", "none.rt absent", 5)


def archives(book):
    book.scene("a disk that was laid out anew is laid out the same again")
    book.file("y.rt", A_TWICE_DAMAGED)
    anew = formatted(2)
    anew.tracks[0] = layout([key for key in standard(0, 0) if key[2] != 2])
    book.run("remaster y.rt z.rt", "remaster ok 71", stored={"z.rt": anew.file()})
    book.run("remaster z.rt z.rt", "remaster ok 71")
    book.scene("an ImageDisk file that is not there")
    book.run("fromimd none.imd g.rt", "none.imd absent", 5)
    book.scene("a survey of a disk that is not there")
    book.run("survey none.rt", "none.rt absent", 5)


def serves(book, name, lines, report, status=0, stored=None):
    book.scene(name)
    book.file("a.rt", A)
    book.file("calls", text(lines))
    book.run("int13 calls", report, status, stored)


def calls(book):
    serves(book, "a call reads a whole track and one goes past its last record",
           "insert 0 a.rt;call 0212 0000 0001 0000 1000;call 0212 0000 0001 0000 1000;dump 123F0 16;"
           "call 0212 0000 0002 0000 1000;call 0100 0000 0000 0000 0000",
           "insert ok;call 0600 0000 0001 0000 1;call 0012 0000 0001 0000 0;123F0" + " F6" * 16 + ";"
           "call 0411 0000 0002 0000 1;call 0400 0000 0000 0000 1", 1)
    serves(book, "calls that write are stored and calls that verify leave memory",
           "insert 0 a.rt;call 1600 0000 0000 0000 0000;call 0301 0000 0002 0100 1000;fill 10000 512 5A;fill 00000 4 AB;"
           "call 0301 0000 0002 0100 1000;call 0402 0000 0002 0100 FFFF;dump 00000 4;call 1600 0000 0000 0000 0000;"
           "call 1500 0000 0000 0001 0000",
           "insert ok;call 0600 0000 0000 0000 1;call 0600 0000 0002 0100 1;fill ok;fill ok;"
           "call 0001 0000 0002 0100 0;call 0002 0000 0002 0100 0;00000 AB AB AB AB;call 0000 0000 0000 0000 0;"
           "call 0200 0000 0000 0001 0", 1, {"a.rt": written(formatted(2), 2, 0x5A, track=1)})
    book.play("insert 0 a.rt;ack 0;read 0 0 1 2 2 10000;dump 10000 2", "insert ok;ack ok;read ok;10000 5A 5A")
    book.scene("calls read a protected disk and neither write it nor anything else in its file")
    book.file("a.rt", A_PROTECTED)
    book.file("calls", text("insert 0 a.rt;call 0201 0000 0001 0000 1000;call 0201 0000 0001 0000 1000;call 0302 0000 0001 0000 1000;"
                            "call 0100 0000 0000 0000 0000;eject 0"))
    book.run("int13 calls", "insert ok;call 0600 0000 0001 0000 1;call 0001 0000 0001 0000 0;call 0300 0000 0001 0000 1;"
             "call 0300 0000 0000 0000 1;eject ok", 1)
    serves(book, "a call with too few registers", "insert 0 a.rt;call 0201 0000 0001 0000", "job line 2 not understood", 3)
    serves(book, "a request among calls", "read 0 0 0 1 2 10000", "job line 1 not understood", 3)
    serves(book, "an image among calls that is not there", "insert 0 none.rt", "none.rt absent", 5)


def rescues(book):
    both = A_DAMAGED.with_words(1000, 0)
    book.scene("three damaged copies make one whole disk")
    book.file("both.rt", both)
    book.file("second.rt", A.with_words(1000, 0))
    book.file("first.rt", A_DAMAGED)
    book.run("rescue both.rt y.rt log", "rescue 70 of 72", 1, {"y.rt": A.data, "log": b"0 0 1 10\n0 0 2 10\n"})
    book.run("rescue second.rt y.rt log", "rescue 1 of 2", 1, {"log": b"0 0 2 10\n"})
    book.run("rescue first.rt y.rt log", "rescue 1 of 1", stored={"log": b""})
    book.run("rescue first.rt y.rt log", "rescue 0 of 0")
    book.scene("a log that is too long")
    book.file("a.rt", A)
    book.file("log", Made(b"0" * 65537, "fill 65537 48"))
    book.run("rescue a.rt y.rt log", "log line 0 not understood", 3)
    book.scene("a rescue at 250 kbit per second")
    book.file("e.rt", E)
    book.run("rescue e.rt y.rt log", "rescue 36 of 36", stored={"y.rt": E.data, "log": b""})
