"""Jobs and arguments of the command line. Reports are worked out by hand from the rules of docs/FORMATS.md; disks come
from tools/disks.py."""
from book import Made, raw
from disks import formatted
from samples import *


def scenes(book):
    for part in texts, words, images, edges, counts, whole_runs:
        part(book)


def texts(book):
    for name, job, report, status in (
            ("a bad line stops a job before its first request", "dump 0 1;eject 0;spin 0", "job line 3 not understood", 3),
            ("ten tries and one", "tries 10;tries 1", "tries ok;tries ok", 0),
            ("an absent image stops a job where it stands", "dump 0 1;insert 0 none.rt;dump 0 1", "00000 00;none.rt absent", 5),
            ("bays and cylinders that are not there", "eject 2;eject 1;blank 0 n.rt 81",
             "eject refused 01;eject refused empty;blank refused 01", 1),
            ("memory is filled and dumped in lines of 16 bytes", "fill 101F0 16 C3;fill 10200 2 3C;dump 101F0 18",
             "fill ok;fill ok;101F0" + " C3" * 16 + ";10200 3C 3C", 0)):
        book.scene(name)
        book.play(job, report, status)
    book.scene("lines that are passed over")
    book.file("job", raw(b"dump EFFFF 1\n\r\n# a comment\n\n  dump  0 2 \r\n"))
    book.run("play job", "EFFFF 00;00000 00 00")


def words(book):
    for name, line in (("no words", ""), ("a name with a dash in front", "play -job"), ("a verb that is none", "run job"),
                       ("a word too many", "play job more"), ("a name with a dot in front", "play .job"),
                       ("a format without cylinders", "format a.rt"), ("a format of 81 cylinders", "format a.rt 81"),
                       ("a copy to nowhere", "copy a.rt")):
        book.scene("words: " + name)
        book.run(line, "words not understood", 2)


def images(book):
    book.scene("an empty file is no image")
    book.file("x.rt", Made(b""))
    book.play("dump 0 1;insert 0 x.rt;dump 0 1", "00000 00;image x.rt: too short, 14 needed, 0 there", 4)
    other_rate = A.with_bytes(11, b"\2")
    book.scene("an image of the second version is stored as it was")
    book.file("x.rt", other_rate)
    book.play("insert 0 x.rt", "insert ok")
    book.scene("an image of the first version is stored as the second at the end of a job")
    book.file("x.rt", A_FIRST)
    book.play("insert 0 x.rt", "insert ok", stored={"x.rt": A.data})


def edges(book):
    book.scene("reads beyond any disk are refused at once")
    book.file("a.rt", A)
    book.count("commands", "direct")
    book.play("read 0 80 0 1 2 0;read 0 0 2 1 2 0;read 0 0 0 0 2 0;read 0 0 0 1 7 0;read 0 0 0 1 0 0;read 2 0 0 1 2 0",
              ";".join(["read refused 01"] * 6), 1, counts=(0, 0))


def counts(book):
    """A data command is a READ ID of an acknowledgement, an attempt of a read, a write or a format, and each sector
    that is read back. An access past the driver is a medium that is put in or out, and each byte of a fill."""
    for name, job, report, status, counted, stored in (
            ("an empty job", "", "", 0, (0, 0, 0, 0, 0), None),
            ("a medium put in and out", "insert 0 a.rt;ack 1;eject 1;insert 2 a.rt",
             "insert ok;ack refused 80;eject refused empty;insert refused 01", 1, (0, 2, 0, 0, 0), None),
            ("a read", "insert 0 a.rt;ack 0;read 0 0 0 1 2 10000;dump 10000 2;eject 0",
             "insert ok;ack ok;read ok;10000 F6 F6;eject ok", 0, (2, 2, 0, 0, 0), None),
            ("a write and a format",
             "insert 0 a.rt;ack 0;fill 10000 512 A1;write 0 0 0 1 2 10000;read 0 0 0 1 2 20000;format 0 1 1;unit 1;eject 0",
             "insert ok;ack ok;fill ok;write ok;read ok;format ok;unit ok;eject ok", 0,
             (1 + 2 + 1 + 19, 1 + 512 + 1 + 1, 0, 0, 0), written(formatted(2), 1, 0xA1))):
        book.scene("counts of " + name)
        book.file("a.rt", A)
        book.count("commands", "direct", "stalls", "faults0", "faults1")
        book.play(job, report, status, {"a.rt": stored} if stored else None, counts=counted)


def whole_runs(book):
    """Longer jobs, with all that they store."""
    disk = formatted(1).write(5, bytes(512), True).file()
    book.scene("a job of writes and a format")
    book.file("a.rt", Made(formatted(1).file(), "disk 1 500"))
    book.play("insert 0 a.rt;ack 0;read 0 0 0 1 2 10000;dump 10000 2;fill 10000 512 A1;write 0 0 1 18 2 10000;"
              "writedel 0 0 0 5 2 10200;read 0 0 0 5 2 20000;read 0 0 1 18 2 30000;dump 30000 1;format 0 0 1;eject 0",
              "insert ok;ack ok;read ok;10000 F6 F6;fill ok;write ok;writedel ok;read ok deleted;read ok;30000 A1;format ok;eject ok",
              stored={"a.rt": disk})
    # An acknowledgement of 250 kbit/s is two data commands, a write reads back, and a format reads back nine sectors.
    # The other interrupts are those of the reset, of three movements for an acknowledgement, and of a seek for each
    # attempt. That seek comes after a recalibration if the attempt is of a format, or if there is only one try.
    disk = formatted(1, 250).write(5, bytes(512), True, step=654).file()
    book.scene("a job of each kind of request at 250 kbit per second")
    book.file("a.rt", Made(formatted(1, 250).file(), "disk 1 250"))
    book.count("commands", "taken", "direct", "stalls", "faults0", "faults1")
    book.play("insert 0 a.rt;read 0 0 0 9 2 10000;ack 0;fill 10000 512 A1;write 0 0 1 9 2 10000;writedel 0 0 0 5 2 10200;"
              "read 0 0 0 5 2 20000;read 0 0 1 9 2 30000;dump 30000 1;format 0 0 1;tries 1;read 0 0 0 10 2 10000;rate 0 500;"
              "read 0 0 0 9 2 10000;rate 0 250;unit 0;unit 1;read 1 0 0 9 2 10000;eject 0",
              "insert ok;read refused 06;ack ok;fill ok;write ok;writedel ok;read ok deleted;read ok;30000 A1;format ok;tries ok;"
              "read refused 04;rate ok;read refused 02;rate ok;unit refused busy;unit ok;read refused 06;eject ok", 1, {"a.rt": disk},
              counts=(2 + 2 * 2 + 2 + 10 + 2, 20 + 1 + 3 + 2 + 2 + 2 + 2 * 2, 1 + 512 + 1 + 1, 0, 0, 0))
    # With one try, a refused read is one data command. An acknowledgement of 250 kbit/s looks at 500 first.
    disk = formatted(1, 250).write(9, b"\0" + b"\xF6" * 511, step=654).file()
    book.scene("a job of refusals")
    book.file("e.rt", Made(formatted(1, 250).file(), "disk 1 250"))
    book.count("commands")
    book.play("tries 1;insert 0 e.rt;read 0 0 0 9 2 10000;ack 0;ack 1;read 0 0 0 19 2 10000;read 0 0 0 9 2 10001;"
              "read 0 0 0 9 2 1FF00;rate 0 500;read 0 0 0 9 2 10000;rate 0 250;write 0 0 0 9 2 10000;unit 0;unit 1;"
              "read 1 0 0 9 2 10000;eject 0;eject 0",
              "tries ok;insert ok;read refused 06;ack ok;ack refused 80;read refused 04;read ok;"
              "read refused 09;rate ok;read refused 02;rate ok;write ok;unit refused busy;unit ok;"
              "read refused 06;eject ok;eject refused empty", 1, {"e.rt": disk}, counts=(2 + 1 + 1 + 1 + 2,))
