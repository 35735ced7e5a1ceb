"""Worked examples: runs of the program with their whole reports and all that they store.

Reports and their reasons are worked out by hand from the rules of docs/FORMATS.md. Stored disks come from
tools/disks.py. The workload's count and sum come from its random draws, which are computed here.
"""
from book import Made, raw, text
from disks import Disk, crc, formatted, layout, standard, window
from samples import *

READ = "insert 0 a.rt;ack 0;read 0 0 0 1 2 10000"
WAS_READ = "insert ok;ack ok;read ok"
BYTES = ";10000" + " F6" * 16
NOT_READ = "insert ok;ack ok;read refused "
SURVEY = ";".join(f"{c} {h} {16 * (158 + 682 * (r - 1))} {c} {h} {r} 2 ok"
                  for c in range(2) for h in range(2) for r in range(1, 19))


def scenes(book):
    for part in reading, writing, memory, media, faulty, torn, plans, disks, texts, images, rates, ports, flat_files, workload, archives:
        part(book)


def reading(book):
    for name, disk in (("a sector is read into memory", A),
                       ("a sector is found whose cells stand five places on", A_MOVED),
                       ("a mark more before an address field does no harm", A_FOUR_MARKS)):
        book.scene(name)
        book.file("a.rt", disk)
        book.play(READ + ";dump 10000 16", WAS_READ + BYTES)
    book.scene("an address field with a bad check is not found")
    book.file("a.rt", A_BAD_CHECK)
    book.play(READ, NOT_READ + "04", 1)
    book.scene("two sectors of one key that are both damaged")
    book.file("a.rt", A_TWICE_BOTH_DAMAGED)
    book.play(READ, NOT_READ + "10", 1)
    # The rules leave open which of the two sectors an attempt meets, and what memory holds after a refusal. Here each
    # attempt meets the damaged one.
    book.scene("two sectors of one key of which one is damaged")
    book.file("a.rt", A_TWICE_DAMAGED)
    book.play(READ, NOT_READ + "10", 1)


def writing(book):
    book.scene("a sector that is written is read back and its neighbour is as it was")
    book.file("a.rt", A)
    book.play("insert 0 a.rt;ack 0;fill 10000 512 A1;write 0 0 0 1 2 10000;read 0 0 0 1 2 20000;dump 20000 2;"
              "read 0 0 0 2 2 20000;dump 20000 2",
              "insert ok;ack ok;fill ok;write ok;read ok;20000 A1 A1;read ok;20000 F6 F6",
              stored={"a.rt": written(formatted(2), 1, 0xA1)})
    book.run("verify a.rt", "verify 72 of 72")
    book.scene("a written disk is stored as it is taken out")
    book.file("a.rt", A)
    book.play("insert 0 a.rt;ack 0;fill 10000 512 A1;write 0 0 0 1 2 10000;read 0 0 0 1 2 20000;dump 20000 2;eject 0;eject 0",
              "insert ok;ack ok;fill ok;write ok;read ok;20000 A1 A1;eject ok;eject refused empty", 1,
              {"a.rt": written(formatted(2), 1, 0xA1)})
    book.scene("a sector is written with a deleted mark")
    book.file("a.rt", A)
    book.play("insert 0 a.rt;ack 0;fill 10000 512 11;writedel 0 0 0 5 2 10000;read 0 0 0 5 2 20000;dump 20000 1",
              "insert ok;ack ok;fill ok;writedel ok;read ok deleted;20000 11",
              stored={"a.rt": written(formatted(2), 5, 0x11, True)})
    book.scene("sectors that are not there are not written")
    book.file("a.rt", A)
    book.play("insert 0 a.rt;ack 0;write 0 0 0 19 2 10000;write 0 2 0 1 2 10000",
              "insert ok;ack ok;write refused 04;write refused 02", 1)
    book.scene("a protected disk is read and neither written nor formatted")
    book.file("a.rt", A_PROTECTED)
    book.play(READ + ";write 0 0 0 1 2 10000;format 0 0 0", WAS_READ + ";write refused 03;format refused 03", 1)


def memory(book):
    book.scene("no read goes past a page or past the end of memory")
    book.file("a.rt", A)
    book.play("insert 0 a.rt;ack 0;read 0 0 0 1 2 FE00;read 0 0 0 1 2 FE01;read 0 0 0 1 2 EFE00;read 0 0 0 1 2 EFE01;"
              "read 2 0 0 1 2 FE01;dump EFFFF 2",
              "insert ok;ack ok;read ok;read refused 09;read ok;read refused 01;read refused 01;dump refused 01", 1)
    book.scene("an address may begin with 0")
    book.file("a.rt", A)
    book.play("insert 0 a.rt;ack 0;read 0 0 0 1 2 0FE00;read 0 0 0 1 2 0FE01", "insert ok;ack ok;read ok;read refused 09", 1)


def media(book):
    job = ("insert 0 a.rt;read 0 0 0 1 2 10000;ack 0;read 0 0 0 1 2 10000;eject 0;ack 0;insert 0 a.rt;"
           "read 0 0 0 1 2 10000")
    report = "insert ok;read refused 06;ack ok;read ok;eject ok;ack refused 80;insert ok;read refused 06"
    book.scene("a medium that was put in is acknowledged before it is read")
    book.file("a.rt", A)
    book.play(job, report, 1)
    book.scene("each medium is acknowledged anew")
    book.file("a.rt", A)
    book.play(job + ";ack 0;eject 0;insert 0 a.rt;read 0 1 0 1 2 10000",
              report + ";ack ok;eject ok;insert ok;read refused 06", 1)
    book.scene("drives are exchanged while they are empty and spare ones are left")
    book.file("a.rt", A)
    book.play("unit 0;insert 0 a.rt;unit 0;unit 1;unit 1", "unit ok;insert ok;unit refused busy;unit ok;unit refused none", 1)
    book.scene("a blank disk has no sectors")
    book.watch("n.rt")
    book.play("blank 0 n.rt 1;ack 0;read 0 0 0 1 2 10000;blank 0 n.rt 1", "blank ok;ack ok;read refused 02;blank refused busy", 1,
              {"n.rt": Disk(1).file()})
    one_head = formatted(1)
    one_head.tracks[1] = [0] * 12500
    book.scene("a track of a blank disk is formatted")
    book.watch("n.rt")
    book.play("blank 0 n.rt 1;ack 0;format 0 0 0;format 0 1 0;read 0 0 0 18 2 10000",
              "blank ok;ack ok;format ok;format refused 02;read ok", 1, {"n.rt": one_head.file()})


def planned(book, name, plan, job, report, status=0, stored=None, disk=A):
    file = "b.rt" if disk is B else "a.rt"
    book.scene(name)
    book.file(file, disk)
    book.plan(plan)
    book.play(job, report, status, {file: stored} if stored else None)


def faulty(book):
    write = "insert 0 b.rt;ack 0;fill 10000 512 5A;write 0 40 0 3 2 10000"
    wrote = "insert ok;ack ok;fill ok;write "
    planned(book, "a lost step pulse is made up for", "lose 0 20 1",
            write + ";read 0 40 0 3 2 20000;dump 20000 2;read 0 39 0 3 2 20000;dump 20000 2",
            wrote + "ok;read ok;20000 5A 5A;read ok;20000 F6 F6", stored=written(formatted(80), 3, 0x5A, track=80), disk=B)
    planned(book, "a drive that always loses a pulse finds no sector", "lose 0 20 1000", write, wrote + "refused 04", 1, disk=B)
    planned(book, "a head that sticks half way does not come back", "stick 0 20 1000",
            "insert 0 b.rt;ack 0;read 0 40 0 1 2 10000;read 0 0 0 1 2 10000", WAS_READ + ";read refused 40", 1, disk=B)
    planned(book, "a head that sticks where it stands reads on", "stick 0 40 1000",
            "insert 0 b.rt;ack 0;read 0 40 0 1 2 10000;read 0 40 0 2 2 10000;read 0 39 0 1 2 10000",
            WAS_READ + ";read ok;read refused 40", 1, disk=B)
    planned(book, "one dropout is read over", "drop 0 0 0 300 1", READ + ";dump 10000 16", WAS_READ + BYTES)
    planned(book, "a dropout that stays ends the read", "drop 0 0 0 300 1000", READ, NOT_READ + "10", 1)
    job = "insert 0 a.rt;ack 0;fill 10000 512 F6;fill 10000 1 00;write 0 0 0 1 2 10000"
    report = "insert ok;ack ok;fill ok;fill ok;write "
    planned(book, "a write that is cut off once is done again", "cut 0 0 0 300 1", job, report + "ok",
            stored=formatted(2).write(1, b"\0" + b"\xF6" * 511).file())
    planned(book, "a write that is always cut off is refused", "cut 0 0 0 300 1000", job, report + "refused 10", 1,
            A.with_bytes(426, b"\x2A\xAA").data)
    planned(book, "requests for DMA that wait eight steps are in time", "hold 8 1000", READ + ";dump 10000 16", WAS_READ + BYTES)
    planned(book, "requests for DMA that wait nine steps come too late", "hold 9 1000", READ, NOT_READ + "08", 1)
    planned(book, "stray interrupts are no answers", "stray 100 500", READ + ";dump 10000 16", WAS_READ + BYTES)
    planned(book, "a drive that was exchanged has its own faults", "drop 2 0 0 300 1000",
            READ + ";eject 0;unit 0;insert 0 a.rt;ack 0;read 0 0 0 1 2 10000",
            WAS_READ + ";eject ok;unit ok;insert ok;ack ok;read refused 10", 1)
    for tries, end, status in (1, "refused 04", 1), (2, "ok", 0):
        planned(book, f"a lost pulse with {tries} tries", "lose 0 20 1", f"insert 0 b.rt;ack 0;tries {tries};read 0 40 0 1 2 10000",
                "insert ok;ack ok;tries ok;read " + end, status, disk=B)
    for tries, end, status in (10, "ok", 0), (3, "refused 10", 1):
        planned(book, f"eight dropouts with {tries} tries", "drop 0 0 0 300 8",
                f"insert 0 a.rt;ack 0;tries {tries};read 0 0 0 1 2 10000", "insert ok;ack ok;tries ok;read " + end, status)
    planned(book, "a plan with a count of 0", "drop 0 0 0 300 0", "", "plan line 1 not understood", 3)


def torn(book):
    """A whole write, and three that stop at words 209, 208 and 207. So each of the words 207 to 209 is the first that
    the next write left.

    They record 34, 34 and 3F, each after a bit 1, so without a first clock, and each comes after a bit 0 of the next
    write. So their clocks are missing as those of three A1 are, which begin at cell 6 of word 206, and the bits after
    them are an address field. The CRC that the whole write left is that of the content at the end: 01 10 21 is the
    polynomial of the CRC.
    """
    marks, key = b"\xA1\xA1\xA1\xFE", bytes([0, 0, 19, 2])
    field = marks + key + crc(marks + key)
    bits = (1 << 8 * len(field) | int.from_bytes(field, "big")) << 5     # the field's bits after 001
    stream = bits.to_bytes(len(field) + 1, "big")
    assert stream[:4] == b"\x34\x34\x34\x3F"
    disk = Disk(1, 1, tracks=[layout([(0, 0, 1, 2)])])

    def play(end, first, wrote, found, shown):
        content = first + stream[3:] + b"\x01" * (512 - len(stream))
        disk.tracks[0][190:end] = window(content)[:end - 190]
        fills = "".join(";fill %05X 1 %02X" % (0x10000 + i, byte) for i, byte in enumerate(first + stream[3:]))
        book.play("insert 0 a.rt;ack 0;fill 10000 512 01" + fills + ";write 0 0 0 1 2 10000;read 0 0 0 19 2 20000",
                  "insert ok;ack ok;fill ok" + ";fill ok" * len(stream) + f";write {wrote};read refused {found}", 1, {"a.rt": disk.file()})
        book.run("survey a.rt", "0 0 2528 0 0 1 2 " + shown)

    book.scene("writes that stop over two that stopped bring up an address field")
    book.file("a.rt", Made(disk.file(), "head 0 1 1 0 12500", "lay 2 108 246 12500 00000102"))
    play(720, b"\x35\x24\x15", "ok", "04", "ok;survey 1")
    for end, first in (209, b"\x01\x01\x34"), (208, b"\x01\x34\x34"):
        book.plan(f"cut 0 0 0 {end} 3")
        play(end, first, "refused 10", "04", "10;survey 1")
    book.plan("cut 0 0 0 207 1")
    play(207, b"\x34\x34\x34", "ok", "02", f"ok;0 0 {16 * 206 + 6} 0 0 19 2 02;survey 2")


def plans(book):
    planned(book, "a bad line of a plan is counted with those passed over", "gap 1 10;# more;;hold 9", "fill 10000 16 AA",
            "plan line 4 not understood", 3)
    book.scene("a plan that is not there")
    book.plan_named("faults")
    book.play("fill 10000 16 AA", "faults absent", 5)
    book.scene("a plan whose name is no text")
    book.plan_unnamed()
    book.play("fill 10000 16 AA", "FLOPPY_PLAN absent", 5)
    book.scene("a plan that is too long")
    book.file("faults", Made(b"#" * 4194305, "fill 4194305 35"))
    book.plan_named("faults")
    book.play("fill 10000 16 AA", "plan line 0 not understood", 3)
    book.scene("a plan is had before the words are read")
    book.plan("gap 1 0")
    book.run("spin", "plan line 1 not understood", 3)
    book.plan("gap 1 1")
    book.run("spin", "words not understood", 2)


def disks(book):
    assert A.data.startswith(bytes.fromhex("525449 4D414745 32 00 02 02 00 30D4 9254")) and len(A.data) == 100014
    assert A.data[330:352] == bytes.fromhex("4489 4489 4489 5554 AAAA AAAA AAA9 2AA4 5244 9455 1254")
    book.scene("two cylinders are formatted")
    book.run("format a.rt 2", "format ok 4", stored={"a.rt": A.data})
    book.scene("eighty cylinders are formatted and verified and copied")
    book.run("format b.rt 80", "format ok 160", stored={"b.rt": B.data})
    book.run("verify b.rt", "verify 2880 of 2880")
    book.run("copy b.rt c.rt", "copy ok 2880", stored={"c.rt": B.data})
    book.scene("a damaged sector is told")
    book.file("x.rt", A_DAMAGED)
    book.run("verify x.rt", "0 0 1 10;verify 71 of 72", 1)
    book.scene("a damaged sector stops a copy")
    book.file("x.rt", A_DAMAGED)
    book.run("copy x.rt c.rt", "stopped at read 0 0 0 1 2 10000: 10", 1)


def texts(book):
    for name, job, report, status in (("a job without lines", "", "", 0),
                                      ("a verb that no job has", "spin 0", "job line 1 not understood", 3),
                                      ("eleven tries are too many", "tries 11", "job line 1 not understood", 3)):
        book.scene(name)
        book.play(job, report, status)
    book.scene("a last line without line feed")
    book.file("job", raw(b"fill 10000 16 AA"))
    book.run("play job", "fill ok")
    book.scene("a verb without its file")
    book.run("play", "words not understood", 2)
    book.scene("a job that is not there")
    book.run("play nojob", "nojob absent", 5)
    book.scene("an image that is not there")
    book.play("insert 0 none.rt", "none.rt absent", 5)


def images(book):
    no_rate = A.with_bytes(11, b"\1")
    for name, disk, report, status in (
            ("an image that is one byte short", A.cut(100013), "image x.rt: too short, 100014 needed, 100013 there", 4),
            ("an image with one byte more", A.and_bytes(b"\0"), "image x.rt: trailing byte at 100014", 4),
            ("an image with tracks of 63 words", A.with_bytes(12, b"\x00\x3F"), "image x.rt: bad field at 12", 4),
            ("a rate in an image of the first version", A_FIRST.with_bytes(11, b"\2"), "image x.rt: bad field at 11", 4),
            ("a bad rate in an image of the first version", A_FIRST.with_bytes(11, b"\1"), "image x.rt: bad field at 11", 4),
            ("a rate that images do not have", no_rate, "image x.rt: bad field at 11", 4),
            ("an image of no version", A.with_bytes(7, b"3"), "image x.rt: bad magic", 4),
            ("an image at 250 kbit per second", A.with_bytes(11, b"\2"), "insert ok", 0)):
        book.scene(name)
        book.file("x.rt", disk)
        book.play("insert 0 x.rt", report, status)
    book.scene("an image of 64 words holds no sector")
    book.file("x.rt", SMALL)
    book.play("insert 0 x.rt;ack 0;read 0 0 0 1 2 10000", "insert ok;ack ok;read refused 02", 1)
    book.scene("an image of the first version is stored as the second")
    book.file("a.rt", A_FIRST)
    book.play("insert 0 a.rt;eject 0", "insert ok;eject ok", stored={"a.rt": A.data})
    book.scene("a disk that was never formatted has no marks and no room")
    book.file("z.rt", UNFORMATTED)
    book.play("insert 0 z.rt;ack 0;read 0 0 0 1 2 10000;write 0 0 0 1 2 10000;format 0 0 0",
              "insert ok;ack ok;read refused 02;write refused 02;format refused 02", 1)


def rates(book):
    assert E.data.startswith(bytes.fromhex("525449 4D414745 32 00 02 02 02 186A 9254")) and len(E.data) == 50014
    book.scene("two cylinders at 250 kbit per second are formatted and verified and copied")
    book.run("formatdd e.rt 2", "format ok 4", stored={"e.rt": E.data})
    book.run("verify e.rt", "verify 36 of 36")
    book.run("copy e.rt f.rt", "copy ok 36", stored={"f.rt": E.data})
    book.scene("a disk is read at its own rate alone")
    book.file("e.rt", E)
    book.play("insert 0 e.rt;ack 0;read 0 0 0 9 2 10000;read 0 0 0 10 2 10000;rate 0 500;read 0 0 0 1 2 10000;eject 0;rate 0 250",
              "insert ok;ack ok;read ok;read refused 04;rate ok;read refused 02;eject ok;rate refused 06", 1)


def ports(book):
    book.scene("a controller comes out of reset")
    book.ports("in 3F4;out 3F2 0C;wait 1;irq;in 3F4;out 3F5 08;in 3F4;in 3F5;in 3F5;out 3F5 08;in 3F5;in 3F5;out 3F5 10;in 3F5;"
               "out 3F5 FF;in 3F5",
               "in 3F4 00;irq 1;in 3F4 80;in 3F4 D0;in 3F5 C0;in 3F5 00;in 3F5 C1;in 3F5 00;in 3F5 90;in 3F5 80")
    book.scene("an address goes through the flip-flop")
    book.ports("out 00C 00;out 004 34;out 004 12;out 00C 00;in 004;in 004", "in 004 34;in 004 12")
    book.scene("a write on a protected disk is refused at the ports")
    book.file("p.rt", A_PROTECTED)
    book.ports("insert 0 p.rt;out 3F2 1C;wait 7000;out 3F5 45;out 3F5 00;out 3F5 00;out 3F5 00;out 3F5 01;out 3F5 02;out 3F5 01;"
               "out 3F5 1B;out 3F5 FF;wait 40000;in 3F5;in 3F5;in 3F5;in 3F5;in 3F5;in 3F5;in 3F5",
               "insert ok;in 3F5 40;in 3F5 02;in 3F5 00;in 3F5 00;in 3F5 00;in 3F5 01;in 3F5 02")
    book.scene("an id is sought for 65536 steps on an empty drive")
    book.ports("out 3F2 1C;wait 1;out 3F5 4A;out 3F5 00;wait 65535;in 3F4;wait 1;in 3F4;in 3F5", "in 3F4 10;in 3F4 D0;in 3F5 40")


def flat(content, rate):
    """A formatted disk of 80 cylinders with the content of a flat file."""
    disk = formatted(80, rate)
    sectors, step = (18, 682) if rate == 500 else (9, 654)
    for track in range(160):
        for record in range(sectors):
            place = (track * sectors + record) * 512
            disk.write(record + 1, content[place:place + 512], track=track, step=step)
    return disk.file()


def flat_files(book):
    for length, need in (1474559, 1474560), (737279, 737280), (737281, 1474560):
        book.scene(f"a flat file of {length} bytes")
        book.file("f.img", Made(bytes(length), f"fill {length} 0"))
        book.run("import f.img d.rt", f"image f.img: too short, {need} needed, {length} there", 4)
    zeros = bytes(1474560)
    book.scene("a flat file of zeros becomes a disk and a flat file again")
    book.file("f.img", Made(zeros, "fill 1474560 0"))
    book.run("import f.img d.rt", "import ok 2880", stored={"d.rt": flat(zeros, 500)})
    book.run("export d.rt g.img", "export ok 2880", stored={"g.img": zeros})
    ramp = bytes(i * 7 + i // 512 & 255 for i in range(737280))
    book.scene("a flat file of 720 KB becomes a disk and a flat file again")
    book.file("f.img", Made(ramp, "ramp 737280"))
    book.run("import f.img d.rt", "import ok 1440", stored={"d.rt": flat(ramp, 250)})
    book.run("export d.rt g.img", "export ok 1440", stored={"g.img": ramp})


def exercised(seed, count):
    """The last line of the generated workload, computed from its random draws, and the status."""
    x, done, refused, total, bytes_of = seed, 0, 0, 0, {}

    def draw():
        nonlocal x
        x = (x * 1103515245 + 12345) % 2147483648
        return x // 65536

    for _ in range(count):
        kind, cylinder, head, record, byte = draw() % 4, draw() % 4, draw() % 2, draw() % 20 + 1, draw() % 256
        if record > 18:
            refused += 1
            continue
        done += 1
        if kind in (1, 2):
            total += 512 * bytes_of.get((cylinder, head, record), 0xF6)
        else:
            bytes_of[cylinder, head, record] = byte
    return f"exercise {seed} {count} ok {done} refused {refused} sum {total}", 1 if refused else 0


def workload(book):
    assert exercised(1, 2) == ("exercise 1 2 ok 2 refused 0 sum 125952", 0)
    book.scene("workloads of two requests and of one and of none")
    for count in 2, 1, 0:
        book.run(f"exercise 1 {count}", *exercised(1, count))
    book.scene("a workload of 2000 requests comes out the same again")
    book.run("exercise 7 2000", *exercised(7, 2000))
    book.run("exercise 7 2000", *exercised(7, 2000))


def archives(book):
    book.scene("a disk becomes an ImageDisk file and a disk again")
    book.file("a.rt", A)
    book.run("toimd a.rt a.imd", "toimd ok 4", stored={"a.imd": A_IMAGEDISK})
    book.run("fromimd a.imd g.rt", "fromimd ok 4", stored={"g.rt": A.data})
    wrong_mode = bytearray(A_IMAGEDISK)
    wrong_mode[32] = 2
    for name, data, report in (("a mode that the drives do not have", bytes(wrong_mode), "bad field at 32"),
                               ("an ImageDisk file without its last byte", A_IMAGEDISK[:-1], "too short, 268 needed, 267 there")):
        book.scene(name)
        book.file("a.imd", raw(data))
        book.run("fromimd a.imd g.rt", "image a.imd: " + report, 4)
    book.scene("calls of the BIOS read a sector")
    book.file("a.rt", A)
    book.file("calls", text("insert 0 a.rt;call 0201 0000 0001 0000 1000;call 0201 0000 0001 0000 1000;dump 10000 2;"
                            "call 0202 0000 0012 0000 1000;call 0202 FE00 0001 0000 1000"))
    book.run("int13 calls", "insert ok;call 0600 0000 0001 0000 1;call 0001 0000 0001 0000 0;10000 F6 F6;"
             "call 0401 0000 0012 0000 1;call 0900 FE00 0001 0000 1", 1)
    book.scene("calls of the BIOS tell the drives")
    book.file("calls", text("call 0800 0000 0000 0000 0000;call 1500 0000 0000 0000 0000;call 1600 0000 0000 0002 0000;"
                            "call 0100 0000 0000 0000 0000"))
    book.run("int13 calls", "call 0000 0004 4F12 0102 0;call 0200 0000 0000 0000 0;call 0100 0000 0000 0002 1;"
             "call 0100 0000 0000 0000 1", 1)
    book.scene("a survey lists all sectors")
    book.file("a.rt", A)
    book.run("survey a.rt", SURVEY + ";survey 72")
    book.scene("a survey tells a damaged sector")
    book.file("a.rt", A_DAMAGED)
    book.run("survey a.rt", SURVEY.replace(" ok", " 10", 1) + ";survey 72")
    anew = formatted(2)
    anew.tracks[0] = layout([key for key in standard(0, 0) if key[2] != 2])
    for name, disk, report, status, made in (
            ("cells in another phase are laid out anew", A_MOVED, "remaster ok 72", 0, A.data),
            ("a track with one key twice is not laid out anew", A_TWICE, "track 0 0 unfit", 1, None),
            ("a key that is there twice and good once is laid out once", A_TWICE_DAMAGED, "remaster ok 71", 0, anew.file())):
        book.scene(name)
        book.file("x.rt", disk)
        book.run("remaster x.rt y.rt", report, status, {"y.rt": made} if made else None)
    book.scene("two damaged copies make one whole disk")
    book.file("x.rt", A_DAMAGED)
    book.file("a.rt", A)
    book.run("rescue x.rt y.rt l", "rescue 71 of 72", 1, {"y.rt": A.data, "l": b"0 0 1 10\n"})
    book.run("rescue x.rt y.rt l", "rescue 0 of 1", 1)
    book.run("rescue a.rt y.rt l", "rescue 1 of 1", stored={"l": b""})
    book.run("rescue a.rt y.rt l", "rescue 0 of 0")
    book.scene("a log whose lines do not rise")
    book.file("x.rt", A_DAMAGED)
    book.file("l", text("0 0 2 10;0 0 1 10"))
    book.run("rescue x.rt y.rt l", "log line 2 not understood", 3)
