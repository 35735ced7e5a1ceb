"""Commands of the controller at the ports: how each ends, what it reads, what it writes and what it formats.

Result bytes come from the data sheet of the 82077AA, as docs/FORMATS.md sums it up. What is written and formatted comes
from tools/disks.py. Memory is 00 at first. What is to be written comes into memory by a READ DATA of a field that holds
it.
"""
from accesses import *
from book import Made
from disks import Disk, layout, standard, turned, window
from samples import *

# Motor 0 on, out of reset, 500 kbit/s, CONFIGURE 00 07 00, at speed.
START = ("insert 0 a.rt;out 3F2 1C;wait 1;irq;" + POLLED + "out 3F7 00;" + send(0x13, 0, 7, 0) + "wait 6250;")
STARTED = "insert ok;irq 1;" + WAS_POLLED
END = "wait 26000;irq;" + RESULTS
LONG_END = "wait 65535;irq;" + RESULTS
TRACK = layout(standard(0, 0))
PROTECTED = ONE.with_bytes(8, b"\1")
F6 = b"\xF6" * 512
BLANK = Made(one_track([0] * 12500), "head 0 1 1 0 12500", "fillwords 12500 0000")


def ended(*values):
    return "irq 1;" + answers(*values)


def runs(book, name, disk, accesses, report, stored=None, more=(), **seen):
    book.scene(name)
    book.file("a.rt", disk)
    for file, made in more:
        book.file(file, made)
    book.ports(START + lines(accesses), STARTED + lines(report), stored={"a.rt": stored} if stored else None, **seen)


def scenes(book):
    for part in commands, reads, failures, writes, formats, gates:
        part(book)


def commands(book):
    runs(book, "a seek gives a pulse a step and its result", PROTECTED,
         send(15, 4, 2) + "in 3F4;out 3F5 10;in 3F5;wait 2;irq;wait 1;irq;out 3F5 08;in 3F5;in 3F5;in 3F4;in 3F7;"
         + send(4, 4) + "in 3F5;" + send(7, 0) + "wait 3;out 3F5 08;in 3F5;in 3F5;" + send(4, 0) + "in 3F5",
         "in 3F4 81;in 3F5 80;irq 0;irq 1;in 3F5 20;in 3F5 02;in 3F4 80;in 3F7 00;in 3F5 6C;in 3F5 20;in 3F5 00;in 3F5 78")
    book.scene("a recalibration without track 0 ends after 79 pulses")
    book.ports("out 3F2 0E;wait 1;irq;" + POLLED + send(7, 2) + "in 3F4;wait 79;irq;wait 1;irq;out 3F5 08;in 3F5;in 3F5",
               "irq 1;" + WAS_POLLED + "in 3F4 84;irq 0;irq 1;in 3F5 72;in 3F5 00")
    book.scene("version and unknown codes are answered at once")
    book.ports("out 3F2 0C;wait 1;out 3F5 08;in 3F5;in 3F5;in 3F5;out 3F5 10;in 3F5;in 3F5;out 3F5 FF;in 3F5;in 3F5;out 3F5 08;in 3F5",
               "in 3F5 C0;in 3F5 00;in 3F5 FF;in 3F5 90;in 3F5 FF;in 3F5 80;in 3F5 FF;in 3F5 C1")
    book.scene("a reset is followed by four poll results")
    book.ports("in 3F4;out 3F2 0C;irq;wait 1;irq;in 3F4;" + "out 3F5 08;irq;in 3F4;in 3F5;in 3F5;in 3F4;" * 4 + "out 3F5 08;in 3F5",
               "in 3F4 00;irq 0;irq 1;in 3F4 80;"
               + "".join("irq 0;in 3F4 D0;in 3F5 C%d;in 3F5 00;in 3F4 80;" % drive for drive in range(4)) + "in 3F5 80")
    book.scene("a size code of 7 begins no command")
    book.count("commands")
    book.ports("out 3F2 0C;" + send(0x46, 0, 0, 0, 1, 7, 1, 0x1B) + "in 3F4;out 3F5 FF;in 3F5;in 3F4", "in 3F4 90;in 3F5 80;in 3F4 80",
               counts=(0,))


def reads(book):
    runs(book, "an id is the first key that passes", ONE, send(0x4A, 0) + END, ended(0, 0, 0, 0, 0, 1, 2))
    for phase in range(16):
        disk = Made(one_track(turned(TRACK, phase)), *ONE.recipe, f"turn {phase}")
        book.scene(f"a sector is read whose cells stand {phase} places on")
        book.file("a.rt", disk)
        book.look(0xFFFF, 514)
        # After the last sector comes the first one of the next cylinder.
        book.ports(START + channel(512) + data(0x46, 18) + lines(END), STARTED + lines(ended(0, 0, 0, 1, 0, 1, 2)),
                   memory=bytes(1) + F6 + bytes(1))
    book.scene("an early terminal count ends the bytes")
    book.file("a.rt", ONE)
    book.look(0xFFFF, 514)
    book.ports(START + channel(100) + data(0x46, 3) + lines(END), STARTED + lines(ended(0, 0, 0, 0, 0, 4, 2)),
               memory=bytes(1) + b"\xF6" * 100 + bytes(413))
    # The mark F8, and 8A 91, the CRC over A1 A1 A1 F8 and 512 bytes F6.
    runs(book, "a deleted field sets the control mark", ONE.with_words(205, 0x554A).with_words(718, 0x4A44, 0x4929),
         channel(512) + data(0x46, 1) + END, ended(0, 0, 0x40, 0, 0, 2, 2))


def failures(book):
    marks = Made(one_track([0x9254] * 12500), "head 0 1 1 0 12500", "fillwords 12500 9254")
    for name, disk, accesses, results in (
            ("a failed check is told in both status bytes", ONE.with_words(300, 0), channel(512) + data(0x46, 1),
             (0x40, 0x20, 0x20, 0, 0, 1, 2)),
            ("a missing data mark is told in both status bytes", ONE.with_words(202, *[0x9254] * 3), channel(512) + data(0x46, 1),
             (0x40, 1, 1, 0, 0, 1, 2)),
            ("an absent key has no data", ONE, channel(512) + data(0x46, 19), (0x40, 4, 0, 0, 0, 0x13, 2)),
            ("a blank track has no address mark", marks, channel(512) + data(0x46, 1), (0x40, 1, 0, 0, 0, 1, 2)),
            ("without a terminal count a read ends at the end of the track", ONE, channel(513) + data(0x46, 1),
             (0x40, 0x80, 0, 0, 0, 1, 2)),
            ("a byte that finds the queue full is an overrun", ONE, "out 00A 06;" + data(0x46, 1), (0x40, 0x10, 0, 0, 0, 1, 2)),
            ("another rate hears no mark", ONE, "out 3F7 02;" + send(0x4A, 0), (0x40, 1, 0, 0, 0, 0, 0)),
            ("a head that is not there hears no mark", ONE, send(0x4A, 4), (0x44, 1, 0, 0, 0, 0, 0))):
        runs(book, name, disk, accesses + LONG_END, ended(*results))
    book.scene("without DMA a data command is invalid")
    book.file("a.rt", ONE)
    book.count("commands")
    book.ports(START + send(3, 0xAF, 3) + data(0x46, 1) + "in 3F5", STARTED + "in 3F5 80", counts=(0,))


# ---- what is written comes from a source disk, which is read into memory first

def put(track, record, window):
    """Puts the window of a sector, or the beginning of it, in place."""
    place = 190 + 682 * (record - 1)
    track[place:place + len(window)] = window


def source(content):
    """A disk whose first sector holds this content, repeated."""
    words = list(TRACK)
    put(words, 1, window((content * 512)[:512]))
    return Made(one_track(words), *ONE.recipe, "field 190 data " + content.hex().upper())


def filled(content, code=0x46, end=END):
    """Brings the content of the source to 10000 (bay 1 has the source, whose motor turns too), and selects bay 0 again."""
    return ("insert 1 s.rt;out 3F2 2D;wait 6250;" + channel(512) + send(code, 1, 0, 0, 1, 2, 0x12, 0x1B, 0xFF) + end
            + "out 3F2 1C;wait 6250;")


WAS_FILLED = "insert ok;" + "irq 1;" + answers(1, 0, 0, 0, 0, 2, 2)


def with_source(book, name, disk, content, accesses, report, stored=None, memory=None, status=0):
    book.scene(name)
    book.file("a.rt", disk)
    book.file("s.rt", source(content))
    if memory is not None:
        book.look(0x20000, len(memory))
    book.ports(START + filled(content) + lines(accesses), STARTED + WAS_FILLED + lines(report), status,
               {"a.rt": stored} if stored else None, memory=memory)


def rewritten(record, content, deleted=False, phase=0):
    """A window is written from a whole word on, at whatever phase the cells of the address field before it are."""
    words = turned(TRACK, phase)
    put(words, record, window((content * 512)[:512], deleted))
    return words


def writes(book):
    content = bytes(range(251))
    whole = (content * 3)[:512]
    back = channel(512, 0x20000)
    for phase in 0, 5, 11:
        disk = Made(one_track(turned(TRACK, phase)), *ONE.recipe, f"turn {phase}")
        with_source(book, f"a written sector reads back where cells stand {phase} places on", disk, content,
                    channel(512, mode=0x4A) + data(0x45, 2) + END + back + data(0x46, 2) + END,
                    ended(0, 0, 0, 0, 0, 3, 2) + ended(0, 0, 0, 0, 0, 3, 2),
                    one_track(rewritten(2, content, phase=phase)), whole)
    with_source(book, "a sector written as deleted reads back as one", ONE, content,
                channel(512, mode=0x4A) + data(0x49, 18) + END + back + data(0x46, 18) + END,
                ended(0, 0, 0, 1, 0, 1, 2) + ended(0, 0, 0x40, 1, 0, 1, 2), one_track(rewritten(18, content, True)), whole)
    with_source(book, "after an early terminal count zeros are written", ONE, b"\xA1",
                channel(100, mode=0x4A) + data(0x45, 1) + END + back + data(0x46, 1) + END,
                ended(0, 0, 0, 0, 0, 2, 2) * 2, one_track(rewritten(1, b"\xA1" * 100 + bytes(412))), b"\xA1" * 100 + bytes(412))
    runs(book, "a protected disk is not written and is read", PROTECTED,
         channel(512, mode=0x4A) + data(0x45, 1) + "wait 1;irq;" + RESULTS + channel(512) + data(0x46, 1) + END,
         ended(0x40, 2, 0, 0, 0, 1, 2) + ended(0, 0, 0, 0, 0, 2, 2))
    runs(book, "an absent key is not written", ONE, channel(512, mode=0x4A) + data(0x45, 19) + LONG_END,
         ended(0x40, 4, 0, 0, 0, 0x13, 2))
    # The window's zeros, marks and mark byte are written, and nothing of the content.
    begun = list(TRACK)
    put(begun, 1, window(F6)[:16])
    runs(book, "a write without a byte is an overrun and closes the gate", ONE, "out 00A 06;" + data(0x45, 1) + LONG_END,
         ended(0x40, 0x10, 0, 0, 0, 1, 2), one_track(begun))


def keys(count):
    """The bytes of the sector IDs of a track."""
    return b"".join(bytes(key) for key in standard(0, 0, count))


def format_track(sectors, gap3, bytes_there, end=LONG_END):
    return channel(bytes_there, mode=0x4A) + send(0x4D, 0, 2, sectors, gap3, 0xF6) + end


def formats(book):
    with_source(book, "eighteen sectors are laid out", BLANK, keys(18), format_track(18, 0x6C, 72), ended(0, 0, 0, 0, 0, 0x12, 2),
                one_track(TRACK))
    # After the sector IDs the channel has bytes left when the second index comes, so it gives no terminal count.
    with_source(book, "a layout needs no terminal count", BLANK, keys(18) + b"\xEE" * 28, format_track(18, 0x6C, 100),
                ended(0, 0, 0, 0, 0, 0x12, 2), one_track(TRACK))
    at_250 = Made(Disk(1, 1, 6250, 2).file(), "head 0 1 1 2 6250", "fillwords 6250 0000")
    nine = Disk(1, 1, 6250, 2, 0, [layout(standard(0, 0, 9), 0x50, 0xF6, 6250)])
    with_source(book, "nine sectors at 250 kbit per second are laid out", at_250, keys(9),
                "out 3F7 02;" + format_track(9, 0x50, 36), ended(0, 0, 0, 0, 0, 9, 2), nine.file())
    # The layout needs 12,548 words. Its beginning is recorded.
    with_source(book, "a layout that does not fit has no mark", BLANK, keys(18), format_track(18, 115, 72),
                ended(0x40, 1, 1, 0, 0, 0, 0), one_track(layout(standard(0, 0), 115, 0xF6, 12548)[:12500]))
    with_source(book, "at another rate nothing is laid", ONE, keys(18), "out 3F7 02;" + format_track(18, 0x6C, 72),
                ended(0x40, 1, 0, 0, 0, 0, 0))
    # All words up to the first sector ID, which would begin with word 162.
    with_source(book, "a missing key byte is an overrun and closes the gate", BLANK, keys(18),
                "out 00A 06;" + send(0x4D, 0, 2, 18, 0x6C, 0xF6) + LONG_END, ended(0x40, 0x10, 0, 0, 0, 0, 0),
                one_track(TRACK[:162] + [0] * (12500 - 162)))
    with_source(book, "a protected disk is not formatted", PROTECTED, keys(18), format_track(18, 0x6C, 72),
                ended(0x40, 2, 0, 0, 0, 0, 0))


def gates(book):
    # Both disks are at word 10 of 12,500 when the first write begins. Its window is at word 190, and 30 of its words
    # are written. Then bay 0 is at word 6,480 and bay 1 at word 10. The window of record 11 is at word 7,010, and 20 of
    # its words are written. The next 7 words go to bay 1, whose gate was closed by the reset, and the last 503 to bay
    # 0, whose gate was closed meanwhile.
    bytes_00 = channel(512, mode=0x4A)
    words = window(bytes(512))
    first, second = list(TRACK), list(TRACK)
    first[7010:7030] = words[:20]
    second[190:220] = words[:30]
    for name, reset in ("that selects the other drive", "out 3F2 38;"), ("by the other register", "out 3F4 80;"):
        book.scene("a reset " + name + " closes the gate")
        for file in "a.rt", "b.rt", "c.rt":
            book.file(file, ONE)
        book.ports("insert 0 a.rt;insert 1 b.rt;out 3F2 3D;wait 6260;irq;" + POLLED + send(0x13, 0, 7, 0) + "out 3F7 00;" + bytes_00
                   + send(0x45, 1, 0, 0, 1, 2, 0x12, 0x1B, 0xFF) + "wait 210;" + reset + "out 3F2 3C;eject 1;insert 1 c.rt;wait 6260;irq;"
                   + POLLED + send(0x13, 0, 7, 0) + bytes_00 + data(0x45, 11) + "wait 550;out 3F2 3D;wait 7;out 3F2 3C;wait 503;irq;"
                   + lines(RESULTS),
                   "insert ok;insert ok;irq 1;" + WAS_POLLED + "eject ok;insert ok;irq 1;" + WAS_POLLED + lines(ended(0, 0, 0, 0, 0, 12, 2)),
                   stored={"a.rt": one_track(first), "b.rt": one_track(second)})
