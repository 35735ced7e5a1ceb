"""ImageDisk files of every kind of sector, surveys of odd fields, and disks in every phase laid out anew.

The disks are computed by the rules of docs/FORMATS.md, word by word.
"""
from book import Made, raw
from disks import MARK, Disk, crc, encode, formatted, layout, marked, moved, window
from vectors import FILL, GAP, IMD_TEXT, SYNC, by_hand, imd_of_one, nine_types


def scenes(book):
    for part in imagedisk, surveys, remasters:
        part(book)


def damaged(content, deleted):
    """A data field with the last bit of its CRC inverted."""
    data = (b"\xF8" if deleted else b"\xFB") + content
    check = bytearray(crc(b"\xA1\xA1\xA1" + data))
    check[1] ^= 1
    return encode(bytes(12), 0) + [MARK] * 3 + encode(data + bytes(check), 1)


def of_nine_types():
    """The disk of the ImageDisk file with a sector of each type. Its only track is on cylinder 1, head 1."""
    keys = [(7 if i == 4 else 1, 0 if i == 2 else 1, r, 1) for i, r in enumerate((1, 6, 2, 7, 3, 8, 4, 9, 5))]
    track = layout(keys, 0x50, 0xF6, 6250)
    windows = [[GAP] * (18 + 256)]
    for fill, (deleted, bad) in enumerate(((False, False), (True, False), (False, True), (True, True))):
        for content in bytes(range(256)), bytes([fill]) * 256:
            windows.append(damaged(content, deleted) if bad else window(content, deleted))
    for sector, words in enumerate(windows):
        place = 146 + sector * (62 + 256 + 0x50) + 44
        track[place:place + len(words)] = words
    disk = Disk(2, 2, 6250, 2)
    disk.tracks[3] = track
    return disk


def imagedisk(book):
    data, _ = nine_types()
    book.scene("an ImageDisk file with all types and both maps and an interleave comes back")
    book.file("n.imd", raw(data))
    book.run("fromimd n.imd n.rt", "fromimd ok 1", stored={"n.rt": of_nine_types().file()})
    book.run("toimd n.rt again.imd", "toimd ok 1", stored={"again.imd": data})
    book.scene("an ImageDisk file with a track of no sectors, whose disk has no track to tell")
    book.file("n.imd", raw(IMD_TEXT + bytes([5, 1, 1, 0, 2])))
    book.run("fromimd n.imd n.rt", "fromimd ok 1", stored={"n.rt": Disk(2, 2, 6250, 2).file()})
    book.run("toimd n.rt again.imd", "toimd ok 0", stored={"again.imd": IMD_TEXT})
    book.scene("an ImageDisk file of too many sectors for a track")
    book.file("n.imd", raw(IMD_TEXT + bytes([3, 2, 0, 40, 2]) + bytes(80)))
    book.run("fromimd n.imd n.rt", "track 2 0 unfit", 1)
    book.scene("an ImageDisk file of more sectors than the program lays with a gap of 16 bytes")
    book.file("n.imd", raw(imd_of_one(21, 2, 500)))
    book.run("fromimd n.imd n.rt", "track 0 0 unfit", 1)
    for name, given, report in (("a file that is no ImageDisk file", b"IMG ", "bad magic"),
                                ("an ImageDisk file without the end of its text", b"IMD 1.18", "too short, 9 needed, 8 there")):
        book.scene(name)
        book.file("n.imd", raw(given))
        book.run("fromimd n.imd n.rt", "image n.imd: " + report, 4)


def address(n):
    """The pieces of an address field with an odd sector ID, and its words."""
    return [(100, GAP), (12, SYNC), list(marked(bytes([0xFE, 255, 0, 10, n]))[0][12:])]


def surveys(book):
    content = b"\xF6" * 8192
    deleted = window(content, True)
    odd = by_hand(*address(6), (22, GAP), (12, SYNC), deleted[12:16], (8192, FILL), deleted[-2:], *address(1), *address(7), *address(0),
                  (100, GAP))
    book.scene("a survey of a long deleted sector and of a field without data and of fields of no size")
    book.file("x.rt", odd)
    first = 16 * 112
    behind = first + 16 * (10 + 22 + 12 + 4 + 8192 + 2)
    step = 16 * (100 + 12 + 10)
    book.run("survey x.rt", f"0 0 {first} 255 0 10 6 deleted;0 0 {behind + 16 * 112} 255 0 10 1 02;"
             f"0 0 {behind + 16 * 112 + step} 255 0 10 7 size;0 0 {behind + 16 * 112 + 2 * step} 255 0 10 0 size;survey 4")
    book.run("toimd x.rt x.imd", "track 0 0 unfit", 1)


def remasters(book):
    plain = formatted(1, 250)
    for phase in range(1, 16):
        disk = formatted(1, 250)
        disk.tracks[0] = moved(disk.tracks[0], phase)
        book.scene(f"cells in phase {phase} at 250 kbit per second are laid out anew")
        book.file("x.rt", Made(disk.file(), "disk 1 250", f"move {phase}"))
        book.run("remaster x.rt y.rt", "remaster ok 18", stored={"y.rt": plain.file()})
    book.scene("a protected disk of few words without a sector is laid out anew")
    book.file("x.rt", Made(Disk(1, 1, 64, 2, 1).file(), "head 1 1 1 2 64", "fill 128 0"))
    book.run("remaster x.rt y.rt", "remaster ok 0", stored={"y.rt": Disk(1, 1, 6250, 2, 1).file()})
    book.run("survey y.rt", "survey 0")
