"""Computes disks from the plain definitions: cells bit by bit, the CRC of a field bit by bit, and tracks field by
field. It also writes image files of them. docs/FORMATS.md describes both.

Nothing here comes from the program. Only whole bytes and whole fields are cached, so that 80 cylinders take a second.
This is the only place in Python that knows the layout. bios/track.c computes it once more, independently and in C, for
judges that are written in C.
"""
import struct
from collections import namedtuple
from functools import lru_cache

MARK = 0x4489          # A1 with a clock bit left out
INDEX_MARK = 0x5224    # C2 with a clock bit left out
MAGIC = b"RTIMAGE2"    # what an image file begins with
HEADER = 14            # how long an image file's header is
WORDS, SECTORS = 12500, 18                      # of a standard track at 500 kbit/s


@lru_cache(maxsize=None)
def word_of(last, byte):
    """The 16 cells of a byte that follows the bit `last`: a clock bit stands between two bits 0."""
    word = 0
    for shift in range(7, -1, -1):
        bit = byte >> shift & 1
        word = word << 2 | (not (last or bit)) << 1 | bit
        last = bit
    return word


def encode(data, last):
    words = []
    for byte in data:
        words.append(word_of(last, byte))
        last = byte & 1
    return words


def byte_of(word):
    """The data bits of a word: every second cell."""
    return sum((word >> 2 * bit & 1) << bit for bit in range(8))


@lru_cache(maxsize=None)
def crc(data):
    """The CRC with polynomial x^16 + x^12 + x^5 + 1, preset FFFF; two bytes, the high one first."""
    value = 0xFFFF
    for byte in data:
        for shift in range(7, -1, -1):
            carry = value >> 15 ^ byte >> shift & 1
            value = value << 1 & 0xFFFF ^ (0x1021 if carry else 0)
    return bytes([value >> 8, value & 255])


@lru_cache(maxsize=None)
def marked(data):
    """12 bytes 00, three marks, then `data` and its CRC; the word before ends in 0."""
    tail = data + crc(b"\xA1\xA1\xA1" + data)
    return tuple(encode(bytes(12), 0) + [MARK] * 3 + encode(tail, 1)), tail[-1] & 1


class Cells:
    """A growing list of words that knows the last data bit."""

    def __init__(self):
        self.words, self.last = [], 0

    def plain(self, data):
        self.words += encode(data, self.last)
        if data:
            self.last = data[-1] & 1

    def field(self, data):
        words, last = marked(data)
        first = word_of(self.last, 0)
        self.words += (first,) + words[1:]
        self.last = last


def layout(keys, gap3=0x6C, fill=0xF6, words=WORDS):
    """A formatted track; `keys` are the sector IDs (C, H, R, N) of its sectors."""
    track = Cells()
    track.plain(b"\x4E" * 80 + bytes(12))
    track.words += [INDEX_MARK] * 3
    track.plain(b"\xFC" + b"\x4E" * 50)
    for key in keys:
        track.field(b"\xFE" + bytes(key))
        track.plain(b"\x4E" * 22)
        track.field(b"\xFB" + bytes([fill]) * (128 << key[3]))
        track.plain(b"\x4E" * gap3)
    track.plain(b"\x4E" * (words - len(track.words)))
    return track.words


def standard(c, h, sectors=SECTORS):
    """The sector IDs of a standard track."""
    return [(c, h, r, 2) for r in range(1, sectors + 1)]


def window(content, deleted=False):
    """The 12 bytes 00, marks, mark byte, content and CRC of a data field."""
    return list(marked((b"\xF8" if deleted else b"\xFB") + content)[0])


def address_place(record, step=682):
    """The word at which the address field of a standard sector begins, with its bytes 00. `step` is 682 words at 500
    kbit/s, 654 at 250."""
    return 146 + step * (record - 1)


def window_place(record, step=682):
    """The word at which the sector's window begins."""
    return address_place(record, step) + 44


class Shape(namedtuple("Shape", "flags cylinders heads rate words")):
    """What the header of an image file says. The tracks come after it by cylinder, then head, each word with its high
    byte first."""

    def header(self):
        return MAGIC + bytes(self[:4]) + self.words.to_bytes(2, "big")

    def place(self, cylinder, head, word=0):
        """The byte of the file at which a word of a track stands."""
        return HEADER + 2 * (self.words * (self.heads * cylinder + head) + word)

    def length(self):
        return self.place(self.cylinders, 0)

    def is_protected(self):
        return self.flags & 1 == 1

    def kilobits(self):
        """The data rate of the image, in kbit/s."""
        return 250 if self.rate == 2 else 500


def shape_of(image):
    """The geometry of an image file, or of bytes that begin like one."""
    return Shape(*image[8:12], int.from_bytes(image[12:HEADER], "big"))


class Disk:
    """A disk: the header fields of its image, and the words of its tracks."""

    def __init__(self, cylinders, heads=2, words=WORDS, rate=0, flags=0, tracks=None):
        self.cylinders, self.heads, self.words = cylinders, heads, words
        self.rate, self.flags = rate, flags
        self.tracks = tracks or [[0] * words for _ in range(cylinders * heads)]

    def write(self, record, content, deleted=False, track=0, step=682):
        """Writes a standard sector."""
        place = window_place(record, step)
        words = window(content, deleted)
        self.tracks[track][place:place + len(words)] = words
        return self

    def file(self):
        """The image file of the disk."""
        head = Shape(self.flags, self.cylinders, self.heads, self.rate, self.words).header()
        return head + b"".join(struct.pack(f">{len(t)}H", *t) for t in self.tracks)


def formatted(cylinders, rate=500):
    """A disk as a format command leaves it: 18 sectors a track at 500 kbit/s, 9 at 250, all bytes F6."""
    sectors, gap3, words, code = (SECTORS, 0x6C, WORDS, 0) if rate == 500 else (9, 0x50, 6250, 2)
    tracks = [layout(standard(c, h, sectors), gap3, 0xF6, words) for c in range(cylinders) for h in range(2)]
    return Disk(cylinders, 2, words, code, 0, tracks)


def turned(words, count):
    """The cells of a track from the cell `count` on, with the first `count` cells after the last one."""
    length = 16 * len(words)
    bits = int.from_bytes(b"".join(w.to_bytes(2, "big") for w in words), "big")
    bits = (bits << count | bits >> length - count) & (1 << length) - 1 if count else bits
    data = bits.to_bytes(2 * len(words), "big")
    return [data[i] << 8 | data[i + 1] for i in range(0, len(data), 2)]


def moved(words, count):
    """The same, but with cells 0 after the last one."""
    words = turned(words, count)
    words[-1] &= 0xFFFF << count & 0xFFFF
    return words
