"""Files that many scenes begin with."""
from book import Made
from disks import Disk, formatted, layout, moved, standard

A = Made(formatted(2).file(), "disk 2 500")             # two cylinders at 500 kbit/s
B = Made(formatted(80).file(), "disk 80 500")           # eighty cylinders
E = Made(formatted(2, 250).file(), "disk 2 250")        # two cylinders at 250 kbit/s

A_FIRST = A.with_bytes(7, b"1")                         # the same in the first version of the image format
A_PROTECTED = A.with_bytes(8, b"\1")
A_BAD_CHECK = A.with_bytes(349, b"\x54")                # the CRC of the first address field
A_FOUR_MARKS = A.with_words(157, 0x4489)                # one mark more before the first address field
A_DAMAGED = A.with_words(300, 0)                        # the content of the first sector
A_TWICE = A.with_words(846, 0xAAA9, 0x2AA4, 0x5244, 0x9455)    # the second address field is a repetition of the first
A_TWICE_DAMAGED = A_TWICE.with_words(300, 0)
A_TWICE_BOTH_DAMAGED = A_TWICE_DAMAGED.with_words(982, 0)

SMALL = Made(Disk(1, 1, 64).file(), "head 0 1 1 0 64", "fill 128 0")            # 64 words without a mark
UNFORMATTED = Made(Disk(2, 2, 6250, 2).file(), "head 0 2 2 2 6250", "fill 50000 0")


def moved_disk(count):
    """A's first track with its cells moved forward by `count` places, and cells 0 after them."""
    disk = formatted(2)
    disk.tracks[0] = moved(disk.tracks[0], count)
    return Made(disk.file(), "disk 2 500", f"move {count}")


A_MOVED = moved_disk(5)


def written(disk, record, byte, deleted=False, track=0):
    """The image of a disk with one sector overwritten."""
    return disk.write(record, bytes([byte]) * 512, deleted, track).file()


def one_track(words, flags=0):
    """An image of one track."""
    return Disk(1, 1, len(words), 0, flags, [words]).file()


ONE = Made(one_track(layout(standard(0, 0))), "head 0 1 1 0 12500", "track 0 0 18 108 246 12500")

# The ImageDisk file of A: each sector is filled with one byte value.
A_IMAGEDISK = (b"IMD 1.18: 01/01/2000 00:00:00\r\n\x1A"
               + b"".join(bytes([3, c, h, 18, 2]) + bytes(range(1, 19)) + b"\x02\xF6" * 18
                          for c in range(2) for h in range(2)))
