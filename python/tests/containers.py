"""Files of other formats, made of the plain definitions: HFE and DMK of cells, D88 of sectors. No program here writes them.
And what an ImageDisk file says, read by the text that defines the format."""
from __future__ import annotations

import disks

BACKWARDS = bytes(int(f"{value:08b}"[::-1], 2) for value in range(256))
PC_DD, PC_HD = 7, 1


def words(value: int) -> bytes:
    """A number of 16 bits, the low byte first."""
    return value.to_bytes(2, "little")


def hfe(made: disks.Disk) -> bytes:
    """An HFE file: the cells of both sides in blocks of 256 bytes, each byte from its lowest bit on."""
    kilobits = disks.Shape(0, 1, 2, made.rate, made.words).kilobits()
    head = b"HXCPICFE" + bytes([0, made.cylinders, 2, 0]) + words(kilobits) + words(0) + bytes([PC_DD if kilobits == 250 else PC_HD, 1]) + words(1)
    tracks, places, block = [], [], 2
    for cylinder in range(made.cylinders):
        sides = [b"".join(word.to_bytes(2, "big") for word in made.tracks[2 * cylinder + head]).translate(BACKWARDS) for head in range(2)]
        data = b"".join(side[at:at + 256].ljust(256, b"\0") for at in range(0, len(sides[0]), 256) for side in sides)
        places.append(words(block) + words(2 * len(sides[0])))
        block += len(data) // 512
        tracks.append(data)
    return head.ljust(512, b"\xFF") + b"".join(places).ljust(512, b"\xFF") + b"".join(tracks)


def dmk(made: disks.Disk) -> bytes:
    """A DMK file: the bytes of each track, after the places of its address marks."""
    found = bytes([0, made.cylinders]) + words(made.words + 128) + bytes(12)
    for track in made.tracks:
        data = bytes(map(disks.byte_of, track))
        marks = [at + 3 + 128 for at in range(len(track) - 4) if track[at:at + 3] == [disks.MARK] * 3 and data[at + 3] == 0xFE]
        found += b"".join(words(place | 0x8000) for place in marks).ljust(128, b"\0") + data
    return found


def d88(flat: bytes, sectors: int) -> bytes:
    """A D88 file of an HD diskette with sectors of 512 bytes."""
    tracks = []
    for track in range(160):
        data = b""
        for sector in range(1, sectors + 1):
            at = (track * sectors + sector - 1) * 512
            data += bytes([track // 2, track % 2, sector, 2]) + words(sectors) + bytes(8) + words(512) + flat[at:at + 512].ljust(512, b"\0")
        tracks.append(data)
    places, at = b"", 0x2B0
    for track in tracks:
        places += at.to_bytes(4, "little")
        at += len(track)
    return bytes(27) + b"\x20" + at.to_bytes(4, "little") + places.ljust(656, b"\0") + b"".join(tracks)


def imd_sectors(data: bytes) -> dict[tuple[int, int, int], tuple[int, bytes]]:
    """The type and the bytes of each sector of an ImageDisk file without maps."""
    at, found = data.index(0x1A) + 1, {}
    while at < len(data):
        _, cylinder, head, count, code = data[at:at + 5]
        numbers, at = data[at + 5:at + 5 + count], at + 5 + count
        assert head < 2, "no maps here"
        for number in numbers:
            kind, size = data[at], 128 << code
            stored = data[at + 1:at + 1 + (0 if kind == 0 else size if kind % 2 else 1)]
            found[cylinder, head, number] = kind, stored if len(stored) != 1 else stored * size
            at += 1 + len(stored)
    return found
