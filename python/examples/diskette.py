#!/usr/bin/env python3
"""Reads a diskette like a book: its sectors by cylinder, head and number, what can't be read, and a copy of it in another
format."""
import pathlib
import tempfile

import disks
from telwyddus import BadCrc, Disk, Loss


def content(cylinder, head, sector):
    return bytes((3 * i + 64 * cylinder + 32 * head + sector) % 256 for i in range(512))


def damaged():
    """An image of three cylinders in which one word of one sector is damaged."""
    made = disks.formatted(3)
    for cylinder in range(3):
        for head in range(2):
            for sector in range(1, 19):
                made.write(sector, content(cylinder, head, sector), track=2 * cylinder + head)
    made.tracks[2][disks.window_place(3) + 100] = 0
    return made.file()


def look(disk):
    print(disk.geometry.words())
    assert disk[0, 1, 5] == content(0, 1, 5)
    try:
        disk[1, 0, 3]
        assert False
    except BadCrc as refused:
        print(f"1 0 3: {refused}")
    verification = disk.verify()
    assert not verification and [sector.key for sector in verification.bad] == [(1, 0, 3)]
    print(f"{verification.good} of {verification.asked} sectors can be read")


def mend(disk, folder):
    """Writes the damaged sector anew. A flat file can then hold the diskette."""
    try:
        disk.save(folder / "before.img")
        assert False
    except Loss as loss:
        print(f"{loss} {loss.losses[0]}")
    disk[1, 0, 3] = content(1, 0, 3)
    disk.save(folder / "after.img")
    with Disk.open(folder / "after.img", "3x2x18") as again:
        assert again.verify() and all(sector.data == content(*sector.key) for sector in again)
    print(f"{len(disk)} sectors are in the flat file")


def main():
    with tempfile.TemporaryDirectory() as room:
        folder = pathlib.Path(room)
        (folder / "a.rt").write_bytes(damaged())
        with Disk.open(folder / "a.rt") as disk:
            look(disk)
            mend(disk, folder)
        assert (folder / "a.rt").read_bytes() == damaged()


main()
