#!/usr/bin/env python3
"""Reads and writes single sectors by calls. It reads a damaged image, formats and writes a blank medium, makes an
ImageDisk file of that, and reads and writes a flat file."""
import disks
from telwyddus import BadCrc, Changed, Disk, Found, NotFound, Tray, Unfit

CYLINDERS, DAMAGED = 2, (1, 0, 3)


def places():
    for c in range(CYLINDERS):
        for h in range(2):
            for r in range(1, 19):
                yield c, h, r


def content(c, h, r):
    return bytes((3 * i + 64 * c + 32 * h + r) % 256 for i in range(512))


def damaged():
    """An image in which each sector has other content, and one word of one sector is damaged."""
    made = disks.formatted(CYLINDERS)
    for c, h, r in places():
        made.write(r, content(c, h, r), track=2 * c + h)
    c, h, r = DAMAGED
    made.tracks[2 * c + h][disks.window_place(r) + 100] = 0
    return made.file()


def refusal(call, *values):
    try:
        call(*values)
    except (BadCrc, Changed, NotFound) as refused:
        return type(refused)


def rescued(disk):
    """What can be read of the medium in bay 0."""
    for place in places():
        try:
            yield place, disk.read(0, *place)[0]
        except BadCrc:
            yield place, None


def unfit_at(tray):
    """The cylinder and head of the track because of which a medium has no flat file."""
    try:
        tray.flat()
    except Unfit as refused:
        return refused.cylinder, refused.head


def one_more():
    """An image of 80 cylinders in which one track has a sector more than the others."""
    made = disks.formatted(80, 250)
    made.tracks[2 * 7 + 1] = disks.layout(disks.standard(7, 1, 10), 0x20, 0xF6, 6250)
    return made.file()


def main():
    with Disk() as disk, Tray(damaged()) as old, Tray.blank(CYLINDERS) as new:
        fields = list(old.survey())
        assert [key for _, _, _, key, _ in fields] == [(c, h, r, 2) for c, h, r in places()]
        assert [key[:3] for _, _, _, key, found in fields if found != Found.OK] == [DAMAGED]
        disk.insert(0, old)
        disk.insert(1, new)
        assert refusal(disk.read, 0, 0, 0, 1) is Changed
        disk.acknowledge(0)
        disk.acknowledge(1)
        assert refusal(disk.read, 0, 0, 0, 19) is NotFound
        for c in range(CYLINDERS):
            for h in range(2):
                disk.format(1, c, h)
        for place, data in rescued(disk):
            assert (data is None) == (place == DAMAGED)
            disk.write(1, *place, content(*place) if data is None else data)
        with disk.eject(1) as saved:
            file = saved.imd()
            image = saved.image()
        print(f"{len(fields)} fields, {len(file)} bytes of ImageDisk, {len(image)} bytes of image")
    with Tray.of_imd(file) as tray, Disk() as disk:
        disk.insert(0, tray)
        disk.acknowledge(0)
        for place in places():
            assert disk.read(0, *place) == (content(*place), False)
    flat = bytes(i * 7 % 256 ^ i // 512 % 256 for i in range(737280))
    with Tray.of_flat(flat) as tray, Disk() as disk:
        assert tray.flat() == flat
        disk.insert(0, tray)
        disk.acknowledge(0)
        there = [disk.read(0, c, h, r)[0] for c in (0, 1, 40, 79) for h in range(2) for r in range(1, 10)]
        assert b"".join(there) == b"".join(flat[9216 * c:9216 * (c + 1)] for c in (0, 1, 40, 79))
        disk.write(0, 40, 1, 9, flat[:512], deleted=True)
        with disk.eject(0) as marked:
            assert unfit_at(marked) == (40, 1)
    with Tray(one_more()) as more, Tray.blank(40) as short:
        assert unfit_at(more) == (7, 1)
        assert unfit_at(short) == (255, 255)
    print("each sector is where it was asked for")


if __name__ == "__main__":
    main()
