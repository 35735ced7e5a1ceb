#!/usr/bin/env python3
"""Opens an image with the program `floppy`, on files in memory: its sectors one by one, the fields of a track, and a
flat file."""
import disks
from telwyddus import NoFile, Shelf

CYLINDERS, DAMAGED = 2, (1, 0, 3)


class Image:
    """An image on a shelf that holds only this image."""

    def __init__(self, image):
        self.shelf = Shelf()
        self.shelf.put("disk.rt", image)

    def __enter__(self):
        return self

    def __exit__(self, *_):
        self.shelf.close()

    def sector(self, c, h, r):
        """The sector's bytes, or None if the program refuses to read it."""
        self.shelf.put("job", f"insert 0 disk.rt\nack 0\nread 0 {c} {h} {r} 2 10000\ndump 10000 512\n".encode())
        status = self.shelf.run("play", "job")
        report = self.shelf.report().splitlines()
        assert report[:2] == ["insert ok", "ack ok"] and status == (report[2] != "read ok")
        return None if status else bytes.fromhex("".join(line.partition(" ")[2] for line in report[3:]))

    def sectors(self):
        for c in range(CYLINDERS):
            for h in range(2):
                for r in range(1, 19):
                    yield (c, h, r), self.sector(c, h, r)

    def fields(self, c, h):
        """The address fields of a track: the first cell of each, its sector ID, and the state of its data."""
        assert self.shelf.run("survey", "disk.rt") == 0
        for line in self.shelf.report().splitlines():
            words = line.split()
            if words[:2] == [str(c), str(h)] and len(words) == 8:
                yield int(words[2]), tuple(map(int, words[3:7])), words[7]


def content(c, h, r):
    return bytes((3 * i + 64 * c + 32 * h + r) % 256 for i in range(512))


def disk(cylinders):
    """A disk in which each sector has other content, and one word of one sector is damaged."""
    made = disks.formatted(cylinders)
    for c in range(CYLINDERS):
        for h in range(2):
            for r in range(1, 19):
                made.write(r, content(c, h, r), track=2 * c + h)
    return made


def spoilt(made, c, h, r):
    made.tracks[2 * c + h][disks.window_place(r) + 100] = 0
    return made


def check_sectors():
    with Image(spoilt(disk(CYLINDERS), *DAMAGED).file()) as image:
        for key, sector in image.sectors():
            assert sector == (None if key == DAMAGED else content(*key))
        print(f"72 sectors, of which {DAMAGED} is damaged")
        # The three A1 of a field come after 12 bytes 00.
        wanted = [((disks.address_place(r) + 12) * 16, (1, 0, r, 2), "10" if r == 3 else "ok") for r in range(1, 19)]
        assert list(image.fields(1, 0)) == wanted
        print("the fields of track 1 0 begin at the cells", ", ".join(str(cell) for cell, _, _ in wanted[:4]), "..")


def check_flat():
    """Exports a whole disk to a flat file, and imports it again."""
    whole = disk(80)
    flat = b"".join(content(c, h, r) if c < CYLINDERS else b"\xF6" * 512 for c in range(80) for h in range(2) for r in range(1, 19))
    with Shelf() as shelf:
        shelf.put("disk.rt", whole.file())
        assert shelf.run("export", "disk.rt", "disk.flat") == 0 and shelf.report() == "export ok 2880\n"
        assert shelf.get("disk.flat") == flat
        assert shelf.run("import", "disk.flat", "again.rt") == 0 and shelf.report() == "import ok 2880\n"
        assert shelf.get("again.rt") == whole.file()
        assert shelf.run("verify", "nowhere.rt") == 5 and shelf.report() == "nowhere.rt absent\n"
        try:
            shelf.get("nowhere.rt")
            assert False
        except NoFile:
            pass
    print("2880 sectors out and in: the image is the same")


check_sectors()
check_flat()
