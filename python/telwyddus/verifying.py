"""The verify of an image file.

To find the geometry of a raw image by a survey takes longer than to read all its sectors. So the marks on its tracks are
counted first. If each track has as many as one of the standard geometry, the program `floppy` reads the sectors of this
geometry. Mostly that is all.
"""
from __future__ import annotations

from collections.abc import Iterator
from pathlib import Path

from . import files
from .disks import Disk, Sector, State, Verification
from .geometry import Geometry
from .images import CELLS, format_of_bytes, load
from .machines import Shelf

# Each address field and each data field begins with three marks A1: these cells, at any cell of a track.
RUN, RUN_BYTES = 0x448944894489, 6
# How long the header of a raw image is.
HEADER = 14
# The sectors of a standard track, by the data rate.
SECTORS = {500: 18, 250: 9}
# The exit statuses of `floppy verify`, if it could read the image.
DONE, SOME_REFUSED = 0, 1


def verified(path: Path, named: Geometry | None = None) -> Verification:
    """Reads every sector of an image's geometry, and says which of them can't be read."""
    if named is None:
        found = verified_by_program(files.read(path))
        if found is not None:
            return found
    image = load(path, named)
    with Disk.of(image.tray, image.geometry) as disk:
        return disk.verify()


def verified_by_program(data: bytes) -> Verification | None:
    """The verify of a raw image of the standard geometry by the program `floppy`; None if it is no such image.

    If each sector of this geometry is there, although its data may be damaged, it is the geometry that a survey finds:
    each run of marks belongs to one of these sectors, so the tracks have no other address field."""
    geometry = geometry_by_marks(data)
    if geometry is None:
        return None
    with Shelf() as shelf:
        shelf.put("image.rt", data)
        if shelf.run("verify", "image.rt") not in (DONE, SOME_REFUSED):
            return None
        lines = shelf.report().splitlines()
    bad = tuple(map(sector_of, lines[:-1]))
    if any(sector.state is not State.DAMAGED for sector in bad):
        return None
    return Verification(geometry, geometry.length // geometry.size - len(bad), bad)


def sector_of(line: str) -> Sector:
    """The sector of a line that `floppy verify` prints: cylinder, head, number and code of a sector that can't be read."""
    cylinder, head, number, code = line.split()
    return Sector(int(cylinder), int(head), int(number), b"", False, State(int(code, 16)))


def geometry_by_marks(image: bytes) -> Geometry | None:
    """The standard geometry of a raw image. It is None if not every track has two runs of marks for each of its sectors,
    one before the address and one before the data."""
    if format_of_bytes(image) is not CELLS or len(image) < HEADER:
        return None
    _, cylinders, heads, rate = image[8:12]
    kilobits = 250 if rate == 2 else 500
    length = 2 * int.from_bytes(image[12:HEADER], "big")
    if length == 0 or len(image) != HEADER + length * cylinders * heads:
        return None
    geometry = Geometry(cylinders, heads, SECTORS[kilobits], 2, kilobits)
    is_like = all(count_runs(track) == 2 * geometry.sectors for track in tracks_of(image, length))
    return geometry if is_like else None


def tracks_of(image: bytes, length: int) -> Iterator[bytes]:
    """The cells of each track of a raw image, whose tracks have so many bytes. The first cells come once more at the end,
    since a run may lie across the index."""
    for begin in range(HEADER, len(image), length):
        yield image[begin:begin + length] + image[begin:begin + RUN_BYTES]


def whole_bytes(shift: int) -> bytes:
    """The bytes that lie wholly in a run that begins so many cells after the beginning of a byte."""
    wide = (RUN << 8 - shift).to_bytes(RUN_BYTES + 1, "big")
    return wide[:RUN_BYTES] if shift == 0 else wide[1:RUN_BYTES]


NEEDLES = [whole_bytes(shift) for shift in range(8)]


def count_runs(cells: bytes) -> int:
    """How many runs there are, or more: of a run's first and last byte only whole ones are looked at."""
    count = 0
    for needle in NEEDLES:
        place = cells.find(needle)
        while place >= 0:
            count += 1
            place = cells.find(needle, place + 1)
    return count
