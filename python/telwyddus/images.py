"""Image files: which format a file has, the medium of a file, and the file of a medium.

Three formats are the library's own work: the cells of all tracks (`.rt`), flat sector files (`.img`, `.ima` ..) and
ImageDisk files (`.imd`). Others go through other programs: see `outside`.
"""
from __future__ import annotations

import contextlib
from pathlib import Path
from typing import NamedTuple

from . import files, outside, tally
from .bus import Bus
from .codes import BadImage, OutOfRange, Unfit
from .geometry import Geometry, of_length, of_medium
from .machines import Desk
from .media import Tray
from .problems import Loss, Problem

# The gap 3 of diskettes whose sectors leave no room for the library's least gap of 16 bytes, as of DMF.
NARROW_GAP = 8
FILL = 0xF6


class Format(NamedTuple):
    """A format of image files."""

    name: str
    suffixes: tuple[str, ...]
    words: str


CELLS = Format("cells", (".rt",), "raw image (the cells of all tracks)")
FLAT = Format("flat", (".img", ".ima", ".flat", ".dsk", ".vfd", ".st", ".flp", ".fd", ".360", ".720", ".144"), "flat sector file")
IMAGEDISK = Format("imd", (".imd",), "ImageDisk file")
FORMATS = (CELLS, FLAT, IMAGEDISK)


class Image(NamedTuple):
    """A file that was read: its medium, its format, and its geometry if the format has one. `through` names the
    program that turned it into a file that the library takes. A raw image's bytes are `cells`."""

    tray: Tray
    format: Format
    geometry: Geometry | None
    length: int
    through: str = ""
    cells: bytes = b""


def format_of_bytes(data: bytes) -> Format:
    """The format that a file's first bytes say. A flat file has nothing to know it by."""
    if data.startswith((b"RTIMAGE1", b"RTIMAGE2")):
        return CELLS
    return IMAGEDISK if data.startswith(b"IMD ") else FLAT


def format_of_name(path: Path, named: str | None = None) -> Format | None:
    """The format that is named, or the one that a path's suffix names; None if it is none of the library's."""
    for format in FORMATS:
        if named == format.name or named is None and path.suffix.lower() in format.suffixes:
            return format
    return None


def load(path: Path, geometry: Geometry | None = None) -> Image:
    """Reads an image file, whatever its format. A flat file of an unknown length needs its geometry."""
    data = files.read(path)
    format = format_of_bytes(data)
    if format is FLAT and outside.needed_for(path, data):
        made, through = outside.taken_in(path, geometry)
        image = of_bytes(made, path, geometry)
        return image._replace(length=len(data), through=through)
    return of_bytes(data, path, geometry)


def of_bytes(data: bytes, path: Path, geometry: Geometry | None = None) -> Image:
    """The medium of a file's bytes. `path` is named if they are wrong."""
    format = format_of_bytes(data)
    try:
        if format is CELLS:
            return Image(Tray(data), format, geometry, len(data), cells=data)
        if format is IMAGEDISK:
            return Image(Tray.of_imd(data), format, geometry, len(data))
    except BadImage as refused:
        raise Problem(f"{path} begins like {article(format)}, and is none: it is damaged, or cut short.") from refused
    except Unfit as unfit:
        raise Problem(f"{path}: track {unfit.cylinder} {unfit.head} has more sectors than the library lays out from an ImageDisk file. Make a "
                      "flat file of it (dsktrans -otype raw), and convert that with --geometry.") from unfit
    found = geometry or of_length(len(data))
    if found is None:
        raise Problem(f"{path} has {len(data)} bytes, which is no flat file of a known geometry. Name its geometry: --geometry 80x2x18x512@500.")
    return Image(of_flat(data, found), format, found, len(data))


def article(format: Format) -> str:
    """A format's words with their article."""
    return f"an {format.words}" if format.words[0] in "AEIOU" else f"a {format.words}"


def of_flat(data: bytes, geometry: Geometry) -> Tray:
    """The medium of a flat file."""
    if len(data) != geometry.length:
        raise Problem(f"A flat file of {geometry.name} has {geometry.length} bytes, and this one has {len(data)}.")
    try:
        return Tray.of_flat_as(data, *geometry)
    except OutOfRange as refused:
        raise Problem(f"No medium of the library has this geometry: {geometry.words()}.") from refused
    except Unfit:
        return of_flat_with_narrow_gaps(data, geometry)


def of_flat_with_narrow_gaps(data: bytes, geometry: Geometry) -> Tray:
    """The medium of a flat file whose sectors have room only with a gap 3 as narrow as DMF's. The controller formats
    its tracks, and the driver writes its sectors."""
    tray = formatted_with_gap(geometry, NARROW_GAP)
    with Desk() as desk:
        desk.insert(0, tray)
        desk.acknowledge(0)
        desk.set_rate(0, geometry.kilobits)
        for key in geometry.keys():
            sector = data[geometry.offset(key):geometry.offset(key) + geometry.size]
            if sector.strip(bytes([FILL])):
                desk.write(0, *key, sector, geometry.n)
        return desk.eject(0)


def formatted_with_gap(geometry: Geometry, gap: int) -> Tray:
    """A medium whose tracks the controller formats with a gap 3 of so many bytes."""
    if geometry.heads != 2:
        raise Problem(f"Only a diskette with two heads can have so many sectors a track: {geometry.words()}.")
    with Tray.blank(geometry.cylinders, geometry.kilobits) as blank, Bus(blank) as bus:
        for cylinder, head in geometry.tracks():
            keys = [(cylinder, head, sector, geometry.n) for sector in range(1, geometry.sectors + 1)]
            if not bus.format(cylinder, head, keys, gap, FILL):
                raise Problem(f"A track has no room for {geometry.sectors} sectors of {geometry.size} bytes at {geometry.kilobits} kbit/s.")
        return bus.eject()


def formatted(geometry: Geometry) -> Tray:
    """A formatted medium, whose bytes are all F6."""
    return of_flat(bytes([FILL]) * geometry.length, geometry)


class Made(NamedTuple):
    """The file of a medium, and what it couldn't hold."""

    data: bytes
    losses: list[str]


def bytes_of(tray: Tray, format: Format, geometry: Geometry | None = None, lossy: bool = False) -> Made:
    """The file of a medium in a format. If the format can't hold all of the medium, Loss is raised, unless `lossy`
    allows it. The tray keeps its medium."""
    if format is CELLS:
        return Made(tray.image(), [])
    fields = list(tray.survey())
    found = geometry or of_medium(tray.shape(), fields)
    if found is None:
        raise Problem("The diskette isn't formatted, or no sector ID names the track that it stands on. So there is no sector to store.")
    lost = tally.losses(tally.tally(tray, fields, found), tally.LOST_BY_FLAT if format is FLAT else tally.LOST_BY_IMAGEDISK)
    if lost and not lossy:
        raise Loss(f"A{article(format)[1:]} can't hold all that is on this diskette.", lost)
    return Made(flat_of(tray, found) if format is FLAT else imd_of(tray, found), lost)


def flat_of(tray: Tray, geometry: Geometry) -> bytes:
    """The flat file of a medium. Sectors that can't be read have the bytes that are there, or F6 if none are."""
    with contextlib.suppress(Unfit, OutOfRange):
        return tray.flat_as(*geometry)
    flat = bytearray([FILL]) * geometry.length
    with Tray(tray.image()) as copy, Bus(copy) as bus:
        for key in geometry.keys():
            data, status = bus.read(key[0], key[1], (*key, geometry.n))
            if status.is_done or status.is_crc_wrong:
                flat[geometry.offset(key):geometry.offset(key) + geometry.size] = data
    return bytes(flat)


def imd_of(tray: Tray, geometry: Geometry) -> bytes:
    """The ImageDisk file of a medium. If it can't have a track, only the sectors of the geometry go in."""
    try:
        return tray.imd()
    except Unfit:
        with of_flat(flat_of(tray, geometry), geometry) as plain:
            return plain.imd()


def save(tray: Tray, path: Path, geometry: Geometry | None = None, force: bool = False, lossy: bool = False, to: str | None = None) -> list[str]:
    """Stores a medium in the format that is named, or that the path's suffix names. Returns what that can't hold, if
    `lossy` allowed it."""
    files.check_is_free(path, force)
    format = format_of_name(path, to)
    if format is None:
        return outside.store(tray, path, geometry, force, lossy, to)
    made = bytes_of(tray, format, geometry, lossy)
    files.store(path, made.data, force)
    return made.losses
