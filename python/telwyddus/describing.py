"""What an image file is, and what stands on its diskette, in words."""
from __future__ import annotations

from collections import Counter
from pathlib import Path
from typing import Any, NamedTuple

from .codes import Found
from .disks import Disk, Sector
from .geometry import NAMED, Geometry, of_medium
from .images import Format, load
from .media import Shape
from .tally import Kind, Tallied, said, tally

FILL = 0xF6
FIELDS = {Found.OK: "good", Found.DELETED: "deleted", Found.BAD_CRC: "damaged", Found.NO_DATA: "no_data", Found.NO_SIZE: "no_size"}


class Description(NamedTuple):
    """What an image file is, and what stands on its diskette."""

    path: Path
    format: Format
    length: int
    through: str
    shape: Shape
    geometry: Geometry | None
    counts: dict[str, int]
    odd: Tallied
    contents: str

    @property
    def is_odd(self) -> bool:
        """Whether a sector can't be read, or isn't where it should be."""
        return any(kind is not Kind.DELETED for kind in self.odd)

    def sentences(self) -> list[str]:
        """What is odd, in words."""
        return [said(kind, places) for kind, places in self.odd.items()]

    def as_json(self) -> dict[str, Any]:
        """It as numbers and texts."""
        return {
            "file": str(self.path), "format": self.format.name, "bytes": self.length, "through": self.through or None,
            "cylinders": self.shape.cylinders, "heads": self.shape.heads, "kilobits": self.shape.kilobits,
            "words_a_track": self.shape.words, "write_protected": bool(self.shape.is_protected),
            "geometry": geometry_as_json(self.geometry), "address_fields": self.counts, "contents": self.contents,
            "odd": {kind.value: places for kind, places in self.odd.items()}, "odd_in_words": self.sentences()}


def geometry_as_json(geometry: Geometry | None) -> dict[str, Any] | None:
    """A geometry as numbers and texts."""
    if geometry is None:
        return None
    return {"name": geometry.name, "cylinders": geometry.cylinders, "heads": geometry.heads, "sectors": geometry.sectors,
            "sector_bytes": geometry.size, "kilobits": geometry.kilobits}


def known_as(geometry: Geometry | None) -> str:
    """A geometry in words, with its name and what it is known from."""
    if geometry is None:
        return "none: the diskette isn't formatted, or no sector ID names the track that it stands on"
    about = [f"{name} ({words}): " for name, (named, words) in NAMED.items() if named == geometry]
    return "".join(about) + geometry.words()


def describe(path: Path, geometry: Geometry | None = None) -> Description:
    """Looks at an image file, and at all that stands on its diskette."""
    image = load(path, geometry)
    tray = image.tray
    shape, fields = tray.shape(), list(tray.survey())
    found = geometry or image.geometry or of_medium(shape, fields)
    odd = tally(tray, fields, found) if found else {}
    counted = Counter(field[4] for field in fields)
    counts = {"all": len(fields), **{word: counted[found] for found, word in FIELDS.items()}}
    with Disk.of(tray, found) as disk:
        contents = contents_of(disk) if found else "no sector that a PC would read"
    return Description(path, image.format, image.length, image.through, shape, found, counts, odd, contents)


def contents_of(disk: Disk) -> str:
    """What the sectors of a diskette hold, in words."""
    read = [sector for sector in disk if sector.is_good]
    plain = sum(len(set(sector.data)) == 1 for sector in read)
    if read and all(set(sector.data) == {FILL} for sector in read):
        return "nothing but the byte F6, as after a format"
    told = f"{len(read) - plain:,} of {len(disk):,} sectors hold more than one repeated byte"
    boot = next((boot_words(sector) for sector in read if sector.key == (0, 0, 1)), "")
    return f"{boot}; {told}" if boot else told


def boot_words(sector: Sector) -> str:
    """What the first sector looks like, in words."""
    data = sector.data
    if len(data) < 512 or data[510:512] != b"\x55\xAA" and data[0] not in (0xEB, 0xE9):
        return ""
    name = data[3:11].decode("ascii", "replace").strip()
    shown = "".join(letter if letter.isprintable() and letter.isascii() else "?" for letter in name)
    return f"a boot sector of the PC, made by {shown}" if shown else "a boot sector of the PC"
