"""Geometries of diskettes: their names, the flat files that they make, and the one that a medium has."""
from __future__ import annotations

import re
from collections import Counter, defaultdict
from collections.abc import Iterable, Iterator
from typing import NamedTuple

from .media import Shape, Surveyed

# A sector of a geometry: cylinder, head and sector number.
Key = tuple[int, int, int]
# 128 << n bytes are the size of a sector with the size code n.
SIZE_CODES = range(1, 7)
RATES = (250, 500)
# A track with more bytes than this is one of 500 kbit/s, if nobody says otherwise.
MOST_DOUBLE_DENSITY = 5120


class Geometry(NamedTuple):
    """How many cylinders and heads a diskette has, which sectors each of its tracks has, and its data rate."""

    cylinders: int
    heads: int
    sectors: int
    n: int = 2
    kilobits: int = 500

    @property
    def size(self) -> int:
        """The bytes of a sector."""
        return 128 << self.n

    @property
    def length(self) -> int:
        """The bytes of a flat file."""
        return self.cylinders * self.heads * self.sectors * self.size

    @property
    def name(self) -> str:
        """The name by which people know it, or else its numbers."""
        names = [name for name, (geometry, _) in NAMED.items() if geometry == self]
        return names[0] if names else self.numbers

    @property
    def numbers(self) -> str:
        """Its numbers, in the form that `parsed` takes."""
        return f"{self.cylinders}x{self.heads}x{self.sectors}x{self.size}@{self.kilobits}"

    def words(self) -> str:
        """It in words."""
        count = "1 head" if self.heads == 1 else f"{self.heads} heads"
        return f"{self.cylinders} cylinders, {count}, {self.sectors} sectors of {self.size} bytes a track, {self.kilobits} kbit/s"

    def keys(self) -> Iterator[Key]:
        """Its sectors, in the order of a flat file."""
        for cylinder, head in self.tracks():
            for sector in range(1, self.sectors + 1):
                yield cylinder, head, sector

    def tracks(self) -> Iterator[tuple[int, int]]:
        """Its tracks, in the order of a flat file."""
        for cylinder in range(self.cylinders):
            for head in range(self.heads):
                yield cylinder, head

    def offset(self, key: Key) -> int:
        """Where a sector begins in a flat file."""
        cylinder, head, sector = key
        return ((cylinder * self.heads + head) * self.sectors + sector - 1) * self.size

    @classmethod
    def parsed(cls, text: str) -> Geometry:
        """The geometry that a text names: 1.44M, dmf .., or numbers as in 80x2x18, 80x2x18x512 or 80x2x18x512@500."""
        for name, (geometry, _) in NAMED.items():
            if name.lower() == text.lower():
                return geometry
        found = re.fullmatch(r"(\d+)x(\d+)x(\d+)(?:x(\d+))?(?:@(\d+))?", text)
        if found is None:
            raise ValueError(f"{text} names no geometry. Name one of {', '.join(NAMED)}, or its numbers: 80x2x18x512@500")
        cylinders, heads, sectors, size, kilobits = (int(word) if word else 0 for word in found.groups())
        geometry = cls(cylinders, heads, sectors, size_code(size or 512), kilobits or (500 if sectors * (size or 512) > MOST_DOUBLE_DENSITY else 250))
        if not (1 <= cylinders <= 80 and heads in (1, 2) and 1 <= sectors <= 255 and geometry.kilobits in RATES):
            raise ValueError(f"{text} is no geometry of a diskette: it has 1 to 80 cylinders, 1 or 2 heads, 1 to 255 sectors, and 250 or 500 kbit/s")
        return geometry


def size_code(size: int) -> int:
    """The size code of a sector's size."""
    for n in SIZE_CODES:
        if 128 << n == size:
            return n
    raise ValueError(f"no sector has {size} bytes: 256, 512, 1024, 2048, 4096 and 8192 are the sizes")


# The geometries that have a name, with what they are known from. No two make flat files of the same length.
NAMED = {
    "1.44M": (Geometry(80, 2, 18), "3.5 inch HD of the PC"),
    "720K": (Geometry(80, 2, 9, 2, 250), "3.5 inch DD of the PC and the Atari ST"),
    "DMF": (Geometry(80, 2, 21), "Microsoft's distribution diskettes, 1.68 MB"),
    "1.6M": (Geometry(80, 2, 20), "20 sectors a track"),
    "1.2M": (Geometry(80, 2, 15), "5.25 inch HD of the PC"),
    "1.23M": (Geometry(77, 2, 8, 3), "HD of the PC-98 and the X68000"),
    "800K": (Geometry(80, 2, 10, 2, 250), "10 sectors a track, DD"),
    "360K": (Geometry(40, 2, 9, 2, 250), "5.25 inch DD of the PC"),
    "320K": (Geometry(40, 2, 8, 2, 250), "5.25 inch DD of the PC, 8 sectors a track"),
    "180K": (Geometry(40, 1, 9, 2, 250), "5.25 inch of the PC, single-sided"),
    "160K": (Geometry(40, 1, 8, 2, 250), "5.25 inch of the PC, single-sided, 8 sectors a track"),
    "640K": (Geometry(80, 2, 8, 2, 250), "8 sectors a track, DD"),
}


def of_length(length: int) -> Geometry | None:
    """The named geometry whose flat files have this length."""
    return next((geometry for geometry, _ in NAMED.values() if geometry.length == length), None)


def of_medium(shape: Shape, fields: Iterable[Surveyed]) -> Geometry | None:
    """The geometry that a medium was formatted with, by its address fields; None if it has none.

    It is what most tracks say, so that damage to some doesn't matter. Cylinders and heads are those of the medium,
    unless head 1, or the upper half of the cylinders, has no address field at all."""
    fields = [field for field in fields if field[3][:2] == field[:2] and field[3][3] in SIZE_CODES]
    if not fields:
        return None
    n = Counter(key[3] for *_, key, _ in fields).most_common(1)[0][0]
    highest: dict[tuple[int, int], int] = defaultdict(int)
    for cylinder, head, _, key, _ in fields:
        if key[3] == n:
            highest[cylinder, head] = max(highest[cylinder, head], key[2])
    sectors = Counter(highest.values()).most_common(1)[0][0]
    used, heads = 1 + max(cylinder for cylinder, _ in highest), 1 + max(head for _, head in highest)
    cylinders = used if 2 * used <= shape.cylinders else shape.cylinders
    return Geometry(cylinders, min(heads, shape.heads), max(sectors, 1), n, shape.kilobits)
