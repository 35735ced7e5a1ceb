"""What stands on a medium beside the plain sectors of its geometry, by kind, and how that is said."""
from __future__ import annotations

import enum
from collections import Counter, defaultdict
from collections.abc import Iterable, Sequence
from typing import NamedTuple

from .cells import cells_of, extents_of, lost_addresses
from .codes import Found
from .geometry import SIZE_CODES, Geometry
from .media import Surveyed, Tray

# How many places a line names at most.
NAMED_PLACES = 6
Tallied = dict["Kind", list[str]]


class Kind(enum.Enum):
    """A kind of what isn't a plain sector of the geometry."""

    DELETED = "deleted"
    DAMAGED = "damaged"
    NO_DATA = "no_data"
    MISSING = "missing"
    UNFORMATTED = "unformatted"
    ODD = "odd"
    AGAIN = "again"
    MIXED = "mixed"
    BAD_ADDRESS = "bad_address"


class Words(NamedTuple):
    """How a kind is said of one, and of several."""

    one: str
    many: str


SAID = {
    Kind.DELETED: Words("sector is marked deleted", "sectors are marked deleted"),
    Kind.DAMAGED: Words("sector is damaged: the CRC of its data is wrong", "sectors are damaged: the CRC of their data is wrong"),
    Kind.NO_DATA: Words("sector has an address field and no data", "sectors have an address field and no data"),
    Kind.MISSING: Words("sector isn't there", "sectors aren't there"),
    Kind.UNFORMATTED: Words("track isn't formatted", "tracks aren't formatted"),
    Kind.ODD: Words("sector isn't of the geometry", "sectors aren't of the geometry"),
    Kind.AGAIN: Words("sector has the ID of another one on its track", "sectors have the ID of another one on their track"),
    Kind.MIXED: Words("track has sectors of several sizes", "tracks have sectors of several sizes"),
    Kind.BAD_ADDRESS: Words("address field has a wrong CRC of its own", "address fields have a wrong CRC of their own")}
# What becomes of a kind in a flat file, or that it is left out.
LOST_BY_FLAT = {
    Kind.DELETED: "the mark is lost", Kind.DAMAGED: "stored as good, with the bytes that are there", Kind.NO_DATA: "filled with F6",
    Kind.MISSING: "filled with F6", Kind.UNFORMATTED: "filled with F6", Kind.ODD: "left out", Kind.AGAIN: "left out", Kind.BAD_ADDRESS: "left out"}
LOST_BY_IMAGEDISK = {Kind.MIXED: "the sectors that aren't of the geometry are left out", Kind.BAD_ADDRESS: "left out"}
LOST_BY_COPY = {Kind.ODD: "left out", Kind.AGAIN: "left out", Kind.BAD_ADDRESS: "left out"}
FOUND = {Found.DELETED: Kind.DELETED, Found.BAD_CRC: Kind.DAMAGED, Found.NO_DATA: Kind.NO_DATA, Found.NO_SIZE: Kind.ODD}


def tally(tray: Tray, fields: Sequence[Surveyed], geometry: Geometry) -> Tallied:
    """What stands on a medium beside the plain sectors of a geometry. Each kind has the places where it is."""
    found = of_fields(fields, geometry)
    found[Kind.BAD_ADDRESS] = bad_addresses(tray, fields)
    return {kind: found[kind] for kind in Kind if found[kind]}


def of_fields(fields: Sequence[Surveyed], geometry: Geometry) -> dict[Kind, list[str]]:
    """The same, of address fields alone."""
    wanted = {(*key, geometry.n) for key in geometry.keys()}
    by_kind: dict[Kind, list[str]] = defaultdict(list)
    seen: Counter[tuple[int, int, int, int]] = Counter()
    for cylinder, head, _, key, found in fields:
        if key not in wanted or key[:2] != (cylinder, head):
            by_kind[Kind.ODD].append(f"{' '.join(map(str, key))} on track {cylinder} {head}")
            continue
        seen[key] += 1
        if seen[key] > 1:
            by_kind[Kind.AGAIN].append(place_of(key))
        elif found in FOUND:
            by_kind[FOUND[found]].append(place_of(key))
    formatted = {field[:2] for field in fields}
    by_kind[Kind.UNFORMATTED] = [place_of(track) for track in geometry.tracks() if track not in formatted]
    by_kind[Kind.MISSING] = [place_of(key) for key in sorted(wanted - seen.keys()) if key[:2] in formatted]
    by_kind[Kind.MIXED] = [place_of(track) for track in mixed(fields)]
    return by_kind


def mixed(fields: Iterable[Surveyed]) -> list[tuple[int, int]]:
    """The tracks whose sectors have several sizes, or sizes that no drive has."""
    sizes: dict[tuple[int, int], set[int]] = defaultdict(set)
    for cylinder, head, _, key, _ in fields:
        sizes[cylinder, head].add(key[3])
    return [track for track, found in sizes.items() if len(found) > 1 or not found <= set(SIZE_CODES)]


def bad_addresses(tray: Tray, fields: Iterable[Surveyed]) -> list[str]:
    """The tracks that have address marks without an intact field, each as often as it has one."""
    lines: dict[tuple[int, int], list[tuple[int, tuple[int, int, int, int], Found]]] = defaultdict(list)
    for cylinder, head, cell, key, found in fields:
        lines[cylinder, head].append((cell, key, found))
    shape, told = tray.shape(), []
    for cylinder in range(shape.cylinders):
        for head in range(shape.heads):
            cells = cells_of(tray.track(cylinder, head))
            told += [f"{cylinder} {head}"] * lost_addresses(cells, extents_of(cells, lines[cylinder, head]))
    return told


def losses(found: Tallied, lost: dict[Kind, str]) -> list[str]:
    """What a file format loses of a medium, in words."""
    return [f"{said(kind, places)} ({lost[kind]})" for kind, places in found.items() if kind in lost]


def said(kind: Kind, places: Sequence[str]) -> str:
    """How many there are of a kind, and where the first ones are."""
    words = SAID[kind].one if len(places) == 1 else SAID[kind].many
    distinct = list(dict.fromkeys(places))
    return f"{len(places)} {words}: {'; '.join(distinct[:NAMED_PLACES])}{' ..' if len(distinct) > NAMED_PLACES else ''}"


def place_of(key: tuple[int, ...]) -> str:
    """The cylinder, head and number of a sector, or the cylinder and head of a track."""
    return " ".join(map(str, key[:3]))
