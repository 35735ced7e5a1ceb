"""Commands that check images: verify, compare."""
from __future__ import annotations

from pathlib import Path
from typing import Any, NamedTuple

import click

from ..disks import Disk, Sector, Verification
from ..describing import geometry_as_json
from ..geometry import Geometry
from ..verifying import verified
from . import options
from .look import sector_as_json
from .output import BAD, GOOD, count, say, say_json, watched


@click.command()
@options.images
@options.geometry
@options.as_json
def verify(images: tuple[Path, ...], geometry: Geometry | None, as_json: bool) -> int:
    """Read every sector of images, and list those that can't be read.

    The sectors are those of the image's geometry. The status is 1 if one of them can't be read. Sectors that the
    geometry doesn't have aren't asked for: `info` names them.
    """
    answers = []
    for path in watched(images, "verify"):
        verification = verified(path, geometry)
        answers.append((path, verification))
        if not as_json:
            say_verification(path, verification)
    if as_json:
        say_json([verification_as_json(path, verification) for path, verification in answers])
    return int(not all(verification for _, verification in answers))


def say_verification(path: Path, verification: Verification) -> None:
    """Prints what a verify found."""
    for sector in verification.bad:
        say(f"{path}: sector {' '.join(map(str, sector.key))}: {sector.state.words} ({sector.state.code})", BAD)
    words = f"{verification.good:,} of {count(verification.asked, 'sector')} can be read"
    say(f"{path}: {words} ({verification.geometry.name})", GOOD if verification else BAD)


def verification_as_json(path: Path, verification: Verification) -> dict[str, Any]:
    """What a verify found, as numbers and texts."""
    return {"file": str(path), "geometry": geometry_as_json(verification.geometry), "asked": verification.asked, "good": verification.good,
            "bad": [sector_as_json(sector) for sector in verification.bad]}


class Difference(NamedTuple):
    """A sector in which two images differ, and how, in words."""

    key: tuple[int, int, int]
    words: str


@click.command()
@click.argument("first", metavar="A", type=options.IMAGE)
@click.argument("second", metavar="B", type=options.IMAGE)
@options.geometry
@options.as_json
def compare(first: Path, second: Path, geometry: Geometry | None, as_json: bool) -> int:
    """Compare two images sector by sector.

    The images may have different formats. A line says which sector differs, and how. The status is 1 if one does. Two
    sectors that can't be read in the same way count as the same.
    """
    with Disk.open(first, geometry) as one, Disk.open(second, geometry) as other:
        found = differences(one, other)
        asked = len(one)
    if as_json:
        say_json({"files": [str(first), str(second)], "sectors": asked,
                  "different": [{"cylinder": it.key[0], "head": it.key[1], "sector": it.key[2], "words": it.words} for it in found]})
    else:
        for difference in found:
            say(f"sector {' '.join(map(str, difference.key))}: {difference.words}", BAD)
        say(f"{count(asked, 'sector')} compared: " + (f"{len(found):,} differ" if found else "all are the same"), BAD if found else GOOD)
    return int(bool(found))


def differences(one: Disk, other: Disk) -> list[Difference]:
    """The sectors in which two diskettes differ."""
    first, second = ({sector.key: sector for sector in disk} for disk in (one, other))
    found = []
    for key in sorted(first.keys() | second.keys()):
        if key not in first or key not in second:
            found.append(Difference(key, f"only {'A' if key in first else 'B'} has it"))
        elif how := difference(first[key], second[key]):
            found.append(Difference(key, how))
    return found


def difference(one: Sector, other: Sector) -> str:
    """How two sectors differ, in words; nothing if they don't."""
    if one.state is not other.state:
        return f"A: {one.state.words}; B: {other.state.words}"
    told = []
    places = [place for place, pair in enumerate(zip(one.data, other.data)) if pair[0] != pair[1]]
    if len(one.data) != len(other.data):
        told.append(f"A has {len(one.data)} bytes, and B has {len(other.data)}")
    elif places:
        at = places[0]
        told.append(f"{count(len(places), 'byte')} differ, the first at {at}: {one.data[at]:02X} in A, {other.data[at]:02X} in B")
    if one.is_deleted != other.is_deleted:
        told.append(f"only {'A' if one.is_deleted else 'B'} is marked deleted")
    return "; ".join(told)
