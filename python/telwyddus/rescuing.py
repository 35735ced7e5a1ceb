"""Rescues: what can be read of failing diskettes goes to one image, and a map says what is still missing.

The map is one of GNU ddrescue, over the bytes of a flat file: `+` is a block that was read, `-` one that couldn't be,
`?` one that wasn't asked for yet. So ddrescuelog and ddrescueview read it, and a map that ddrescue made of a flat file
is taken too.
"""
from __future__ import annotations

import hashlib
import re
from collections.abc import Callable, Iterable, Sequence
from dataclasses import dataclass, field
from pathlib import Path

from .bus import Bus
from .disks import Disk, Sector, State
from .geometry import Geometry, Key
from .media import Tray
from .problems import Problem

GOOD, BAD, UNTRIED = "+", "-", "?"
# What ddrescue has for blocks that it read in part, or that it wants to try again.
STATUSES = "?*/-+"
BLOCK = re.compile(r"(0x[0-9A-Fa-f]+|\d+)\s+(0x[0-9A-Fa-f]+|\d+)\s+([?*/+-])")
CURRENT = re.compile(r"(0x[0-9A-Fa-f]+|\d+)\s+([?*/+F G-])(\s+\d+)?")


@dataclass
class Map:
    """What was read so far, by sector, and the sums of the files that it may belong to."""

    geometry: Geometry
    statuses: dict[Key, str]
    sums: list[str] = field(default_factory=list)

    @classmethod
    def new(cls, geometry: Geometry) -> Map:
        """A map of a diskette of which nothing was read."""
        return cls(geometry, {key: UNTRIED for key in geometry.keys()})

    @classmethod
    def parsed(cls, text: str, geometry: Geometry, path: Path) -> Map:
        """The map that a text says. A sector was read only if all of its bytes were."""
        made = cls.new(geometry)
        made.sums = re.findall(r"^# Sum of the image: ([0-9a-f]{64})$", text, re.M)
        at, has_current, statuses = 0, False, bytearray(geometry.length)
        for number, line in enumerate(text.splitlines(), 1):
            if not line.strip() or line.startswith("#"):
                continue
            if not has_current and CURRENT.fullmatch(line.strip()):
                has_current = True
                continue
            block = BLOCK.fullmatch(line.strip())
            if block is None or int(block[1], 0) != at:
                raise Problem(f"{path}: line {number} isn't one of a map, or doesn't begin where the line before ends: {line}")
            begin, at = at, at + int(block[2], 0)
            statuses[begin:at] = block[3].encode() * (at - begin)
        if at != geometry.length:
            raise Problem(f"{path} is the map of {at} bytes, and a diskette of {geometry.name} has {geometry.length}.")
        for key in made.statuses:
            part = statuses[geometry.offset(key):geometry.offset(key) + geometry.size]
            made.statuses[key] = GOOD if set(part) == set(GOOD.encode()) else chr(min(part, key=lambda it: STATUSES.index(chr(it))))
        return made

    def missing(self) -> list[Key]:
        """The sectors that weren't read yet."""
        return [key for key, status in self.statuses.items() if status != GOOD]

    def text(self, command: str) -> str:
        """The map as ddrescue writes it, with a command line in its comment."""
        lines = ["# Mapfile. Created by telwyddus", f"# Command line: {command}", f"# Geometry: {self.geometry.numbers}",
                 *(f"# Sum of the image: {total}" for total in self.sums), "# current_pos  current_status  current_pass",
                 "0x00000000     +               1", "#      pos        size  status"]
        for begin, length, status in self.blocks():
            lines.append(f"0x{begin:08X}  0x{length:08X}  {status}")
        return "\n".join(lines) + "\n"

    def blocks(self) -> list[tuple[int, int, str]]:
        """The blocks of bytes that have the same status, each as long as it can be."""
        found: list[tuple[int, int, str]] = []
        for key, status in self.statuses.items():
            begin, size = self.geometry.offset(key), self.geometry.size
            if found and found[-1][2] == status:
                found[-1] = found[-1][0], found[-1][1] + size, status
            else:
                found.append((begin, size, status))
        return found


def geometry_in(text: str) -> Geometry | None:
    """The geometry that a map names in its comment."""
    found = re.search(r"^# Geometry: (\S+)$", text, re.M)
    return Geometry.parsed(found[1]) if found else None


def sum_of(data: bytes) -> str:
    """The sum by which a map knows its image."""
    return hashlib.sha256(data).hexdigest()


class Rescue:
    """A rescue that is under way: the diskette that is filled, its map, and what was missing of each source."""

    def __init__(self, target: Disk, map: Map) -> None:
        self.target, self.map = target, map
        self.refused: dict[Key, State] = {}

    def take(self, source: Disk, keys: Iterable[Key], goes_on: Callable[[], bool], keeps_damaged: bool = False) -> int:
        """Takes sectors from a source, as long as `goes_on` says so. Returns how many could be read."""
        taken = 0
        for key in keys:
            if not goes_on():
                break
            sector = source.sector(*key)
            if sector.is_good:
                self._put(sector)
                taken += 1
                continue
            self.map.statuses[key] = BAD
            self.refused[key] = sector.state
            if keeps_damaged and sector.state is State.DAMAGED:
                self._put_damaged(source, key)
        return taken

    def _put(self, sector: Sector) -> None:
        self.target.write(0, *sector.key, sector.data, self.map.geometry.n, sector.is_deleted)
        self.map.statuses[sector.key] = GOOD
        self.refused.pop(sector.key, None)

    def _put_damaged(self, source: Disk, key: Key) -> None:
        data, status = bytes_on_track(source, key)
        if status:
            self.target.write(0, *key, data, self.map.geometry.n)

    def log(self) -> str:
        """What is missing, as the program `floppy` has it: a line `C H R CODE` for each sector."""
        lines = []
        for key in sorted(self.map.missing()):
            lines.append(f"{' '.join(map(str, key))} {self.refused.get(key, State.DAMAGED).code}\n")
        return "".join(lines)


def bytes_on_track(disk: Disk, key: Key) -> tuple[bytes, bool]:
    """The bytes of a damaged sector as they stand on the track, and whether they are there."""
    with disk.medium() as tray:
        image = tray.image()
    with Tray(image) as copy, Bus(copy) as bus:
        data, status = bus.read(key[0], key[1], (*key, disk.geometry.n))
    return data, status.is_crc_wrong


def check_geometry(source: Disk, geometry: Geometry) -> None:
    """Refuses a source of another geometry than the one that is rescued."""
    if source.geometry != geometry:
        raise Problem(f"{source.path} has another geometry ({source.geometry.name}) than the diskette that is rescued ({geometry.name}). "
                      f"If that is by damage, name it: --geometry {geometry.numbers}.")


def words_of(keys: Sequence[Key], most: int = 6) -> str:
    """The first of some sectors, in words."""
    return "; ".join(" ".join(map(str, key)) for key in keys[:most]) + (" .." if len(keys) > most else "")
