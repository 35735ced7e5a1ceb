"""A diskette in a drive, as one reads a book: its sectors by cylinder, head and number, and what stands on it.

    with Disk.open("games.rt") as disk:
        boot = disk[0, 0, 1]
        for sector in disk:
            print(sector.key, sector.state)
        if not disk.verify():
            print(*disk.verify().bad)
"""
from __future__ import annotations

import contextlib
import enum
import os
from collections.abc import Iterator
from pathlib import Path
from typing import NamedTuple

from .binding import Data
from .codes import BadCrc, Found, NoMark, NotFound, Overrun, Refused, Seek
from .geometry import Geometry, Key, of_medium, size_code
from .machines import Desk
from .media import Shape, Tray
from .problems import Problem

BAY = 0


class State(enum.Enum):
    """What a read of a sector finds. The value is the code that the program `floppy` prints for it."""

    GOOD = 0x00
    NO_DATA = 0x02
    MISSING = 0x04
    LATE = 0x08
    DAMAGED = 0x10
    NO_TRACK_0 = 0x40

    @property
    def words(self) -> str:
        """It in words."""
        return WORDS[self]

    @property
    def code(self) -> str:
        """The code, as `floppy` prints it: two digits, hexadecimal."""
        return f"{self.value:02X}"


WORDS = {
    State.GOOD: "good", State.NO_DATA: "no address mark, or no data", State.MISSING: "no sector with this number",
    State.LATE: "DMA came too late", State.DAMAGED: "the CRC of its data is wrong", State.NO_TRACK_0: "the heads don't find track 0"}
STATES: dict[type[Refused], State] = {
    NoMark: State.NO_DATA, NotFound: State.MISSING, Overrun: State.LATE, BadCrc: State.DAMAGED, Seek: State.NO_TRACK_0}


class Sector(NamedTuple):
    """A sector that was read, or tried. `data` is empty if it couldn't be read."""

    cylinder: int
    head: int
    number: int
    data: bytes
    is_deleted: bool
    state: State

    @property
    def key(self) -> Key:
        """Its cylinder, head and number."""
        return self.cylinder, self.head, self.number

    @property
    def is_good(self) -> bool:
        """Whether it was read."""
        return self.state is State.GOOD


class Field(NamedTuple):
    """An address field of a track, and what stands after it."""

    cylinder: int
    head: int
    cell: int
    key: tuple[int, int, int, int]
    found: Found


class Verification(NamedTuple):
    """What a verify found. It is true if every sector could be read."""

    geometry: Geometry
    good: int
    bad: tuple[Sector, ...]

    @property
    def asked(self) -> int:
        """How many sectors were asked for."""
        return self.good + len(self.bad)

    def __bool__(self) -> bool:
        return not self.bad


class Disk(Desk):
    """A diskette in drive 0 of a PC/AT, with the sectors of its geometry. Sectors are read, written and found by the
    driver of the library, through its controller, down to the cells.

    It is a `Desk` too: `Disk()` has two empty drives, and the calls that name a bay work on them."""

    path: Path | None = None
    _geometry: Geometry | None = None
    _lent: Tray | None = None

    @classmethod
    def open(cls, path: str | os.PathLike[str], geometry: Geometry | str | None = None) -> Disk:
        """The diskette of an image file of any format that the library has. A read never writes: what is changed here
        is stored by `save` alone."""
        from .images import load
        named = Geometry.parsed(geometry) if isinstance(geometry, str) else geometry
        image = load(Path(path), named)
        disk = cls.of(image.tray, named or image.geometry)
        disk.path = Path(path)
        return disk

    @classmethod
    def of(cls, tray: Tray, geometry: Geometry | None = None) -> Disk:
        """The diskette that a tray has. The tray is empty afterwards."""
        disk = cls()
        disk._geometry = geometry
        disk._put_in(tray)
        return disk

    @classmethod
    def new(cls, geometry: Geometry | str = "1.44M") -> Disk:
        """A formatted diskette, whose bytes are all F6."""
        from .images import formatted
        named = Geometry.parsed(geometry) if isinstance(geometry, str) else geometry
        return cls.of(formatted(named), named)

    def _put_in(self, tray: Tray) -> None:
        kilobits = tray.shape().kilobits
        self.insert(BAY, tray)
        self.acknowledge(BAY)
        # The acknowledgement takes the rate from the address fields of one track, which may have none.
        self.set_rate(BAY, kilobits)

    @contextlib.contextmanager
    def medium(self) -> Iterator[Tray]:
        """The diskette out of its drive, as a tray, for the time of a `with`. In a second `with` it is the same tray."""
        with self._lock:
            if self._lent is not None:
                yield self._lent
                return
            with self.eject(BAY) as tray:
                self._lent = tray
                try:
                    yield tray
                finally:
                    self._lent = None
                    self._put_in(tray)

    @property
    def shape(self) -> Shape:
        """Tracks, rate and write protection of the medium."""
        with self.medium() as tray:
            return tray.shape()

    @property
    def geometry(self) -> Geometry:
        """The geometry: the one that was given, or else the one that most of its tracks have."""
        if self._geometry is None:
            with self.medium() as tray:
                self._geometry = of_medium(tray.shape(), tray.survey())
        if self._geometry is None:
            raise Problem("The diskette isn't formatted, or no sector ID names the track that it stands on. Name the geometry if you know it.")
        return self._geometry

    def take_size(self, size: int) -> None:
        """Asks for sectors of so many bytes from now on."""
        try:
            self._geometry = self.geometry._replace(n=size_code(size))
        except ValueError as fault:
            raise Problem(f"{fault}.") from fault

    def sector(self, cylinder: int, head: int, number: int) -> Sector:
        """A sector, read or tried."""
        try:
            data, is_deleted = self.read(BAY, cylinder, head, number, self.geometry.n)
        except (NoMark, NotFound, Overrun, BadCrc, Seek) as refused:
            return Sector(cylinder, head, number, b"", False, STATES[type(refused)])
        return Sector(cylinder, head, number, data, is_deleted, State.GOOD)

    def __getitem__(self, key: Key) -> bytes:
        """The bytes of a sector. If it can't be read, the exception says why: BadCrc, NotFound, NoMark .."""
        return self.read(BAY, *key, self.geometry.n)[0]

    def __setitem__(self, key: Key, data: Data) -> None:
        """Writes the bytes of a sector, and reads them back."""
        self.write(BAY, *key, data, self.geometry.n)

    def __iter__(self) -> Iterator[Sector]:
        """Its sectors, in the order of a flat file, each read or tried."""
        return (self.sector(*key) for key in self.geometry.keys())

    def __len__(self) -> int:
        """How many sectors its geometry has."""
        geometry = self.geometry
        return geometry.cylinders * geometry.heads * geometry.sectors

    def __contains__(self, key: object) -> bool:
        """Whether its geometry has this sector."""
        cylinders, heads, sectors, *_ = self.geometry
        return (isinstance(key, tuple) and len(key) == 3 and key[0] in range(cylinders) and key[1] in range(heads)
                and key[2] in range(1, sectors + 1))

    def verify(self) -> Verification:
        """Reads every sector of its geometry, and says which of them can't be read."""
        geometry, bad = self.geometry, []
        for key, refused in zip(geometry.keys(), self.tried(BAY, geometry.keys(), geometry.n)):
            if refused is not None:
                bad.append(Sector(*key, b"", False, self._state_of(refused)))
        return Verification(geometry, len(self) - len(bad), tuple(bad))

    @staticmethod
    def _state_of(refused: type[Refused]) -> State:
        """What a refusal says of a sector. If it speaks of anything else, it is raised."""
        if refused not in STATES:
            raise refused(f"disk_read: {refused.__doc__}")
        return STATES[refused]

    def survey(self) -> list[Field]:
        """Its address fields, by cylinder, head and place, whatever geometry they are of."""
        with self.medium() as tray:
            return [Field(*field) for field in tray.survey()]

    def image(self) -> bytes:
        """Its image file: the cells of all tracks."""
        with self.medium() as tray:
            return tray.image()

    def save(self, path: str | os.PathLike[str], force: bool = False, lossy: bool = False) -> None:
        """Stores it in the format of the path's suffix: `.rt`, `.imd`, `.img` .. A file that is there is replaced only
        with `force`. If the format can't hold all of the diskette, Loss is raised, unless `lossy` allows it."""
        from .images import save
        with self.medium() as tray:
            save(tray, Path(path), geometry=self._geometry, force=force, lossy=lossy)

