"""Media that are in no drive: what a medium is, what stands on it, and the files that hold it."""
from __future__ import annotations

import ctypes
from collections.abc import Callable, Iterable, Iterator
from typing import Any, TypeVar

from .binding import Data, Holder, byte, given, number, port, size
from .codes import Found, Unfit

Answer = TypeVar("Answer")
# An address field: cylinder and head of the track, the first cell, (C, H, R, N), and what was found after it.
Surveyed = tuple[int, int, int, tuple[int, int, int, int], Found]
# How many bytes a survey has for each address field.
FIELD = 11
# How many address fields most media have at most. A survey of more takes twice as long.
USUAL_FIELDS = 160 * 24


class Shape(ctypes.Structure):
    """All that a medium is, except its cells."""

    words: int
    kilobits: int
    cylinders: int
    heads: int
    is_protected: int
    _fields_ = [("words", ctypes.c_uint16), ("kilobits", ctypes.c_uint16), ("cylinders", ctypes.c_uint8), ("heads", ctypes.c_uint8),
                ("is_protected", ctypes.c_uint8)]


class Place:
    """The cylinder and the head that a call hands out if a track is unfit."""

    def __init__(self) -> None:
        self.pair = (ctypes.c_uint8 * 2)()
        self.pointers = ctypes.byref(self.pair), ctypes.byref(self.pair, 1)

    def told(self, call: Callable[[], Answer]) -> Answer:
        """Makes a call. If it raises Unfit, the exception gets the place."""
        try:
            return call()
        except Unfit as refused:
            refused.cylinder, refused.head = self.pair
            raise


class Tray(Holder):
    """A medium outside a drive, made of an image file's bytes. Without bytes it is an empty tray for an eject to fill."""

    kind = "tray"

    def __init__(self, image: Data | None = None) -> None:
        super().__init__()
        if image is not None:
            self._call("read", *given(image))

    @classmethod
    def blank(cls, cylinders: int, kilobits: int = 500) -> Tray:
        """An unformatted medium with two heads."""
        tray = cls()
        tray._call("blank", byte(cylinders), port(kilobits))
        return tray

    @classmethod
    def of_flat(cls, data: Data) -> Tray:
        """The medium of a flat sector file, 1.44 MB or 720 KB."""
        tray = cls()
        tray._call("read_flat", *given(data))
        return tray

    @classmethod
    def of_flat_as(cls, data: Data, cylinders: int, heads: int, sectors: int, n: int = 2, kilobits: int = 500) -> Tray:
        """The medium of a flat sector file of another geometry."""
        tray = cls()
        tray._call("read_flat_as", *given(data), byte(cylinders), byte(heads), byte(sectors), byte(n), port(kilobits))
        return tray

    @classmethod
    def of_imd(cls, data: Data) -> Tray:
        """The medium of an ImageDisk file. If a track has no room for its sectors, Unfit has its place."""
        tray, place = cls(), Place()
        place.told(lambda: tray._call("read_imd", *given(data), *place.pointers))
        return tray

    def image(self) -> bytes:
        """Its image file: the cells of all tracks."""
        return self._bytes("write")

    def imd(self) -> bytes:
        """Its ImageDisk file. Unfit has the place of the first track that such a file can't have."""
        return self._fitting("write_imd")

    def flat(self) -> bytes:
        """Its flat sector file, 1.44 MB or 720 KB. Unfit has the place of the first track that such a file can't have."""
        return self._fitting("write_flat")

    def flat_as(self, cylinders: int, heads: int, sectors: int, n: int = 2, kilobits: int = 500) -> bytes:
        """Its flat sector file of another geometry."""
        return self._fitting("write_flat_as", byte(cylinders), byte(heads), byte(sectors), byte(n), port(kilobits))

    def survey(self) -> Iterator[Surveyed]:
        """Its address fields: cylinder and head of the track, the first cell, (C, H, R, N), and what was found."""
        data = self._bytes("survey", room=USUAL_FIELDS * FIELD)
        for at in range(0, len(data), FIELD):
            cylinder, head, *cell, c, h, r, n, found = data[at:at + FIELD]
            yield cylinder, head, int.from_bytes(bytes(cell), "little"), (c, h, r, n), Found(found)

    def shape(self) -> Shape:
        """All that its medium is, except its cells: words, kilobits, cylinders, heads, is_protected."""
        shape: Shape = self._told_as(Shape, "shape")
        return shape

    def protect(self, on: bool = True) -> None:
        """Moves the write-protect tab of its medium."""
        self._call("protect", byte(bool(on)))

    def track(self, cylinder: int, head: int) -> list[int]:
        """The words of a track. Each has 16 cells, the first in its highest bit."""
        return self._words("track", byte(cylinder), byte(head))

    def set_track(self, cylinder: int, head: int, words: Iterable[int]) -> None:
        """Replaces the words of a track by exactly as many."""
        values = [number(ctypes.c_uint16, word).value for word in words]
        self._call("set_track", byte(cylinder), byte(head), (ctypes.c_uint16 * (len(values) + 1))(*values), size(len(values)))

    def _fitting(self, name: str, *values: Any) -> bytes:
        place = Place()
        return place.told(lambda: self._bytes(name, *values, behind=place.pointers))
