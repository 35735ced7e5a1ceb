"""An image as a block device: bytes are read and written by the sectors that they lie in, through the driver of the
library, and what was written is stored in the image file, whole."""
from __future__ import annotations

import contextlib
import errno
import os
from collections.abc import Iterator
from pathlib import Path

from . import files
from .codes import Refused
from .disks import Disk
from .geometry import Geometry, Key
from .images import Format, bytes_of, load
from .problems import Problem


class Volume:
    """The sectors of an image, one after the other as in a flat file. What is written stays in memory until `flush` or
    `close`, which store the image anew. While it is writable, no other command of this tool can change the image."""

    def __init__(self, path: Path, geometry: Geometry | None = None, is_writable: bool = False) -> None:
        self.path, self.is_writable = path, is_writable
        self._locks, self._is_changed = contextlib.ExitStack(), False
        if is_writable:
            self._lock()
        image = load(path, geometry)
        self._format: Format = image.format
        self._disk = Disk.of(image.tray, geometry or image.geometry)
        self.geometry = self._disk.geometry
        if is_writable:
            self._check_can_be_stored(image.through)

    def _check_can_be_stored(self, through: str) -> None:
        """Refuses a writable image that couldn't be stored again as it is, before anything is written."""
        if through:
            raise Problem(f"{self.path} is read by {through}, and can't be written. Convert it to a file that ends in .rt, and serve that.")
        if self._disk.shape.is_protected:
            raise Problem(f"{self.path} is write-protected. Serve it without --write.")
        with self._disk.medium() as tray:
            bytes_of(tray, self._format, self.geometry)

    def _lock(self) -> None:
        self._locks.close()
        self._locks.enter_context(files.locked(self.path))
        self._stamp = stamp_of(self.path)

    @property
    def size(self) -> int:
        """Its bytes."""
        return self.geometry.length

    def read(self, offset: int, length: int) -> bytes:
        """Bytes of it. A sector that can't be read is an OSError."""
        size = self.geometry.size
        first = offset // size * size
        whole = b"".join(self._sector(key) for key in self._keys(offset, length))
        return whole[offset - first:offset - first + length]

    def write(self, offset: int, data: bytes) -> None:
        """Writes bytes. A damaged sector can be written only as a whole. A sector that has these bytes already isn't
        written, and a deleted mark stays."""
        if not self.is_writable:
            raise OSError(errno.EROFS, "the image is served for reading only", str(self.path))
        size = self.geometry.size
        for key in self._keys(offset, len(data)):
            begin = self.geometry.offset(key) - offset
            self._write_part(key, max(-begin, 0), data[max(begin, 0):begin + size])

    def _write_part(self, key: Key, place: int, part: bytes) -> None:
        old = self._disk.sector(*key)
        if len(part) < self.geometry.size:
            if not old.is_good:
                raise unreadable(key, old.state.words)
            part = old.data[:place] + part + old.data[place + len(part):]
        if old.is_good and old.data == part:
            return
        self._is_changed = True
        try:
            Disk.write(self._disk, 0, *key, part, self.geometry.n, old.is_deleted)
        except Refused as refused:
            raise OSError(errno.EIO, f"sector {words_of(key)} can't be written: {refused}") from refused

    def _keys(self, offset: int, length: int) -> Iterator[Key]:
        """The sectors that some bytes lie in."""
        sectors, heads = self.geometry.sectors, self.geometry.heads
        for place in range(offset // self.geometry.size, -(-(offset + length) // self.geometry.size)):
            track, sector = divmod(place, sectors)
            yield track // heads, track % heads, sector + 1

    def _sector(self, key: Key) -> bytes:
        sector = self._disk.sector(*key)
        if not sector.is_good:
            raise unreadable(key, sector.state.words)
        return sector.data

    def flush(self) -> None:
        """Stores what was written, if anything was."""
        if not self._is_changed:
            return
        if stamp_of(self.path) != self._stamp:
            raise Problem(f"{self.path} was changed by another program. What was written here isn't stored.")
        with self._disk.medium() as tray:
            data = bytes_of(tray, self._format, self.geometry, lossy=True).data
        files.store(self.path, data, force=True)
        self._is_changed = False
        self._lock()

    def close(self) -> None:
        """Stores what was written, and lets go of the image."""
        try:
            self.flush()
        finally:
            self._locks.close()
            self._disk.close()


def unreadable(key: Key, words: str) -> OSError:
    """The error of a sector that can't be read."""
    return OSError(errno.EIO, f"sector {words_of(key)} can't be read: {words}")


def words_of(key: Key) -> str:
    """A sector by its numbers."""
    return " ".join(map(str, key))


def stamp_of(path: Path) -> tuple[int, int, int]:
    """What tells whether a file was changed or replaced."""
    found = os.stat(path)
    return found.st_ino, found.st_size, found.st_mtime_ns
