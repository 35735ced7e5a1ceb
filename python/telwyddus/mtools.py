"""File systems of DOS on a diskette, by mtools on its flat file. Nothing here knows a FAT."""
from __future__ import annotations

import os
import shutil
import subprocess
import tempfile
from collections.abc import Iterator, Sequence
from contextlib import contextmanager
from pathlib import Path

from .disks import BAY, Disk
from .images import flat_of
from .problems import Problem

PACKAGE = "Debian's mtools"


class FileSystem:
    """The file system of a diskette, whose flat file lies in a folder of its own."""

    def __init__(self, flat: Path, room: Path) -> None:
        self.flat, self.got, self._room = flat, room / "got", room

    def run(self, program: str, *words: str) -> str:
        """Runs a program of mtools on the file system, and returns what it prints."""
        if shutil.which(program) is None:
            raise Problem(f"Files on a diskette need {program}: install {PACKAGE}.")
        # Neither settings of the user nor questions.
        environment = {**os.environ, "MTOOLSRC": os.devnull, "HOME": str(self._room), "MTOOLS_SKIP_CHECK": "1", "LC_ALL": "C.UTF-8"}
        done = subprocess.run([program, "-i", str(self.flat), *words], env=environment, stdin=subprocess.DEVNULL,
                              stdout=subprocess.PIPE, stderr=subprocess.PIPE, text=True, errors="replace")
        if done.returncode:
            said = " ".join(done.stderr.split()).replace(str(self.flat), "the diskette") or f"status {done.returncode}"
            raise Problem(f"{program} says: {said}")
        return done.stdout

    def listing(self, path: str) -> str:
        """What mdir prints of a folder."""
        return self.run("mdir", "-a", inside(path)).replace(str(self.flat), "")

    def names(self, path: str) -> list[str]:
        """The paths of all files and folders below a folder. mdir refuses an empty folder, so it is listed in another
        form first."""
        self.listing(path)
        try:
            lines = self.run("mdir", "-/", "-b", "-a", inside(path)).splitlines()
        except Problem:
            return []
        return [line[len("::/"):] for line in lines if line.startswith("::/")]

    def has(self, path: str) -> bool:
        """Whether a file or a folder is there."""
        try:
            self.run("mdir", "-b", "-a", inside(path))
        except Problem:
            return False
        return True

    def get(self, paths: Sequence[str]) -> list[Path]:
        """Copies files and folders to the folder `got`, and returns the files there."""
        room = self.got
        room.mkdir(exist_ok=True)
        self.run("mcopy", "-s", "-n", "-m", *map(inside, paths), str(room))
        return sorted(path for path in room.rglob("*") if path.is_file())

    def put(self, sources: Sequence[Path], folder: str, replaces: bool) -> None:
        """Copies files to a folder of the diskette. A file that is there is replaced only if that is allowed."""
        self.run("mcopy", "-s", "-D", "o" if replaces else "s", "-m", *(str(path.resolve()) for path in sources), inside(folder))


def inside(path: str) -> str:
    """A path of the diskette, as mtools has it."""
    return path if path.startswith("::") else f"::{path}"


@contextmanager
def file_system(disk: Disk) -> Iterator[FileSystem]:
    """The file system of a diskette, for the time of a `with`. Sectors that can't be read have the bytes that are
    there, or F6."""
    with disk.medium() as tray:
        flat = flat_of(tray, disk.geometry)
    with tempfile.TemporaryDirectory() as room:
        path = Path(room, "diskette")
        path.write_bytes(flat)
        yield FileSystem(path, Path(room))


def written_back(disk: Disk, before: bytes, after: bytes) -> int:
    """Writes the sectors of a flat file that changed, and returns how many these were."""
    geometry, written = disk.geometry, 0
    for key in geometry.keys():
        place = slice(geometry.offset(key), geometry.offset(key) + geometry.size)
        if before[place] != after[place]:
            disk.write(BAY, *key, after[place], geometry.n)
            written += 1
    return written
