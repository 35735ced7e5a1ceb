"""Files, written whole or not at all: each is written beside its place, synced, and then takes its name."""
from __future__ import annotations

import contextlib
import errno
import fcntl
import os
import stat
from collections.abc import Iterator
from pathlib import Path

from .problems import Problem

# One byte more than the largest image file that the library takes.
LONGEST = 5_242_895
# What a file system without hard links answers.
WITHOUT_LINKS = (errno.EPERM, errno.ENOSYS, errno.EOPNOTSUPP)


def read(path: Path, longest: int = LONGEST) -> bytes:
    """The bytes of a file, at most `longest`."""
    try:
        with path.open("rb") as file:
            return file.read(longest)
    except OSError as fault:
        raise Problem(f"{path} can't be read: {fault.strerror}.") from fault


def check_is_free(path: Path, force: bool) -> None:
    """Refuses a name that is taken, unless the file may be replaced."""
    if os.path.lexists(path) and not force:
        raise Problem(f"{path} is there already. Name another file, or replace it with --force.")
    if path.is_dir():
        raise Problem(f"{path} is a folder. Name a file.")


def store(path: Path, data: bytes, force: bool = False) -> None:
    """Stores a file under its name, whole. A file that is there is replaced only with `force`; it keeps its mode, and
    a link goes on leading to it."""
    check_is_free(path, force)
    target = Path(os.path.realpath(path))
    try:
        mode = mode_of(target)
        beside = target.with_name(f".{target.name}.telwyddus-{os.getpid()}")
        try:
            write_synced(beside, data, mode)
            take_name(beside, target, force)
        finally:
            with contextlib.suppress(FileNotFoundError):
                beside.unlink()
        sync_folder(target.parent)
    except FileExistsError as fault:
        raise Problem(f"{path} was made by another program meanwhile. It stays as it is.") from fault
    except OSError as fault:
        raise Problem(f"{path} can't be written: {fault.strerror}.") from fault


def mode_of(target: Path) -> int | None:
    """The permissions of a file that is to be replaced. A file that may not be written may not be replaced either."""
    if not target.exists():
        return None
    with target.open("r+b") as old:
        return stat.S_IMODE(os.fstat(old.fileno()).st_mode)


def write_synced(path: Path, data: bytes, mode: int | None) -> None:
    """Writes a new file, and waits until the disk has it."""
    with path.open("xb") as file:
        if mode is not None:
            os.fchmod(file.fileno(), mode)
        file.write(data)
        file.flush()
        os.fsync(file.fileno())


def take_name(beside: Path, target: Path, force: bool) -> None:
    """Gives a new file its name. Without `force` this fails if the name is taken, also if it was taken just now."""
    if force:
        os.replace(beside, target)
        return
    try:
        os.link(beside, target)
    except OSError as fault:
        if fault.errno not in WITHOUT_LINKS:
            raise
        # Take the name with an empty file first, which goes again if that is cut off.
        os.close(os.open(target, os.O_CREAT | os.O_EXCL | os.O_WRONLY, 0o600))
        try:
            os.replace(beside, target)
        except BaseException:
            target.unlink()
            raise


def sync_folder(folder: Path) -> None:
    """Waits until the disk has the names of a folder."""
    handle = os.open(folder, os.O_RDONLY | os.O_DIRECTORY)
    try:
        os.fsync(handle)
    finally:
        os.close(handle)


@contextlib.contextmanager
def locked(path: Path) -> Iterator[None]:
    """Holds a file that will be replaced, if it is there, so that no other run of this tool changes it meanwhile."""
    try:
        file = path.open("rb")
    except FileNotFoundError:
        yield
        return
    except OSError as fault:
        raise Problem(f"{path} can't be opened: {fault.strerror}.") from fault
    with file:
        try:
            fcntl.flock(file, fcntl.LOCK_EX | fcntl.LOCK_NB)
        except OSError as fault:
            raise Problem(f"{path} is being changed by another program. Try again when that has ended.") from fault
        if not os.path.samestat(os.fstat(file.fileno()), os.stat(path)):
            raise Problem(f"{path} was replaced by another program just now. Try again.")
        yield
