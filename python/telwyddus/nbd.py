"""The script that nbdkit's Python plugin runs for `telwyddus serve`: it hands the requests of clients to a Volume.

nbdkit loads this file by its path, so it names the package's folder to Python first. Its settings are `image`,
`geometry`, `write`, and `failed`: the file that is made if the last store fails, since nbdkit's status can't say so.
"""
from __future__ import annotations

import os
import sys
from pathlib import Path
from typing import Any

sys.path.insert(0, str(Path(os.path.realpath(__file__)).parent.parent))
sys.dont_write_bytecode = True

from telwyddus.geometry import Geometry  # noqa: E402
from telwyddus.problems import Problem  # noqa: E402
from telwyddus.volume import Volume  # noqa: E402

API_VERSION = 2
# What clients are told of the sizes of requests: the least, the best, the most.
MOST = 1 << 25

settings: dict[str, str] = {}
# The one volume that all clients share.
volumes: list[Volume] = []


def config(key: str, value: str) -> None:
    """Takes a setting."""
    settings[key] = value


def after_fork() -> None:
    """Opens the image, once nbdkit listens."""
    named = settings.get("geometry")
    volumes.append(Volume(Path(settings["image"]), Geometry.parsed(named) if named else None, settings.get("write") == "1"))


def cleanup() -> None:
    """Stores what was written since the last flush, once nbdkit ends."""
    for volume in volumes:
        try:
            volume.close()
        except (Problem, OSError) as fault:
            Path(settings["failed"]).write_text(str(fault), encoding="utf-8", errors="replace")


def open(readonly: bool) -> Volume:
    """The volume, for a client."""
    return volumes[0]


def can_write(volume: Volume) -> bool:
    """Whether clients may write."""
    return volume.is_writable


def can_flush(volume: Volume) -> bool:
    """Clients can have the image stored."""
    return True


def can_multi_conn(volume: Volume) -> bool:
    """A flush stores what all clients wrote, so one program may have several connections."""
    return True


def is_rotational(volume: Volume) -> bool:
    """A diskette turns."""
    return True


def get_size(volume: Volume) -> int:
    """The bytes of the volume."""
    return volume.size


def block_size(volume: Volume) -> tuple[int, int, int]:
    """The least, the best and the most bytes of a request."""
    return 1, max(volume.geometry.size, 512), MOST


def pread(volume: Volume, buffer: Any, offset: int, flags: int) -> None:
    """Reads bytes. An error here is EIO for the client, and a line on standard error."""
    buffer[:] = volume.read(offset, len(buffer))


def pwrite(volume: Volume, buffer: Any, offset: int, flags: int) -> None:
    """Writes bytes."""
    volume.write(offset, bytes(buffer))


def flush(volume: Volume, flags: int) -> None:
    """Stores the image."""
    volume.flush()
