"""The command rescue."""
from __future__ import annotations

import contextlib
import re
import shlex
import signal
import sys
from collections.abc import Callable, Iterator
from pathlib import Path

import click

from .. import files
from ..disks import Disk
from ..geometry import Geometry
from ..images import Made, bytes_of, format_of_name
from ..problems import Problem
from ..rescuing import Map, Rescue, check_geometry, geometry_in, sum_of, words_of
from . import options
from .output import BAD, GOOD, count, remark, say, say_json, watched

INTERRUPTED = 130
# A log: a line C H R CODE for each sector.
LOG = re.compile(rb"(?:\d+ \d+ \d+ [0-9A-F]{2}\n)*")


@click.command()
@click.argument("sources", metavar="FROM..", type=options.IMAGE, nargs=-1, required=True)
@click.argument("target", metavar="TO", type=options.FILE)
@click.option("--map", "map_path", type=options.FILE, metavar="MAP", help="The map of what was read. It is TO.map otherwise.")
@click.option("--log", "log_path", type=options.FILE, metavar="LOG", help="Also list what is missing, as the program floppy does.")
@click.option("--keep-damaged", is_flag=True, help="Store the bytes of damaged sectors too. They still count as missing.")
@options.geometry
@options.lossy
@options.force
@options.as_json
def rescue(sources: tuple[Path, ...], target: Path, map_path: Path | None, log_path: Path | None, keep_damaged: bool,
           geometry: Geometry | None, lossy: bool, force: bool, as_json: bool) -> int:
    """Store what can be read of a failing diskette, from one copy of it or several.

    Every sector is asked for in the first FROM, and what can't be read there in the next one. A map says what was read.
    A later run with the same TO and map goes on: it asks only for what is still missing. The map is one of GNU
    ddrescue. Ctrl-C stores what was read so far; run the same command again to go on.

    A sector that was never read has bytes F6 in TO, and looks good there. Only the map says that it is missing. The
    status is 1 while something is missing.
    """
    paths = Paths(target, map_path or target.with_name(target.name + ".map"), log_path, force)
    if format_of_name(target) is None:
        raise Problem(f"{target}: a rescue stores files that end in .rt, .imd or .img. Convert the file afterwards.")
    with files.locked(paths.map), files.locked(target), Disk.open(sources[0], geometry) as first:
        work = begun(paths, first, geometry)
        check_log(paths)
        taken = {}
        with work.target, interruptible() as goes_on:
            for path in sources:
                taken[str(path)] = take_from(path, work, geometry, goes_on, keep_damaged)
            is_whole = goes_on()
            store(paths, work, lossy)
    return told(paths, work, taken, is_whole, as_json)


class Paths:
    """The files that a rescue writes, and whether it may replace an image and a map that it didn't make."""

    def __init__(self, target: Path, map: Path, log: Path | None, force: bool) -> None:
        self.target, self.map, self.log, self.force = target, map, log, force


def begun(paths: Paths, first: Disk, geometry: Geometry | None) -> Rescue:
    """A rescue from its beginning, or from where an earlier run stopped."""
    if paths.map.exists() and paths.target.exists():
        return resumed(paths, first, geometry)
    if paths.map.exists():
        raise Problem(f"{paths.map} says what was read, and {paths.target} isn't there. Name the image that it belongs to, or remove the map "
                      "to begin anew.")
    files.check_is_free(paths.target, paths.force)
    return Rescue(Disk.new(first.geometry), Map.new(first.geometry))


def resumed(paths: Paths, first: Disk, geometry: Geometry | None) -> Rescue:
    """A rescue as an earlier run stored it."""
    text = files.read(paths.map).decode("utf-8", "replace")
    named = geometry or geometry_in(text) or first.geometry
    map = Map.parsed(text, named, paths.map)
    if map.sums and sum_of(files.read(paths.target)) not in map.sums:
        raise Problem(f"{paths.target} isn't the image that {paths.map} belongs to, or it was changed since. Nothing was stored. Name the right "
                      "image, or name another map to begin anew.")
    paths.force = True
    return Rescue(Disk.open(paths.target, named), map)


def check_log(paths: Paths) -> None:
    """Refuses a log whose name another file has. The log of an earlier run may be replaced."""
    if paths.log is not None and not (paths.log.is_file() and LOG.fullmatch(files.read(paths.log))):
        files.check_is_free(paths.log, False)


def take_from(path: Path, work: Rescue, geometry: Geometry | None, goes_on: Callable[[], bool], keep_damaged: bool) -> int:
    """Takes what is missing from a source, and returns how many sectors that were."""
    with Disk.open(path, geometry) as source:
        check_geometry(source, work.map.geometry)
        return work.take(source, watched(work.map.missing(), path.name), goes_on, keep_damaged)


def store(paths: Paths, work: Rescue, lossy: bool) -> None:
    """Stores the image and then the map. If that is cut off between the two, the map still knows the image."""
    format = format_of_name(paths.target)
    assert format is not None
    command = shlex.join(["telwyddus", *sys.argv[1:]])
    with work.target.medium() as tray:
        made: Made = bytes_of(tray, format, work.map.geometry, lossy)
    total = sum_of(made.data)
    if paths.map.exists() and total not in work.map.sums:
        old = Map.parsed(files.read(paths.map).decode("utf-8", "replace"), work.map.geometry, paths.map)
        old.sums = [*work.map.sums, total] if work.map.sums else []
        files.store(paths.map, old.text(command).encode(), force=True)
    files.store(paths.target, made.data, paths.force)
    work.map.sums = [total]
    files.store(paths.map, work.map.text(command).encode(), paths.force)
    if paths.log is not None:
        files.store(paths.log, work.log().encode(), force=True)


@contextlib.contextmanager
def interruptible() -> Iterator[Callable[[], bool]]:
    """Lets Ctrl-C end the work at a sector's end. Gives what says whether to go on."""
    stopped: list[int] = []
    before = signal.signal(signal.SIGINT, lambda number, frame: stopped.append(number))
    try:
        yield lambda: not stopped
    finally:
        signal.signal(signal.SIGINT, before)


def told(paths: Paths, work: Rescue, taken: dict[str, int], is_whole: bool, as_json: bool) -> int:
    """Prints what was read and what is missing, and returns the status."""
    missing, asked = work.map.missing(), len(work.map.statuses)
    if as_json:
        say_json({"to": str(paths.target), "map": str(paths.map), "sectors": asked, "read": asked - len(missing), "taken": taken,
                  "missing": [list(key) for key in missing], "interrupted": not is_whole})
    else:
        for path, number in taken.items():
            say(f"{path}: {count(number, 'sector')} taken")
        words = f"{asked - len(missing):,} of {count(asked, 'sector')} are there"
        lack = f", and {len(missing):,} {'is' if len(missing) == 1 else 'are'} missing: {words_of(missing)}" if missing else ""
        say(f"{paths.target}: {words}{lack}", BAD if missing else GOOD)
    if not is_whole:
        remark(f"Stopped. {paths.target} and {paths.map} have what was read so far. Run the same command again to go on.", BAD)
        return INTERRUPTED
    return int(bool(missing))
