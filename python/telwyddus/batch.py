"""What `telwyddus many` does with one image: a command, and a row that says how it went, whatever goes wrong."""
from __future__ import annotations

from collections import Counter
from collections.abc import Callable
from pathlib import Path
from typing import Any, NamedTuple

from . import files, outside
from .binding import LibraryAbsent
from .codes import Found, Refused
from .describing import describe, geometry_as_json
from .disks import Disk
from .geometry import Geometry
from .images import FORMATS, bytes_of, format_of_name
from .problems import Loss, Problem
from .thumbnails import thumbnail
from .verifying import verified

SUFFIXES = frozenset([suffix for format in FORMATS for suffix in format.suffixes]) | frozenset(outside.WAYS)
FIELDS = {Found.OK: "ok", Found.DELETED: "deleted", Found.NO_DATA: "no data", Found.BAD_CRC: "wrong CRC", Found.NO_SIZE: "no such size"}
# What went wrong with an image alone. Anything else is a mistake of this program, and gets a row too.
FAULTS = (Problem, Refused, OSError, MemoryError)


class Task(NamedTuple):
    """A command on one image. `name` is its path in the folder."""

    command: str
    name: str
    path: Path
    geometry: Geometry | None = None
    is_drawn: bool = False
    target: Path | None = None
    to: str = ""
    lossy: bool = False
    force: bool = False


class Row(NamedTuple):
    """How a command went on one image: its status as that of the command alone, in words, and as numbers and texts.
    `drawing` is a small SVG of its rings, if that was asked for."""

    name: str
    status: int
    words: str
    facts: dict[str, Any]
    drawing: str = ""


def images_in(folder: Path) -> list[str]:
    """The image files of a folder and of those in it, by their suffixes. Hidden files are left out."""
    found = []
    for path in folder.rglob("*"):
        name = path.relative_to(folder)
        if path.suffix.lower() in SUFFIXES and path.is_file() and not any(part.startswith(".") for part in name.parts):
            found.append(str(name))
    return sorted(found)


def look(task: Task) -> Row:
    """Does a task. This raises nothing."""
    drawing = ""
    try:
        if task.is_drawn:
            drawing = thumbnail(task.path, task.geometry)
        status, words, facts = COMMANDS[task.command](task)
        return Row(task.name, status, words, facts, drawing)
    except LibraryAbsent as fault:
        return Row(task.name, 2, f"{fault}.", {})
    except FAULTS as fault:
        more = f" ({'; '.join(fault.losses)})" if isinstance(fault, Loss) else ""
        return Row(task.name, 2, f"{fault}{more}", {}, drawing)
    except Exception as fault:
        return Row(task.name, 2, f"a mistake of this program: {type(fault).__name__}: {fault}", {}, drawing)


Answer = tuple[int, str, dict[str, Any]]


def verify(task: Task) -> Answer:
    """Reads every sector."""
    found = verified(task.path, task.geometry)
    facts = {"geometry": geometry_as_json(found.geometry), "asked": found.asked, "good": found.good,
             "bad": [[*sector.key, sector.state.code] for sector in found.bad]}
    first = found.bad[0] if found.bad else None
    more = f", the first bad one is {' '.join(map(str, first.key))}: {first.state.words}" if first else ""
    return int(not found), f"{found.good:,} of {found.asked:,} sectors ({found.geometry.name}){more}", facts


def survey(task: Task) -> Answer:
    """Lists the address fields."""
    with Disk.open(task.path, task.geometry) as disk:
        fields = disk.survey()
    counts = Counter(FIELDS[field.found] for field in fields)
    words = ", ".join(f"{counts[word]:,} {word}" for word in FIELDS.values() if counts[word]) or "no address field"
    is_odd = any(field.found not in (Found.OK, Found.DELETED) for field in fields)
    return int(is_odd), words, {"fields": [[field.cylinder, field.head, field.cell, *field.key, FIELDS[field.found]] for field in fields]}


def info(task: Task) -> Answer:
    """Says what an image is, and what is odd."""
    found = describe(task.path, task.geometry)
    name = found.geometry.name if found.geometry else "no geometry"
    facts = found.as_json()
    facts.pop("file")
    return int(found.is_odd), "; ".join([name, found.contents, *found.sentences()]), facts


def convert(task: Task) -> Answer:
    """Stores an image in another format. A file that is there already and has the same bytes counts as stored: so a
    conversion that was cut off, or done twice, goes on."""
    assert task.target is not None
    format = format_of_name(task.target, task.to)
    assert format is not None
    with Disk.open(task.path, task.geometry) as disk, disk.medium() as tray:
        made = bytes_of(tray, format, disk._geometry, task.lossy)
    if not (task.target.is_file() and files.read(task.target) == made.data):
        task.target.parent.mkdir(parents=True, exist_ok=True)
        with files.locked(task.target):
            files.store(task.target, made.data, task.force)
    lost = f", without: {'; '.join(made.losses)}" if made.losses else ""
    return 0, f"{task.target}: {len(made.data):,} bytes{lost}", {"to": str(task.target), "bytes": len(made.data), "lost": made.losses}


COMMANDS: dict[str, Callable[[Task], Answer]] = {"verify": verify, "info": info, "survey": survey, "convert": convert}
