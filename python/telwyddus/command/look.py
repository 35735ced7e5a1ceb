"""Commands that look at images: info, sectors, survey, hexdump."""
from __future__ import annotations

import zlib
from pathlib import Path
from typing import Any

import click

from ..bus import Bus
from ..codes import Found
from ..describing import Description, describe, geometry_as_json, known_as
from ..disks import Disk, Sector
from ..geometry import Geometry
from ..problems import Problem
from . import options
from .output import BAD, FAINT, GOOD, ODD, say, say_json, say_table

# How many bytes a line of a dump has.
LINE = 16
FOUND = {Found.OK: "ok", Found.DELETED: "deleted", Found.NO_DATA: "no data", Found.BAD_CRC: "wrong CRC", Found.NO_SIZE: "no such size"}


@click.command()
@options.images
@options.geometry
@options.as_json
def info(images: tuple[Path, ...], geometry: Geometry | None, as_json: bool) -> int:
    """Say what images are, and what is odd about them.

    For each IMAGE: its format, its geometry and data rate, what stands on it, and each thing that isn't a plain sector
    of its geometry, in words. The status is 1 if an image has a sector that can't be read, or that isn't where its
    geometry has it.
    """
    described = [describe(path, geometry) for path in images]
    if as_json:
        say_json([each.as_json() for each in described])
    else:
        for place, each in enumerate(described):
            say_description(each, place > 0)
    return int(any(each.is_odd for each in described))


def say_description(each: Description, is_further: bool) -> None:
    """Prints what an image is."""
    if is_further:
        say()
    say(str(each.path), "bold")
    through = f", read by {each.through}" if each.through else ""
    shape, counts = each.shape, each.counts
    rows = [("format", f"{each.format.words}, {each.length:,} bytes{through}"), ("geometry", known_as(each.geometry)),
            ("tracks", f"{shape.cylinders} x {shape.heads} of {shape.words:,} words at {shape.kilobits} kbit/s"),
            ("sectors", ", ".join(f"{number:,} {word.replace('_', ' ')}" for word, number in counts.items() if number and word != "all") or "none"),
            ("contents", each.contents)]
    if shape.is_protected:
        rows.append(("protection", "the write-protect tab is set"))
    for name, words in rows:
        say(f"  {name + ':':<12}{words}")
    for place, sentence in enumerate(each.sentences()):
        say(f"  {'odd:' if place == 0 else '':<12}{sentence}", ODD)


@click.command()
@options.image
@click.option("--bad", is_flag=True, help="List only sectors that can't be read.")
@click.option("--track", type=int, nargs=2, metavar="C H", help="List one track alone.")
@options.geometry
@options.as_json
def sectors(image: Path, bad: bool, track: tuple[int, int] | None, geometry: Geometry | None, as_json: bool) -> int:
    """List the sectors of an image as a drive reads them.

    A line has cylinder, head and sector number, what a read finds, and of the bytes their CRC-32 and a beginning. The
    status is 1 if a sector can't be read.
    """
    with Disk.open(image, geometry) as disk:
        found = [sector for sector in disk if track is None or sector.key[:2] == track]
        if not found:
            raise Problem(f"{image} has no track {' '.join(map(str, track or ()))}: its geometry is {disk.geometry.words()}.")
        shown = [sector for sector in found if not (bad and sector.is_good)]
        if as_json:
            say_json({"file": str(image), "geometry": geometry_as_json(disk.geometry), "sectors": [sector_as_json(sector) for sector in shown]})
        else:
            say_table(("C", "H", "R", "STATE", "CRC-32", "BYTES"), map(row_of, shown), style_of)
    return int(not all(sector.is_good for sector in found))


def row_of(sector: Sector) -> list[str]:
    """A line of the list of sectors."""
    state = "deleted" if sector.is_deleted else sector.state.words
    return [*map(str, sector.key), state, f"{zlib.crc32(sector.data):08x}" if sector.data else "", preview(sector.data)]


def style_of(row: Any) -> str | None:
    """The colour of a line of the list of sectors."""
    return ODD if row[3] == "deleted" else None if row[3] == "good" else BAD


def preview(data: bytes) -> str:
    """What bytes begin with, or the one byte that all of them are."""
    if data and len(set(data)) == 1:
        return f"all {data[0]:02X}"
    return f"{data[:8].hex(' ').upper()} .." if data else ""


def sector_as_json(sector: Sector) -> dict[str, Any]:
    """A sector as numbers and texts."""
    return {"cylinder": sector.cylinder, "head": sector.head, "sector": sector.number, "state": sector.state.name.lower(),
            "code": sector.state.code, "deleted": sector.is_deleted, "crc32": f"{zlib.crc32(sector.data):08x}" if sector.data else None}


@click.command()
@options.image
@click.option("--bad", is_flag=True, help="List only fields that aren't ok.")
@click.option("--track", type=int, nargs=2, metavar="C H", help="List one track alone.")
@options.as_json
def survey(image: Path, bad: bool, track: tuple[int, int] | None, as_json: bool) -> int:
    """List the address fields of an image, whatever they say.

    A line has cylinder and head of the track, the first cell of the field after the index, the sector ID (C, H, R, N),
    and what stands after it. Unlike `sectors` this also finds sectors that the geometry doesn't have. The status is 1
    if the data of a field are damaged or missing.
    """
    with Disk.open(image) as disk:
        found = [field for field in disk.survey() if track is None or (field.cylinder, field.head) == track]
    shown = [field for field in found if not (bad and field.found is Found.OK)]
    if as_json:
        say_json({"file": str(image), "fields": [{"cylinder": field.cylinder, "head": field.head, "cell": field.cell, "id": list(field.key),
                                                  "found": field.found.name.lower()} for field in shown]})
    else:
        say_table(("CYLINDER", "HEAD", "CELL", "C", "H", "R", "N", "FOUND"),
                  [[*map(str, (field.cylinder, field.head, field.cell, *field.key)), FOUND[field.found]] for field in shown],
                  lambda row: {"ok": None, "deleted": ODD}.get(row[-1], BAD))
        say(f"{len(found)} address fields", FAINT)
    return int(any(field.found not in (Found.OK, Found.DELETED) for field in found))


@click.command()
@options.image
@click.argument("cylinder", type=int)
@click.argument("head", type=int)
@click.argument("number", metavar="SECTOR", type=int)
@click.option("--size", type=int, metavar="BYTES", help="The size of the sector, if it isn't that of the geometry.")
@options.geometry
@options.as_json
def hexdump(image: Path, cylinder: int, head: int, number: int, size: int | None, geometry: Geometry | None, as_json: bool) -> int:
    """Print the bytes of a sector, in hexadecimal and as text.

    If the CRC of the sector is wrong, the bytes are printed as they stand on the track, and the status is 1.
    """
    with Disk.open(image, geometry) as disk:
        if size is not None:
            disk.take_size(size)
        sector = disk.sector(cylinder, head, number)
        data = sector.data or bytes_as_they_are(disk, cylinder, head, number)
    if as_json:
        say_json({"file": str(image), **sector_as_json(sector), "data": data.hex()})
    elif not data:
        raise Problem(f"{image}: sector {cylinder} {head} {number} can't be read: {sector.state.words}.")
    else:
        for place in range(0, len(data), LINE):
            say(dump_line(place, data[place:place + LINE]))
        say(sector.state.words + (", marked deleted" if sector.is_deleted else ""), GOOD if sector.is_good else BAD)
    return int(not sector.is_good)


def bytes_as_they_are(disk: Disk, cylinder: int, head: int, number: int) -> bytes:
    """The bytes of a damaged sector, as they are on the track."""
    with disk.medium() as tray, type(tray)(tray.image()) as copy, Bus(copy) as bus:
        data, status = bus.read(cylinder, head, (cylinder, head, number, disk.geometry.n))
        return data if status.is_crc_wrong else b""


def dump_line(place: int, data: bytes) -> str:
    """A line of a dump, in the form of `hexdump -C`."""
    halves = data[:LINE // 2].hex(" "), data[LINE // 2:].hex(" ")
    text = "".join(chr(value) if 32 <= value < 127 else "." for value in data)
    return f"{place:08x}  {halves[0]:<23}  {halves[1]:<23}  |{text}|"
