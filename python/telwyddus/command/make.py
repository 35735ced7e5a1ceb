"""Commands that make images: convert, format, copy."""
from __future__ import annotations

from pathlib import Path

import click

from .. import files
from ..codes import Refused
from ..describing import geometry_as_json
from ..disks import Disk, Sector
from ..geometry import Geometry
from ..images import formatted, load, save
from ..problems import Loss, Problem
from ..tally import LOST_BY_COPY, losses, tally
from . import options
from .output import ODD, count, remark, say, say_json, watched

to = click.option("--to", metavar="FORMAT", help="The format, if the suffix doesn't name it: cells, flat, imd, or one of another program.")


@click.command()
@click.argument("source", metavar="FROM", type=options.IMAGE)
@click.argument("target", metavar="TO", type=options.FILE)
@to
@options.geometry
@options.lossy
@options.force
@options.as_json
def convert(source: Path, target: Path, to: str | None, geometry: Geometry | None, lossy: bool, force: bool, as_json: bool) -> int:
    """Store a diskette in another format.

    The suffix of TO names the format: .rt has the cells of all tracks, .imd is an ImageDisk file, and .img, .ima, .dsk
    and others are flat sector files. Other formats go through dsktrans, floptool or gw, where these are installed.

    If the format can't hold all that is on the diskette, it is listed, and nothing is stored without --lossy. No sector
    file holds gaps, and the places of sectors on their tracks; that isn't listed.
    """
    with files.locked(target):
        image = load(source, geometry)
        with image.tray as tray:
            lost = save(tray, target, geometry or image.geometry, force, lossy, to)
    return say_made(source, target, image.through, lost, as_json)


def say_made(source: Path, target: Path, through: str, lost: list[str], as_json: bool) -> int:
    """Prints what was stored, and what it couldn't hold."""
    if as_json:
        say_json({"from": str(source), "to": str(target), "bytes": target.stat().st_size, "through": through or None, "lost": lost})
        return 0
    for each in lost:
        remark(f"lost: {each}", ODD)
    say(f"{target}: {target.stat().st_size:,} bytes{f', read by {through}' if through else ''}")
    return 0


@click.command(name="format")
@click.argument("target", metavar="IMAGE", type=options.FILE)
@click.option("--geometry", type=options.GeometryType(), default="1.44M", show_default=True, metavar="GEOMETRY",
              help="A name such as 720K or DMF, or numbers as in 80x2x18x512@500.")
@to
@options.force
@options.as_json
def format_(target: Path, geometry: Geometry, to: str | None, force: bool, as_json: bool) -> int:
    """Make the image of a formatted diskette.

    All bytes of its sectors are F6. For a file system on it, go on with mformat of mtools, or make a flat file by
    mformat and convert that.
    """
    with files.locked(target):
        files.check_is_free(target, force)
        with formatted(geometry) as tray:
            save(tray, target, geometry, force, to=to)
    if as_json:
        say_json({"to": str(target), "bytes": target.stat().st_size, "geometry": geometry_as_json(geometry)})
    else:
        say(f"{target}: {count(geometry.length // geometry.size, 'sector')} ({geometry.words()})")
    return 0


@click.command()
@click.argument("source", metavar="FROM", type=options.IMAGE)
@click.argument("target", metavar="TO", type=options.FILE)
@to
@options.geometry
@options.lossy
@options.force
@options.as_json
def copy(source: Path, target: Path, to: str | None, geometry: Geometry | None, lossy: bool, force: bool, as_json: bool) -> int:
    """Copy the sectors of a diskette to a newly formatted one.

    Unlike `convert` this lays the tracks out anew. Each sector is read through one drive, written through the other,
    and read back; deleted marks are kept. What isn't a sector of the geometry is listed, and nothing is stored without
    --lossy. If a sector can't be read, nothing is stored: `rescue` goes on where `copy` stops.
    """
    with files.locked(target), Disk.open(source, geometry) as disk:
        files.check_is_free(target, force)
        with disk.medium() as tray:
            lost = losses(tally(tray, list(tray.survey()), disk.geometry), LOST_BY_COPY)
        if lost and not lossy:
            raise Loss("A copy doesn't have all that is on this diskette.", lost)
        with Disk.new(disk.geometry) as made:
            copied = [copy_sector(sector, made) for sector in watched(list(disk), "copy")]
            with made.medium() as tray:
                lost += save(tray, target, made.geometry, force, lossy, to)
    if not as_json:
        say(f"{count(len(copied), 'sector')} copied")
    return say_made(source, target, "", lost, as_json)


def copy_sector(sector: Sector, made: Disk) -> Sector:
    """Writes a sector on a new diskette."""
    if not sector.is_good:
        raise Problem(f"Sector {' '.join(map(str, sector.key))} can't be read: {sector.state.words}. Nothing was stored. "
                      "`telwyddus rescue` stores what can be read.")
    try:
        made.write(0, *sector.key, sector.data, made.geometry.n, sector.is_deleted)
    except Refused as refused:
        raise Problem(f"Sector {' '.join(map(str, sector.key))} can't be written: {refused}.") from refused
    return sector

