"""Commands on the files of a diskette: browse list, get, put."""
from __future__ import annotations

from pathlib import Path

import click

from .. import files
from ..codes import Protected, Refused
from ..disks import Disk
from ..geometry import Geometry
from ..images import bytes_of, format_of_name
from ..mtools import FileSystem, file_system, written_back
from ..problems import Problem
from . import options
from .output import count, say, say_json


@click.group()
def browse() -> None:
    """List, get and put the files of a DOS file system, by mtools.

    mtools works on the diskette's flat file. Paths on the diskette are as in LETTERS/MAY.TXT.
    """


@browse.command(name="list")
@options.image
@click.argument("path", default="")
@options.geometry
@options.as_json
def list_(image: Path, path: str, geometry: Geometry | None, as_json: bool) -> int:
    """List a folder of the diskette, or all paths with --json."""
    with Disk.open(image, geometry) as disk, file_system(disk) as system:
        if as_json:
            say_json({"file": str(image), "paths": system.names(path)})
        else:
            say(system.listing(path).strip("\n"))
    return 0


@browse.command()
@options.image
@click.argument("paths", metavar="PATH..", nargs=-1, required=True)
@click.option("--into", type=click.Path(path_type=Path, file_okay=False, exists=True), default=Path("."), metavar="FOLDER",
              help="The folder for the files. It is this one otherwise.")
@options.geometry
@options.force
@options.as_json
def get(image: Path, paths: tuple[str, ...], into: Path, geometry: Geometry | None, force: bool, as_json: bool) -> int:
    """Copy files and folders from the diskette."""
    with Disk.open(image, geometry) as disk, file_system(disk) as system:
        found = system.get(paths)
        targets = [(path, into / path.relative_to(system.got)) for path in found]
        for _, target in targets:
            files.check_is_free(target, force)
        for path, target in targets:
            target.parent.mkdir(parents=True, exist_ok=True)
            files.store(target, path.read_bytes(), force)
    if as_json:
        say_json({"file": str(image), "stored": [str(target) for _, target in targets]})
    else:
        for _, target in targets:
            say(str(target))
    return 0


@browse.command()
@options.image
@click.argument("sources", metavar="FILE..", nargs=-1, required=True, type=click.Path(path_type=Path, exists=True))
@click.option("--folder", default="", metavar="PATH", help="The folder of the diskette. It is the root otherwise.")
@options.geometry
@click.option("--force", is_flag=True, help="Replace files of the diskette that have the same name.")
@options.as_json
def put(image: Path, sources: tuple[Path, ...], folder: str, geometry: Geometry | None, force: bool, as_json: bool) -> int:
    """Copy files and folders to the diskette, which changes IMAGE.

    Only the sectors that change are written, by the drive's driver, so a raw image keeps all else that stands on its
    tracks. IMAGE is replaced as a whole, once all is written. Files of the diskette are replaced only with --force.
    """
    format = format_of_name(image)
    if format is None:
        raise Problem(f"{image}: only files that end in .rt, .imd or .img can be changed. Convert it first.")
    with files.locked(image), Disk.open(image, geometry) as disk:
        with file_system(disk) as system:
            before = system.flat.read_bytes()
            check_are_new(system, sources, folder, force)
            system.put(sources, folder, force)
            after = system.flat.read_bytes()
        written = write(disk, before, after)
        with disk.medium() as tray:
            data = bytes_of(tray, format, disk.geometry).data
        files.store(image, data, force=True)
    if as_json:
        say_json({"file": str(image), "sectors_written": written})
    else:
        say(f"{image}: {count(written, 'sector')} written")
    return 0


def check_are_new(system: FileSystem, sources: tuple[Path, ...], folder: str, force: bool) -> None:
    """Refuses files whose names are taken on the diskette, unless they may be replaced."""
    for path in sources:
        name = f"{folder.strip('/')}/{path.name}".strip("/")
        if path.is_file() and not force and system.has(name):
            raise Problem(f"{name} is on the diskette already. Name another folder, or replace it with --force.")


def write(disk: Disk, before: bytes, after: bytes) -> int:
    """Writes the sectors that changed."""
    try:
        return written_back(disk, before, after)
    except Protected as refused:
        raise Problem(f"{disk.path} is write-protected, so nothing was stored.") from refused
    except Refused as refused:
        raise Problem(f"A sector can't be written ({refused}), so nothing was stored.") from refused
