"""Image files of other formats, by the programs that know them: dsktrans of libdsk, floptool of MAME, and gw.

Each goes by way of an ImageDisk file or a flat file. What such a file can't hold is lost on the way.
"""
from __future__ import annotations

import shutil
import subprocess
import tempfile
from pathlib import Path
from typing import NamedTuple

from . import files
from .geometry import Geometry, of_medium
from .media import Tray
from .problems import Problem


class Way(NamedTuple):
    """A program that knows a format, by the name that it has there. `is_written` says whether it writes it too."""

    program: str
    name: str
    is_written: bool = False


DSKTRANS, FLOPTOOL, GW = "dsktrans", "floptool", "gw"
PACKAGES = {DSKTRANS: "Debian's libdsk-utils", FLOPTOOL: "Debian's mame-tools", GW: "the Greaseweazle host tools"}
# The ways in which files of a suffix are read and written, the better one first.
WAYS = {
    ".td0": (Way(DSKTRANS, "tele", True), Way(FLOPTOOL, "td0")),
    ".cqm": (Way(DSKTRANS, "copyqm", True), Way(FLOPTOOL, "cqm")),
    ".edsk": (Way(DSKTRANS, "edsk", True),),
    ".cpcdsk": (Way(DSKTRANS, "dsk", True),),
    ".ldbs": (Way(DSKTRANS, "ldbs", True),),
    ".qrst": (Way(DSKTRANS, "qrst", True),),
    ".mfi": (Way(FLOPTOOL, "mfi", True),),
    ".d88": (Way(FLOPTOOL, "d88"),),
    ".dmk": (Way(FLOPTOOL, "dmk"),),
    ".hfe": (Way(FLOPTOOL, "hfe"), Way(GW, "hfe", True)),
    ".scp": (Way(GW, "scp", True),),
    ".ipf": (Way(GW, "ipf"),),
}
# What files of some formats begin with, whatever their suffix.
BEGINNINGS = {b"MV - CPC": ".cpcdsk", b"EXTENDED": ".edsk", b"TD\0": ".td0", b"td\0": ".td0", b"CQ\x14": ".cqm", b"HXCPICFE": ".hfe",
              b"MESSFLOPPYIMAGE": ".mfi", b"MAMEFLOPPYIMAGE": ".mfi", b"SCP": ".scp", b"CAPS": ".ipf", b"LBS\x01": ".ldbs"}
# The formats of `gw convert`, by geometry.
GW_FORMATS = {"1.44M": "ibm.1440", "720K": "ibm.720", "360K": "ibm.360", "1.2M": "ibm.1200", "DMF": "ibm.dmf", "800K": "ibm.800",
              "180K": "ibm.180", "160K": "ibm.160", "320K": "ibm.320", "1.6M": "ibm.1680"}


def kind_of(path: Path, data: bytes = b"") -> str | None:
    """The suffix that stands for a file's format, if another program has to read it."""
    for beginning, suffix in BEGINNINGS.items():
        if data.startswith(beginning):
            return suffix
    return path.suffix.lower() if path.suffix.lower() in WAYS else None


def needed_for(path: Path, data: bytes) -> bool:
    """Whether another program has to read a file."""
    return kind_of(path, data) is not None


def way_for(suffix: str, writes: bool) -> Way:
    """The first way whose program is installed."""
    ways = [way for way in WAYS.get(suffix, ()) if way.is_written or not writes]
    if not ways:
        known = sorted(name for name, others in WAYS.items() if any(way.is_written for way in others))
        raise Problem(f"No program writes {suffix or 'a file without a suffix'}. Name a file that ends in .rt, .img or .imd, or in one of "
                      f"{', '.join(known)}, or name the format with --to.")
    for way in ways:
        if shutil.which(way.program):
            return way
    raise Problem(f"{suffix} needs another program: install " + ", or ".join(f"{way.program} ({PACKAGES[way.program]})" for way in ways) + ".")


def run(*words: str | Path) -> None:
    """Runs a program. If it fails, what it said is shown."""
    done = subprocess.run([str(word) for word in words], stdout=subprocess.PIPE, stderr=subprocess.STDOUT, stdin=subprocess.DEVNULL,
                          text=True, errors="replace")
    if done.returncode:
        said = " ".join(done.stdout.split()[-40:])
        raise Problem(f"{words[0]} refused it (status {done.returncode}): {said}")


def taken_in(path: Path, geometry: Geometry | None = None) -> tuple[bytes, str]:
    """The bytes of a file that the library takes, made by another program of a file of another format, and by what."""
    with path.open("rb") as file:
        suffix = kind_of(path, file.read(16)) or path.suffix.lower()
    way = way_for(suffix, writes=False)
    with tempfile.TemporaryDirectory() as room:
        if way.program == DSKTRANS:
            made = Path(room, "made.imd")
            run(DSKTRANS, "-itype", way.name, "-otype", "imd", path.resolve(), made)
        elif way.program == FLOPTOOL:
            made = Path(room, "made.img")
            run(FLOPTOOL, "flopconvert", way.name, "pc", path.resolve(), made)
        else:
            made = Path(room, "made.img")
            run(GW, "convert", f"--format={gw_format(geometry)}", path.resolve(), made)
        if not made.is_file():
            raise Problem(f"{way.program} made nothing of {path}.")
        return files.read(made), f"{way.program}, by way of {'an ImageDisk' if made.suffix == '.imd' else 'a flat'} file"


def store(tray: Tray, path: Path, geometry: Geometry | None, force: bool, lossy: bool, to: str | None) -> list[str]:
    """Stores a medium in a format that another program writes. Returns what can't be held, if `lossy` allowed it."""
    from .images import FLAT, IMAGEDISK, bytes_of
    suffix = f".{to.lstrip('.').lower()}" if to else path.suffix.lower()
    way = way_for(suffix, writes=True)
    with tempfile.TemporaryDirectory() as room:
        result = Path(room, "result")
        if way.program == DSKTRANS:
            made = bytes_of(tray, IMAGEDISK, geometry, lossy)
            source = written(Path(room, "source.imd"), made.data)
            run(DSKTRANS, "-itype", "imd", "-otype", way.name, source, result)
        else:
            made = bytes_of(tray, FLAT, geometry, lossy)
            source = written(Path(room, "source.img"), made.data)
            convert_flat(way, source, result, geometry or of_medium(tray.shape(), tray.survey()))
        if not result.is_file():
            raise Problem(f"{way.program} made no file.")
        files.store(path, result.read_bytes(), force)
    return made.losses


def written(path: Path, data: bytes) -> Path:
    """A file with these bytes."""
    path.write_bytes(data)
    return path


def convert_flat(way: Way, source: Path, result: Path, geometry: Geometry | None) -> None:
    """Lets floptool or gw make another file of a flat one."""
    if way.program == FLOPTOOL:
        run(FLOPTOOL, "flopconvert", "pc", way.name, source, result)
        return
    named = result.with_suffix(f".{way.name}")
    run(GW, "convert", f"--format={gw_format(geometry)}", source, named)
    named.rename(result)


def gw_format(geometry: Geometry | None) -> str:
    """The name that gw has for a geometry."""
    if geometry is None:
        raise Problem("gw has to know the geometry: name it with --geometry, as in --geometry 1.44M.")
    if geometry.name not in GW_FORMATS:
        raise Problem(f"gw has no format for this geometry: {geometry.words()}.")
    return GW_FORMATS[geometry.name]
