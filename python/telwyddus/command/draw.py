"""Commands that draw: picture, waves."""
from __future__ import annotations

import shutil
import subprocess
from pathlib import Path

import click

from .. import files
from ..geometry import Geometry
from ..images import load
from ..picture import Recorded, draw_disk, draw_strip
from ..problems import Problem
from ..trace import SIGNALS, title, traced
from ..waves import svg, vcd
from . import options
from .output import say, say_json

RSVG = "rsvg-convert"


@click.command()
@options.image
@click.argument("target", metavar="OUT", type=options.FILE)
@click.option("--track", type=int, nargs=2, metavar="C H", help="Draw one track as a strip of cells.")
@options.geometry
@options.force
@options.as_json
def picture(image: Path, target: Path, track: tuple[int, int] | None, geometry: Geometry | None, force: bool, as_json: bool) -> int:
    """Draw what is recorded on an image, as SVG or PNG.

    Each side is a set of rings, one for each cylinder, with cylinder 0 outside; the colour of a sector says what stands
    there. In a browser an SVG describes the sector under the pointer. A PNG (by its suffix) needs rsvg-convert.
    """
    with files.locked(target):
        files.check_is_free(target, force)
        with load(image, geometry).tray as tray:
            recorded = Recorded.of(tray)
            if track is not None and not (0 <= track[0] < recorded.cylinders and 0 <= track[1] < recorded.heads):
                raise Problem(f"{image} has no track {track[0]} {track[1]}: it has {recorded.told()}.")
            drawing = draw_disk(recorded, image.name) if track is None else draw_strip(recorded, image.name, *track)
        files.store(target, as_file(drawing.whole(), target), force)
    return say_drawn(target, as_json)


def as_file(text: str, target: Path) -> bytes:
    """The bytes of a picture, in the format of its suffix."""
    suffix = target.suffix.lower()
    if suffix == ".svg":
        return text.encode()
    if suffix != ".png":
        raise Problem(f"{target}: a picture is an SVG or a PNG. Name a file that ends in .svg or .png.")
    if shutil.which(RSVG) is None:
        raise Problem(f"A PNG needs {RSVG}: install Debian's librsvg2-bin, or name a file that ends in .svg.")
    done = subprocess.run([RSVG, "--format=png"], input=text.encode(), stdout=subprocess.PIPE, stderr=subprocess.PIPE)
    if done.returncode:
        raise Problem(f"{RSVG} refused the picture: {done.stderr.decode(errors='replace').strip()}")
    return done.stdout


def say_drawn(target: Path, as_json: bool) -> int:
    """Prints which file was made."""
    if as_json:
        say_json({"to": str(target), "bytes": target.stat().st_size})
    else:
        say(f"{target}: {target.stat().st_size:,} bytes")
    return 0


@click.command()
@click.argument("target", metavar="OUT.vcd", type=options.FILE)
@click.option("--svg", "drawn", type=options.FILE, metavar="OUT.svg", help="Draw the trace too.")
@click.option("--write", is_flag=True, help="Trace WRITE DATA instead of READ DATA.")
@click.option("--split", is_flag=True, help="Make a line of each bit, as PulseView needs it.")
@options.force
@options.as_json
def waves(target: Path, drawn: Path | None, write: bool, split: bool, force: bool, as_json: bool) -> int:
    """Trace what the controller does in a seek and a read.

    The trace is a VCD file, for GTKWave and PulseView: interrupt, DMA request and acknowledge, FIFO, index, and the
    bytes under the head, device step by device step.
    """
    for path in [target, *([drawn] if drawn else [])]:
        files.check_is_free(path, force)
    trace = traced(write)
    files.store(target, vcd(trace, title(write), split).encode(), force)
    if drawn is not None:
        files.store(drawn, svg(trace, write).encode(), force)
    if as_json:
        say_json({"to": str(target), "picture": str(drawn) if drawn else None, "nanoseconds": trace.end, "changes": trace.count()})
    else:
        say(f"{target}: {title(write)}: {trace.end / 1000000:.2f} ms, {trace.count():,} changes of {len(SIGNALS)} signals")
    return 0
