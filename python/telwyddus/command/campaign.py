"""The command campaign."""
from __future__ import annotations

import re
from collections.abc import Sequence
from pathlib import Path
from typing import Any

import click

from ..batch import Row
from ..campaigns import Round, play
from ..geometry import Geometry
from ..journal import Journal
from ..rescuing import sum_of
from .. import files
from . import options, running

MOST_ROUNDS = 1_000_000


class Seeds(click.ParamType):
    """Numbers from one to another, as in 1-100, or a number alone."""

    name = "seeds"

    def convert(self, value: Any, param: click.Parameter | None, context: click.Context | None) -> range:
        """The seeds that a word names."""
        if isinstance(value, range):
            return value
        found = re.fullmatch(r"(\d{1,9})(?:-(\d{1,9}))?", value)
        first, last = (int(found[1]), int(found[2] or found[1])) if found else (1, 0)
        if not first <= last < first + MOST_ROUNDS:
            self.fail(f"{value} names no seeds. Name a number, or two as in 1-100.", param, context)
        return range(first, last + 1)


@click.command()
@options.image
@click.option("--seeds", type=Seeds(), metavar="FIRST-LAST", default="1-100", show_default=True, help="A round is played for each of these numbers.")
@click.option("--sectors", type=click.IntRange(1, 255), metavar="NUMBER", default=8, show_default=True, help="How many sectors a round writes.")
@click.option("--faults", type=click.IntRange(0, 100), metavar="NUMBER", default=12, show_default=True, help="How many lines the plan of a round has.")
@click.option("--attempts", type=click.IntRange(1, 100), metavar="NUMBER", default=5, show_default=True,
              help="How often the driver tries to write a sector.")
@click.option("--unchecked", is_flag=True, help="The driver doesn't read back what it wrote, so that it doesn't see a write that was cut.")
@running.jobs
@options.scheduler
@running.state
@running.again
@options.geometry
@running.as_csv
@options.as_json
def campaign(image: Path, seeds: range, sectors: int, faults: int, attempts: int, unchecked: bool, jobs: int, scheduler: str | None,
             state: Path | None, again: bool, geometry: Geometry | None, as_csv: bool, as_json: bool) -> int:
    """Let faults come by plan while sectors are written, and see what is lost.

    In each round a driver writes sectors on a copy of IMAGE, on the whole machine, while the faults of a plan come:
    words that can't be read, writes that are cut, heads that don't move, DMA that comes late, spurious interrupts. The
    seed makes the plan, so a round can be played again. Then each sector of the diskette is read without faults. A
    sector that counts as written has to have its new bytes, and one that wasn't written has to be as it was.

    The status is 1 if a sector isn't. --json has the plan of each round. IMAGE stays as it is.
    """
    path = image.resolve() if scheduler else image
    rounds = [Round(seed, path, geometry, sectors, faults, attempts, not unchecked) for seed in seeds]
    head = {"state of": "telwyddus campaign", "image": sum_of(files.read(image)), "sectors": sectors, "faults": faults, "attempts": attempts,
            "unchecked": unchecked, "geometry": geometry.numbers if geometry else ""}
    with Journal(state, head, again) as journal:
        rows = rows_of(rounds, journal, running.Way(jobs, scheduler, state))
    if as_json:
        running.say_all({"image": str(image)}, rows, "round")
    else:
        running.say_rows(rows, "round", as_csv)
    return int(any(row.status for row in rows))


def rows_of(rounds: Sequence[Round], journal: Journal, way: running.Way) -> list[Row]:
    """The rows of all rounds, by seed."""
    names = {one.seed: f"seed {one.seed}" for one in rounds}
    rows = {name: Row(*found) for name in names.values() if (found := journal.find(name, "done"))}
    left = [one for one in rounds if names[one.seed] not in rows]
    for row in running.done(play, left, [names[one.seed] for one in left], way, "campaign", "round"):
        rows[row.name] = row
        journal.add(row.name, "done" if row.status < 2 else None, row)
    return [rows[name] for name in names.values()]
