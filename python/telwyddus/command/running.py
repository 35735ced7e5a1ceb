"""What many and campaign have in common: tasks on all processors or on a cluster, their progress, and their table."""
from __future__ import annotations

import contextlib
import os
from collections.abc import Callable, Iterator, Sequence
from pathlib import Path
from typing import NamedTuple, TypeVar

import click

from .. import report
from ..batch import Row
from ..cluster import run_all
from . import options
from .output import BAD, GOOD, ODD, count, progress, remark, say, say_json, say_table

Task = TypeVar("Task")
STYLES = {"good": None, "odd": ODD, "failed": BAD}
NO_ANSWER = "its process was killed, twice"

jobs = click.option("--jobs", type=click.IntRange(1), metavar="NUMBER", default=lambda: os.cpu_count() or 1, show_default="as many as there are processors",
                    help="How many processes work at a time.")
state = click.option("--state", type=options.FILE, metavar="FILE", help="Keep what is done so far in FILE, so that a later run goes on.")
again = click.option("--again", is_flag=True, help="Begin anew, whatever is done so far.")
as_csv = click.option("--csv", "as_csv", is_flag=True, help="Print the answer as CSV.")


class Way(NamedTuple):
    """How tasks are run: in how many processes, or on which cluster, and where it is kept what is done."""

    jobs: int
    scheduler: str | None
    state: Path | None


def done(function: Callable[[Task], Row], tasks: Sequence[Task], names: Sequence[str], way: Way, words: str, noun: str) -> Iterator[Row]:
    """Does the tasks, and shows how many are done. The rows come as they are made."""
    made = 0
    try:
        answers = run_all(function, tasks, way.jobs, way.scheduler)
        with contextlib.closing(answers), progress(words, len(tasks)) as step:
            for place, row in answers:
                made += 1
                yield row or Row(names[place], 2, NO_ANSWER, {})
                step()
    except (KeyboardInterrupt, SystemExit):
        rest = f"Run the same command again to go on: {way.state} has them." if way.state else "With --state FILE a later run could go on."
        remark(f"{made:,} of {count(len(tasks), noun)} {'was' if made == 1 else 'were'} done. {rest}", BAD)
        raise


def say_rows(rows: Sequence[Row], noun: str, is_csv: bool) -> None:
    """Prints a line for each row, and how many are good."""
    if is_csv:
        click.echo(report.as_csv(rows, noun), nl=False)
        return
    say_table((noun.upper(), "STATE", "RESULT"), [(report.shown(row.name), report.STATES[row.status], report.shown(row.words)) for row in rows],
              lambda row: STYLES[row[1]])
    say(report.summary(rows, noun), BAD if any(row.status for row in rows) else GOOD)


def say_all(of: dict[str, object], rows: Sequence[Row], noun: str) -> None:
    """Prints all that is known, as JSON."""
    say_json(report.as_json(of, rows, noun))
