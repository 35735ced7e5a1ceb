"""The command many."""
from __future__ import annotations

import os
from pathlib import Path
from typing import Any, NamedTuple

import click

from .. import files, report
from ..batch import COMMANDS, Row, Task, images_in, look
from ..geometry import Geometry
from ..images import FORMATS
from ..journal import Journal
from ..problems import Problem
from . import options, running

FOLDER = click.Path(path_type=Path, file_okay=False, exists=True)


class Work(NamedTuple):
    """What a run was asked to do, and where its report and its state go."""

    command: str
    folder: Path
    tasks: list[Task]
    into: Path | None
    report: Path | None
    again: bool
    force: bool
    way: running.Way


@click.command()
@click.argument("command", metavar="COMMAND", type=click.Choice(list(COMMANDS)))
@click.argument("folder", metavar="FOLDER", type=FOLDER)
@running.jobs
@options.scheduler
@click.option("--report", "page", type=options.FILE, metavar="FILE", help="Store a page of HTML, with a small picture of each diskette.")
@click.option("--state", type=options.FILE, metavar="FILE", help="What is done so far. It is REPORT.state otherwise.")
@running.again
@click.option("--to", type=click.Choice([format.name for format in FORMATS]), help="convert: the format.")
@click.option("--into", type=click.Path(path_type=Path, file_okay=False), metavar="OUT", help="convert: the folder for the new files, which is made.")
@options.geometry
@options.lossy
@options.force
@running.as_csv
@options.as_json
def many(command: str, folder: Path, jobs: int, scheduler: str | None, page: Path | None, state: Path | None, again: bool,
         to: str | None, into: Path | None, geometry: Geometry | None, lossy: bool, force: bool, as_csv: bool, as_json: bool) -> int:
    """Run a command on all images of a folder, on all processors or on a cluster.

    COMMAND is verify, info, survey or convert. The images are the files in FOLDER, and in the folders in it, whose
    suffix is that of an image. An image that can't be read has a line that says so, and the others go on. With --report
    or --state a run that was stopped goes on where it was, and a later run looks only at images that are new or have
    changed. The status is 1 if an image isn't as it should be.
    """
    # The workers of a cluster have other current folders.
    at, out = (folder.resolve(), into and into.resolve()) if scheduler else (folder, into)
    tasks = tasks_of(command, at, Task(command, "", at, geometry, page is not None, None, to or "", lossy, force), out)
    way = running.Way(jobs, scheduler, state or (page and page.with_name(page.name + ".state")))
    work = Work(command, folder, tasks, into, page, again, force, way)
    rows = rows_of(work)
    if as_json:
        running.say_all({"command": command, "folder": str(folder)}, rows, "image")
    else:
        running.say_rows(rows, "image", as_csv)
    return int(any(row.status for row in rows))


def tasks_of(command: str, folder: Path, common: Task, into: Path | None) -> list[Task]:
    """A task for each image of a folder."""
    if command == "convert" and (into is None or not common.to):
        raise Problem("convert wants a format and a folder for the new files: --to cells --into OUT.")
    if command != "convert" and (into is not None or common.to):
        raise Problem(f"{command} takes no --to and no --into, since it stores no images.")
    suffixes = {format.name: format.suffixes[0] for format in FORMATS}
    names = images_in(folder)
    if not names:
        raise Problem(f"{folder} has no file with the suffix of an image.")
    made: dict[Path, str] = {}
    tasks = []
    for name in names:
        target = (into / name).with_suffix(suffixes[common.to]) if into else None
        if target is not None and target in made:
            raise Problem(f"{made[target]} and {name} would both become {target}. Convert them into two folders.")
        if target is not None:
            made[target] = name
        tasks.append(common._replace(name=name, path=folder / name, target=target))
    return tasks


def rows_of(work: Work) -> list[Row]:
    """The rows of all images, by name. The report is stored once all are there."""
    first = work.tasks[0]
    head = {"state of": "telwyddus many", "command": work.command, "folder": str(work.folder.resolve()), "to": first.to, "lossy": first.lossy,
            "geometry": first.geometry.numbers if first.geometry else "", "into": str(work.into and work.into.resolve()), "drawn": first.is_drawn}
    if work.report is not None and not (work.way.state is not None and work.way.state.exists()):
        files.check_is_free(work.report, work.force)
    with Journal(work.way.state, head, work.again) as journal:
        stamps = {task.name: stamp_of(task) for task in work.tasks}
        rows = {task.name: Row(*found) for task in work.tasks if (found := journal.find(task.name, stamps[task.name])) and is_there(task)}
        left = [task for task in work.tasks if task.name not in rows]
        for row in running.done(look, left, [task.name for task in left], work.way, f"{work.command} {work.folder}", "image"):
            rows[row.name] = row
            # What failed is tried again by a later run.
            journal.add(row.name, stamps[row.name] if row.status < 2 else None, row)
        whole = [rows[task.name] for task in work.tasks]
        if work.report is not None:
            page = report.as_html(f"telwyddus {work.command}: {work.folder}", whole)
            files.store(work.report, page.encode(), work.force or journal.was_there)
    return whole


def stamp_of(task: Task) -> Any:
    """What tells whether an image has changed."""
    try:
        found = os.stat(task.path)
    except OSError:
        return None
    return [found.st_size, found.st_mtime_ns]


def is_there(task: Task) -> bool:
    """Whether what a task stores is there."""
    return task.target is None or task.target.exists()

