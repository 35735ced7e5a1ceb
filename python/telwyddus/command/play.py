"""Commands that run the program floppy: play, plan, floppy."""
from __future__ import annotations

import re
from pathlib import Path

import click

from .. import files, floppy as program
from ..codes import BadPlan
from ..machines import Machine, Shelf
from ..problems import Problem
from . import options
from .output import BAD, GOOD, ODD, remark, say, say_json

# The name of the job among the files in memory, which no image is likely to have.
JOB = "job.of.telwyddus"


@click.command()
@click.argument("job", metavar="JOB", type=options.IMAGE)
@click.option("--check", is_flag=True, help="Only say whether JOB can be run; store nothing.")
@options.force
@options.as_json
def play(job: Path, check: bool, force: bool, as_json: bool) -> int:
    """Run a batch job of single requests on images.

    JOB is a text of requests such as `insert 0 a.rt`, `ack 0` and `read 0 1 0 3 2 10000` (docs/FORMATS.md). The images
    that it names are in the folder of JOB. Images that the job changes are replaced only with --force. The status is 1
    if a request was refused.
    """
    folder, text = job.resolve().parent, files.read(job)
    with Shelf() as shelf:
        before = loaded(shelf, folder, text)
        shelf.put(JOB, text)
        status = shelf.run("play", JOB)
        lines = shelf.report().splitlines()
        made = program.stored(shelf, before)
    if status > 1:
        raise Problem(refusal(job, lines, text, status))
    if not check:
        store_all(folder, made, before, force)
    if as_json:
        say_json({"job": str(job), "refused": status == 1, "lines": lines, "stored": [] if check else sorted(made)})
        return status
    for line in lines:
        say(line, BAD if " refused " in line else None)
    if check:
        remark(f"would store: {', '.join(sorted(made)) or 'nothing'}", ODD)
    return status


def loaded(shelf: Shelf, folder: Path, text: bytes) -> dict[str, bytes | None]:
    """Puts the images that a job may name on a shelf, and returns what was there of each."""
    before: dict[str, bytes | None] = {}
    for name in sorted(program.names_in(text) - {JOB}):
        path = folder / name
        before[name] = files.read(path) if path.is_file() else None
        if before[name] is not None:
            shelf.put(name, before[name] or b"")
    return before


def store_all(folder: Path, made: dict[str, bytes], before: dict[str, bytes | None], force: bool) -> None:
    """Stores what a job changed. If something may not be replaced, nothing is stored."""
    for name in made:
        files.check_is_free(folder / name, force)
    for name, data in made.items():
        with files.locked(folder / name):
            files.store(folder / name, data, force)


def refusal(job: Path, lines: list[str], text: bytes, status: int) -> str:
    """Why a job wasn't run to its end, in words."""
    last = lines[-1] if lines else f"status {status}"
    found = re.fullmatch(r"job line (\d+) not understood", last)
    if found:
        return f"{job}: {line_of(text, int(found[1]))}"
    return f"{job}: {last}. Nothing was stored."


def line_of(text: bytes, number: int) -> str:
    """A line that isn't understood, in words."""
    lines = text.decode("ascii", "replace").split("\n")
    if not 1 <= number <= len(lines):
        return "the text is too long."
    return f"line {number} isn't understood: {lines[number - 1]}"


@click.group()
def plan() -> None:
    """Work with plans: texts that say when a drive, the DMA or an interrupt fails."""


@plan.command(name="check")
@click.argument("plans", metavar="PLAN..", type=options.IMAGE, nargs=-1, required=True)
@options.as_json
def check_plans(plans: tuple[Path, ...], as_json: bool) -> int:
    """Say whether plans are understood, and which line isn't.

    The status is 1 if one isn't. docs/FORMATS.md has the lines of a plan.
    """
    found = [(path, fault_of(path)) for path in plans]
    if as_json:
        say_json([{"file": str(path), "line": number, "words": words} for path, (number, words) in found])
    else:
        for path, (_, words) in found:
            say(f"{path}: {words or 'understood'}", BAD if words else GOOD)
    return int(any(words for _, (_, words) in found))


def fault_of(path: Path) -> tuple[int | None, str]:
    """The line of a plan that isn't understood, and how that is said; None and nothing if all are."""
    text = files.read(path)
    try:
        Machine(text.decode("utf-8", "surrogateescape").encode("utf-8", "replace").decode()).close()
    except BadPlan as refused:
        return refused.line, line_of(text, refused.line)
    return None, ""


@click.command(context_settings={"ignore_unknown_options": True, "help_option_names": []})
@click.argument("words", nargs=-1, type=click.UNPROCESSED)
def floppy(words: tuple[str, ...]) -> int:
    """Run the proved program floppy on the files of this folder.

    Arguments, output and exit status are those of the program (docs/USING.md): names without a folder, numbers for
    errors, and files that are replaced without a word.
    """
    return program.main(words)
