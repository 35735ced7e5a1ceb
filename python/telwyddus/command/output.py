"""How commands print: tables and colours on a terminal, plain lines elsewhere, and JSON where that is asked for.

The package rich draws what a terminal shows. To load it takes longer than to verify a diskette, so that is done only if
there is a terminal.
"""
from __future__ import annotations

import json
import os
import sys
from collections.abc import Callable, Iterable, Iterator, Sequence
from contextlib import contextmanager
from typing import IO, Any, TypeVar

import click

Item = TypeVar("Item")
GOOD, BAD, ODD, FAINT = "green", "bold red", "yellow", "dim"
# What a line may not have: bell, backspace, vertical tab, form feed, carriage return.
CONTROLS = dict.fromkeys((7, 8, 11, 12, 13))


def is_terminal(file: IO[str]) -> bool:
    """Whether a stream is a terminal. FORCE_COLOR lets it count as one, as for rich."""
    return file.isatty() or "FORCE_COLOR" in os.environ


def put(file: IO[str], text: str, style: str | None) -> None:
    """Writes a line to a stream, in colours if it is a terminal."""
    if not is_terminal(file):
        print(text.translate(CONTROLS), file=file, flush=True)
        return
    from rich.console import Console
    from rich.text import Text
    Console(file=file, highlight=False, soft_wrap=True, emoji=False, markup=False).print(Text(text, style=style or ""))


def say(text: str = "", style: str | None = None) -> None:
    """Prints a line."""
    put(sys.stdout, text, style)


def remark(text: str, style: str | None = None) -> None:
    """Prints a line on standard error."""
    put(sys.stderr, text, style)


def say_json(value: Any) -> None:
    """Prints the answer as JSON."""
    click.echo(json.dumps(value, indent=2))


def say_table(heads: Sequence[str], rows: Iterable[Sequence[str]], styles: Callable[[Sequence[str]], str | None] = lambda row: None) -> None:
    """Prints a table. Where there is no terminal, columns are separated by two spaces and there are no lines."""
    whole = [list(row) for row in rows]
    if is_terminal(sys.stdout):
        draw_table(heads, whole, styles)
        return
    widths = [max(len(row[at]) for row in [list(heads), *whole]) for at in range(len(heads))]
    for row in [list(heads), *whole]:
        click.echo("  ".join(cell.ljust(width) for cell, width in zip(row, widths)).rstrip())


def draw_table(heads: Sequence[str], rows: Iterable[Sequence[str]], styles: Callable[[Sequence[str]], str | None]) -> None:
    """Draws a table on the terminal."""
    from rich.console import Console
    from rich.table import Table
    table = Table(*heads, header_style="bold", box=None, pad_edge=False)
    for row in rows:
        table.add_row(*row, style=styles(row))
    Console(highlight=False, soft_wrap=True, emoji=False, markup=False).print(table)


def watched(items: Sequence[Item], words: str) -> Iterator[Item]:
    """Goes through items, and shows the progress on standard error if that is a terminal."""
    with progress(words, len(items)) as step:
        for item in items:
            yield item
            step()


@contextmanager
def progress(words: str, total: int) -> Iterator[Callable[[], None]]:
    """Shows a progress bar on standard error while it is a terminal, and gives what to call after each step."""
    if not sys.stderr.isatty():
        yield lambda: None
        return
    from rich.console import Console
    from rich.progress import BarColumn, MofNCompleteColumn, Progress, TextColumn, TimeRemainingColumn
    columns = TextColumn("{task.description}"), BarColumn(), MofNCompleteColumn(), TimeRemainingColumn()
    with Progress(*columns, console=Console(stderr=True), transient=True) as bar:
        task = bar.add_task(words, total=total)
        yield lambda: bar.advance(task)


def count(number: int, word: str) -> str:
    """A number and its noun, in the plural if it has to be."""
    return f"{number:,} {word}{'' if number == 1 else 's'}"
