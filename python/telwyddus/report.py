"""The report of a run over many images: a page of HTML, CSV, or JSON."""
from __future__ import annotations

import csv
import io
from collections import Counter
from collections.abc import Sequence
from html import escape
from typing import Any

from .batch import Row

# How a status is said in a table.
STATES = ("good", "odd", "failed")
STYLE = """body { font-family: sans-serif; margin: 2em; } table { border-collapse: collapse; }
td, th { padding: 4px 12px 4px 0; text-align: left; vertical-align: middle; border-bottom: 1px solid #ccc; }
.odd { color: #9a4a00; } .failed { color: #b00020; } td.words { max-width: 60em; overflow-wrap: anywhere; }"""


def summary(rows: Sequence[Row], noun: str = "image") -> str:
    """How many images, or rounds, are as they should be, in words."""
    counts = Counter(row.status for row in rows)
    told = [f"{counts[0]:,} of {len(rows):,} {noun}s are good"]
    if counts[1]:
        told.append(f"{counts[1]:,} {'has' if counts[1] == 1 else 'have'} something odd")
    if counts[2]:
        told.append(f"{counts[2]:,} failed")
    return ", ".join(told)


def as_html(title: str, rows: Sequence[Row]) -> str:
    """A page that needs nothing else: a line for each image, those that aren't good first."""
    lines = []
    for row in sorted(rows, key=lambda row: (-row.status, row.name)):
        state = STATES[row.status]
        lines.append(f'<tr class="{state}"><td>{row.drawing}</td><td>{escape(shown(row.name))}</td><td>{state}</td>'
                     f'<td class="words">{escape(shown(row.words))}</td></tr>')
    return "\n".join([
        "<!DOCTYPE html>", '<html lang="en"><head><meta charset="utf-8">', f"<title>{escape(shown(title))}</title><style>{STYLE}</style></head><body>",
        f"<h1>{escape(shown(title))}</h1>", f"<p>{escape(summary(rows))}.</p>",
        "<table><tr><th></th><th>Image</th><th>State</th><th>Result</th></tr>", *lines, "</table></body></html>", ""])


def as_csv(rows: Sequence[Row], noun: str = "image") -> str:
    """A line for each row: its name, its state and the result in words."""
    out = io.StringIO()
    writer = csv.writer(out, lineterminator="\n")
    writer.writerow((noun, "state", "result"))
    writer.writerows((shown(row.name), STATES[row.status], shown(row.words)) for row in rows)
    return out.getvalue()


def as_json(of: dict[str, object], rows: Sequence[Row], noun: str = "image") -> dict[str, Any]:
    """All that is known of each row. `of` says what was worked on."""
    counts = Counter(row.status for row in rows)
    return {**of, **{state: counts[status] for status, state in enumerate(STATES)},
            f"{noun}s": [{noun: shown(row.name), "state": STATES[row.status], "result": shown(row.words), **row.facts} for row in rows]}


def shown(text: str) -> str:
    """A text as it can be written. A name whose bytes are no text gets question marks."""
    return text.encode("utf-8", "replace").decode()
