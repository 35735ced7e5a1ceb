"""Small pictures of diskettes for a report: both sides as rings, with what isn't ok in its colour."""
from __future__ import annotations

from collections import defaultdict
from pathlib import Path

from .codes import Found
from .geometry import Geometry
from .images import load
from .media import Surveyed
from .picture import GAP, LOOKS, UNRECORDED
from .svg import INK, Drawing, arc

WIDTH, OUTER, INNER = 80, 38, 12
# The cells of an address field with the gap after it, and of the marks and the CRC around the data.
ADDRESS, AROUND = 1000, 300


def thumbnail(path: Path, geometry: Geometry | None = None) -> str:
    """The small picture of an image, as the text of an SVG."""
    with load(path, geometry).tray as tray:
        shape, tracks = tray.shape(), defaultdict(list)
        for field in tray.survey():
            tracks[field[:2]].append(field)
    drawing = Drawing(WIDTH * shape.heads, WIDTH)
    step = (OUTER - INNER) / max(shape.cylinders, 8)
    for head in range(shape.heads):
        x, y = WIDTH * head + WIDTH // 2, WIDTH // 2
        outlines(drawing, x, y, step, [bool(tracks.get((cylinder, head))) for cylinder in range(shape.cylinders)])
        drawing.group(fill="none", stroke_width=max(step, 1))
        for cylinder in range(shape.cylinders):
            draw_odd(drawing, x, y, OUTER - step * (cylinder + 0.5), tracks.get((cylinder, head), []), 16 * shape.words)
        drawing.end_group()
    return drawing.whole().replace("\n", "")


def outlines(drawing: Drawing, x: int, y: int, step: float, are_formatted: list[bool]) -> None:
    """Draws the rings of a side: neighbours that are alike are one ring."""
    begin = 0
    for place in range(1, len(are_formatted) + 1):
        if place == len(are_formatted) or are_formatted[place] != are_formatted[begin]:
            radius, width = OUTER - step * (begin + place) / 2, step * (place - begin)
            colour = LOOKS[Found.OK][1] if are_formatted[begin] else UNRECORDED
            drawing.put("circle", cx=x, cy=y, r=f"{radius:.2f}", fill="none", stroke=colour, stroke_width=f"{width:.2f}")
            begin = place
    drawing.put("circle", cx=x, cy=y, r=OUTER, fill="none", stroke=GAP if not all(are_formatted) else INK, stroke_width=0.5)


def draw_odd(drawing: Drawing, x: int, y: int, radius: float, fields: list[Surveyed], whole: int) -> None:
    """Draws the fields of a track that aren't ok."""
    for _, _, cell, key, found in fields:
        if found is not Found.OK:
            size = 128 << key[3] if key[3] <= 6 else 0
            end = min(cell + ADDRESS + AROUND + 16 * size, cell + whole - 1)
            drawing.put("path", d=arc(x, y, radius, cell, end, whole), stroke=LOOKS[found][1])
