"""Pictures of what is recorded on a diskette: both sides as rings, or one track as a strip.

A ring is a cylinder, with cylinder 0 outside. It begins with the index at the top and goes clockwise, as the words pass.
Each address field is an arc from its first cell to the end of its data; the colour says what a survey finds there.
"""
from __future__ import annotations

from collections import Counter, defaultdict
from collections.abc import Callable, Mapping, Sequence
from typing import Any, NamedTuple

from .cells import ADDRESS_CELLS, Extent, bare_stretches, byte_at, cells_of, extents_of, lost_runs
from .codes import Found
from .media import Tray
from .svg import INK, Drawing, arc

# What a survey can find at a field: its word in the legend, and its colour. People with any kind of colour vision can
# distinguish the colours.
LOOKS = {
    Found.OK: ("ok", "#0072B2"),
    Found.DELETED: ("deleted", "#56B4E9"),
    Found.NO_DATA: ("no data", "#F0E442"),
    Found.BAD_CRC: ("failed check", "#D55E00"),
    Found.NO_SIZE: ("other size", "#CC79A7"),
}
GAP, UNRECORDED = "#C8C8C8", "#FFFFFF"
# An address field of a track: its first cell, its sector ID, and what was found after it.
Line = tuple[int, tuple[int, int, int, int], Found]


class Recorded(NamedTuple):
    """What is drawn: the medium, its address fields by track, and the cells of a track as a text of 0 and 1."""

    cylinders: int
    heads: int
    words: int
    kilobits: int
    is_protected: bool
    lines: Mapping[tuple[int, int], Sequence[Line]]
    track: Callable[[int, int], str]

    @property
    def cells(self) -> int:
        """How many cells a track has."""
        return 16 * self.words

    @classmethod
    def of(cls, tray: Tray) -> Recorded:
        """What is recorded on the medium of a tray, which has to stay open while it is drawn."""
        shape, lines = tray.shape(), defaultdict(list)
        for cylinder, head, cell, key, found in tray.survey():
            lines[cylinder, head].append((cell, key, found))
        return cls(shape.cylinders, shape.heads, shape.words, shape.kilobits, bool(shape.is_protected), lines,
                   lambda cylinder, head: cells_of(tray.track(cylinder, head)))

    def extents(self, cylinder: int, head: int, cells: str) -> list[Extent]:
        """The fields of a track."""
        return extents_of(cells, self.lines[cylinder, head]) if (cylinder, head) in self.lines else []

    def told(self) -> str:
        """The medium in words."""
        parts = [f"{self.cylinders} cylinder{'s' * (self.cylinders != 1)}", f"{self.heads} head{'s' * (self.heads != 1)}",
                 f"{self.kilobits} kbit/s", f"{self.words} words a track"]
        return ", ".join(parts + ["protected"] * self.is_protected)


def told(cylinder: int, head: int, field: Extent) -> str:
    """A field in words."""
    data = "" if field.data is None else f", data from {field.data}"
    key = " ".join(map(str, field.key))
    return f"cylinder {cylinder} head {head}: {key}, cells {field.start} to {field.end - 1}{data}: {LOOKS[field.found][0]}"


def draw_legend(drawing: Drawing, x: int, y: int, counts: Mapping[Found, int]) -> None:
    """Draws what each colour means, and how many fields have it."""
    rows = [(colour, f"{word}: {counts[found]}") for found, (word, colour) in LOOKS.items()]
    for colour, text in [*rows, (GAP, "gap"), (UNRECORDED, "not recorded")]:
        drawing.put("rect", x=x, y=y - 10, width=14, height=12, fill=colour, stroke=INK, stroke_width=0.5)
        drawing.text(x + 20, y, text)
        x += 130


# ---- the whole disk

OUTER, INNER, MIDDLE = 290, 90, 312
# Rings with fewer points than this touch each other. What isn't ok is drawn a little broader, so that it can be seen.
NARROW, BROADER = 5, 1.2


def draw_track(drawing: Drawing, image: Recorded, x: int, y: int, radius: float, cylinder: int, head: int, cells: str) -> None:
    """Draws the ring of a track, without its fields."""
    bare = list(bare_stretches(cells))
    is_blank = bare == [(0, image.cells)]
    drawing.put("circle", f"cylinder {cylinder} head {head}: " + ("not recorded" if is_blank else "gaps"), cx=x, cy=y, r=f"{radius:.2f}",
                stroke=UNRECORDED if is_blank else GAP)
    for begin, end in [] if is_blank else bare:
        title = f"cylinder {cylinder} head {head}, cells {begin} to {end - 1}: not recorded"
        drawing.put("path", title, d=arc(x, y, radius, begin, end, image.cells), stroke=UNRECORDED)


def draw_rings(drawing: Drawing, image: Recorded, head: int, x: int, y: int, step: float) -> list[tuple[str, dict[str, Any], Found]]:
    """Draws the rings of a side with the fields that are ok. Returns the others, which are drawn over them."""
    late: list[tuple[str, dict[str, Any], Found]] = []
    for cylinder in range(image.cylinders):
        cells, radius = image.track(cylinder, head), OUTER - step * (cylinder + 0.5)
        draw_track(drawing, image, x, y, radius, cylinder, head, cells)
        for field in image.extents(cylinder, head, cells):
            title = told(cylinder, head, field)
            attributes = {"d": arc(x, y, radius, field.start, field.end, image.cells), "stroke": LOOKS[field.found][1]}
            if field.found is Found.OK:
                drawing.put("path", title, **attributes)
            else:
                late.append((title, attributes, field.found))
    return late


def draw_side(drawing: Drawing, image: Recorded, head: int, x: int, y: int) -> None:
    """Draws a side."""
    step = (OUTER - INNER) / max(image.cylinders, 8)
    is_narrow = step < NARROW
    for radius in (OUTER + 1, OUTER - step * image.cylinders - 1):
        drawing.put("circle", cx=x, cy=y, r=f"{radius:.2f}", fill="none", stroke=INK, stroke_width=0.5)
    drawing.group(fill="none", stroke_width=f"{step if is_narrow else 0.88 * step:.2f}")
    late = draw_rings(drawing, image, head, x, y, step)
    drawing.end_group()
    drawing.group(fill="none", stroke_width=f"{step + BROADER if is_narrow else 0.88 * step:.2f}")
    for title, attributes, _ in late:
        drawing.put("path", title, **attributes)
    drawing.end_group()
    drawing.text(x, y + 5, f"side {head}", text_anchor="middle", font_size=16)
    drawing.put("path", d=f"M{x} {y - OUTER - 3}v-14", stroke=INK, stroke_width=1.5)
    drawing.text(x + 6, y - OUTER - 8, "index; the words pass clockwise, cylinder 0 is outside", font_size=11)


def draw_disk(image: Recorded, name: str) -> Drawing:
    """Both sides of a diskette as rings."""
    drawing = Drawing(max(2 * MIDDLE * image.heads + 40, 940), 2 * MIDDLE + 90)
    for head in range(image.heads):
        draw_side(drawing, image, head, 20 + MIDDLE * (2 * head + 1), MIDDLE + 44)
    counts = Counter(found for lines in image.lines.values() for _, _, found in lines)
    drawing.text(20, 24, f"{name}: {image.told()}; address fields: {sum(counts.values())}", font_size=15)
    draw_legend(drawing, 20, 2 * MIDDLE + 72, counts)
    return drawing


# ---- one track

ROW_CELLS, CELLS_A_POINT, LEFT, ROW, BAR = 20480, 16, 70, 74, 26


class Strip:
    """A track in rows of cells."""

    def __init__(self, drawing: Drawing) -> None:
        self.drawing = drawing

    def place(self, cell: int) -> tuple[float, int]:
        """Where a cell is drawn."""
        return round(LEFT + cell % ROW_CELLS / CELLS_A_POINT, 2), 74 + cell // ROW_CELLS * ROW

    def bar(self, begin: int, end: int, title: str, top: int = 0, height: int = BAR, **attributes: Any) -> None:
        """Draws a stretch of cells, on as many rows as it covers."""
        while begin < end:
            upto = min(end, begin // ROW_CELLS * ROW_CELLS + ROW_CELLS)
            x, y = self.place(begin)
            self.drawing.put("rect", title, x=x, y=y + top, width=round((upto - begin) / CELLS_A_POINT, 2), height=height, **attributes)
            begin = upto

    def number(self, cell: int, below: bool = False) -> None:
        """Writes the number of a cell above its place, or below it."""
        x, y = self.place(cell)
        self.drawing.put("path", d=f"M{x} {y - 4}v4" if not below else f"M{x} {y + BAR}v4", stroke=INK, stroke_width=0.7)
        self.drawing.text(x, y + BAR + 14 if below else y - 6, str(cell), font_size=9)


def draw_field(strip: Strip, cylinder: int, head: int, field: Extent) -> None:
    """Draws a field on a strip."""
    colour, title = LOOKS[field.found][1], told(cylinder, head, field)
    strip.bar(field.start, field.start + ADDRESS_CELLS, title, fill=colour, stroke=INK, stroke_width=0.5)
    strip.number(field.start)
    if field.data is None:
        strip.bar(field.start + ADDRESS_CELLS, field.end, title, top=BAR - 5, height=5, fill=colour)
    else:
        strip.bar(field.data, field.end, title, fill=colour, stroke=INK, stroke_width=0.5)
        strip.number(field.data)
        strip.number(field.end, below=True)
    x, y = strip.place(field.start)
    strip.drawing.text(x, y + BAR + 14, " ".join(map(str, field.key)) + f" {LOOKS[field.found][0]}", font_size=11)


def draw_lost(strip: Strip, cells: str, fields: Sequence[Extent]) -> None:
    """Draws the marks that belong to no field."""
    for place in lost_runs(cells, fields):
        byte = f"{byte_at(cells, place + 48):02X}" if place + 64 <= len(cells) else "none"
        strip.bar(place, place + 48, f"three A1 at cell {place}, byte {byte} behind: of no field that is listed", fill=INK)


def draw_strip(image: Recorded, name: str, cylinder: int, head: int) -> Drawing:
    """One track as a strip of its fields with cell numbers."""
    cells = image.track(cylinder, head)
    fields, rows = image.extents(cylinder, head, cells), -(-image.cells // ROW_CELLS)
    drawing = Drawing(LEFT + ROW_CELLS // CELLS_A_POINT + 60, 100 + rows * ROW)
    strip = Strip(drawing)
    drawing.text(20, 24, f"{name}, cylinder {cylinder} head {head}: {image.cells} cells; address fields: {len(fields)}", font_size=15)
    drawing.text(20, 44, "Above a field its first cells, of the address and of the data; below it C H R N, and the cell behind its end. "
                 "A line alone is where data would stand.", font_size=11)
    strip.bar(0, image.cells, "gap", fill=GAP)
    for begin, end in bare_stretches(cells):
        strip.bar(begin, end, f"cells {begin} to {end - 1}: not recorded", fill=UNRECORDED, stroke=GAP, stroke_width=0.5)
    for row in range(rows):
        x, y = strip.place(row * ROW_CELLS)
        drawing.text(x - 6, y + 17, str(row * ROW_CELLS), font_size=10, text_anchor="end", fill_opacity=0.6)
    for field in fields:
        draw_field(strip, cylinder, head, field)
    draw_lost(strip, cells, fields)
    draw_legend(drawing, 20, 86 + rows * ROW, Counter(field.found for field in fields))
    return drawing
