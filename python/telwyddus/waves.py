"""A trace as a VCD file, which GTKWave and PulseView open, and as a picture."""
from __future__ import annotations

from collections import defaultdict
from collections.abc import Iterable, Iterator, Sequence
from html import escape
from typing import Any

from .cells import MARK, byte_of
from .svg import INK, PAPER, written
from .trace import ACCESS, BITS, SIGNALS, C, H, R, Trace

# ---- as a VCD file


def mark_of(place: int) -> str:
    """The name of a line in a VCD file, which has only letters."""
    return chr(ord("A") + place // 26) + chr(ord("a") + place % 26)


def parts_of(name: str, value: int | None, is_split: bool) -> list[tuple[str, int | None]]:
    """The lines that show a signal, with their values: one for each bit, if that is asked for. None is a bus that
    nothing drives."""
    if not is_split or BITS[name] == 1:
        return [(name, value)]
    return [(f"{name}{bit}", None if value is None else value >> bit & 1) for bit in range(BITS[name])]


def line_of(size: int, value: int | None, mark: str) -> str:
    """A value of a line as a VCD file writes it."""
    shown = "z" if value is None else format(value, "b")
    return f"{shown}{mark}" if size == 1 else f"b{shown} {mark}"


def head_of(what: str, sizes: dict[str, int], marks: dict[str, str], is_split: bool) -> list[str]:
    """The lines of a VCD file that name its signals."""
    lines = [f"$comment telwyddus: {what} $end", "$timescale 1 ns $end"]
    for scope in ("controller", "drive"):
        lines.append(f"$scope module {scope} $end")
        lines += [f"$var wire {sizes[part]} {marks[part]} {part}{f' [{sizes[part] - 1}:0]' if sizes[part] > 1 else ''} $end"
                  for name, _, of in SIGNALS if of == scope for part, _ in parts_of(name, 0, is_split)]
        lines.append("$upscope $end")
    return [*lines, "$enddefinitions $end"]


def vcd(trace: Trace, what: str, is_split: bool) -> str:
    """The text of the file. PulseView shows only lines of one bit, which `is_split` makes."""
    sizes = {part: 1 if is_split else BITS[name] for name in BITS for part, _ in parts_of(name, 0, is_split)}
    marks = {part: mark_of(place) for place, part in enumerate(sizes)}
    lines, at = head_of(what, sizes, marks, is_split), defaultdict[int, list[str]](list)
    for name, changes in trace.changes.items():
        for time, value in changes:
            at[time] += [line_of(sizes[part], bit, marks[part]) for part, bit in parts_of(name, value, is_split)]
    for time in sorted(at):
        lines += [f"#{time}", "$dumpvars", *at[time], "$end"] if time == 0 else [f"#{time}", *at[time]]
    return "\n".join([*lines, f"#{trace.end}"]) + "\n"


# ---- as a picture

LEFT, WIDTH, LANE, HIGH, GAP = 92, 1000, 26, 16, 66
LINE, FILL, FAINT = "#0072B2", "#D6E6F2", "#DDDDDD"
MARKS_OF = {0xFE: ("address", 10), 0xFB: ("data", 6 + 512), 0xF8: ("deleted data", 6 + 512)}
# A stretch that is narrower than this has no text in it.
NARROW = 15
# If a panel shows fewer nanoseconds than this, the bytes in the FIFO are drawn as numbers.
CLOSE = 1000000
# The lanes of the whole command, of a closer look, and of a single request.
BRIEF = ["IOW", "IOR", "INT", "DRQ", "DACK", "TC", "MSR", "FIFO", "CYLINDER", "INDEX", "GATE", "field"]
FULL = ["INT", "DRQ", "DACK", "TC", "MSR", "FIFO", "GATE", "BYTE", "field"]
REQUEST = ["DRQ", "DACK", "DATA", "FIFO", "BYTE"]


def fields_of(trace: Trace) -> Iterator[tuple[int, int, str]]:
    """The fields that passed: the beginning and end of each, and what it is."""
    words, times = [word for _, word in trace.passed], [time for time, _ in trace.passed] + [trace.end]
    for at in range(len(words) - 3):
        if words[at:at + 3] == [MARK] * 3 and byte_of(words[at + 3]) in MARKS_OF:
            what, size = MARKS_OF[byte_of(words[at + 3])]
            yield times[at], times[min(at + size, len(words))], what


class Panel:
    """A stretch of time, with its lanes below each other."""

    def __init__(self, lines: list[str], trace: Trace, top: int, begin: int, end: int) -> None:
        self.lines, self.trace, self.top, self.begin, self.end = lines, trace, top, begin, end

    def x(self, time: int) -> float:
        """Where a time is drawn."""
        return round(LEFT + WIDTH * (min(max(time, self.begin), self.end) - self.begin) / (self.end - self.begin), 1)

    def text(self, x: float, y: int, text: str, **attributes: Any) -> None:
        """Adds a text."""
        self.lines.append(f'<text x="{x}" y="{y}" fill="{INK}"{written(attributes)}>{escape(text, quote=False)}</text>')

    def stretches(self, name: str) -> Iterator[tuple[int, int, int | None]]:
        """The values of a signal within the panel, each with its beginning and end."""
        changes = self.trace.changes[name]
        for (time, value), (after, _) in zip(changes, [*changes[1:], (self.trace.end, None)]):
            if after > self.begin and time < self.end:
                yield max(time, self.begin), min(after, self.end), value

    def wave(self, y: int, name: str, most: int = 1) -> None:
        """Draws a line that is up or down, or for a number as high as the number is."""
        points: list[str] = []
        for begin, end, value in self.stretches(name):
            height = round(y + HIGH - HIGH * (value or 0) / most, 1)
            points += [it for it in (f"{self.x(begin)} {height}", f"{self.x(end)} {height}") if points[-1:] != [it]]
        if points:
            self.lines.append(f'<path d="M{"L".join(points)}" fill="none" stroke="{LINE}"/>')

    def boxes(self, y: int, stretches: Iterable[tuple[int, int, str]]) -> None:
        """Draws values of several bits, or texts, each in a box as long as it lasts."""
        for begin, end, text in stretches:
            x, width = self.x(begin), round(self.x(end) - self.x(begin), 1)
            if text and width > 0:
                self.lines.append(f'<rect x="{x}" y="{y}" width="{width}" height="{HIGH}" fill="{FILL}" stroke="{LINE}" stroke-width="0.6"/>')
                if width >= NARROW + 5 * max(len(text) - 2, 0):
                    self.text(round(x + width / 2, 1), y + 12, text, font_size=10, text_anchor="middle")

    def bus(self, y: int, name: str) -> None:
        """Draws the bytes of a bus."""
        self.boxes(y, [(begin, end, "" if value is None else f"{value:02X}") for begin, end, value in self.stretches(name)])

    def grid(self, height: int) -> None:
        """Draws a line for each 1, 2 or 5 times a power of ten microseconds, so that some ten lines are in the panel,
        and writes the milliseconds."""
        span, step = (self.end - self.begin) / 1000, 1
        while span / step > 12:
            step = step * 5 // 2 if str(step)[0] == "2" else step * 2
        first = -(-self.begin // (1000 * step)) * step
        for time in range(first, self.end // 1000 + 1, step):
            x = self.x(1000 * time)
            self.lines.append(f'<path d="M{x} {self.top}V{self.top + height}" stroke="{FAINT}"/>')
            self.text(x, self.top + height + 13, f"{time / 1000:g} ms", font_size=10, text_anchor="middle")

    def lane(self, y: int, name: str) -> None:
        """Draws a lane: a line, a bus, a number or the fields that pass."""
        begin, end = self.begin, self.end
        if name == "field":
            self.boxes(y, [(max(a, begin), min(b, end), what) for a, b, what in fields_of(self.trace) if b > begin and a < end])
        elif name == "FIFO" and end - begin > CLOSE:
            self.wave(y, name, 16)
        elif name == "FIFO":
            self.boxes(y, [(a, b, str(count)) for a, b, count in self.stretches(name)])
        elif BITS[name] == 1:
            self.wave(y, name)
        else:
            self.bus(y, name)


def draw_panel(lines: list[str], trace: Trace, top: int, title: str, begin: int, end: int, lanes: Sequence[str]) -> int:
    """Draws a stretch of time, and returns where the next one may begin."""
    panel, height = Panel(lines, trace, top + 10, begin, end), LANE * len(lanes)
    panel.text(10, top, title, font_size=13, font_weight="bold")
    panel.grid(height)
    for place, name in enumerate(lanes):
        y = panel.top + LANE * place + 5
        panel.text(LEFT - 8, y + 12, name, font_size=11, text_anchor="end")
        panel.lane(y, name)
    return top + height + GAP


def svg(trace: Trace, is_write: bool) -> str:
    """The text of the picture: the whole command, the first bytes, a request close up, and the last request with its
    effects."""
    # The moments that are shown: when the gate opens or the first byte comes; a request; the interrupt after the
    # terminal count.
    seen = trace.first("GATE", 1) if is_write else trace.first("FIFO", 1)
    asked = trace.first("DRQ", 1, seen)
    last, step = trace.first("INT", 1, trace.first("TC", 1)), 16000
    lines: list[str] = []
    short = "WRITE DATA" if is_write else "READ DATA"
    panels = [
        (f"SEEK to cylinder {C}, and {short} of sector {C} {H} {R}", 0, trace.end, BRIEF),
        ("The gate opens" if is_write else "The first bytes", seen - 8 * step, seen + 36 * step, FULL),
        ("A request from close", asked - 1500, asked + 8 * ACCESS + 1500, REQUEST),
        ("The end: the interrupt, and the results", last - 30 * step, min(last + 14 * step, trace.end), FULL)]
    top = 26
    for title, begin, end, lanes in panels:
        top = draw_panel(lines, trace, top, title, begin, end, lanes)
    width, height = LEFT + WIDTH + 30, top - 30
    head = f'<svg xmlns="http://www.w3.org/2000/svg" viewBox="0 0 {width} {height}" width="{width}" height="{height}" font-family="sans-serif">'
    return "\n".join([head, f'<rect width="{width}" height="{height}" fill="{PAPER}"/>', *lines, "</svg>"]) + "\n"
