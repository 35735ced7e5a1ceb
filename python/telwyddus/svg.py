"""An SVG that grows, element by element."""
from __future__ import annotations

import math
from collections.abc import Mapping
from html import escape
from typing import Any

INK, PAPER = "#222222", "#FFFFFF"


def written(attributes: Mapping[str, Any]) -> str:
    """Attributes as an element has them."""
    return "".join(f' {name.replace("_", "-")}="{value}"' for name, value in attributes.items())


class Drawing:
    """A drawing of a given size. Its paper is white."""

    def __init__(self, width: int, height: int) -> None:
        self.lines = [f'<svg xmlns="http://www.w3.org/2000/svg" viewBox="0 0 {width} {height}" width="{width}" height="{height}"'
                      ' font-family="sans-serif" font-size="12">', f'<rect width="{width}" height="{height}" fill="{PAPER}"/>']

    def put(self, tag: str, title: str | None = None, text: str | None = None, **attributes: Any) -> None:
        """Adds an element. A browser shows its title under the pointer."""
        inside = (f"<title>{escape(title, quote=False)}</title>" if title else "") + (escape(text, quote=False) if text else "")
        self.lines.append(f"<{tag}{written(attributes)}>{inside}</{tag}>" if inside else f"<{tag}{written(attributes)}/>")

    def text(self, x: float, y: float, text: str, **attributes: Any) -> None:
        """Adds a text."""
        self.put("text", text=text, x=x, y=y, fill=INK, **attributes)

    def group(self, **attributes: Any) -> None:
        """Begins a group of elements that have the same attributes."""
        self.lines.append(f"<g{written(attributes)}>")

    def end_group(self) -> None:
        """Ends the group."""
        self.lines.append("</g>")

    def whole(self) -> str:
        """The text of the file."""
        return "\n".join([*self.lines, "</svg>"]) + "\n"


def arc(x: float, y: float, radius: float, begin: int, end: int, whole: int) -> str:
    """A path along a ring, from one place of `whole` to another, clockwise from the top."""
    places = []
    for place in (begin, end):
        angle = 2 * math.pi * place / whole
        places.append(f"{x + radius * math.sin(angle):.2f} {y - radius * math.cos(angle):.2f}")
    return f"M{places[0]}A{radius:.2f} {radius:.2f} 0 {int(end - begin > whole / 2)} 1 {places[1]}"
