"""The options and arguments that several commands have."""
from __future__ import annotations

from pathlib import Path
from typing import Any

import click

from ..geometry import NAMED, Geometry


class GeometryType(click.ParamType):
    """A geometry, by its name or its numbers."""

    name = "geometry"

    def convert(self, value: Any, param: click.Parameter | None, context: click.Context | None) -> Geometry:
        """The geometry that a word names."""
        if isinstance(value, Geometry):
            return value
        try:
            return Geometry.parsed(value)
        except ValueError as fault:
            self.fail(str(fault), param, context)

    def shell_complete(self, context: click.Context, param: click.Parameter, incomplete: str) -> list[Any]:
        """The names that begin like a word."""
        from click.shell_completion import CompletionItem
        return [CompletionItem(name, help=words) for name, (_, words) in NAMED.items() if name.lower().startswith(incomplete.lower())]


FILE = click.Path(path_type=Path, dir_okay=False)
IMAGE = click.Path(path_type=Path, dir_okay=False, exists=True, readable=True)

as_json = click.option("--json", "as_json", is_flag=True, help="Print the answer as JSON.")
force = click.option("--force", is_flag=True, help="Replace a file that is there already.")
lossy = click.option("--lossy", is_flag=True, help="Go on although the format can't hold all of the diskette.")
geometry = click.option("--geometry", type=GeometryType(), metavar="GEOMETRY",
                        help="The geometry: a name such as 1.44M or DMF, or numbers as in 80x2x18x512@500. It is found out otherwise.")
scheduler = click.option("--scheduler", metavar="ADDRESS",
                         help="Work on a cluster of Dask, whose scheduler is at this address, as in tcp://host:8786.")
image = click.argument("image", type=IMAGE)
images = click.argument("images", metavar="IMAGE..", type=IMAGE, nargs=-1, required=True)
