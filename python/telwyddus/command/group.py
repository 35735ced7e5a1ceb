"""The group of all subcommands."""
from __future__ import annotations

import difflib
from typing import Any

import click

from ..binding import version
from . import browse, campaign, check, draw, look, make, many, play, rescue, serve

# Subcommands of the program `floppy` that aren't subcommands here.
OF_FLOPPY = ("formatdd", "import", "export", "exercise", "int13", "ports", "fromimd", "toimd", "remaster")
EPILOG = ("The status is 0 if all is as it should be, 1 if something isn't (a bad sector, a difference), 2 if the task couldn't be done, and "
          "130 after Ctrl-C. A command with --json prints its answer as JSON.")


class Group(click.Group):
    """A group that says what may have been meant."""

    def resolve_command(self, context: click.Context, arguments: list[str]) -> tuple[Any, Any, list[str]]:
        """The subcommand that is named."""
        name = arguments[0] if arguments else ""
        if name and self.get_command(context, name) is None:
            if name in OF_FLOPPY:
                context.fail(f"{name} is a subcommand of the program floppy: telwyddus floppy {' '.join(arguments)}")
            near = difflib.get_close_matches(name, self.list_commands(context), 1)
            context.fail(f"There is no command {name}." + (f" Did you mean {near[0]}?" if near else " `telwyddus --help` lists them."))
        return super().resolve_command(context, arguments)

    def list_commands(self, context: click.Context) -> list[str]:
        """The subcommands, in the order of a day's work rather than of the alphabet."""
        return list(self.commands)


def say_version(context: click.Context, parameter: click.Parameter, is_asked: bool) -> None:
    """Prints the version of the library, which is that of the package."""
    if is_asked:
        number = version()
        click.echo(f"telwyddus {number // 10000}.{number // 100 % 100}.{number % 100}")
        context.exit()


@click.group(cls=Group, epilog=EPILOG, context_settings={"help_option_names": ["-h", "--help"]})
@click.option("--version", is_flag=True, is_eager=True, expose_value=False, callback=say_version, help="Print the version, and do nothing else.")
def telwyddus() -> None:
    """Look at, check, convert and rescue images of diskettes.

    An IMAGE is a raw image with the cells of all tracks (.rt), an ImageDisk file (.imd) or a flat sector file (.img,
    .ima ..). No command changes an image that it only reads. None replaces a file without --force.
    """


for command in (look.info, look.sectors, look.survey, look.hexdump, check.verify, check.compare, make.convert, make.format_, make.copy,
                rescue.rescue, draw.picture, draw.waves, browse.browse, serve.serve, many.many, play.play, play.plan, campaign.campaign, play.floppy):
    telwyddus.add_command(command)
