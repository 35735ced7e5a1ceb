"""The command `telwyddus`: its subcommands, its exit statuses, and how it says what went wrong.

The status is 0 if all was done and all is as it should be, 1 if something isn't as it should be (a sector that can't be
read, a difference), and 2 if the task wasn't done: wrong arguments, a file that can't be read, a format that can't hold
the diskette. After Ctrl-C it is 130.
"""
from __future__ import annotations

import importlib.util
import os
import signal
import sys
from collections.abc import Sequence

from ..binding import LibraryAbsent
from ..codes import NoMemory, Refused
from ..problems import Loss, Problem

for needed in ("click", "rich"):
    if importlib.util.find_spec(needed) is None:
        sys.exit(f"telwyddus needs the Python package {needed}. Debian has it as python3-{needed}, for /usr/bin/python3; others get it by "
                 f"`pip install {needed}`.")

import click  # noqa: E402

from .output import BAD, ODD, remark  # noqa: E402

DONE, NOT_AS_IT_SHOULD, NOT_DONE, INTERRUPTED = 0, 1, 2, 130


def main(arguments: Sequence[str] | None = None) -> int:
    """Runs the command, and returns its status."""
    signal.signal(signal.SIGTERM, lambda number, frame: sys.exit(128 + number))
    try:
        from .group import telwyddus
        status = telwyddus.main(args=None if arguments is None else list(arguments), prog_name="telwyddus", standalone_mode=False)
        sys.stdout.flush()
        return status if isinstance(status, int) else DONE
    except (click.exceptions.Abort, KeyboardInterrupt):
        remark("Stopped. Files that were there are as they were.", BAD)
        return INTERRUPTED
    except BrokenPipeError:
        # Nobody reads the answer any more. Nothing is left for the interpreter to flush.
        os.dup2(os.open(os.devnull, os.O_WRONLY), sys.stdout.fileno())
        return NOT_DONE
    except Exception as fault:
        return told(fault)


def told(fault: Exception) -> int:
    """Says what went wrong, and returns the status. What isn't known here is a mistake of the program, and is raised."""
    if isinstance(fault, click.ClickException):
        fault.show()
    elif isinstance(fault, Loss):
        remark(f"telwyddus: {fault}", BAD)
        for loss in fault.losses:
            remark(f"  {loss}", ODD)
        remark("Nothing was stored. --lossy goes on without these.")
    elif isinstance(fault, (Problem, LibraryAbsent)):
        remark(f"telwyddus: {fault}", BAD)
    elif isinstance(fault, (NoMemory, MemoryError)):
        remark("telwyddus: there isn't enough memory.", BAD)
    elif isinstance(fault, Refused):
        remark(f"telwyddus: the library refuses this: {fault}", BAD)
    elif isinstance(fault, OSError):
        remark(f"telwyddus: {fault.filename or 'the system'}: {fault.strerror or fault}.", BAD)
    else:
        raise fault
    return NOT_DONE


def run() -> None:
    """The entry point: ends with the status of the command."""
    sys.exit(main())
