"""The program floppy on the files of the current folder.

Its arguments, its output and its exit status are those of the program; docs/USING.md and the program's manual page
describe them. The program runs on files in memory. These are the files of the folder that its arguments name; for
`play`, `int13` and `ports` they are also those that the text names. When the program has ended, each file that it
stored is written to the folder whole, in place of the old one. A file that the user may not write isn't replaced, and
neither is a file in a folder that the user may not write: the status is then 6, and standard error says why. Faults
can't be planned: if FLOPPY_PLAN is set, nothing runs.
"""
from __future__ import annotations

import os
import re
import sys
from collections.abc import Sequence
from pathlib import Path

from .codes import NoFile, NoMemory
from .files import LONGEST, store
from .machines import Shelf
from .problems import Problem

# The form of a name that the program accepts.
NAME = re.compile(r"[A-Za-z0-9_][A-Za-z0-9._-]{0,63}")
WITH_TEXT = ("play", "int13", "ports")
BAD_WORDS, FAILED, NO_MEMORY = 2, 6, 7


def content(name: str) -> bytes | None:
    """The bytes of a file, at most one more than any file may have; None if there is no such file."""
    try:
        with open(name, "rb") as file:
            return file.read(LONGEST)
    except FileNotFoundError:
        return None


def names_of(words: Sequence[str]) -> list[str]:
    """The names in the arguments, and those that the text may name; a word of the text that is a folder doesn't count."""
    said = set(words[1:])
    if len(words) == 2 and words[0] in WITH_TEXT and NAME.fullmatch(words[1]):
        said.update(names_in(content(words[1]) or b""))
    return sorted(name for name in said if NAME.fullmatch(name))


def names_in(text: bytes) -> set[str]:
    """The words of a text that may be names of files."""
    words = text.decode("ascii", "replace").split()
    return {word for word in words if NAME.fullmatch(word) and not os.path.isdir(word)}


def stored(shelf: Shelf, before: dict[str, bytes | None]) -> dict[str, bytes]:
    """The files that the program stored, of those that it could name, if they differ from what was there before."""
    found = {}
    for name, old in before.items():
        try:
            data = shelf.get(name)
        except NoFile:
            continue
        if data != old:
            found[name] = data
    return found


def run(words: Sequence[str]) -> int:
    """Runs the program, and returns its status."""
    with Shelf() as shelf:
        before = {name: content(name) for name in names_of(words)}
        for name, data in before.items():
            if data is not None:
                shelf.put(name, data)
        status = shelf.run(*words)
        print(shelf.report(), end="", flush=True)
        for name, data in stored(shelf, before).items():
            store(Path(name), data, force=True)
    return status


def main(words: Sequence[str]) -> int:
    """Runs the program unless its arguments can't be given to it, and returns its status."""
    if "FLOPPY_PLAN" in os.environ:
        print("FLOPPY_PLAN is set, and no plan is taken here", file=sys.stderr)
        return BAD_WORDS
    if any("\n" in word or not word.isascii() for word in words):
        print("words not understood")
        return BAD_WORDS
    try:
        return run(words)
    except OSError as fault:
        print(f"{fault.filename}: {fault.strerror}", file=sys.stderr)
        return FAILED
    except Problem as fault:
        print(fault, file=sys.stderr)
        return FAILED
    except NoMemory:
        return NO_MEMORY
