"""Reads crates.txt for the scripts: its crates from the bottom up."""
import collections
import pathlib

FILE = pathlib.Path(__file__).resolve().parent.parent / "crates.txt"

# `below` are the crates that a line lists, also crates of the kit; `group` is the comment above the lines of the
# crate's group.
Crate = collections.namedtuple("Crate", "name below group line")


def crates():
    """All crates of this repository, in the order of the file."""
    found, group = [], ""
    for line in FILE.read_text(encoding="utf-8").splitlines():
        words, _, comment = line.partition("#")
        head, colon, below = words.partition(":")
        if colon:
            found.append(Crate(head.split()[0], below.split(), group, line))
        elif comment:
            group = comment.strip("# .")
    return found


def names():
    """The names of all crates of this repository, in the order of the file."""
    return [crate.name for crate in crates()]


def and_below(name):
    """A crate, and all crates of this repository that it stands on, in the order of the file."""
    by_name = {crate.name: crate for crate in crates()}
    wanted = [name]
    for one in wanted:
        wanted += [it for it in by_name[one].below if it in by_name and it not in wanted]
    return [crate for crate in by_name.values() if crate.name in wanted]
