"""Each command: a right case, bad ones, and Ctrl-C at any moment, in a process of its own and as a terminal sends it."""
from __future__ import annotations

import os
import random
import signal
import subprocess
import sys
import time
from collections.abc import Iterator
from pathlib import Path

import click
import pytest
from conftest import Run, disk_file, outside, put

from telwyddus import Disk
from telwyddus.command.group import telwyddus

# A right case of each command, on the files of `there`.
RIGHT = {
    "info": ["info", "a.rt"],
    "sectors": ["sectors", "a.rt"],
    "survey": ["survey", "a.rt"],
    "hexdump": ["hexdump", "a.rt", "0", "0", "1"],
    "verify": ["verify", "a.rt", "fat.img"],
    "compare": ["compare", "a.rt", "a.rt"],
    "convert": ["convert", "a.rt", "new.imd"],
    "format": ["format", "new.rt"],
    "copy": ["copy", "a.rt", "new.rt"],
    "rescue": ["rescue", "a.rt", "new.rt"],
    "picture": ["picture", "a.rt", "new.png"],
    "waves": ["waves", "new.vcd"],
    "browse list": ["browse", "list", "fat.img"],
    "browse get": ["browse", "get", "fat.img", "HELLO.TXT"],
    "browse put": ["browse", "put", "fat.img", "more.txt"],
    "serve": ["serve", "a.rt", "--run", 'nbdcopy "$uri" null:'],
    "many": ["many", "convert", "box", "--to", "flat", "--into", "new", "--jobs", "2"],
    "play": ["play", "--force", "job"],
    "plan check": ["plan", "check", "plan"],
    "campaign": ["campaign", "a.rt", "--seeds", "1-6", "--jobs", "2"],
    "floppy": ["floppy", "verify", "a.rt"],
}
# Bad cases of each command. The first is one of a file that isn't there or isn't what it should be.
BAD = {
    "info": [["info", "none.rt"], ["info", "nowhere.rt"], ["info"]],
    "sectors": [["sectors", "none.rt"], ["sectors", "a.rt", "--track", "99", "0"], ["sectors"]],
    "survey": [["survey", "none.rt"], ["survey", "nowhere.rt"], ["survey", "a.rt", "--track", "0"]],
    "hexdump": [["hexdump", "none.rt", "0", "0", "1"], ["hexdump", "a.rt", "0", "0", "19"], ["hexdump", "a.rt", "0", "0"]],
    "verify": [["verify", "none.rt"], ["verify", "a.rt", "nowhere.rt"], ["verify", "a.rt", "--geometry", "9x9"]],
    "compare": [["compare", "a.rt", "none.rt"], ["compare", "a.rt", "nowhere.rt"], ["compare", "a.rt"]],
    "convert": [["convert", "none.rt", "new.img"], ["convert", "a.rt", "old.img"], ["convert", "a.rt", "new.what"]],
    "format": [["format", "old.img"], ["format", "new.rt", "--geometry", "80x2x99"], ["format", "nowhere/new.rt"]],
    "copy": [["copy", "none.rt", "new.rt"], ["copy", "a.rt", "old.img"], ["copy", "a.rt"]],
    "rescue": [["rescue", "none.rt", "new.rt"], ["rescue", "a.rt", "old.img"], ["rescue", "a.rt", "new.td0"]],
    "picture": [["picture", "none.rt", "new.svg"], ["picture", "a.rt", "new.gif"], ["picture", "a.rt", "old.img"]],
    "waves": [["waves", "old.img"], ["waves", "nowhere/new.vcd"], ["waves"]],
    "browse list": [["browse", "list", "none.rt"], ["browse", "list", "a.rt"], ["browse", "list", "fat.img", "NONE"]],
    "browse get": [["browse", "get", "none.rt", "HELLO.TXT"], ["browse", "get", "fat.img", "NONE.TXT"], ["browse", "get", "fat.img"]],
    "browse put": [["browse", "put", "none.rt", "more.txt"], ["browse", "put", "fat.img", "nowhere.txt"], ["browse", "put", "fat.img", "hello.txt"]],
    "serve": [["serve", "none.rt", "--run", "true"], ["serve", "a.rt", "--port", "0"], ["serve", "a.rt", "--socket", "old.img"]],
    "many": [["many", "verify", "nowhere"], ["many", "eat", "box"], ["many", "convert", "box"]],
    "play": [["play", "plan"], ["play", "nowhere"], ["play", "job"]],
    "plan check": [["plan", "check", "nowhere"], ["plan", "check"], ["plan", "eat", "plan"]],
    "campaign": [["campaign", "nowhere.rt"], ["campaign", "a.rt", "--seeds", "2-1"], ["campaign", "a.rt", "--jobs", "0"]],
    "floppy": [["floppy", "verify", "none.rt"], ["floppy", "verify", "nowhere.rt"], ["floppy", "eat"]],
}
# How often Ctrl-C comes while a command works, each time at another moment.
MOMENTS = 3
# Runs the command, and first says that it has begun.
BEGUN = "import sys; from telwyddus.command import main, group; print('begun', flush=True); sys.exit(main(sys.argv[1:]))"


def commands(group: click.Group, before: str = "") -> Iterator[str]:
    """The names of all commands, those of a group in a group after its own name."""
    for name, command in group.commands.items():
        if isinstance(command, click.Group):
            yield from commands(command, f"{before}{name} ")
        else:
            yield before + name


@pytest.fixture
def there(fat: Path) -> dict[str, bytes]:
    """The files that commands work on."""
    put("a.rt", disk_file(80))
    put("none.rt", b"RTIMAGE2")
    put("old.img", b"old")
    put("more.txt", b"more\n")
    put("plan", b"lose 0 0 1\n")
    put("job", b"insert 0 a.rt\nack 0\nfill 10000 512 5A\nwrite 0 1 0 3 2 10000\n")
    Path("box").mkdir()
    for name in "abcd":
        put(f"box/{name}.rt", disk_file(2))
    return contents()


def contents() -> dict[str, bytes]:
    """All files of this folder and of those in it."""
    return {str(path): path.read_bytes() for path in Path(".").rglob("*") if path.is_file()}


def test_no_command_is_left_out() -> None:
    assert set(RIGHT) == set(BAD) == set(commands(telwyddus))


@pytest.mark.parametrize("name", RIGHT)
def test_a_right_case(run: Run, there: dict[str, bytes], name: str) -> None:
    assert run(*RIGHT[name]).status == 0
    after = contents()
    made, changed = set(after) - set(there), {file for file in there if after.get(file) != there[file]}
    assert all(file.startswith("new") or file == "HELLO.TXT" for file in made)
    assert changed == {"browse put": {"fat.img"}, "play": {"a.rt"}}.get(name, set())


@pytest.mark.parametrize("name, words", [(name, words) for name, cases in BAD.items() for words in cases], ids=lambda it: it if isinstance(it, str) else " ".join(it[-2:]))
def test_a_bad_case(run: Run, there: dict[str, bytes], name: str, words: list[str]) -> None:
    answer = run(*words)
    if name == "floppy":
        # The program's own numbers: docs/USING.md has them.
        assert answer.status > 1 and answer.out.strip()
    else:
        assert answer.status == 2 and answer.out == "" and answer.err.strip()
    assert contents() == there


def began(words: list[str]) -> "subprocess.Popen[str]":
    """A run of the command, in a process group of its own, as a shell starts it."""
    process = subprocess.Popen([sys.executable, "-c", BEGUN, *words], stdout=subprocess.PIPE, stderr=subprocess.PIPE, stdin=subprocess.DEVNULL, text=True, start_new_session=True)
    assert process.stdout is not None and process.stdout.readline() == "begun\n"
    return process


def is_running(group: int) -> bool:
    """Whether a process of a group still runs."""
    try:
        os.killpg(group, 0)
    except ProcessLookupError:
        return False
    return True


def check_ended(group: int) -> None:
    """Nothing of a process group may go on."""
    end = time.monotonic() + 20
    while is_running(group):
        assert time.monotonic() < end, "it left a process running"
        time.sleep(0.05)


def check_whole(name: str, before: dict[str, bytes], after: dict[str, bytes], now: dict[str, bytes]) -> None:
    """Each file is as it was, or as the command leaves it. A rescue stores what it has read."""
    for file in set(before) | set(now):
        if now.get(file) == before.get(file):
            continue
        assert file in after and len(now[file]) == len(after[file]), file
    if name == "browse put" and now["fat.img"] != before["fat.img"]:
        assert outside("mtype", "-i", "fat.img", "::MORE.TXT") == "more\n"
    if name == "rescue" and "new.rt" in now:
        Disk.open("new.rt").close()


@pytest.mark.parametrize("name", RIGHT)
def test_ctrl_c_at_any_moment(there: dict[str, bytes], name: str) -> None:
    process, beginning = began(RIGHT[name]), time.monotonic()
    process.communicate()
    longest, after, chance = time.monotonic() - beginning, contents(), random.Random(name)
    check_ended(process.pid)
    assert process.returncode == 0
    for _ in range(MOMENTS):
        for file in set(contents()) - set(there):
            os.unlink(file)
        for file, data in there.items():
            put(file, data)
        process = began(RIGHT[name])
        time.sleep(chance.uniform(0, longest))
        if process.poll() is None:
            os.killpg(process.pid, signal.SIGINT)
        _, said = process.communicate()
        # A signal that comes when all is done may still end Python.
        assert process.returncode in (0, 130, -signal.SIGINT), said
        assert process.returncode != 130 or "Traceback" not in said, said
        check_ended(process.pid)
        now = contents()
        rescued = name == "rescue" and process.returncode == 130
        check_whole(name, there, {**after, "new.rt.map": now.get("new.rt.map", b"")} if rescued else after, now)
