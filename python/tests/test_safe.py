"""Files are whole or as they were: stores, locks, and commands that Ctrl-C or a kill cuts off."""
from __future__ import annotations

import errno
import fcntl
import os
import signal
import stat
import subprocess
import sys
import time
from pathlib import Path
from typing import Any

import pytest
from conftest import Run, damage, disk, disk_file, put

from telwyddus import Problem, files


def test_a_store_is_whole_and_keeps_mode_and_link() -> None:
    put("a", b"old").chmod(0o640)
    Path("link").symlink_to("a")
    files.store(Path("link"), b"new", force=True)
    assert Path("link").is_symlink() and Path("a").read_bytes() == b"new" and stat.S_IMODE(os.stat("a").st_mode) == 0o640
    assert sorted(os.listdir()) == ["a", "link"]


def test_a_name_that_is_taken_meanwhile(monkeypatch: pytest.MonkeyPatch) -> None:
    real = files.write_synced

    def slow(path: Path, data: bytes, mode: int | None) -> None:
        real(path, data, mode)
        put("a", b"other")

    monkeypatch.setattr(files, "write_synced", slow)
    with pytest.raises(Problem, match="made by another program meanwhile"):
        files.store(Path("a"), b"new")
    assert Path("a").read_bytes() == b"other" and os.listdir() == ["a"]


@pytest.mark.parametrize("number", [errno.EPERM, errno.ENOSYS, errno.EOPNOTSUPP])
def test_a_file_system_without_links(monkeypatch: pytest.MonkeyPatch, number: int) -> None:
    def refused(*_: Any) -> None:
        raise OSError(number, "refused")

    monkeypatch.setattr(os, "link", refused)
    files.store(Path("a"), b"new")
    assert Path("a").read_bytes() == b"new"
    with pytest.raises(Problem):
        files.store(Path("a"), b"newer")
    with monkeypatch.context() as patched, pytest.raises(KeyboardInterrupt):
        patched.setattr(os, "replace", interrupt)
        files.store(Path("b"), b"new")
    assert os.listdir() == ["a"]


def test_a_folder_and_a_full_disk() -> None:
    Path("folder").mkdir()
    with pytest.raises(Problem, match="is a folder"):
        files.store(Path("folder"), b"", force=True)
    with pytest.raises(Problem, match="can't be written"):
        files.store(Path("none/a"), b"")
    with pytest.raises(Problem):
        files.store(Path("/dev/full/a"), b"")


def test_two_runs_on_one_image(run: Run, fat: Path) -> None:
    assert run("convert", fat, "fat.rt").status == 0
    put("new.txt", b"new\n")
    before = Path("fat.rt").read_bytes()
    with open("fat.rt", "rb") as other:
        fcntl.flock(other, fcntl.LOCK_EX)
        for words in (["browse", "put", "fat.rt", "new.txt"], ["convert", "--force", fat, "fat.rt"], ["format", "--force", "fat.rt"]):
            answer = run(*words)
            assert answer.status == 2 and "being changed by another program" in answer.err and Path("fat.rt").read_bytes() == before
        assert run("verify", "fat.rt").status == 0
    assert run("browse", "put", "fat.rt", "new.txt").status == 0


# Each command that stores something, with the names of what is there before.
STORING = [["convert", "a.rt", "new.img"], ["convert", "--force", "a.rt", "old.img"], ["convert", "fat.img", "new.edsk"], ["format", "new.rt"],
           ["format", "--force", "old.img"], ["copy", "a.rt", "new.rt"], ["copy", "--force", "a.rt", "old.img"], ["picture", "a.rt", "new.svg"],
           ["picture", "a.rt", "new.png"], ["waves", "new.vcd"], ["browse", "get", "fat.img", "HELLO.TXT"], ["browse", "put", "fat.img", "more.txt"],
           ["play", "--force", "job"], ["floppy", "verify", "a.rt"]]
# A rescue stores what it has when Ctrl-C comes: test_rescue.py tries that.
READING = [["rescue", "a.rt", "new.rt"], ["info", "a.rt"], ["sectors", "a.rt"], ["survey", "a.rt"], ["hexdump", "a.rt", "0", "0", "1"], ["verify", "a.rt"],
           ["compare", "a.rt", "fat.img"], ["browse", "list", "fat.img"], ["plan", "check", "plan"],
           ["campaign", "a.rt", "--seeds", "1"], ["serve", "a.rt", "--run", "true"], ["serve", "--write", "a.rt", "--run", "true"]]


@pytest.fixture
def there(fat: Path) -> dict[str, bytes]:
    """The files that commands work on."""
    put("a.rt", disk_file(80))
    put("old.img", b"old")
    put("more.txt", b"more\n")
    put("plan", b"lose 0 0 1\n")
    put("job", b"insert 0 a.rt\nack 0\nfill 10000 512 5A\nwrite 0 1 0 3 2 10000\n")
    return {name: Path(name).read_bytes() for name in os.listdir()}


def interrupt(*_: Any, **__: Any) -> None:
    """Ctrl-C."""
    os.kill(os.getpid(), signal.SIGINT)
    time.sleep(1)


@pytest.mark.parametrize("words", STORING, ids=" ".join)
@pytest.mark.parametrize("moment", ["fsync", "write"])
def test_ctrl_c_while_a_file_is_written(run: Run, there: dict[str, bytes], monkeypatch: pytest.MonkeyPatch, words: list[str], moment: str) -> None:
    real = os.fsync
    with monkeypatch.context() as patched:
        if moment == "fsync":
            patched.setattr(os, "fsync", interrupt)
        else:
            patched.setattr(files, "write_synced", lambda path, data, mode: (put(str(path), data[:100]), interrupt()))
        answer = run(*words)
    assert os.fsync is real
    if words[0] != "floppy":
        assert answer.status == 130 and "Stopped." in answer.err
    assert {name: Path(name).read_bytes() for name in os.listdir()} == there


@pytest.mark.parametrize("words", STORING + READING, ids=" ".join)
def test_ctrl_c_while_something_is_read(run: Run, there: dict[str, bytes], monkeypatch: pytest.MonkeyPatch, words: list[str]) -> None:
    with monkeypatch.context() as patched:
        patched.setattr(files, "read", interrupt)
        patched.setattr("telwyddus.images.formatted", interrupt)
        patched.setattr("telwyddus.command.make.formatted", interrupt)
        patched.setattr("telwyddus.command.draw.traced", interrupt)
        patched.setattr("telwyddus.floppy.content", interrupt)
        answer = run(*words)
    assert answer.status == 130 and answer.out == "" and "Stopped." in answer.err
    assert {name: Path(name).read_bytes() for name in os.listdir()} == there


KILLED = """
import os, signal, sys, telwyddus.files, telwyddus.command
real = telwyddus.files.write_synced
def killed(path, data, mode):
    real(path, data[:len(data) // 2], mode)
    os.kill(os.getpid(), getattr(signal, sys.argv[1]))
telwyddus.files.write_synced = killed
sys.exit(telwyddus.command.main(sys.argv[2:]))
"""


@pytest.mark.parametrize("name", ["SIGTERM", "SIGKILL"])
def test_a_kill_leaves_whole_files(there: dict[str, bytes], name: str) -> None:
    words = [sys.executable, "-c", KILLED, name, "convert", "--force", "a.rt", "old.img"]
    assert subprocess.run(words, capture_output=True).returncode == (143 if name == "SIGTERM" else -9)
    left = {name: Path(name).read_bytes() for name in os.listdir()}
    assert {name: data for name, data in left.items() if not name.startswith(".")} == there
    # A kill that can't be caught leaves the unfinished file beside, under a name that says whose it is.
    assert len(left) - len(there) == (name == "SIGKILL")


def test_damage_is_told_and_not_mended(run: Run) -> None:
    before = put("a.rt", damage(disk(80), 1, 0, 3).file()).read_bytes()
    for words in (["info"], ["verify"], ["sectors"], ["survey"]):
        assert run(*words, "a.rt").status == 1
    assert Path("a.rt").read_bytes() == before
