"""many: all images of a folder, with what is bad, killed or cut off among them."""
from __future__ import annotations

import csv
import io
import json
import multiprocessing
import multiprocessing.popen_fork
import os
import signal
import time
from collections.abc import Callable, Sequence
from html.parser import HTMLParser
from pathlib import Path
from typing import Any

import pytest
from conftest import Run, content, damage, disk, disk_file, files_here, outside, put

from telwyddus import batch, pools
from telwyddus.command import running

NAMES = ["a.rt", "b.rt", "broken.rt", "in/c.img", "in/d.rt"]


@pytest.fixture
def box(fat: Path) -> Path:
    """A folder with three good images, one with a bad sector, and one that is none."""
    os.makedirs("box/in")
    put("box/a.rt", disk_file(2))
    put("box/b.rt", damage(disk(2), 1, 0, 3).file())
    put("box/broken.rt", b"RTIMAGE2" + bytes(90))
    fat.rename("box/in/c.img")
    put("box/in/d.rt", disk(1).write(6, content(0, 0, 6), deleted=True, track=0).file())
    put("box/notes.txt", b"no image")
    put("box/.hidden.rt", b"")
    return Path("box")


def contents(folder: Path) -> dict[str, bytes]:
    """The files of a folder."""
    return {str(path): path.read_bytes() for path in folder.rglob("*") if path.is_file()}


def test_verify_of_all(run: Run, box: Path) -> None:
    before = contents(box)
    answer = run("many", "verify", box)
    lines = answer.out.splitlines()
    assert answer.status == 1 and answer.err == "" and [line.split()[0] for line in lines[1:-1]] == NAMES
    assert [line.split()[1] for line in lines[1:-1]] == ["good", "odd", "failed", "good", "good"]
    assert "71 of 72 sectors" in lines[2] and "the first bad one is 1 0 3: the CRC of its data is wrong" in lines[2]
    assert lines[-1] == "3 of 5 images are good, 1 has something odd, 1 failed"
    assert contents(box) == before


@pytest.mark.parametrize("command", ["verify", "info", "survey"])
def test_it_is_what_the_command_alone_says(run: Run, box: Path, command: str) -> None:
    told = {row["image"]: row for row in run("many", command, box, "--json", "--jobs", "2").json["images"]}
    assert sorted(told) == NAMES
    for name in NAMES:
        alone = run(command, box / name)
        assert alone.status == ["good", "odd", "failed"].index(told[name]["state"]), name


def test_all_good_is_status_0(run: Run, box: Path) -> None:
    assert run("many", "verify", box / "in").status == 0


def test_csv_and_json(run: Run, box: Path) -> None:
    rows = list(csv.DictReader(io.StringIO(run("many", "info", box, "--csv").out)))
    assert [row["image"] for row in rows] == NAMES and rows[2]["state"] == "failed"
    told = run("many", "verify", box, "--json").json
    assert (told["good"], told["odd"], told["failed"]) == (3, 1, 1) and told["images"][1]["bad"] == [[1, 0, 3, "10"]]


class Page(HTMLParser):
    """What a page has: its rows, and how many elements of each kind."""

    def __init__(self, text: str) -> None:
        super().__init__()
        self.text, self.count, self.open = [], {}, []
        self.feed(text)

    def handle_starttag(self, tag: str, attributes: Any) -> None:
        self.count[tag] = self.count.get(tag, 0) + 1
        self.open.append(tag)

    def handle_endtag(self, tag: str) -> None:
        while self.open and self.open.pop() != tag:
            pass

    def handle_data(self, data: str) -> None:
        self.text.append(data)


def test_a_report_with_pictures(run: Run, box: Path) -> None:
    put("box/<b>&.rt", disk_file(1))
    assert run("many", "verify", box, "--report", "r.html").status == 1
    page = Page(Path("r.html").read_text())
    assert page.count["svg"] == 5 and page.count["tr"] == 7 and "b" not in page.count and "<b>&.rt" in page.text
    # The bad sector of b.rt is drawn, and the good ones of the others aren't drawn one by one.
    assert page.count["path"] == 2
    assert files_here() == {"box", "r.html", "r.html.state", "hello.txt", "may.txt"}


def watch(monkeypatch: pytest.MonkeyPatch, stop_after: int | None = None) -> list[str]:
    """Writes down which images are looked at, and presses Ctrl-C after some."""
    seen: list[str] = []

    def run_all(function: Callable[[Any], Any], tasks: Sequence[Any], jobs: int, scheduler: str | None) -> Any:
        for place, answer in pools.run_here(function, tasks, 1):
            seen.append(tasks[place].name)
            yield place, answer
            if stop_after == len(seen):
                os.kill(os.getpid(), signal.SIGINT)
                time.sleep(1)

    monkeypatch.setattr(running, "run_all", run_all)
    return seen


def test_it_goes_on_after_ctrl_c(run: Run, box: Path, monkeypatch: pytest.MonkeyPatch) -> None:
    seen = watch(monkeypatch, stop_after=2)
    answer = run("many", "verify", box, "--report", "r.html")
    assert answer.status == 130 and "2 of 5 images were done" in answer.err and seen == NAMES[:2] and not Path("r.html").exists()
    # A kill may leave a part of a line.
    with open("r.html.state", "a") as state:
        state.write('["in/c.img", [14')
    seen = watch(monkeypatch)
    assert run("many", "verify", box, "--report", "r.html").status == 1 and seen == NAMES[2:]
    assert Page(Path("r.html").read_text()).count["tr"] == 6
    # What failed is tried again, and what changed is looked at again; the report is replaced.
    put("box/a.rt", disk_file(1))
    seen = watch(monkeypatch)
    assert run("many", "verify", box, "--report", "r.html").status == 1 and seen == ["a.rt", "broken.rt"]
    seen = watch(monkeypatch)
    assert run("many", "verify", box, "--report", "r.html", "--again").status == 1 and seen == NAMES


def test_ctrl_c_between_the_starts_of_two_workers(run: Run, box: Path, monkeypatch: pytest.MonkeyPatch) -> None:
    """No worker is left that waits for work for ever. Python waits for each at its own end."""
    real = multiprocessing.popen_fork.Popen._launch

    def interrupted(*words: Any) -> None:
        real(*words)
        os.kill(os.getpid(), signal.SIGINT)

    with monkeypatch.context() as patched:
        patched.setattr(multiprocessing.popen_fork.Popen, "_launch", interrupted)
        assert run("many", "verify", box, "--jobs", "2").status == 130
    end = time.monotonic() + 20
    while multiprocessing.active_children() and time.monotonic() < end:
        time.sleep(0.05)
    left = multiprocessing.active_children()
    for process in left:
        process.kill()
    assert not left


def test_a_report_and_a_state_of_others_stay(run: Run, box: Path) -> None:
    put("r.html", b"mine")
    put("s", b"mine")
    assert "is there already" in run("many", "verify", box, "--report", "r.html").err
    for more in ([], ["--again"]):
        answer = run("many", "verify", box, "--state", "s", *more)
        assert answer.status == 2 and "isn't the state of such a run" in answer.err
    assert Path("r.html").read_bytes() == Path("s").read_bytes() == b"mine"
    assert run("many", "verify", box, "--state", "t").status == 1
    answer = run("many", "info", box, "--state", "t")
    assert answer.status == 2 and "with other arguments" in answer.err
    assert run("many", "info", box, "--state", "t", "--again").status == 1


def test_convert(run: Run, box: Path) -> None:
    answer = run("many", "convert", box, "--to", "flat", "--into", "out")
    assert answer.status == 1 and set(contents(Path("out"))) == {"out/a.img", "out/in/c.img"}
    assert "can't hold all that is on this diskette" in answer.out and "4 of 5" not in answer.out
    assert Path("out/in/c.img").read_bytes() == Path("box/in/c.img").read_bytes()
    assert outside("mtype", "-i", "out/in/c.img", "::HELLO.TXT") == "hello from a diskette\n"
    assert run("many", "convert", box, "--to", "flat", "--into", "out", "--lossy").status == 1
    assert set(contents(Path("out"))) == {"out/a.img", "out/b.img", "out/in/c.img", "out/in/d.img"}
    # What is there and is the same counts as stored; what is there and is another file stays.
    put("out/a.img", b"mine")
    answer = run("many", "convert", box, "--to", "flat", "--into", "out", "--lossy")
    assert "a.rt       failed  out/a.img is there already" in answer.out and Path("out/a.img").read_bytes() == b"mine"
    assert run("many", "convert", box, "--to", "flat", "--into", "out", "--lossy", "--force").out.count("failed") == 2


def test_a_converted_file_that_has_gone_is_made_again(run: Run, box: Path) -> None:
    words = ["many", "convert", box / "in", "--to", "cells", "--into", "out", "--state", "s"]
    assert run(*words).status == 0
    made = contents(Path("out"))
    Path("out/c.rt").unlink()
    assert run(*words).status == 0 and contents(Path("out")) == made


@pytest.mark.parametrize("is_killed_again", [False, True])
def test_a_worker_that_is_killed(run: Run, box: Path, monkeypatch: pytest.MonkeyPatch, is_killed_again: bool) -> None:
    marker, before = Path("killed").absolute(), batch.verify

    def killed(task: batch.Task) -> batch.Answer:
        if task.name == "b.rt" and (is_killed_again or not marker.exists()):
            marker.touch()
            os.kill(os.getpid(), signal.SIGKILL)
        return before(task)

    monkeypatch.setitem(batch.COMMANDS, "verify", killed)
    told = run("many", "verify", box, "--json", "--jobs", "2").json["images"]
    assert [row["image"] for row in told] == NAMES
    assert [row["state"] for row in told] == ["good", "failed" if is_killed_again else "odd", "failed", "good", "good"]
    assert (told[1]["result"] == "its process was killed, twice") == is_killed_again


def test_a_mistake_stops_no_other(run: Run, box: Path, monkeypatch: pytest.MonkeyPatch) -> None:
    before = batch.verify

    def wrong(task: batch.Task) -> batch.Answer:
        return before(task) if task.name != "a.rt" else (0, "", json.loads("{"))

    monkeypatch.setitem(batch.COMMANDS, "verify", wrong)
    told = run("many", "verify", box, "--json").json["images"]
    assert told[0]["state"] == "failed" and "a mistake of this program" in told[0]["result"] and told[3]["state"] == "good"


def test_a_system_without_shared_memory(run: Run, box: Path, monkeypatch: pytest.MonkeyPatch) -> None:
    there = run("many", "verify", box, "--json").json

    def refused(*_: Any, **__: Any) -> None:
        raise PermissionError(13, "Permission denied")

    monkeypatch.setattr("multiprocessing.synchronize.SemLock.__init__", refused)
    assert not pools.has_queues() and run("many", "verify", box, "--json").json == there


def test_wrong_arguments(run: Run, box: Path) -> None:
    os.mkdir("empty")
    for words in (["verify", "empty"], ["verify", "nowhere"], ["eat", box], ["convert", box], ["verify", box, "--into", "out"], ["verify", box, "--jobs", "0"],
                  ["convert", box, "--to", "cells"], ["verify", box, "--report", "nowhere/r.html"]):
        assert run("many", *words).status == 2, words
    put("box/a.img", b"")
    assert "would both become" in run("many", "convert", box, "--to", "cells", "--into", "out").err
    assert not Path("out").exists()
