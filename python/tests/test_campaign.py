"""campaign: a driver that reads back what it wrote loses nothing, one that doesn't is caught, and rounds can be repeated."""
from __future__ import annotations

import csv
import io
import json
import os
import random
import signal
import time
from pathlib import Path
from typing import Any

import pytest
from conftest import Run, content, damage, disk, disk_file, put

from telwyddus import Disk, Machine, State
from telwyddus.campaigns import LINES, plan_of, wrong
from telwyddus.command import running
from telwyddus.disks import Sector


@pytest.fixture
def image() -> Path:
    """An image of four cylinders with a bad sector and a deleted mark."""
    made = damage(disk(4), 1, 0, 3)
    made.write(6, content(2, 0, 6), deleted=True, track=4)
    return put("a.rt", made.file())


def test_a_careful_driver_loses_nothing(run: Run, image: Path) -> None:
    before = image.read_bytes()
    answer = run("campaign", image, "--seeds", "1-30", "--jobs", "2")
    lines = answer.out.splitlines()
    assert answer.status == 0 and lines[-1] == "30 of 30 rounds are good"
    assert [line.split()[1] for line in lines[1:-1]] == [str(seed) for seed in range(1, 31)]
    assert image.read_bytes() == before and sorted(os.listdir()) == ["a.rt"]


def test_a_driver_that_reads_nothing_back_is_caught(run: Run, image: Path) -> None:
    answer = run("campaign", image, "--seeds", "1-30", "--unchecked", "--json")
    told = answer.json
    assert answer.status == 1 and told["odd"] > 0 and told["failed"] == 0
    for one in told["rounds"]:
        # Only a write that is cut can be missed.
        assert not one["wrong"] or "cut 0 " in one["plan"], one
        with Machine(one["plan"]):
            assert one["plan"].count("\n") == 12


def test_faults_come_and_a_seed_makes_the_same_round(run: Run, image: Path) -> None:
    first, again = (run("campaign", image, "--seeds", "5-12", "--attempts", "2", "--faults", "30", "--json", *more).json for more in ([], ["--jobs", "1"]))
    assert first == again
    numbers = [number for one in first["rounds"] for *_, number in one["attempts"]]
    assert {0, 1, 2} == set(numbers)
    one, = run("campaign", image, "--seeds", "7", "--attempts", "2", "--faults", "30", "--json").json["rounds"]
    assert one == first["rounds"][2]
    without = run("campaign", image, "--seeds", "1-3", "--faults", "0", "--json").json["rounds"]
    assert all(number == 1 for one in without for *_, number in one["attempts"])


def test_each_line_of_a_plan_is_understood() -> None:
    with Disk.new("720K") as made:
        shape = made.shape
    chance = random.Random(1)
    for line in LINES:
        for _ in range(50):
            Machine(line(chance, (79, 1), shape) + "\n").close()
    assert plan_of(random.Random(3), [(0, 0)], shape, 5) == plan_of(random.Random(3), [(0, 0)], shape, 5)


@pytest.mark.parametrize("after, data, attempts, words", [
    ((b"old", State.GOOD), None, None, ""),
    ((b"new", State.GOOD), None, None, "wasn't written and has changed"),
    ((b"", State.DAMAGED), None, None, "wasn't written and has changed"),
    ((b"new", State.GOOD), b"new", 1, ""),
    ((b"old", State.GOOD), b"new", 1, "counts as written and has other bytes"),
    ((b"", State.DAMAGED), b"new", 3, "counts as written and has no good data"),
    ((b"", State.DAMAGED), b"new", 0, ""),
    ((b"old", State.GOOD), b"new", 0, ""),
    ((b"new", State.GOOD), b"new", 0, ""),
    ((b"mix", State.GOOD), b"new", 0, "has neither its old bytes nor its new ones")])
def test_the_judge(after: Any, data: bytes | None, attempts: int | None, words: str) -> None:
    before = Sector(1, 0, 3, b"old", False, State.GOOD)
    found = wrong(before, Sector(1, 0, 3, after[0], False, after[1]), data, attempts)
    assert found == (words and f"sector 1 0 3 {words}")


def test_it_goes_on_after_ctrl_c(run: Run, image: Path, monkeypatch: pytest.MonkeyPatch) -> None:
    words = ["campaign", image, "--seeds", "1-6", "--state", "s", "--jobs", "1"]
    real, seen = running.run_all, []

    def stopping(function: Any, tasks: Any, jobs: int, scheduler: str | None) -> Any:
        for place, row in real(function, tasks, jobs, scheduler):
            seen.append(tasks[place].seed)
            yield place, row
            if len(seen) == 2:
                os.kill(os.getpid(), signal.SIGINT)
                time.sleep(1)

    monkeypatch.setattr(running, "run_all", stopping)
    answer = run(*words)
    assert answer.status == 130 and "2 of 6 rounds were done" in answer.err
    rows = list(csv.DictReader(io.StringIO(run(*words, "--csv").out)))
    assert sorted(seen) == [1, 2, 3, 4, 5, 6] and [row["round"] for row in rows] == [f"seed {seed}" for seed in range(1, 7)]
    # More seeds go on with the same state; another image doesn't.
    assert run("campaign", image, "--seeds", "5-8", "--state", "s").status == 0 and sorted(seen)[-2:] == [7, 8]
    put("b.rt", disk_file(1))
    assert "with other arguments" in run("campaign", "b.rt", "--state", "s").err
    assert [json.loads(line)[0] for line in Path("s").read_text().splitlines()[1:]] == [f"seed {seed}" for seed in seen]


def test_wrong_arguments(run: Run, image: Path) -> None:
    for words in (["nowhere.rt"], [image, "--seeds", "9-1"], [image, "--seeds", "x"], [image, "--attempts", "0"], [image, "--jobs", "0"]):
        assert run("campaign", *words).status == 2, words
    put("c.rt", b"RTIMAGE2")
    answer = run("campaign", "c.rt", "--seeds", "1-2")
    assert answer.status == 1 and answer.out.count("failed") == 3
    with Disk.open(image) as there, there.medium() as tray:
        tray.protect()
        put("p.rt", tray.image())
    assert "write-protected" in run("campaign", "p.rt", "--seeds", "1").out
