"""rescue. Its map is judged by ddrescuelog of GNU ddrescue."""
from __future__ import annotations

import os
import signal
import tempfile
from collections.abc import Iterator, Sequence
from pathlib import Path
from typing import Any

import pytest
from conftest import Run, content, damage, disk, disk_file, files_here, outside, put
from hypothesis import given, settings
from hypothesis import strategies as st

import telwyddus.command.rescue
import telwyddus.files
from telwyddus import Geometry
from telwyddus.rescuing import Map, geometry_in

ALL = 80 * 2 * 18


def copies() -> None:
    """Three copies of one diskette. The first two lack two sectors each, one of them the same."""
    put("one.rt", damage(damage(disk(80), 1, 0, 3), 1, 0, 4).file())
    put("two.rt", damage(damage(disk(80), 1, 0, 3), 5, 1, 9).file())
    put("three.rt", disk_file(80))


def blocks(name: str) -> list[tuple[int, int]]:
    """The bad sectors of a map as ddrescuelog lists them: the first block and the number of blocks of each."""
    return [(int(line), 1) for line in outside("ddrescuelog", "--block-size=512", "--list-blocks=-", name).split()]


def test_one_copy(run: Run) -> None:
    copies()
    answer = run("rescue", "one.rt", "saved.rt", "--log", "missing")
    assert answer.status == 1 and "saved.rt: 2,878 of 2,880 sectors are there, and 2 are missing: 1 0 3; 1 0 4" in answer.out
    assert blocks("saved.rt.map") == [(38, 1), (39, 1)]
    assert Path("missing").read_text() == "1 0 3 10\n1 0 4 10\n"
    status = outside("ddrescuelog", "--show-status", "saved.rt.map")
    assert "rescued: 1473 kB" in status.replace("  ", " ") or "1473" in status


def test_several_copies_and_a_later_run(run: Run) -> None:
    copies()
    answer = run("rescue", "one.rt", "two.rt", "saved.rt", "--json")
    assert answer.status == 1 and answer.json["taken"] == {"one.rt": ALL - 2, "two.rt": 1} and answer.json["missing"] == [[1, 0, 3]]
    answer = run("rescue", "three.rt", "saved.rt", "--json")
    assert answer.status == 0 and answer.json["taken"] == {"three.rt": 1} and answer.json["missing"] == []
    assert run("compare", "saved.rt", "three.rt").status == 0
    outside("ddrescuelog", "--done-status", "saved.rt.map")


def test_the_log_is_one_of_the_program(run: Run) -> None:
    """`floppy rescue` goes on with what this rescue stored."""
    copies()
    assert run("rescue", "one.rt", "saved.rt", "--log", "missing").status == 1
    assert run("floppy", "rescue", "three.rt", "saved.rt", "missing").out == "rescue 2 of 2\n"
    assert run("compare", "saved.rt", "three.rt").status == 0


def test_to_a_flat_file_with_a_map_of_ddrescue(run: Run) -> None:
    """ddrescue copies a flat file of which it isn't given the end; this rescue goes on with its map."""
    copies()
    assert run("convert", "three.rt", "whole.img").status == 0
    outside("ddrescue", "--size=737280", "whole.img", "saved.img", "saved.img.map")
    outside("truncate", "-s", "1474560", "saved.img")
    answer = run("rescue", "three.rt", "saved.img", "--json")
    assert answer.status == 0 and answer.json["taken"] == {"three.rt": ALL // 2}
    assert Path("saved.img").read_bytes() == Path("whole.img").read_bytes()
    outside("ddrescuelog", "--done-status", "saved.img.map")


def test_damaged_bytes_are_kept_if_asked(run: Run) -> None:
    copies()
    assert run("rescue", "one.rt", "saved.img", "--keep-damaged").status == 1
    data = Path("saved.img").read_bytes()[38 * 512:39 * 512]
    assert sum(a != b for a, b in zip(data, content(1, 0, 3))) in (1, 2)
    assert run("rescue", "one.rt", "plain.img").status == 1
    assert Path("plain.img").read_bytes()[38 * 512:39 * 512] == b"\xF6" * 512


def stop_after(monkeypatch: pytest.MonkeyPatch, count: int) -> None:
    """Lets Ctrl-C come after so many sectors."""

    def watched(items: Sequence[Any], words: str) -> Iterator[Any]:
        for place, item in enumerate(items):
            if place == count:
                os.kill(os.getpid(), signal.SIGINT)
            yield item

    monkeypatch.setattr(telwyddus.command.rescue, "watched", watched)


def test_it_goes_on_after_ctrl_c(run: Run, monkeypatch: pytest.MonkeyPatch) -> None:
    copies()
    with monkeypatch.context() as patched:
        stop_after(patched, 100)
        answer = run("rescue", "three.rt", "saved.rt", "--json")
    assert answer.status == 130 and answer.json["interrupted"] and answer.json["read"] == 100 and "Run the same command again" in answer.err
    assert len(blocks("saved.rt.map")) == 0 and "?" in Path("saved.rt.map").read_text()
    answer = run("rescue", "three.rt", "saved.rt", "--json")
    assert answer.status == 0 and answer.json["taken"] == {"three.rt": ALL - 100}
    assert run("compare", "saved.rt", "three.rt").status == 0


@pytest.mark.parametrize("cut", range(4))
def test_it_goes_on_after_a_store_that_was_cut_off(run: Run, monkeypatch: pytest.MonkeyPatch, cut: int) -> None:
    """The second run is killed at one of its stores: map, image, map, log. The third run ends it all the same."""
    copies()
    assert run("rescue", "one.rt", "saved.rt", "--log", "missing").status == 1
    calls, store = [0], telwyddus.files.store

    def killed(path: Path, data: bytes, force: bool = False) -> None:
        if calls[0] == cut:
            raise KeyboardInterrupt
        calls[0] += 1
        store(path, data, force)

    with monkeypatch.context() as patched:
        patched.setattr(telwyddus.files, "store", killed)
        assert run("rescue", "two.rt", "saved.rt", "--log", "missing").status == 130
    assert run("rescue", "three.rt", "saved.rt", "--log", "missing").status == 0
    assert run("compare", "saved.rt", "three.rt").status == 0


def test_another_image_isnt_filled(run: Run) -> None:
    copies()
    assert run("rescue", "one.rt", "saved.rt").status == 1
    put("saved.rt", disk(80).write(1, content(8, 8, 8)).file())
    answer = run("rescue", "two.rt", "saved.rt")
    assert answer.status == 2 and "isn't the image" in answer.err


def test_what_is_refused(run: Run) -> None:
    copies()
    put("mine.rt", b"mine")
    assert run("rescue", "one.rt", "mine.rt").status == 2 and Path("mine.rt").read_bytes() == b"mine"
    put("small.rt", disk_file(2))
    assert "another geometry" in run("rescue", "one.rt", "small.rt", "saved.rt").err
    put("new.rt.map", b"0x0 + 1\nnonsense\n")
    assert "isn't there" in run("rescue", "one.rt", "new.rt").err
    assert run("rescue", "three.rt", "new.img").status == 0
    put("new.img.map", b"0x0 + 1\nnonsense\n")
    assert "line 2 isn't one of a map" in run("rescue", "one.rt", "new.img").err
    put("log", b"mine")
    assert run("rescue", "one.rt", "saved.rt", "--log", "log").status == 2 and Path("log").read_bytes() == b"mine"
    assert run("rescue", "one.rt").status == 2
    assert run("rescue", "one.rt", "saved.edsk").status == 2
    assert "saved.rt" not in files_here()


def test_deleted_marks_are_kept(run: Run) -> None:
    put("a.rt", disk(80).write(4, content(0, 0, 4), deleted=True).file())
    assert run("rescue", "a.rt", "b.rt").status == 0 and run("compare", "a.rt", "b.rt").status == 0
    answer = run("rescue", "a.rt", "c.img")
    assert answer.status == 2 and "the mark is lost" in answer.err and not Path("c.img").exists() and not Path("c.img.map").exists()
    assert run("rescue", "a.rt", "c.img", "--lossy").status == 0


@settings(max_examples=25)
@given(st.lists(st.sampled_from("+-?"), min_size=36, max_size=36))
def test_maps_come_back_and_ddrescue_reads_them(statuses: list[str]) -> None:
    geometry = Geometry(1, 2, 18)
    made = Map(geometry, dict(zip(geometry.keys(), statuses)), ["0" * 64])
    text = made.text("telwyddus rescue a.rt b.rt")
    assert Map.parsed(text, geometry, Path("map")) == made and geometry_in(text) == geometry
    with tempfile.NamedTemporaryFile("w", suffix=".map") as file:
        file.write(text)
        file.flush()
        for status in "+-?":
            listed = outside("ddrescuelog", "--block-size=512", f"--list-blocks={status}", file.name).split()
            assert [int(line) for line in listed] == [place for place, it in enumerate(statuses) if it == status]
