"""picture and waves. An SVG is judged by librsvg, and a VCD by the form that the standard has for it."""
from __future__ import annotations

import re
import xml.etree.ElementTree as ElementTree
from pathlib import Path

import disks
import pytest
from conftest import Run, content, damage, disk, disk_file, files_here, outside, put

PATH = "{http://www.w3.org/2000/svg}path"


def test_rings(run: Run) -> None:
    put("a.rt", damage(disk(4), 1, 0, 3).write(5, content(0, 0, 5), deleted=True).file())
    assert run("picture", "a.rt", "a.svg").status == 0
    root = ElementTree.parse("a.svg").getroot()
    titles = [title.text or "" for title in root.iter("{http://www.w3.org/2000/svg}title")]
    assert sum("failed check" in it for it in titles) == 1 and sum(": deleted" in it for it in titles) == 1
    start = (disks.address_place(3) + 12) * 16
    assert any(it.startswith(f"cylinder 1 head 0: 1 0 3 2, cells {start} to") for it in titles)
    outside("rsvg-convert", "a.svg", "-o", "a.png")


def test_a_track_as_a_strip(run: Run) -> None:
    made = disk(2)
    made.tracks[0][disks.address_place(7) + 17] ^= 1
    put("a.rt", made.file())
    assert run("picture", "a.rt", "a.svg", "--track", "0", "0").status == 0
    assert "of no field that is listed" in Path("a.svg").read_text()
    answer = run("picture", "a.rt", "b.svg", "--track", "5", "0")
    assert answer.status == 2 and "has no track 5 0" in answer.err


def test_png(run: Run, monkeypatch: pytest.MonkeyPatch) -> None:
    put("a.rt", disk_file(2))
    assert run("picture", "a.rt", "a.png").status == 0
    assert Path("a.png").read_bytes()[:8] == b"\x89PNG\r\n\x1a\n"
    monkeypatch.setenv("PATH", "/nowhere")
    answer = run("picture", "a.rt", "b.png")
    assert answer.status == 2 and "librsvg2-bin" in answer.err and files_here() == {"a.rt", "a.png"}


def test_picture_refuses(run: Run) -> None:
    put("a.rt", disk_file(1))
    assert run("picture", "a.rt", "a.gif").status == 2
    put("a.svg", b"mine")
    assert run("picture", "a.rt", "a.svg").status == 2 and Path("a.svg").read_bytes() == b"mine"
    assert run("picture", "a.rt", "a.svg", "--force").status == 0


@pytest.mark.parametrize("words", [[], ["--write"], ["--split"]])
def test_waves(run: Run, words: list[str]) -> None:
    answer = run("waves", "a.vcd", "--svg", "a.svg", *words)
    assert answer.status == 0 and answer.out.startswith(f"a.vcd: SEEK 3, {'WRITE' if '--write' in words else 'READ'} DATA 3 0 1 2:")
    check_vcd(Path("a.vcd").read_text(), is_split="--split" in words)
    outside("rsvg-convert", "a.svg", "-o", "a.png")


def check_vcd(text: str, is_split: bool) -> None:
    """The file is one of IEEE 1364, and its times rise."""
    head, _, body = text.partition("$enddefinitions $end\n")
    marks = dict(re.findall(r"\$var wire (\d+) (\S+) ", head) and [(mark, int(size)) for size, mark in re.findall(r"\$var wire (\d+) (\S+) ", head)])
    assert len(marks) == (45 if is_split else 13) and set(marks.values()) <= ({1} if is_split else {1, 5, 8})
    times = [int(it) for it in re.findall(r"^#(\d+)$", body, re.M)]
    assert times == sorted(times) and times[0] == 0 and times[-1] > 10_000_000
    for line in body.splitlines():
        found = re.fullmatch(r"#\d+|\$dumpvars|\$end|[01z](\S\S)|b[01z]+ (\S\S)", line)
        assert found and (found[1] or found[2] or next(iter(marks))) in marks, line


def test_waves_refuses(run: Run) -> None:
    put("a.vcd", b"mine")
    assert run("waves", "a.vcd").status == 2 and Path("a.vcd").read_bytes() == b"mine"
    assert run("waves").status == 2
