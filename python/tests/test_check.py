"""verify and compare."""
from __future__ import annotations

from pathlib import Path

from conftest import Run, content, damage, disk, disk_file, outside, put


def test_verify(run: Run) -> None:
    put("a.rt", disk_file(2))
    put("b.rt", damage(disk(2), 1, 0, 3).file())
    assert run("verify", "a.rt").out == "a.rt: 72 of 72 sectors can be read (2x2x18x512@500)\n"
    answer = run("verify", "a.rt", "b.rt")
    assert answer.status == 1 and answer.out.splitlines()[1:] == [
        "b.rt: sector 1 0 3: the CRC of its data is wrong (10)", "b.rt: 71 of 72 sectors can be read (2x2x18x512@500)"]


def test_verify_is_that_of_the_program(run: Run) -> None:
    made = damage(damage(disk(3), 1, 0, 3), 2, 1, 18)
    made.tracks[1] = [0] * 12500
    put("a.rt", made.file())
    told, = run("verify", "--json", "a.rt").json
    lines = [f"{it['cylinder']} {it['head']} {it['sector']} {it['code']}" for it in told["bad"]]
    assert run("floppy", "verify", "a.rt").out.splitlines() == [*lines, f"verify {told['good']} of {told['asked']}"]


def test_verify_of_what_is_no_image(run: Run) -> None:
    put("a.rt", b"RTIMAGE2")
    assert run("verify", "a.rt").status == 2
    put("c.rt", disk_file(1))
    assert run("verify", "c.rt", "--geometry", "99x9x9").status == 2


def test_compare(run: Run) -> None:
    put("a.rt", disk_file(2))
    put("b.rt", disk(2).write(5, content(7, 7, 7), track=2).write(6, content(1, 0, 6), deleted=True, track=2).file())
    assert run("compare", "a.rt", "a.rt").out == "72 sectors compared: all are the same\n"
    answer = run("compare", "a.rt", "b.rt")
    lines = answer.out.splitlines()
    assert answer.status == 1 and lines[0].startswith("sector 1 0 5: 512 bytes differ, the first at 0:")
    assert lines[1:] == ["sector 1 0 6: only B is marked deleted", "72 sectors compared: 2 differ"]
    put("c.rt", damage(disk(2), 0, 0, 2).file())
    assert "sector 0 0 2: A: good; B: the CRC of its data is wrong" in run("compare", "a.rt", "c.rt").out
    put("d.rt", disk_file(1))
    assert "sector 1 0 1: only A has it" in run("compare", "a.rt", "d.rt").out
    assert len(run("compare", "--json", "a.rt", "b.rt").json["different"]) == 2


def test_compare_takes_formats_of_others(run: Run, fat: Path) -> None:
    outside("dsktrans", "-itype", "raw", "-format", "ibm1440", "-otype", "imd", fat, "fat.imd")
    assert run("compare", fat, "fat.imd").status == 0
    outside("mdel", "-i", fat, "::HELLO.TXT")
    answer = run("compare", fat, "fat.imd")
    assert answer.status == 1 and "sector 0 1 2" in answer.out


def test_compare_of_what_isnt_there(run: Run) -> None:
    put("a.rt", disk_file(1))
    assert run("compare", "a.rt").status == 2
    assert run("compare", "a.rt", "nowhere.rt").status == 2
