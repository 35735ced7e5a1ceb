"""browse, on file systems that mtools made and judges."""
from __future__ import annotations

from pathlib import Path

import disks
import pytest
from conftest import Run, damage, disk, outside, put


@pytest.fixture
def image(run: Run, fat: Path) -> Path:
    """A raw image with the file system, and a mark that only a raw image has."""
    assert run("convert", fat, "fat.rt").status == 0
    return Path("fat.rt")


def test_list(run: Run, image: Path) -> None:
    answer = run("browse", "list", image)
    assert answer.status == 0 and "HELLO" in answer.out and "YEAR" in answer.out and "LETTERS" in answer.out
    assert sorted(run("browse", "list", image, "--json").json["paths"]) == ["HELLO.TXT", "YEAR/", "YEAR/MAY.TXT"]
    assert "MAY" in run("browse", "list", image, "YEAR").out


def test_get(run: Run, image: Path) -> None:
    Path("out").mkdir()
    answer = run("browse", "get", image, "HELLO.TXT", "YEAR", "--into", "out")
    assert answer.status == 0, answer.err
    assert Path("out/HELLO.TXT").read_bytes() == b"hello from a diskette\n"
    assert Path("out/YEAR/MAY.TXT").read_bytes() == b"may\n" * 700
    Path("out/HELLO.TXT").write_text("mine")
    answer = run("browse", "get", image, "HELLO.TXT", "--into", "out")
    assert answer.status == 2 and Path("out/HELLO.TXT").read_text() == "mine"
    assert run("browse", "get", image, "NONE.TXT").status == 2


def test_put(run: Run, image: Path) -> None:
    put("new.txt", b"new\n" * 1000)
    answer = run("browse", "put", image, "new.txt", "--folder", "YEAR")
    assert answer.status == 0 and "sectors written" in answer.out
    assert run("convert", image, "after.img").status == 0
    assert outside("mtype", "-i", "after.img", "::YEAR/NEW.TXT") == "new\n" * 1000
    outside("fsck.fat", "-n", "after.img") if Path("/usr/sbin/fsck.fat").exists() else None
    put("hello.txt", b"other\n")
    answer = run("browse", "put", image, "hello.txt")
    assert answer.status == 2 and "--force" in answer.err
    assert run("browse", "put", image, "hello.txt", "--force").status == 0
    assert run("convert", image, "last.img").status == 0
    assert outside("mtype", "-i", "last.img", "::HELLO.TXT") == "other\n"


def test_put_keeps_what_a_flat_file_hasnt(run: Run, image: Path) -> None:
    """A damaged sector of the data area stays damaged, as no file is put there."""
    shape = disks.shape_of(image.read_bytes())
    data = bytearray(image.read_bytes())
    at = shape.place(70, 1, disks.window_place(9) + 100)
    data[at:at + 2] = b"\0\0"
    image.write_bytes(data)
    put("new.txt", b"new\n")
    assert run("browse", "put", image, "new.txt").status == 0
    assert [it["sector"] for it in run("verify", "--json", image).json[0]["bad"]] == [9]


def test_put_refuses(run: Run, image: Path) -> None:
    before = image.read_bytes()
    put("big.bin", bytes(2_000_000))
    assert run("browse", "put", image, "big.bin").status == 2 and image.read_bytes() == before
    protected = bytearray(before)
    protected[8] = 1
    put("tab.rt", bytes(protected))
    put("new.txt", b"new\n")
    answer = run("browse", "put", "tab.rt", "new.txt")
    assert answer.status == 2 and "write-protected" in answer.err and Path("tab.rt").read_bytes() == bytes(protected)


def test_no_file_system(run: Run, monkeypatch: pytest.MonkeyPatch, image: Path) -> None:
    put("a.rt", damage(disk(80), 0, 0, 1).file())
    answer = run("browse", "list", "a.rt")
    assert answer.status == 2 and "mdir says" in answer.err
    monkeypatch.setenv("PATH", "/nowhere")
    answer = run("browse", "list", image)
    assert answer.status == 2 and "Debian's mtools" in answer.err
