"""serve, by the clients nbdcopy, nbdinfo and qemu-io: what they read is what mtools and tools/disks.py have made."""
from __future__ import annotations

import fcntl
import json
import os
import signal
import subprocess
import sys
import time
from collections.abc import Iterator
from contextlib import contextmanager
from pathlib import Path

import pytest
from conftest import Run, damage, disk, disk_file, files_here, flat_of, outside, put

from telwyddus import Disk, Geometry, Problem
from telwyddus.volume import Volume

SMALL = Geometry(2, 2, 18)


@contextmanager
def server(*words: str | Path) -> Iterator[tuple["subprocess.Popen[str]", str]]:
    """A server of its own process, and where it listens."""
    with subprocess.Popen([sys.executable, "-m", "telwyddus", "serve", "--json", *map(str, words)], stdout=subprocess.PIPE, text=True) as process:
        assert process.stdout is not None
        try:
            text = ""
            while not text.endswith("}\n"):
                line = process.stdout.readline()
                assert line, "the server ended"
                text += line
            yield process, json.loads(text)["uri"]
        finally:
            process.terminate()


def qemu_io(uri: str, *requests: str, status: int = 0, words: tuple[str, ...] = ()) -> str:
    """Runs requests of qemu-io."""
    return outside("qemu-io", *words, "-f", "raw", *(word for request in requests for word in ("-c", request)), uri, status=status)


def test_nbdcopy_reads_what_convert_stores(run: Run, fat: Path) -> None:
    assert run("convert", fat, "fat.rt").status == 0
    before = Path("fat.rt").read_bytes()
    assert run("serve", "fat.rt", "--run", 'nbdcopy "$uri" copy.img').status == 0
    assert Path("copy.img").read_bytes() == fat.read_bytes() and Path("fat.rt").read_bytes() == before
    assert run("floppy", "export", "fat.rt", "exported").status == 0
    assert Path("exported").read_bytes() == Path("copy.img").read_bytes()
    assert outside("mtype", "-i", "copy.img", "::HELLO.TXT") == "hello from a diskette\n"


def mounted(*words: str | Path, at: Path, wanted: Path) -> "subprocess.Popen[bytes]":
    """Mounts something by FUSE, and waits until what is wanted is there."""
    at.mkdir()
    process = subprocess.Popen([str(word) for word in words], stdin=subprocess.DEVNULL, stdout=subprocess.DEVNULL, stderr=subprocess.DEVNULL)
    for _ in range(600):
        if wanted.exists():
            return process
        time.sleep(0.05)
    raise AssertionError(f"{words[0]} doesn't mount")


def unmount(folder: Path) -> None:
    """Takes a mount away, if it is there."""
    subprocess.run(["umount", "--lazy", str(folder)], stderr=subprocess.DEVNULL)


@pytest.mark.skipif(not os.access("/dev/fuse", os.R_OK | os.W_OK) or os.getuid() != 0, reason="this system lets nobody mount by FUSE here")
def test_mounted_files_are_those_of_export(run: Run, fat: Path) -> None:
    """nbdfuse makes a file of the served device, and fusefat mounts the file system on it."""
    assert run("convert", fat, "fat.rt").status == 0 and run("floppy", "export", "fat.rt", "exported").status == 0
    device, files = Path("device"), Path("files")
    with server("fat.rt") as (_, uri):
        try:
            mounted("nbdfuse", "--readonly", device / "disk.img", uri, at=device, wanted=device / "disk.img")
            assert (device / "disk.img").read_bytes() == Path("exported").read_bytes()
            mounted("fusefat", "-o", "ro", device / "disk.img", files, at=files, wanted=files / "HELLO.TXT")
            found = {str(path.relative_to(files)): path.read_bytes() for path in files.rglob("*") if path.is_file()}
        finally:
            unmount(files)
            unmount(device)
    outside("mcopy", "-s", "-i", "exported", "::", "all")
    wanted = {str(path.relative_to("all")): path.read_bytes() for path in Path("all").rglob("*") if path.is_file()}
    # fusefat shows the diskette's label as a file without bytes.
    assert found == {**wanted, "LETTERS": b""} and set(wanted) == {"HELLO.TXT", "YEAR/MAY.TXT"}


@pytest.mark.parametrize("name, size", [("DMF", 1720320), ("1.23M", 1261568), ("360K", 368640)])
def test_sizes(run: Run, name: str, size: int) -> None:
    assert run("format", "a.rt", "--geometry", name).status == 0
    put("a.img", bytes(place % 251 for place in range(size)))
    assert run("convert", "a.img", "b.rt", "--geometry", name).status == 0
    assert run("serve", "b.rt", "--run", 'nbdcopy "$uri" copy.img && nbdinfo --size "$uri" > size').status == 0
    assert Path("copy.img").read_bytes() == Path("a.img").read_bytes() and Path("size").read_text() == f"{size}\n"


@pytest.mark.parametrize("name", ["a.rt", "a.img", "a.imd"])
def test_nbdcopy_writes(run: Run, fat: Path, name: str) -> None:
    assert run("format", name).status == 0
    assert run("serve", "--write", name, "--run", f'nbdcopy --flush {fat} "$uri"').status == 0
    if name == "a.rt":
        assert run("convert", name, "back.img").status == 0
    elif name == "a.imd":
        outside("dsktrans", "-itype", "imd", "-otype", "raw", name, "back.img")
    else:
        Path(name).rename("back.img")
    assert Path("back.img").read_bytes() == fat.read_bytes()
    assert outside("mtype", "-i", "back.img", "::YEAR/MAY.TXT") == "may\n" * 700


def test_a_write_is_stored_at_flush_and_at_the_end(run: Run) -> None:
    put("a.rt", disk_file(2))
    with server("--write", "a.rt") as (process, uri):
        qemu_io(uri, "write -P 0x5a 700 1000", "flush")
        with Disk.open("a.rt") as stored:
            assert stored[0, 0, 2][188:] == b"\x5a" * 324 and stored[0, 0, 4][:164] == b"\x5a" * 164
        assert run("convert", "--force", "a.rt", "a.rt").status == 2
        os.kill(process.pid, signal.SIGINT)
        assert process.wait() == 0
    expected = bytearray(flat_of(list(SMALL.keys())))
    expected[700:1700] = b"\x5a" * 1000
    assert run("convert", "a.rt", "a.img").status == 0 and Path("a.img").read_bytes() == bytes(expected)
    assert files_here() == {"a.rt", "a.img"}


def test_a_bad_sector_is_an_error(run: Run) -> None:
    before = put("a.rt", damage(disk(2), 1, 0, 3).file()).read_bytes()
    at = SMALL.offset((1, 0, 3))
    with server("a.rt") as (_, uri):
        assert "Input/output error" in qemu_io(uri, f"read {at} 512", status=1, words=("-r",))
        assert "Input/output error" in qemu_io(uri, f"read {at - 10} 20", status=1, words=("-r",))
        qemu_io(uri, f"read {at - 512} 512", f"read {at + 512} 512", words=("-r",))
        assert "Input/output error" in outside("nbdcopy", uri, "copy.img", status=1)
        assert json.loads(outside("nbdinfo", "--json", uri))["exports"][0]["is_read_only"]
    assert Path("a.rt").read_bytes() == before


def test_a_damaged_sector_is_mended_by_a_whole_write(run: Run) -> None:
    put("a.rt", damage(disk(2), 1, 0, 3).file())
    at = SMALL.offset((1, 0, 3))
    with server("--write", "a.rt") as (process, uri):
        assert "Input/output error" in qemu_io(uri, f"write -P 7 {at} 100", status=1)
        qemu_io(uri, f"write -P 7 {at} 512", f"read -P 7 {at} 512")
        process.terminate()
        assert process.wait() == 0
    assert run("verify", "a.rt").status == 0


def test_what_isnt_written_stays_cell_by_cell() -> None:
    made = disk(2)
    made.write(6, bytes(512), deleted=True, track=2)
    before = put("a.rt", made.file()).read_bytes()
    at = SMALL.offset((1, 0, 6))
    volume = Volume(Path("a.rt"), is_writable=True)
    volume.write(at - 512, volume.read(at - 512, 1024))
    volume.close()
    assert Path("a.rt").read_bytes() == before
    volume = Volume(Path("a.rt"), is_writable=True)
    volume.write(at + 3, b"abc")
    volume.close()
    with Disk.open("a.rt") as stored:
        sector = stored.sector(1, 0, 6)
        assert sector.is_deleted and sector.data == bytes(3) + b"abc" + bytes(506)


def test_what_can_not_be_served(run: Run) -> None:
    put("a.rt", b"RTIMAGE2")
    put("b.rt", disk_file(1))
    assert run("serve", "a.rt", "--run", "true").status == 2
    assert run("serve", "nowhere.rt", "--run", "true").status == 2
    assert run("serve", "b.rt", "--socket", "b.rt", "--run", "true").status == 2
    assert "too long" in run("serve", "b.rt", "--socket", "s" * 120, "--run", "true").err
    assert run("serve", "b.rt", "--socket", "s", "--port", "10809", "--run", "true").status == 2
    with Disk.open("b.rt") as there, there.medium() as tray:
        tray.protect()
        put("c.rt", tray.image())
    answer = run("serve", "--write", "c.rt", "--run", "true")
    assert answer.status == 2 and "write-protected" in answer.err
    with open("b.rt", "rb") as other:
        fcntl.flock(other, fcntl.LOCK_EX)
        assert "being changed by another program" in run("serve", "--write", "b.rt", "--run", "true").err


def test_nbdkit_isnt_there(run: Run, monkeypatch: pytest.MonkeyPatch) -> None:
    put("a.rt", disk_file(1))
    monkeypatch.setenv("PATH", "/nowhere")
    answer = run("serve", "a.rt")
    assert answer.status == 2 and "apt install nbdkit nbdkit-plugin-python" in answer.err


def test_the_status_is_that_of_the_command(run: Run) -> None:
    put("a.rt", disk_file(1))
    assert run("serve", "a.rt", "--run", "exit 5").status == 5


def test_a_store_that_fails_is_told(run: Run) -> None:
    put("a.rt", disk_file(2))
    volume = Volume(Path("a.rt"), is_writable=True)
    volume.write(0, b"\x02" * 512)
    os.utime("a.rt", (1, 1))
    before = Path("a.rt").read_bytes()
    with pytest.raises(Problem, match="changed by another program"):
        volume.close()
    assert Path("a.rt").read_bytes() == before
    put("one.img", b"\x01" * 512)
    # A client that doesn't flush leaves the store to the server's end.
    answer = run("serve", "--write", "a.rt", "--run", 'nbdcopy one.img "$uri"; touch -d 2001-01-01 a.rt')
    assert answer.status == 2 and "a.rt was changed by another program" in answer.err
    assert Path("a.rt").read_bytes() == before


def test_a_kill_leaves_a_whole_image(run: Run) -> None:
    before = put("a.rt", disk_file(2)).read_bytes()
    with server("--write", "a.rt", "--socket", "here") as (process, uri):
        assert "here" in uri
        process.kill()
        process.wait()
    assert Path("a.rt").read_bytes() == before
    assert "is there already" in run("serve", "a.rt", "--socket", "here", "--run", "true").err


def test_a_socket_goes_when_the_server_ends(run: Run) -> None:
    put("a.rt", disk_file(1))
    assert run("serve", "a.rt", "--socket", "here", "--run", "test -S here").status == 0
    assert files_here() == {"a.rt"}
