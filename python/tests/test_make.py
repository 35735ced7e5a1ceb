"""convert, format and copy. What they store is judged by mtools, libdsk and MAME's floptool."""
from __future__ import annotations

import re
from pathlib import Path

import containers
import disks
import pytest
from conftest import Run, content, damage, disk, disk_file, files_here, flat_of, outside, put

# Geometries that mtools makes, with mformat's own words for each.
OF_MTOOLS = [("1440", 1474560, "1.44M"), ("720", 737280, "720K"), ("360", 368640, "360K"), ("1200", 1228800, "1.2M"), ("160", 163840, "160K"),
             ("180", 184320, "180K"), ("320", 327680, "320K")]


@pytest.mark.parametrize("size, length, name", OF_MTOOLS)
def test_a_file_system_goes_to_cells_and_back(run: Run, size: str, length: int, name: str) -> None:
    outside("mformat", "-C", "-f", size, "-i", "a.img", "::")
    put("hello.txt", b"hello\n" * 99)
    outside("mcopy", "-i", "a.img", "hello.txt", "::")
    assert run("convert", "a.img", "a.rt").status == 0
    assert run("info", "--json", "a.rt").json[0]["geometry"]["name"] == name
    assert run("convert", "a.rt", "b.img").status == 0
    assert Path("b.img").stat().st_size == length and Path("b.img").read_bytes() == Path("a.img").read_bytes()
    assert outside("mtype", "-i", "b.img", "::HELLO.TXT") == "hello\n" * 99


def dmf() -> Path:
    """A flat file of DMF with a file on it, made by mtools."""
    outside("mformat", "-C", "-t", "80", "-h", "2", "-s", "21", "-i", "dmf.img", "::")
    put("setup.txt", b"setup\n" * 9000)
    outside("mcopy", "-i", "dmf.img", "setup.txt", "::")
    return Path("dmf.img")


def test_dmf_goes_to_cells_and_back(run: Run) -> None:
    flat = dmf()
    assert run("convert", flat, "dmf.rt").status == 0
    assert "3,360 good" in run("info", "dmf.rt").out
    assert run("verify", "dmf.rt").out == "dmf.rt: 3,360 of 3,360 sectors can be read (DMF)\n"
    assert run("convert", "dmf.rt", "again.img").status == 0
    assert Path("again.img").read_bytes() == flat.read_bytes()
    assert outside("mtype", "-i", "again.img", "::SETUP.TXT") == "setup\n" * 9000


def test_libdsk_and_mame_read_our_imagedisk_file(run: Run, fat: Path) -> None:
    assert run("convert", fat, "a.imd").status == 0
    outside("dsktrans", "-itype", "imd", "-otype", "raw", "a.imd", "libdsk.img")
    assert Path("libdsk.img").read_bytes() == fat.read_bytes()
    outside("floptool", "flopconvert", "imd", "pc", "a.imd", "mame.img")
    assert Path("mame.img").read_bytes() == fat.read_bytes()
    assert re.search(r"Cylinders: +80\n.*Heads: +2\n.*Sectors: +18\n.*Sector size: +512\n.*Data rate: +HD\n.*Record mode: +MFM\n", outside("dskid", "a.imd"), re.S)
    # dskdump takes the sectors that it finds on each track, whatever the boot sector says of them.
    outside("dskdump", "-itype", "imd", "-otype", "edsk", "a.imd", "dumped.edsk")
    outside("dsktrans", "-itype", "edsk", "-otype", "raw", "-format", "ibm1440", "dumped.edsk", "dumped.img")
    assert Path("dumped.img").read_bytes() == fat.read_bytes()


def test_we_read_libdsks_imagedisk_file(run: Run, fat: Path) -> None:
    outside("dsktrans", "-itype", "raw", "-format", "ibm1440", "-otype", "imd", fat, "libdsk.imd")
    assert run("convert", "libdsk.imd", "a.rt").status == 0
    assert run("convert", "a.rt", "a.img").status == 0
    assert Path("a.img").read_bytes() == fat.read_bytes()


@pytest.mark.parametrize("kind, suffix", [("tele", ".td0"), ("edsk", ".edsk"), ("dsk", ".cpcdsk"), ("ldbs", ".ldbs"), ("copyqm", ".cqm"),
                                          ("qrst", ".qrst")])
def test_formats_that_libdsk_knows_are_read(run: Run, kind: str, suffix: str) -> None:
    outside("mformat", "-C", "-f", "720", "-i", "a.img", "::")
    put("hello.txt", b"hello\n")
    outside("mcopy", "-i", "a.img", "hello.txt", "::")
    outside("dsktrans", "-itype", "raw", "-format", "ibm720", "-otype", kind, "a.img", f"a{suffix}")
    answer = run("convert", f"a{suffix}", "b.img")
    assert answer.status == 0, answer.err
    assert "dsktrans" in answer.out and Path("b.img").read_bytes() == Path("a.img").read_bytes()


@pytest.mark.parametrize("name, kind", [("a.edsk", "edsk"), ("a.cpcdsk", "dsk"), ("a.ldbs", "ldbs"), ("a.td0", "tele"), ("a.cqm", "copyqm"),
                                        ("a.qrst", "qrst")])
def test_formats_that_libdsk_writes(run: Run, name: str, kind: str) -> None:
    outside("mformat", "-C", "-f", "720", "-i", "a.img", "::")
    answer = run("convert", "a.img", name)
    assert answer.status == 0, answer.err
    outside("dsktrans", "-itype", kind, "-otype", "raw", name, "b.img")
    assert Path("b.img").read_bytes() == Path("a.img").read_bytes()


def test_the_format_that_mame_writes(run: Run, fat: Path) -> None:
    answer = run("convert", fat, "a.mfi")
    assert answer.status == 0, answer.err
    outside("floptool", "flopconvert", "mfi", "pc", "a.mfi", "b.img")
    assert Path("b.img").read_bytes() == fat.read_bytes()
    assert run("convert", "a.mfi", "c.rt").status == 0
    assert run("compare", "c.rt", fat).status == 0


@pytest.mark.parametrize("rate", [500, 250])
@pytest.mark.parametrize("suffix", [".hfe", ".dmk"])
def test_cells_of_other_formats_are_read(run: Run, rate: int, suffix: str) -> None:
    """The file is made of the plain definitions of the cells; MAME reads it for us."""
    made = disk(80, rate)
    put(f"a{suffix}", containers.hfe(made) if suffix == ".hfe" else containers.dmk(made))
    put("wanted.rt", made.file())
    answer = run("convert", f"a{suffix}", "a.rt")
    assert answer.status == 0 and "floptool, by way of a flat file" in answer.out, answer.err
    assert run("compare", "a.rt", "wanted.rt").status == 0


def test_d88_is_read(run: Run) -> None:
    outside("mformat", "-C", "-f", "1200", "-i", "a.img", "::")
    put("a.d88", containers.d88(Path("a.img").read_bytes(), 15))
    assert run("convert", "a.d88", "b.img").status == 0
    assert Path("b.img").read_bytes() == Path("a.img").read_bytes()
    put("c.d88", containers.d88(disk_file(80)[:1474560], 18))
    answer = run("convert", "c.d88", "c.img")
    assert answer.status == 2 and "floptool" in answer.err and not Path("c.img").exists()


def test_a_format_without_its_program_names_what_to_install(run: Run, fat: Path, monkeypatch: pytest.MonkeyPatch) -> None:
    monkeypatch.setenv("PATH", "/nowhere")
    answer = run("convert", fat, "a.edsk")
    assert answer.status == 2 and "Debian's libdsk-utils" in answer.err
    answer = run("convert", fat, "a.scp")
    assert answer.status == 2 and "Greaseweazle" in answer.err
    answer = run("convert", fat, "a.xyz")
    assert answer.status == 2 and "--to" in answer.err and files_here() == {"fat.img", "hello.txt", "may.txt"}


def test_gw_is_called_as_its_page_says(run: Run, fat: Path, monkeypatch: pytest.MonkeyPatch) -> None:
    """gw isn't in Debian. This one only notes how it is called, and copies."""
    Path("bin").mkdir()
    script = put("bin/gw", b'#!/bin/sh\necho "$@" > "$NOTE"; for last; do :; done; cp "$3" "$last"\n')
    script.chmod(0o755)
    monkeypatch.setenv("NOTE", str(Path("note").resolve()))
    monkeypatch.setenv("PATH", f"{Path('bin').resolve()}:/usr/bin:/bin")
    assert run("convert", fat, "a.scp").status == 0
    words = Path("note").read_text().split()
    assert words[:2] == ["convert", "--format=ibm.1440"] and words[2].endswith(".img") and words[3].endswith(".scp")
    assert run("convert", "a.scp", "b.rt", "--geometry", "1.44M").status in (0, 2)


def lossy_disk() -> disks.Disk:
    """A diskette with a deleted mark, a damaged sector, an odd one and one that is missing."""
    made = damage(disk(80), 1, 0, 3)
    made.write(4, content(0, 0, 4), deleted=True)
    made.tracks[4] = disks.layout([(2, 0, r, 2) for r in (*range(1, 17), 18, 30)])
    return made


def test_what_a_flat_file_loses_is_told_first(run: Run) -> None:
    put("a.rt", lossy_disk().file())
    answer = run("convert", "a.rt", "a.img")
    assert answer.status == 2 and not Path("a.img").exists()
    for words in ("1 sector is marked deleted: 0 0 4 (the mark is lost)", "1 sector is damaged", "1 0 3 (stored as good",
                  "1 sector isn't there: 2 0 17 (filled with F6)", "1 sector isn't of the geometry: 2 0 30 2 on track 2 0 (left out)", "--lossy"):
        assert words in answer.err
    answer = run("convert", "--lossy", "a.rt", "a.img")
    assert answer.status == 0 and answer.err.count("lost:") == 4
    flat = Path("a.img").read_bytes()
    assert flat[3 * 512:4 * 512] == content(0, 0, 4)
    damaged = flat[(36 + 2) * 512:(36 + 3) * 512]
    assert sum(a != b for a, b in zip(damaged, content(1, 0, 3))) in (1, 2)
    assert flat[(72 + 16) * 512:(72 + 17) * 512] == b"\xF6" * 512


def test_imagedisk_keeps_marks_and_damage(run: Run) -> None:
    made = damage(disk(80), 1, 0, 3).write(4, content(0, 0, 4), deleted=True)
    put("a.rt", made.file())
    assert run("convert", "a.rt", "a.imd").status == 0
    assert run("convert", "a.imd", "b.rt").status == 0
    told = run("info", "--json", "b.rt").json[0]["odd"]
    assert told == {"deleted": ["0 0 4"], "damaged": ["1 0 3"]}


def test_what_our_imagedisk_file_says(run: Run) -> None:
    """libdsk stops at the sector whose CRC is wrong. It passes over a deleted mark, so the types are read here."""
    put("a.rt", damage(disk(80), 1, 0, 3).write(4, content(0, 0, 4), deleted=True).file())
    put("b.rt", disk_file(80))
    words = ["dsktrans", "-itype", "imd", "-format", "ibm1440", "-otype", "raw"]
    for name in "ab":
        assert run("convert", f"{name}.rt", f"{name}.imd").status == 0
    assert "Data error" in outside(*words, "a.imd", "a.img", status=1)
    outside(*words, "b.imd", "b.img")
    assert Path("b.img").read_bytes() == flat_of([(c, h, r) for c in range(80) for h in range(2) for r in range(1, 19)])
    found = containers.imd_sectors(Path("a.imd").read_bytes())
    assert {key: kind for key, (kind, _) in found.items() if kind not in (1, 2)} == {(0, 0, 4): 3, (1, 0, 3): 5}


def test_an_address_field_with_a_wrong_crc_is_told(run: Run) -> None:
    made = disk(2)
    made.tracks[0][disks.address_place(7) + 17] ^= 1
    put("a.rt", made.file())
    answer = run("convert", "a.rt", "a.imd")
    assert answer.status == 2 and "1 address field has a wrong CRC of its own: 0 0 (left out)" in answer.err
    assert run("convert", "--lossy", "a.rt", "a.imd").status == 0


def test_nothing_is_replaced_without_force(run: Run, fat: Path) -> None:
    put("a.rt", b"mine")
    for words in (["convert", fat, "a.rt"], ["format", "a.rt"], ["copy", fat, "a.rt"]):
        answer = run(*words)
        assert answer.status == 2 and "--force" in answer.err and Path("a.rt").read_bytes() == b"mine"
    assert run("convert", "--force", fat, "a.rt").status == 0 and Path("a.rt").read_bytes()[:8] == b"RTIMAGE2"


def test_convert_refuses_what_it_cant(run: Run, fat: Path) -> None:
    assert run("convert", fat).status == 2
    assert run("convert", fat, "no/where.rt").status == 2
    assert run("convert", "nowhere.img", "a.rt").status == 2
    assert run("convert", fat, "a", "--to", "flat").status == 0 and Path("a").read_bytes() == fat.read_bytes()
    answer = run("convert", "--geometry", "720K", fat, "b.rt")
    assert answer.status == 2 and "737280 bytes" in answer.err


@pytest.mark.parametrize("name, length", [("1.44M", 1474560), ("DMF", 1720320), ("360K", 368640), ("1.23M", 1261568), ("160K", 163840),
                                          ("80x2x20", 1638400), ("10x1x5x1024@250", 51200)])
def test_format_makes_what_is_asked_for(run: Run, name: str, length: int) -> None:
    assert run("format", "a.rt", "--geometry", name).status == 0
    assert run("verify", "a.rt").status == 0
    assert run("convert", "a.rt", "a.img").status == 0
    assert Path("a.img").read_bytes() == b"\xF6" * length


def test_a_formatted_diskette_is_the_one_of_the_plain_definitions(run: Run) -> None:
    assert run("format", "a.rt", "--json").json["geometry"]["name"] == "1.44M"
    assert Path("a.rt").read_bytes() == disks.formatted(80).file()
    assert run("floppy", "format", "b.rt", "80").out == "format ok 160\n"
    assert Path("a.rt").read_bytes() == Path("b.rt").read_bytes()


def test_mtools_formats_what_format_made(run: Run) -> None:
    assert run("format", "a.img").status == 0
    outside("mformat", "-f", "1440", "-i", "a.img", "::")
    assert run("convert", "a.img", "a.rt").status == 0 and "a boot sector of the PC" in run("info", "a.rt").out


@pytest.mark.parametrize("geometry", ["1.45M", "80x2x22", "80x2x99", "0x2x9", "81x2x9"])
def test_format_refuses_what_has_no_room(run: Run, geometry: str) -> None:
    answer = run("format", "a.rt", "--geometry", geometry)
    assert answer.status == 2 and answer.err and files_here() == set()


def test_copy_is_that_of_the_program(run: Run) -> None:
    put("a.rt", disk(2).write(4, content(5, 5, 5), deleted=True, track=1).file())
    answer = run("copy", "a.rt", "b.rt")
    assert answer.status == 0 and answer.out.startswith("72 sectors copied\n")
    assert run("floppy", "copy", "a.rt", "c.rt").out == "copy ok 72\n"
    assert Path("b.rt").read_bytes() == Path("c.rt").read_bytes()


def test_copy_stops_at_a_sector_that_cant_be_read(run: Run) -> None:
    put("a.rt", damage(disk(2), 1, 0, 3).file())
    answer = run("copy", "a.rt", "b.rt")
    assert answer.status == 2 and "Sector 1 0 3 can't be read" in answer.err and "rescue" in answer.err and files_here() == {"a.rt"}


def test_copy_tells_what_it_leaves_out(run: Run) -> None:
    made = disk(2)
    made.tracks[3] = disks.layout([(1, 1, r, 2) for r in range(1, 20)], 8)
    put("a.rt", made.file())
    answer = run("copy", "a.rt", "b.rt")
    assert answer.status == 2 and "1 1 19 2 on track 1 1 (left out)" in answer.err and files_here() == {"a.rt"}
    assert run("copy", "--lossy", "a.rt", "b.rt").status == 0
    assert run("verify", "b.rt").out == "b.rt: 72 of 72 sectors can be read (2x2x18x512@500)\n"


def test_copy_to_another_format(run: Run, fat: Path) -> None:
    assert run("copy", fat, "b.imd").status == 0
    outside("floptool", "flopconvert", "imd", "pc", "b.imd", "mame.img")
    assert Path("mame.img").read_bytes() == fat.read_bytes()


def test_flat_files_of_single_sided_diskettes(run: Run) -> None:
    keys = [(c, 0, r) for c in range(40) for r in range(1, 10)]
    put("a.img", flat_of(keys))
    assert run("convert", "a.img", "a.rt").status == 0
    assert run("sectors", "--json", "a.rt").json["geometry"]["heads"] == 1
    assert run("convert", "a.rt", "b.img").status == 0 and Path("b.img").read_bytes() == flat_of(keys)
