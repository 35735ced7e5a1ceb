"""info, sectors, survey, hexdump."""
from __future__ import annotations

from pathlib import Path

import disks
from conftest import Run, content, damage, disk, disk_file, outside, put
from hypothesis import given, settings
from hypothesis import strategies as st


def odd() -> disks.Disk:
    """A diskette with a damaged sector, a deleted one, a track of ten sectors at other places, and a bare track."""
    made = damage(disk(4), 1, 0, 3)
    made.write(5, content(2, 1, 5), deleted=True, track=5)
    made.tracks[6] = disks.layout([(3, 0, r, 2) for r in range(1, 20)], 8)
    made.tracks[7] = [0] * disks.WORDS
    return made


def test_info_in_words(run: Run) -> None:
    put("a.rt", odd().file())
    answer = run("info", "a.rt")
    assert answer.status == 1
    for words in ("raw image (the cells of all tracks)", "4 cylinders, 2 heads, 18 sectors of 512 bytes a track, 500 kbit/s",
                  "1 sector is damaged: the CRC of its data is wrong: 1 0 3", "1 sector is marked deleted: 2 1 5",
                  "1 track isn't formatted: 3 1", "1 sector isn't of the geometry: 3 0 19 2 on track 3 0"):
        assert words in answer.out


def test_info_as_json(run: Run) -> None:
    put("a.rt", odd().file())
    told, = run("info", "--json", "a.rt").json
    assert told["geometry"]["sectors"] == 18 and told["address_fields"]["all"] == 6 * 18 + 19
    assert told["odd"]["damaged"] == ["1 0 3"] and told["odd"]["unformatted"] == ["3 1"]


def test_info_of_what_others_made(run: Run, fat: Path) -> None:
    answer = run("info", fat)
    assert answer.status == 0 and "1.44M (3.5 inch HD of the PC)" in answer.out and "a boot sector of the PC" in answer.out
    outside("dsktrans", "-itype", "raw", "-format", "ibm1440", "-otype", "imd", fat, "fat.imd")
    answer = run("info", "fat.imd")
    assert answer.status == 0 and "ImageDisk file" in answer.out and "2,880 good" in answer.out


def test_info_of_an_unformatted_diskette(run: Run) -> None:
    put("a.rt", disks.Disk(2).file())
    answer = run("info", "a.rt")
    assert answer.status == 0 and "isn't formatted" in answer.out


def test_info_of_a_protected_diskette(run: Run) -> None:
    made = disk(2)
    made.flags = 1
    put("a.rt", made.file())
    assert "the write-protect tab is set" in run("info", "a.rt").out


def test_info_refuses_what_is_no_image(run: Run) -> None:
    put("a.rt", disk_file(2)[:-1])
    answer = run("info", "a.rt")
    assert answer.status == 2 and "it is damaged, or cut short" in answer.err and answer.out == ""
    put("b.img", b"x" * 1000)
    answer = run("info", "b.img")
    assert answer.status == 2 and "--geometry" in answer.err
    assert run("info", "nowhere.rt").status == 2


def test_info_never_writes(run: Run) -> None:
    path = put("a.rt", odd().file())
    path.chmod(0o444)
    before = path.stat()
    for words in (["info"], ["sectors"], ["survey"], ["verify"]):
        run(*words, path)
    after = path.stat()
    assert (after.st_mtime_ns, after.st_ino) == (before.st_mtime_ns, before.st_ino) and [path.name] == [it.name for it in Path(".").iterdir()]


def test_sectors(run: Run) -> None:
    put("a.rt", odd().file())
    answer = run("sectors", "a.rt")
    assert answer.status == 1
    lines = answer.out.splitlines()
    assert lines[0].split() == ["C", "H", "R", "STATE", "CRC-32", "BYTES"] and len(lines) == 1 + 4 * 2 * 18
    assert lines[1].split()[:4] == ["0", "0", "1", "good"]
    bad = run("sectors", "--bad", "a.rt").out.splitlines()
    assert len(bad) == 1 + 1 + 18 and "the CRC of its data is wrong" in bad[1]
    assert len(run("sectors", "--track", "0", "1", "a.rt").out.splitlines()) == 19
    assert run("sectors", "--track", "9", "0", "a.rt").status == 2
    told = run("sectors", "--json", "a.rt").json["sectors"]
    assert [it for it in told if it["deleted"]][0]["sector"] == 5


def test_survey_lists_what_stands_there(run: Run) -> None:
    put("a.rt", odd().file())
    answer = run("survey", "--bad", "a.rt")
    assert answer.status == 1 and [line.split() for line in answer.out.splitlines()[1:-1]] == [
        ["1", "0", str((disks.address_place(3) + 12) * 16), "1", "0", "3", "2", "wrong", "CRC"],
        ["2", "1", str((disks.address_place(5) + 12) * 16), "2", "1", "5", "2", "deleted"]]
    told = run("survey", "--json", "--track", "3", "0", "a.rt").json["fields"]
    assert len(told) == 19 and told[18]["id"] == [3, 0, 19, 2]


def test_survey_is_that_of_the_program(run: Run) -> None:
    put("a.rt", odd().file())
    told = run("survey", "--json", "a.rt").json["fields"]
    words = {"ok": "ok", "deleted": "deleted", "no_data": "02", "bad_crc": "10", "no_size": "size"}
    lines = [" ".join(map(str, [it["cylinder"], it["head"], it["cell"], *it["id"], words[it["found"]]])) for it in told]
    assert run("floppy", "survey", "a.rt").out.splitlines()[:-1] == lines


def test_hexdump_is_that_of_hexdump(run: Run, fat: Path) -> None:
    run("convert", fat, "fat.rt")
    answer = run("hexdump", "fat.rt", "0", "0", "1")
    Path("sector").write_bytes(fat.read_bytes()[:512])
    wanted = outside("hexdump", "-vC", "sector").splitlines()[:-1]
    assert answer.status == 0 and answer.out.splitlines() == [*wanted, "good"]


def test_hexdump_of_a_damaged_sector(run: Run) -> None:
    put("a.rt", odd().file())
    answer = run("hexdump", "a.rt", "1", "0", "3", "--json")
    data = bytes.fromhex(answer.json["data"])
    assert answer.status == 1 and answer.json["state"] == "damaged"
    assert len(data) == 512 and sum(a != b for a, b in zip(data, content(1, 0, 3))) in (1, 2)
    assert run("hexdump", "a.rt", "1", "0", "30").status == 2
    assert run("hexdump", "a.rt", "1", "0", "4", "--size", "256").status == 2
    assert run("hexdump", "a.rt", "1", "0", "4", "--size", "100").status == 2
    assert run("hexdump", "a.rt", "1", "0").status == 2


def imd_of(tracks: list[tuple[int, int, int, list[int]]]) -> bytes:
    """An ImageDisk file of tracks: cylinder, head, size code, and the type of each sector."""
    data = b"IMD 1.18: made for a test\r\n\x1a"
    for cylinder, head, code, kinds in tracks:
        data += bytes([3, cylinder, head, len(kinds), code, *range(1, len(kinds) + 1)])
        data += b"".join(bytes([kind]) + bytes(0 if kind == 0 else 1 if kind % 2 == 0 else 128 << code) for kind in kinds)
    return data


imagedisk = st.lists(st.tuples(st.integers(0, 79), st.integers(0, 1), st.integers(0, 7), st.lists(st.integers(0, 9), max_size=12)), max_size=4,
                     unique_by=lambda track: track[:2]).map(imd_of)
cells = st.builds(lambda flags, cylinders, heads, rate, size, rest: b"RTIMAGE2" + bytes([flags, cylinders, heads, rate]) + size.to_bytes(2, "big")
                  + (rest * (2 * cylinders * heads * size // len(rest) + 1))[:2 * cylinders * heads * size],
                  st.integers(0, 1), st.integers(1, 3), st.integers(1, 2), st.sampled_from([0, 2]), st.integers(64, 700), st.binary(min_size=1, max_size=64))


@settings(max_examples=60)
@given(data=imagedisk | cells | st.binary(max_size=64).map(lambda rest: b"RTIMAGE2" + rest) | st.binary(max_size=64).map(lambda rest: b"IMD " + rest))
def test_no_file_is_a_surprise(run: Run, data: bytes) -> None:
    """Whatever stands in a file, commands answer, or say what is wrong in a sentence."""
    put("a", data)
    for words in (["info"], ["verify"], ["sectors"], ["survey"]):
        answer = run(*words, "a")
        assert answer.status in (0, 1, 2) and (answer.status < 2 or answer.err.startswith("telwyddus: ")), answer
    answer = run("convert", "a", "b.img", "--force", "--lossy")
    assert answer.status in (0, 2), answer
