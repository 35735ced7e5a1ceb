"""The class Disk: sectors by their place, iteration, verify, survey, save."""
from __future__ import annotations

from pathlib import Path

import containers
import disks
import pytest
from conftest import content, damage, disk, disk_file, outside, put
from hypothesis import given, settings
from hypothesis import strategies as st

from telwyddus import BadCrc, Disk, Found, Geometry, Loss, NotFound, Problem, State, Tray
from telwyddus.images import of_flat

SLOW = settings(max_examples=25)


def test_it_reads_like_a_book() -> None:
    put("a.rt", damage(disk(3), 1, 0, 3).file())
    with Disk.open("a.rt") as it:
        assert it.path == Path("a.rt") and it.geometry == Geometry(3, 2, 18)
        assert it[0, 1, 5] == content(0, 1, 5)
        with pytest.raises(BadCrc):
            it[1, 0, 3]
        with pytest.raises(NotFound):
            it[0, 0, 19]
        assert len(it) == 108 and (2, 1, 18) in it and (2, 1, 19) not in it and (3, 0, 1) not in it
        found = list(it)
        assert [sector.key for sector in found] == list(it.geometry.keys())
        assert [sector.key for sector in found if not sector.is_good] == [(1, 0, 3)]
        assert all(sector.data == content(*sector.key) for sector in found if sector.is_good)
        verification = it.verify()
        assert not verification and verification.good == 107 and verification.bad[0].state is State.DAMAGED
        assert [field.key[:3] for field in it.survey() if field.found is not Found.OK] == [(1, 0, 3)]


def test_a_write_is_on_the_cells() -> None:
    before = disk(2)
    put("a.rt", before.file())
    with Disk.open("a.rt") as it:
        it[1, 1, 7] = content(9, 9, 9)
        it.save("b.rt")
        assert it.image() == before.write(7, content(9, 9, 9), track=3).file()
    assert Path("b.rt").read_bytes() == before.file()
    assert Path("a.rt").read_bytes() != before.file()


def test_a_new_diskette_is_the_one_of_the_plain_definitions() -> None:
    with Disk.new("1.44M") as it:
        assert it.image() == disks.formatted(80).file()
    with Disk.new("720K") as it:
        assert it.image() == disks.formatted(80, 250).file()


def test_save_refuses_what_is_there_and_what_would_be_lost() -> None:
    made = disk(80)
    made.write(4, content(0, 0, 4), deleted=True)
    put("a.rt", made.file())
    with Disk.open("a.rt") as it:
        with pytest.raises(Problem, match="is there already"):
            it.save("a.rt")
        with pytest.raises(Loss) as lost:
            it.save("a.img")
        assert any("marked deleted: 0 0 4" in line for line in lost.value.losses) and not Path("a.img").exists()
        it.save("a.img", lossy=True)
        it.save("a.imd")
    assert Path("a.img").stat().st_size == 1474560


def test_it_is_a_desk_too() -> None:
    with Disk() as it, Tray(disk_file(2)) as tray:
        it.insert(1, tray)
        it.acknowledge(1)
        assert it.read(1, 1, 0, 2) == (content(1, 0, 2), False)


geometries = st.builds(Geometry, st.integers(1, 5), st.integers(1, 2), st.integers(1, 9), st.just(2), st.just(250)) | st.builds(
    Geometry, st.integers(1, 5), st.integers(1, 2), st.integers(1, 18), st.just(2), st.just(500)) | st.builds(
    Geometry, st.integers(1, 4), st.integers(1, 2), st.integers(1, 5), st.integers(3, 4), st.just(500))


@SLOW
@given(geometry=geometries, data=st.data())
def test_flat_files_of_any_geometry_come_back(geometry: Geometry, data: st.DataObject) -> None:
    try:
        flat = data.draw(st.binary(min_size=64, max_size=64)) * (geometry.length // 64)
        tray = of_flat(flat, geometry)
    except Problem:
        # 16 sectors of 512 bytes and one of 2,048 don't both fit; the library says so.
        assert geometry.sectors * (geometry.size + 62 + 16) + 146 > (12500 if geometry.kilobits == 500 else 6250)
        return
    with tray:
        assert tray.flat_as(*geometry) == flat
        told = containers.imd_sectors(tray.imd())
        assert list(told) == list(geometry.keys()) and b"".join(data for _, data in told.values()) == flat
        with Tray.of_imd(tray.imd()) as again:
            assert again.flat_as(*geometry) == flat


@SLOW
@given(writes=st.lists(st.tuples(st.integers(0, 1), st.integers(0, 1), st.integers(1, 18), st.binary(min_size=8, max_size=8), st.booleans()), max_size=8))
def test_writes_change_their_sectors_alone(writes: list[tuple[int, int, int, bytes, bool]]) -> None:
    wanted = {(c, h, r): (content(c, h, r), False) for c in range(2) for h in range(2) for r in range(1, 19)}
    with Disk.of(Tray(disk_file(2))) as it:
        for cylinder, head, sector, part, is_deleted in writes:
            it.write(0, cylinder, head, sector, part * 64, deleted=is_deleted)
            wanted[cylinder, head, sector] = part * 64, is_deleted
        assert {sector.key: (sector.data, sector.is_deleted) for sector in it} == wanted


@pytest.mark.parametrize("text, wanted", [("1.44M", Geometry(80, 2, 18)), ("dmf", Geometry(80, 2, 21)), ("80x2x18", Geometry(80, 2, 18)),
                                          ("40x1x9", Geometry(40, 1, 9, 2, 250)), ("77x2x8x1024@500", Geometry(77, 2, 8, 3))])
def test_geometries_have_names(text: str, wanted: Geometry) -> None:
    assert Geometry.parsed(text) == wanted and Geometry.parsed(wanted.numbers) == wanted


@pytest.mark.parametrize("text", ["1.45M", "80x2", "81x2x18", "80x3x18", "80x2x18x500", "80x2x18@300", ""])
def test_what_is_no_geometry_is_refused(text: str) -> None:
    with pytest.raises(ValueError):
        Geometry.parsed(text)


def test_what_mtools_put_on_a_diskette_is_read(fat: Path) -> None:
    with Disk.open(fat) as it:
        assert it.verify() and it[0, 0, 1] == fat.read_bytes()[:512]
        it.save("fat.rt")
    with Disk.open("fat.rt") as it:
        it.save("again.img")
    assert outside("mtype", "-i", "again.img", "::HELLO.TXT") == "hello from a diskette\n"


# The sectors of a track: its number of sectors, and what is done to some of them.
tracks = st.lists(st.tuples(st.integers(1, 18), st.sampled_from(["deleted", "damaged", "both"])), max_size=6)


@SLOW
@given(changes=st.lists(tracks, min_size=4, max_size=4))
def test_imagedisk_files_keep_marks_and_damage(changes: list[list[tuple[int, str]]]) -> None:
    made = disk(2)
    for track, changed in enumerate(changes):
        for sector, what in changed:
            cylinder, head = divmod(track, 2)
            made.write(sector, content(cylinder, head, sector), deleted=what != "damaged", track=track)
            if what != "deleted":
                damage(made, cylinder, head, sector)
    with Tray(made.file()) as before, Tray.of_imd(before.imd()) as after:
        assert [field[3:] for field in after.survey()] == [field[3:] for field in before.survey()]
        with Disk.of(Tray(after.image())) as one, Disk.of(Tray(before.image())) as other:
            assert list(one) == list(other)
