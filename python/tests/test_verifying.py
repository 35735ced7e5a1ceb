"""verified: by the count of marks it finds what a verify by the survey's geometry finds, also on odd diskettes."""
from __future__ import annotations

import random
from pathlib import Path

import disks
import pytest
from conftest import damage, outside, put
from hypothesis import given, settings
from hypothesis import strategies as st

from telwyddus import Disk
from telwyddus.verifying import RUN, count_runs, geometry_by_marks, verified


def laid(numbers: "list[int]", n: int = 2, gap: int = 0x6C, cylinders: int = 80) -> disks.Disk:
    """A diskette whose tracks have sectors of these numbers."""
    tracks = [disks.layout([(c, h, r, n) for r in numbers], gap) for c in range(cylinders) for h in range(2)]
    return disks.Disk(cylinders, tracks=tracks)


def turned(made: disks.Disk, cells: int) -> disks.Disk:
    """The same diskette, on which each track begins so many cells later."""
    made.tracks = [disks.turned(words, cells) for words in made.tracks]
    return made


def with_runs(made: disks.Disk, track: int) -> disks.Disk:
    """The same diskette, with three marks in a gap."""
    made.tracks[track][20:23] = [disks.MARK] * 3
    return made


def with_plain_track(made: disks.Disk) -> disks.Disk:
    """The same diskette, whose first track is one of 18 sectors."""
    made.tracks[0] = disks.layout(disks.standard(0, 0))
    return made


def with_deleted(made: disks.Disk) -> disks.Disk:
    """The same diskette, with a sector that is marked deleted."""
    made.write(4, bytes(512), deleted=True, track=3)
    return made


def without_data(made: disks.Disk) -> disks.Disk:
    """The same diskette, on which the marks before the data of a sector are lost."""
    place = disks.window_place(5) + 12
    made.tracks[7][place:place + 3] = [0x9254] * 3
    return made


def bare(made: disks.Disk, track: int) -> disks.Disk:
    """The same diskette, with a track that isn't formatted."""
    made.tracks[track] = [0] * made.words
    return made


# What makes a diskette, the geometry that its marks count to, and how many of its sectors can be read.
CASES = {
    "1.44M": (lambda: disks.formatted(80), "1.44M", (2880, 2880)),
    "720K": (lambda: disks.formatted(80, 250), "720K", (1440, 1440)),
    "a damaged sector": (lambda: damage(disks.formatted(80), 1, 0, 3), "1.44M", (2879, 2880)),
    "a sector that is marked deleted": (lambda: with_deleted(disks.formatted(80)), "1.44M", (2880, 2880)),
    "a sector without data": (lambda: without_data(disks.formatted(80)), None, (2879, 2880)),
    "words that begin at another cell": (lambda: turned(disks.formatted(80), 5), "1.44M", (2880, 2880)),
    "a field across the index": (lambda: turned(disks.formatted(80), 16 * 500), "1.44M", (2720, 2880)),
    "marks across the index": (lambda: turned(disks.formatted(80), 16 * 159), "1.44M", (2720, 2880)),
    "a sector more on each track": (lambda: laid([*range(1, 20)], gap=0x40), None, (3040, 3040)),
    "a sector more on each track but one": (lambda: with_plain_track(laid([*range(1, 20)], gap=0x40)), None, (3039, 3040)),
    "other numbers": (lambda: laid([*range(2, 20)]), "1.44M", (2880, 3040)),
    "other sizes": (lambda: laid([*range(1, 19)], 1), "1.44M", (2880, 2880)),
    "marks in a gap": (lambda: with_runs(disks.formatted(80), 77), None, (2880, 2880)),
    "a bare track": (lambda: bare(disks.formatted(80), 9), None, (2862, 2880)),
    "few cylinders": (lambda: disks.formatted(3), "3x2x18x512@500", (108, 108)),
}


@pytest.mark.parametrize("name", CASES)
def test_it_is_the_verify_of_the_survey(name: str) -> None:
    make, by_marks, (good, asked) = CASES[name]
    path = put("a.rt", make().file())
    guess = geometry_by_marks(path.read_bytes())
    assert (guess and guess.name) == by_marks
    found = verified(path)
    with Disk.open(path) as there:
        assert found == there.verify()
    assert (found.good, found.asked) == (good, asked)


def test_a_named_geometry_and_other_formats() -> None:
    put("a.rt", disks.formatted(80).file())
    put("a.img", b"\xF6" * 1474560)
    outside("dsktrans", "-itype", "raw", "-format", "ibm1440", "-otype", "imd", "a.img", "a.imd")
    with Disk.open("a.rt") as there:
        assert verified(put("b.rt", there.image()), there.geometry) == there.verify()
        for name in "a.imd", "a.img":
            assert verified(Path(name)) == there.verify()


@given(st.integers(0, 2 ** 32), st.lists(st.integers(0, 2000), max_size=6))
@settings(max_examples=200)
def test_runs_are_counted_at_each_cell(seed: int, places: "list[int]") -> None:
    cells = list(f"{random.Random(seed).getrandbits(2048):02048b}")
    for place in places:
        cells[place:place + 48] = f"{RUN:048b}"
    text = "".join(cells)[:2048]
    found = sum(text.startswith(f"{RUN:048b}", place) for place in range(len(text)))
    assert found <= count_runs(int(text, 2).to_bytes(256, "big"))


@pytest.mark.parametrize("shift", range(16))
def test_no_run_is_counted_twice(shift: int) -> None:
    cells = (RUN << 300 | RUN << 150 | RUN) << shift
    assert count_runs(cells.to_bytes(64, "big")) == 3
