"""What the tests have in common: a fresh folder, images that come from elsewhere than the package, and the command.

The images are computed by tools/disks.py from the plain definitions, or made by mtools. Where a program from outside
knows a format (mtools, libdsk, MAME's floptool, ddrescue), that program judges what the package wrote.

No test may hang: one that takes too long fails, with its name and the place where it waits. Hypothesis draws the same
examples in each run, so that a run fails only because of what was changed; it has no limit of time of its own.
TELWYDDUS_SEEDS=random lets it draw others.
"""
from __future__ import annotations

import copy
import faulthandler
import functools
import json
import os
import signal
import subprocess
from collections.abc import Callable, Iterator, Sequence
from pathlib import Path
from typing import Any, NamedTuple

import disks
import pytest
from hypothesis import HealthCheck, settings

import telwyddus.command

# How many seconds a test may take, with what it starts and ends. The longest takes some twenty on a fast machine. If it
# catches the signal that says so, it gets another one after AGAIN seconds. If it still goes on after LAST more, perhaps
# where no signal is seen, its process prints where all threads are, and ends.
LONGEST, AGAIN, LAST = int(os.environ.get("TELWYDDUS_LONGEST_TEST", "180")), 15, 60
# A copy of standard error, where the places of threads go: later pytest keeps what is written there for itself.
places = pytest.StashKey[int]()
settings.register_profile("telwyddus", deadline=None, derandomize=os.environ.get("TELWYDDUS_SEEDS") != "random",
                          suppress_health_check=[HealthCheck.function_scoped_fixture, HealthCheck.too_slow])
settings.load_profile("telwyddus")


def pytest_configure(config: pytest.Config) -> None:
    config.stash[places] = os.dup(2)
    # A shell lets what it starts in the background ignore SIGINT. The tests send it to themselves and to what they start.
    if signal.getsignal(signal.SIGINT) is signal.SIG_IGN:
        signal.signal(signal.SIGINT, signal.default_int_handler)


@pytest.hookimpl(hookwrapper=True, tryfirst=True)
def pytest_runtest_protocol(item: pytest.Item) -> Iterator[None]:
    """Fails a test that takes too long."""

    def fail(*_: object) -> None:
        pytest.fail(f"{item.nodeid} took longer than {LONGEST} seconds")

    before = signal.signal(signal.SIGALRM, fail)
    signal.setitimer(signal.ITIMER_REAL, LONGEST, AGAIN)
    faulthandler.dump_traceback_later(LONGEST + LAST, exit=True, file=item.config.stash[places])
    try:
        yield
    finally:
        faulthandler.cancel_dump_traceback_later()
        signal.setitimer(signal.ITIMER_REAL, 0)
        signal.signal(signal.SIGALRM, before)


class Answer(NamedTuple):
    """How a run of the command ended."""

    status: int
    out: str
    err: str

    @property
    def json(self) -> Any:
        """What it printed, as JSON."""
        return json.loads(self.out)


Run = Callable[..., Answer]


@pytest.fixture(autouse=True)
def folder(tmp_path: Path, monkeypatch: pytest.MonkeyPatch) -> Iterator[Path]:
    """A fresh folder, in which the test runs."""
    monkeypatch.chdir(tmp_path)
    yield tmp_path


@pytest.fixture
def run(capsys: pytest.CaptureFixture[str]) -> Run:
    """Runs the command in this process."""

    def ran(*words: str | Path) -> Answer:
        capsys.readouterr()
        status = telwyddus.command.main([str(word) for word in words])
        return Answer(status, *capsys.readouterr())

    return ran


def outside(*words: str | Path, status: int = 0) -> str:
    """Runs a program from outside, and returns what it printed."""
    environment = {**os.environ, "MTOOLSRC": os.devnull, "MTOOLS_SKIP_CHECK": "1"}
    done = subprocess.run([str(word) for word in words], stdout=subprocess.PIPE, stderr=subprocess.STDOUT, text=True, errors="replace",
                          env=environment, stdin=subprocess.DEVNULL)
    assert done.returncode == status, done.stdout
    return done.stdout


def content(cylinder: int, head: int, sector: int, size: int = 512) -> bytes:
    """The bytes of a sector, which are others in each sector."""
    return bytes((7 * i + 31 * cylinder + 17 * head + 5 * sector + i // 256) % 256 for i in range(size))


@functools.cache
def computed(cylinders: int, rate: int) -> disks.Disk:
    """The diskette of `disk`. To compute it takes longer than most tests."""
    made, step = disks.formatted(cylinders, rate), 682 if rate == 500 else 654
    for cylinder in range(cylinders):
        for head in range(2):
            for sector in range(1, (18 if rate == 500 else 9) + 1):
                made.write(sector, content(cylinder, head, sector), track=2 * cylinder + head, step=step)
    return made


def disk(cylinders: int = 2, rate: int = 500) -> disks.Disk:
    """A diskette whose sectors have the bytes of `content`, computed by tools/disks.py."""
    made = copy.copy(computed(cylinders, rate))
    made.tracks = [list(track) for track in made.tracks]
    return made


@functools.cache
def disk_file(cylinders: int = 2) -> bytes:
    """The image file of such a diskette."""
    return disk(cylinders).file()


def damage(made: disks.Disk, cylinder: int, head: int, sector: int, step: int = 682) -> disks.Disk:
    """Spoils a word in the data of a sector."""
    made.tracks[2 * cylinder + head][disks.window_place(sector, step) + 100] = 0
    return made


def put(name: str, data: bytes) -> Path:
    """A file of this folder."""
    path = Path(name)
    path.write_bytes(data)
    return path


def flat_of(keys: Sequence[tuple[int, int, int]], size: int = 512) -> bytes:
    """The flat file of some sectors."""
    return b"".join(content(*key, size) for key in keys)


def files_here() -> set[str]:
    """The names in this folder."""
    return set(os.listdir("."))


@pytest.fixture
def fat() -> Path:
    """A flat file of 1.44 MB with a FAT and two files, made by mtools."""
    outside("mformat", "-C", "-f", "1440", "-v", "LETTERS", "-i", "fat.img", "::")
    put("hello.txt", b"hello from a diskette\n")
    put("may.txt", b"may\n" * 700)
    outside("mmd", "-i", "fat.img", "::YEAR")
    outside("mcopy", "-i", "fat.img", "hello.txt", "::HELLO.TXT")
    outside("mcopy", "-i", "fat.img", "may.txt", "::YEAR/MAY.TXT")
    return Path("fat.img")
