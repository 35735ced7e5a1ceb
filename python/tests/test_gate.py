"""tools/gate: what it prints last, and its status. `rt` and all parts are stand-ins here."""
from __future__ import annotations

import os
import re
import shutil
import signal
import subprocess
import sys
import time
from pathlib import Path

import pytest

GATE = Path(__file__).resolve().parents[2] / "tools/gate"
PARTS = ["tools/setup", "tools/archive", "tools/retarget.py", "tools/check", "python/run", "bios/run", "js/check", "rust/check", "page/run", "js/pc/check"]
PROVED = "echo proving; echo '7 passed, 0 failed'"
# How many things the gate counts after the proofs: these, and whether the checkout is as it was.
PARTS_AND_MORE = len(PARTS) + 1


def closing(failed: int = 0, proved: int = 7) -> str:
    """The closing line, if so many parts fail."""
    return f"{proved + PARTS_AND_MORE - failed} passed, {failed} failed"


def stand_in(name: str, text: str) -> None:
    """A program of the checkout, or `rt`."""
    path = Path("top", name)
    path.parent.mkdir(parents=True, exist_ok=True)
    path.write_text(f"#!/bin/sh\n{text}\n")
    path.chmod(0o755)


def gate(*words: str, processors: int | None = None) -> "subprocess.Popen[str]":
    """Starts the gate among the stand-ins."""
    environment = {**os.environ, "PATH": f"{Path('top/bin').absolute()}:/usr/bin:/bin", "TMPDIR": str(Path("room").absolute())}
    set_processors = (lambda: os.sched_setaffinity(0, list(os.sched_getaffinity(0))[:processors])) if processors else None
    return subprocess.Popen([sys.executable, "top/tools/gate", *words], env=environment, stdout=subprocess.PIPE, stderr=subprocess.STDOUT, text=True,
                            preexec_fn=set_processors)


def lines_of(process: "subprocess.Popen[str]") -> tuple[int, list[str]]:
    """The status of the gate, and the lines that it printed."""
    printed, _ = process.communicate(timeout=60)
    return process.returncode, printed.splitlines()


@pytest.fixture(autouse=True)
def checkout() -> None:
    """A checkout in which all is well."""
    Path("room").mkdir()
    stand_in("bin/rt", PROVED)
    for name in PARTS:
        stand_in(name, f"echo much; echo {name} is well")
    shutil.copyfile(GATE, "top/tools/gate")
    Path("top/.gitignore").write_text("out/\n")
    for words in ["init", "-q"], ["add", "-A"], ["-c", "user.name=a", "-c", "user.email=a@b", "commit", "-qm", "all"]:
        subprocess.run(["git", *words], cwd="top", check=True)


def test_all_is_well() -> None:
    status, lines = lines_of(gate())
    assert status == 0 and lines[-1] == closing() and lines[0] == "proving"
    assert "much" not in lines and sum(line.startswith("passed  ") for line in lines) == PARTS_AND_MORE
    assert lines.count("7 passed, 0 failed") == 0 and os.listdir("room") == []
    for name in PARTS[1:]:
        assert any(re.fullmatch(rf"passed  .+, \d+ s: {name} is well", line) for line in lines), name


@pytest.mark.parametrize("text", ["echo '6 passed, 1 failed'; exit 1", "echo '6 passed, 1 failed'; exit 3", "echo '6 passed, 1 failed'"])
def test_the_proofs_fail(text: str) -> None:
    stand_in("bin/rt", f"echo proving; {text}")
    status, lines = lines_of(gate())
    assert lines == ["proving", "6 passed, 1 failed"] and status == (3 if "exit 3" in text else 1)


def test_the_proofs_end_without_a_word() -> None:
    stand_in("bin/rt", "echo '7 passed, 0 failed'; echo gone; exit 2")
    assert lines_of(gate()) == (2, ["7 passed, 0 failed", "gone"])
    Path("top/bin/rt").unlink()
    status, lines = lines_of(gate())
    assert status == 1 and lines[-1] == "0 passed, 1 failed"


def test_a_part_passes_when_it_is_tried_once_more() -> None:
    stand_in("tools/retarget.py", "test -e ../tried || { touch ../tried; echo too late; exit 5; }; echo in time")
    status, lines = lines_of(gate())
    assert status == 0 and lines[-1] == closing()
    assert lines.index("too late") < lines.index("passed  WebAssembly, 0 s: in time")


def test_a_part_fails_and_those_that_need_it_are_not_tried() -> None:
    stand_in("tools/retarget.py", "echo one; echo two; exit 5")
    stand_in("js/check", "touch ../begun")
    status, lines = lines_of(gate())
    assert status == 1 and lines[-1] == closing(4)
    first, at = (number for number, line in enumerate(lines) if line == "two")
    assert lines[first + 1] == "again   WebAssembly: status 5, 0 s; it is tried once more"
    assert lines[at - 1] == "one" and lines[at - 2].startswith("== WebAssembly: tools/retarget.py ") and lines[at + 1] == "FAILED  WebAssembly: status 5, 0 s"
    assert [line for line in lines if "not tried" in line] == [f"FAILED  {name}: not tried, since WebAssembly failed" for name in ("page", "JavaScript", "PC")]
    assert not Path("begun").exists()


def test_without_a_library_nothing_is_tried() -> None:
    stand_in("tools/archive", "exit 1")
    status, lines = lines_of(gate())
    assert status == 1 and lines[-1] == closing(len(PARTS) - 1)


def test_a_part_that_is_absent_or_killed() -> None:
    Path("top/bios/run").unlink()
    stand_in("rust/check", "kill -9 $$")
    status, lines = lines_of(gate())
    assert status == 1 and lines[-1] == closing(2) and "FAILED  Rust: killed by signal 9, 0 s" in lines
    assert any(line.startswith("FAILED  BIOSes: status 127") for line in lines) and any("bios/run" in line and "No such file" in line for line in lines)


def test_a_file_that_git_does_not_ignore() -> None:
    stand_in("python/run", "mkdir -p out; touch out/fine new")
    stand_in("page/run", "echo >> tools/check")
    status, lines = lines_of(gate())
    assert status == 1 and lines[-1] == closing(1)
    assert [line for line in lines if line.startswith(("??", " M"))] == [" M tools/check", "?? new"]


def test_what_differed_before_is_no_fault() -> None:
    stand_in("new", "true")
    assert lines_of(gate())[1][-1] == closing()


@pytest.mark.parametrize("is_mended", [True, False])
def test_packages_are_missing(is_mended: bool) -> None:
    mends = 'test -z "$1" && touch ../there' if is_mended else ""
    stand_in("tools/setup", f'test -e ../there && exit 0; echo "asked $*" >> ../asked\n{mends}\necho missing: mtools; echo apt-get install mtools; exit 1')
    status, lines = lines_of(gate())
    assert Path("asked").read_text().splitlines()[0] == "asked --check"
    if os.getuid() == 0:
        assert "asked \n" in Path("asked").read_text()
    assert (status, lines[-1]) == ((0, closing()) if is_mended and os.getuid() == 0 else (1, closing(1)))
    assert is_mended or "apt-get install mtools" in lines


def test_one_processor_runs_the_parts_one_by_one() -> None:
    for name in PARTS[1:]:
        stand_in(name, f"echo begin {name} >> ../log; sleep 0.1; echo end {name} >> ../log")
    status, _ = lines_of(gate(processors=1))
    log = Path("log").read_text().splitlines()
    assert status == 0 and len(log) == 2 * len(PARTS[1:]) and all(one.replace("begin", "end") == other for one, other in zip(log[::2], log[1::2]))


def test_after_the_proofs_alone() -> None:
    stand_in("bin/rt", "touch ../begun")
    status, lines = lines_of(gate("--after-proofs"))
    assert status == 0 and lines[-1] == f"{closing(proved=0)} (without the proofs: not the gate)" and not Path("begun").exists()


def wait_for(path: Path) -> None:
    """Waits for a file."""
    end = time.monotonic() + 20
    while not path.exists():
        assert time.monotonic() < end
        time.sleep(0.02)


@pytest.mark.parametrize("name", ["bin/rt", "tools/archive", "tools/check"])
@pytest.mark.parametrize("number", [signal.SIGTERM, signal.SIGINT])
def test_a_gate_that_is_stopped_leaves_nothing_running(name: str, number: int) -> None:
    stand_in(name, "sleep 300 & echo $! > ../number; mv ../number ../child; wait" if name != "bin/rt" else "echo $$ > ../number; mv ../number ../child; exec sleep 300")
    process = gate()
    wait_for(Path("child"))
    process.send_signal(number)
    process.communicate(timeout=20)
    child = int(Path("child").read_text())
    assert process.returncode not in (0, None)
    for _ in range(100):
        if not Path(f"/proc/{child}").exists() or Path(f"/proc/{child}/stat").read_text().split()[2] == "Z":
            break
        time.sleep(0.05)
    else:
        raise AssertionError("it still runs")
    assert os.listdir("room") == []


def test_what_a_part_leaves_running_is_killed() -> None:
    stand_in("rust/check", "sleep 300 & echo $! > ../child; echo well")
    assert lines_of(gate())[1][-1] == closing()
    child = Path(f"/proc/{int(Path('child').read_text())}")
    assert not child.exists() or child.joinpath("stat").read_text().split()[2] == "Z"


def shorten(longest: int, together: int) -> None:
    """Lets parts take less time than in the gate."""
    text = GATE.read_text()
    assert text.count("LONGEST, ALL = 1200, 3000\n") == 1
    Path("top/tools/gate").write_text(text.replace("LONGEST, ALL = 1200, 3000\n", f"LONGEST, ALL = {longest}, {together}\n"))
    subprocess.run(["git", "-c", "user.name=a", "-c", "user.email=a@b", "commit", "-qam", "shorter"], cwd="top", check=True)


def test_a_part_that_hangs_fails() -> None:
    shorten(3, 600)
    stand_in("rust/check", "echo begun; sleep 300")
    status, lines = lines_of(gate())
    assert status == 1 and lines[-1] == closing(1) and lines.count("begun") == 2
    assert sum(line.startswith("again   Rust: it took too long, ") for line in lines) == sum(line.startswith("FAILED  Rust: it took too long, ") for line in lines) == 1


def test_all_parts_together_have_a_limit() -> None:
    shorten(300, 6)
    stand_in("tools/check", "sleep 300")
    status, lines = lines_of(gate())
    assert status == 1 and lines[-1] == closing(1) and any(line.startswith("FAILED  C: it took too long, 0 s") for line in lines)
