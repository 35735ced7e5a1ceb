"""many on a cluster: a scheduler and two workers of Dask on loopback, one of which is killed in the middle."""
from __future__ import annotations

import gc
import json
import os
import signal
import subprocess
import sys
import time
from collections.abc import Callable, Iterator
from pathlib import Path

import pytest
from conftest import Run, damage, disk, disk_file, put

distributed = pytest.importorskip("distributed")
QUIET = ["--no-dashboard"]
# What a worker loads that is to be killed. Dask may load it twice.
DYING = """
import os, signal
from telwyddus import {module}
before, calls = getattr({module}, "before", {module}.{function}), []
def dying(task):
    answer = before(task)
    calls.append(task)
    if len(calls) == 2:
        os.kill(os.getpid(), signal.SIGKILL)
    return answer
{module}.before, {module}.{function} = before, dying
"""


def wait_for(what: Callable[[], object], seconds: float = 60) -> None:
    """Waits until something is so."""
    begin = time.monotonic()
    while not what():
        assert time.monotonic() - begin < seconds
        time.sleep(0.05)


def started(*words: str) -> "subprocess.Popen[bytes]":
    """A process of Dask."""
    return subprocess.Popen([sys.executable, *words], stdout=subprocess.DEVNULL, stderr=subprocess.DEVNULL, cwd="/")


class Cluster:
    """A scheduler, and the workers that it is given."""

    def __init__(self, room: Path) -> None:
        about = room / "scheduler.json"
        self.room, self.processes = room, [started("/usr/bin/dask-scheduler", "--host", "127.0.0.1", "--port", "0", *QUIET, "--scheduler-file", str(about))]
        wait_for(lambda: about.exists() and about.read_text().rstrip().endswith("}"))
        self.address = json.loads(about.read_text())["address"]

    def work(self, *more: str) -> "subprocess.Popen[bytes]":
        """Starts a worker with one thread, and waits until the scheduler knows it."""
        words = ["/usr/bin/dask-worker", self.address, "--nthreads", "1", *QUIET, "--local-directory", str(self.room)]
        self.processes.append(started(*words, "--no-nanny", *more))
        with distributed.Client(self.address, set_as_default=False) as client:
            client.wait_for_workers(len(self.processes) - 1, timeout=60)
        return self.processes[-1]

    def work_and_die(self, module: str, function: str) -> "subprocess.Popen[bytes]":
        """Starts a worker that is killed in the middle of its second task: its work is done then, and not yet told."""
        dying = self.room / "dying.py"
        dying.write_text(DYING.format(module=module, function=function))
        return self.work("--preload", str(dying))

    def end(self) -> None:
        """Ends all processes."""
        for process in self.processes:
            process.kill()
            process.wait()


@pytest.fixture
def cluster(tmp_path_factory: pytest.TempPathFactory) -> Iterator[Cluster]:
    """A scheduler."""
    made = Cluster(tmp_path_factory.mktemp("dask"))
    yield made
    made.end()


@pytest.fixture
def box() -> Path:
    """A folder of images: every fifth one has a bad sector, and one is none."""
    os.mkdir("box")
    whole, bad = disk_file(6), damage(disk(6), 1, 0, 3).file()
    for number in range(24):
        put(f"box/{number:02}.rt", bad if number % 5 == 0 else whole)
    put("box/none.rt", b"RTIMAGE2")
    return Path("box")


def test_a_worker_is_killed_in_the_middle(run: Run, cluster: Cluster, box: Path) -> None:
    here = run("many", "verify", box.resolve(), "--json").json
    first, second = cluster.work_and_die("batch", "look"), cluster.work()
    words = [sys.executable, "-m", "telwyddus", "many", "verify", str(box), "--report", "r.html", "--json", "--scheduler", cluster.address]
    done = subprocess.run(words, stdout=subprocess.PIPE, text=True, timeout=120)
    assert first.wait(timeout=10) == -signal.SIGKILL and second.poll() is None
    assert done.returncode == 1
    assert json.loads(done.stdout)["images"] == here["images"] and len(here["images"]) == 25
    names = [json.loads(line)[0] for line in Path("r.html.state").read_text().splitlines()[1:]]
    assert len(names) == len(set(names)) == 25 and Path("r.html").read_text().count("<tr class") == 25


def test_convert_on_a_cluster(run: Run, cluster: Cluster, box: Path) -> None:
    assert run("many", "convert", box, "--to", "imd", "--into", "here").status == 1
    cluster.work()
    assert run("many", "convert", box, "--to", "imd", "--into", "out", "--scheduler", cluster.address).status == 1
    made = {path.name: path.read_bytes() for path in Path("out").iterdir()}
    assert made == {path.name: path.read_bytes() for path in Path("here").iterdir()} and len(made) == 24


def test_no_worker_and_no_scheduler(run: Run, cluster: Cluster, box: Path, monkeypatch: pytest.MonkeyPatch) -> None:
    answer = run("many", "verify", box, "--scheduler", cluster.address)
    assert answer.status == 2 and "has no workers" in answer.err
    monkeypatch.setattr("telwyddus.cluster.TIMEOUT", 1)
    answer = run("many", "verify", box, "--scheduler", "tcp://127.0.0.1:9")
    assert answer.status == 2 and "No scheduler of Dask answers" in answer.err
    assert run("many", "verify", box, "--scheduler", "what?").status == 2
    # No client is left to Python's collector, which would close it while the next one is started.
    assert all(it.status == "closed" for it in gc.get_objects() if type(it) is distributed.Client)


def test_workers_without_the_library(run: Run, cluster: Cluster, box: Path, monkeypatch: pytest.MonkeyPatch) -> None:
    with monkeypatch.context() as patched:
        patched.setenv("TELWYDDUS_LIBRARY", "/nowhere")
        cluster.work()
    answer = run("many", "verify", box, "--scheduler", cluster.address)
    assert answer.status == 2 and "doesn't have this version of telwyddus" in answer.err


def test_distributed_isnt_there(run: Run, box: Path, monkeypatch: pytest.MonkeyPatch) -> None:
    monkeypatch.setitem(sys.modules, "distributed", None)
    answer = run("many", "verify", box, "--scheduler", "tcp://127.0.0.1:9")
    assert answer.status == 2 and "apt install python3-distributed" in answer.err


def test_a_campaign_whose_worker_is_killed(run: Run, cluster: Cluster) -> None:
    put("a.rt", disk_file(4))
    words = ["campaign", "a.rt", "--seeds", "1-40", "--unchecked", "--json"]
    here = run(*words).json
    first, second = cluster.work_and_die("campaigns", "play"), cluster.work()
    command = [sys.executable, "-m", "telwyddus", *words, "--state", "s", "--scheduler", cluster.address]
    done = subprocess.run(command, stdout=subprocess.PIPE, text=True, timeout=120)
    assert first.wait(timeout=10) == -signal.SIGKILL and second.poll() is None
    assert done.returncode == 1 and json.loads(done.stdout) == here and len(here["rounds"]) == 40
