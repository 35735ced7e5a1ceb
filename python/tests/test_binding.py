"""The binding to the library: bytes of any item size, threads, where the library is found, and its exceptions."""
from __future__ import annotations

import os
import shutil
import subprocess
import sys
import threading
import time
from array import array
from pathlib import Path

import pytest
from conftest import disk_file

import telwyddus
from telwyddus import BadImage, Controller, Empty, Machine, Shelf, Tray, binding

VALUES = [1, 2, 0x1234, 0xFFFF]


@pytest.mark.parametrize("code", "bBhHiIqQfd")
def test_all_bytes_of_wide_items_go_in(code: str) -> None:
    data = array(code, [1, 2, 100])
    with Shelf() as shelf:
        shelf.put("f", memoryview(data))
        assert shelf.get("f") == data.tobytes()
        shelf.put("f", data)
        assert shelf.get("f") == data.tobytes()


def test_a_memoryview_with_steps_and_one_of_two_dimensions() -> None:
    with Shelf() as shelf:
        shelf.put("f", memoryview(bytes(range(10)))[::3])
        assert shelf.get("f") == bytes([0, 3, 6, 9])
        shelf.put("f", memoryview(bytes(range(6))).cast("B", (2, 3)))
        assert shelf.get("f") == bytes(range(6))


def test_memory_takes_wide_items() -> None:
    with Machine() as machine:
        machine.memory_set(0x1000, memoryview(array("H", VALUES)))
        assert machine.memory_get(0x1000, 8) == array("H", VALUES).tobytes()


@pytest.mark.parametrize("wrong", [5, "text", [1, 2], None])
def test_what_has_no_bytes_is_refused(wrong: object) -> None:
    with Shelf() as shelf, pytest.raises(TypeError):
        shelf.put("f", wrong)  # type: ignore[arg-type]


def test_a_code_is_raised_with_its_words() -> None:
    with pytest.raises(BadImage, match="not those of an image file"):
        Tray(b"nothing")
    tray = Tray(disk_file(1))
    tray.close()
    tray.close()
    with pytest.raises(Empty):
        tray.image()


def test_a_number_that_c_would_cut_is_refused() -> None:
    with Controller() as controller, pytest.raises(OverflowError):
        controller.write(0x3F2, 256)


def test_long_calls_of_two_threads_run_at_the_same_time() -> None:
    """Another thread goes on while a long call runs: it counts in the meantime."""
    ticks, stopped = [0], threading.Event()

    def count() -> None:
        while not stopped.is_set():
            ticks[0] += 1
            time.sleep(0.001)

    with Shelf() as shelf:
        shelf.run("format", "a.rt", "80")
        counter = threading.Thread(target=count)
        counter.start()
        try:
            before, begun = ticks[0], time.monotonic()
            assert shelf.run("verify", "a.rt") == 0
            during, lasted = ticks[0] - before, time.monotonic() - begun
        finally:
            stopped.set()
            counter.join()
    # With the interpreter's lock kept, the counter would stand still as long as the call lasts.
    assert lasted < 0.02 or during >= 3, (during, lasted)


def test_threads_that_share_an_object_come_one_at_a_time() -> None:
    image, wrong = disk_file(2), []
    tray = Tray(image)

    def look() -> None:
        for _ in range(20):
            if tray.image() != image or len(list(tray.survey())) != 72 or tray.shape().cylinders != 2:
                wrong.append(1)

    threads = [threading.Thread(target=look) for _ in range(6)]
    for thread in threads:
        thread.start()
    for thread in threads:
        thread.join()
    assert not wrong
    tray.close()


def test_media_go_between_threads_and_drives() -> None:
    """Eight threads put one medium into one controller and take it out again; no call finds another's half-done."""
    image, lost = disk_file(1), []
    with Controller() as controller:
        controller.insert(0, Tray(image))
        turn = threading.Lock()

        def swap() -> None:
            for _ in range(25):
                with turn, controller.eject(0) as tray:
                    if tray.image() != image:
                        lost.append(1)
                    controller.insert(0, tray)

        threads = [threading.Thread(target=swap) for _ in range(8)]
        for thread in threads:
            thread.start()
        for thread in threads:
            thread.join()
        assert not lost and controller.image(0) == image


def python(*words: str, **variables: str) -> subprocess.CompletedProcess[str]:
    environment = {key: value for key, value in os.environ.items() if key not in ("TELWYDDUS_LIBRARY", "PYTHONPATH")}
    return subprocess.run([sys.executable, "-B", *words], env={**environment, **variables}, capture_output=True, text=True)


SHOWN = "import telwyddus.binding; print(telwyddus.binding.library().path, telwyddus.version())"


def test_an_installed_package_finds_its_library() -> None:
    """The package lies in lib/pythonX.Y/site-packages, and the library in lib, as tools/install puts them."""
    packages = Path("prefix/lib/python3.11/site-packages").resolve()
    shutil.copytree(Path(telwyddus.__file__).parent, packages / "telwyddus")
    library = Path("prefix/lib/libtelwyddus.so.2").resolve()
    shutil.copyfile(os.environ["TELWYDDUS_LIBRARY"], library)
    done = python("-c", SHOWN, PYTHONPATH=str(packages))
    assert done.stdout.split() == [str(library), str(telwyddus.version())], done.stderr


def test_a_wheel_finds_the_library_beside_the_package() -> None:
    package = Path("site/telwyddus").resolve()
    shutil.copytree(Path(telwyddus.__file__).parent, package)
    shutil.copyfile(os.environ["TELWYDDUS_LIBRARY"], package / "libtelwyddus.so")
    done = python("-c", SHOWN, PYTHONPATH=str(package.parent))
    assert done.stdout.split()[0] == str(package / "libtelwyddus.so"), done.stderr


def test_without_a_library_the_command_says_what_to_do() -> None:
    package = Path("site/telwyddus").resolve()
    shutil.copytree(Path(telwyddus.__file__).parent, package)
    done = python("-m", "telwyddus", "format", "a.rt", PYTHONPATH=str(package.parent), TELWYDDUS_LIBRARY="/nowhere.so")
    assert done.returncode == 2 and "TELWYDDUS_LIBRARY" in done.stderr and not Path("a.rt").exists()


def test_importing_loads_nothing() -> None:
    package = Path(telwyddus.__file__).parent.parent
    done = python("-c", "import telwyddus", PYTHONPATH=str(package), TELWYDDUS_LIBRARY="/nowhere.so")
    assert done.returncode == 0, done.stderr


def test_each_lasting_call_is_one_of_the_header() -> None:
    header = (Path(__file__).resolve().parents[2] / "c/telwyddus.h").read_text()
    assert {name for name in binding.LASTING if f"telwyddus_{name}(" not in header} == set()
