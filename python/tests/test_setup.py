"""tools/setup: which packages are missing, and what installs them; dpkg-query, apt-get and sudo are stand-ins here."""
from __future__ import annotations

import os
import subprocess
import sys
from pathlib import Path

import pytest

SETUP = Path(__file__).resolve().parents[2] / "tools/setup"
LISTED = [line.partition("#")[0].strip() for line in SETUP.with_name("packages.txt").read_text().splitlines()]
PACKAGES = [name for name in LISTED if name]


def stand_in(name: str, text: str) -> None:
    """A program of the folder `bin`."""
    os.makedirs("bin", exist_ok=True)
    Path("bin", name).write_text(f"#!/bin/sh\n{text}")
    Path("bin", name).chmod(0o755)


def setup(*words: str) -> "subprocess.CompletedProcess[str]":
    """Runs tools/setup among the stand-ins."""
    environment = {**os.environ, "PATH": f"{Path('bin').absolute()}:/usr/bin:/bin"}
    return subprocess.run([sys.executable, SETUP, *words], env=environment, capture_output=True, text=True)


@pytest.fixture(autouse=True)
def stand_ins() -> None:
    """A system on which all packages but mtools are installed, and on which apt-get can install that."""
    Path("there").write_text("".join(f"installed {name}:amd64\n" for name in PACKAGES if name != "mtools") + "config-files mtools:amd64\n")
    stand_in("dpkg-query", "cat there")
    stand_in("apt-get", 'echo "$@" >> asked; [ "$1" = install ] && echo installed mtools:amd64 >> there; true\n')
    stand_in("sudo", 'exec "$@"\n')


def test_check_names_what_is_missing() -> None:
    done = setup("--check")
    lines = done.stdout.splitlines()
    assert done.returncode == 1 and len(lines) == 2 and lines[0].startswith("missing: mtools (")
    assert lines[1].endswith("apt-get install --yes --no-install-recommends mtools") and not Path("asked").exists()


def test_it_installs_what_is_missing_alone() -> None:
    assert setup().returncode == 0
    assert Path("asked").read_text() == "update\ninstall --yes --no-install-recommends mtools\n"
    assert setup("--check").stdout == f"all {len(PACKAGES)} packages are installed\n"
    assert setup().returncode == 0 and Path("asked").read_text().count("\n") == 2


def test_a_package_that_another_provides_is_there() -> None:
    with Path("there").open("a") as there:
        there.write("installed other:amd64, mtools, else (= 2)\n")
    assert setup("--check").stdout == f"all {len(PACKAGES)} packages are installed\n"


@pytest.mark.parametrize("word", ["update", "install"])
def test_another_program_is_waited_for(word: str) -> None:
    text = SETUP.read_text()
    assert text.count("LONGEST, AGAIN = 600, 5\n") == 1
    Path("setup").write_text(text.replace("LONGEST, AGAIN = 600, 5\n", "LONGEST, AGAIN = 600, 0.1\n"))
    Path("packages.txt").write_text("mtools  # a test\n")
    stand_in("apt-get", f"""echo "$1" >> asked
if [ "$1" = {word} ] && [ "$(grep -c {word} asked)" -lt 3 ]; then echo "E: Could not get lock /var/lib/x"; exit 100; fi
[ "$1" = install ] && echo installed mtools:amd64 >> there; true
""")
    environment = {**os.environ, "PATH": f"{Path('bin').absolute()}:/usr/bin:/bin"}
    assert subprocess.run([sys.executable, "setup"], env=environment, capture_output=True).returncode == 0
    assert Path("asked").read_text().split() == (["update"] * 3 + ["install"] if word == "update" else ["update"] + ["install"] * 3)


def test_lists_that_can_not_be_fetched() -> None:
    """Without a network, packages of a local archive can still be installed."""
    stand_in("apt-get", '[ "$1" = update ] && exit 100; echo installed mtools:amd64 >> there\n')
    assert setup().returncode == 0 and setup("--check").returncode == 0


def test_an_install_that_fails() -> None:
    stand_in("apt-get", "exit 100\n")
    done = setup()
    assert done.returncode == 1 and "not installed: mtools" in done.stderr


def test_the_list_is_one_of_packages() -> None:
    assert len(set(PACKAGES)) == len(PACKAGES) > 20
