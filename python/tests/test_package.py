"""The package as a whole: its public names, their types and words, and its style."""
from __future__ import annotations

import ast
import subprocess
import sys
from collections.abc import Iterator
from pathlib import Path

import pytest

import telwyddus

PACKAGE = Path(telwyddus.__file__).parent
MODULES = sorted(PACKAGE.rglob("*.py"))
# The names that the module had before it became a package.
BEFORE = """Refused Empty Full NoMemory OutOfRange BadImage HasMedium NoMedium NotAsked BadPlan TooShort NotText NoFile NotReady Changed
Protected NoMark NotFound BadCrc Overrun Seek Unfit BadState Lines Signs Found Slot Shape Tracks version Holder Tray Drives Saved Planned
Controller Machine Shelf Disk""".split()


def functions(path: Path) -> Iterator[tuple[str, ast.FunctionDef]]:
    """The functions of a module and the methods of its classes, with their names."""
    for item in ast.parse(path.read_text()).body:
        if isinstance(item, ast.FunctionDef):
            yield item.name, item
        elif isinstance(item, ast.ClassDef):
            yield from ((f"{item.name}.{it.name}", it) for it in item.body if isinstance(it, ast.FunctionDef))


@pytest.mark.parametrize("name", BEFORE)
def test_a_name_from_before_is_there(name: str) -> None:
    assert name in telwyddus.__all__ and hasattr(telwyddus, name)


@pytest.mark.parametrize("path", MODULES, ids=lambda path: str(path.relative_to(PACKAGE)))
def test_words_and_types(path: Path) -> None:
    assert ast.get_docstring(ast.parse(path.read_text()))
    for name, function in functions(path):
        if any(part.startswith("_") for part in name.split(".")):
            continue
        assert ast.get_docstring(function), f"{name} has no docstring"
        assert function.returns is not None, f"{name} has no type"


@pytest.mark.parametrize("path", MODULES, ids=lambda path: str(path.relative_to(PACKAGE)))
def test_style(path: Path) -> None:
    assert len(path.read_text().splitlines()) < 300
    for name, function in functions(path):
        assert (function.end_lineno or 0) - function.lineno < 40, name


def test_types_hold() -> None:
    done = subprocess.run(["/usr/bin/mypy", "--strict", "--cache-dir", "/dev/null", str(PACKAGE)], capture_output=True, text=True)
    assert done.returncode == 0, done.stdout


def test_the_library_part_needs_the_standard_library_alone() -> None:
    words = "import sys; sys.modules['click'] = sys.modules['rich'] = None; import telwyddus, telwyddus.picture, telwyddus.waves, telwyddus.images"
    assert subprocess.run([sys.executable, "-c", words]).returncode == 0
