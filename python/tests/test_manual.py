"""The manual page and the completion files are those of the help texts, and a shell can use them."""
from __future__ import annotations

import os
import subprocess
import sys
from pathlib import Path

import pytest

from telwyddus.command.group import telwyddus

TOP = Path(__file__).resolve().parents[2]
PAGE = TOP / "docs/telwyddus.1"


def test_the_files_are_made_of_the_help_texts() -> None:
    done = subprocess.run([sys.executable, TOP / "tools/manual", "--check"], capture_output=True, text=True)
    assert done.returncode == 0, done.stdout


def test_man_takes_the_page() -> None:
    environment = {**os.environ, "MANWIDTH": "100", "LC_ALL": "C.UTF-8"}
    done = subprocess.run(["man", "--warnings", "-E", "UTF-8", "-l", str(PAGE)], env=environment, capture_output=True, text=True)
    assert done.returncode == 0 and done.stderr == ""
    for name in telwyddus.commands:
        assert f"telwyddus {name} " in done.stdout, name


def test_bash_completes() -> None:
    program = Path("telwyddus").absolute()
    program.write_text(f'#!/bin/sh\nexec "{sys.executable}" -m telwyddus "$@"\n')
    program.chmod(0o755)
    ask = f'COMPREPLY=(); _telwyddus_completion {program}; echo "${{COMPREPLY[@]}}"; '
    script = (f'. {TOP}/python/completion/telwyddus.bash; COMP_WORDS=(telwyddus ver); COMP_CWORD=1; {ask}'
              f'COMP_WORDS=(telwyddus format --geometry 1.); COMP_CWORD=3; {ask}')
    done = subprocess.run(["bash", "-c", script], capture_output=True, text=True)
    assert done.stdout.splitlines() == ["verify", "1.44M 1.6M 1.2M 1.23M"], done.stderr


@pytest.mark.parametrize("shell", ["zsh", "fish"])
def test_the_other_shells_files_name_the_command(shell: str) -> None:
    text = (TOP / f"python/completion/telwyddus.{shell}").read_text()
    assert f"_TELWYDDUS_COMPLETE={shell}_complete" in text
