"""play, plan check, floppy, and the command as a whole."""
from __future__ import annotations

import subprocess
import sys
from pathlib import Path

import pytest
from conftest import Run, content, disk, disk_file, files_here, put

JOB = b"insert 0 a.rt\nack 0\nfill 10000 512 5A\nwrite 0 1 0 3 2 10000\nread 0 1 0 4 2 20000\ndump 20000 4\n"


def test_play(run: Run) -> None:
    before = put("a.rt", disk_file(2)).read_bytes()
    put("job", JOB)
    answer = run("play", "job")
    assert answer.status == 2 and "--force" in answer.err and Path("a.rt").read_bytes() == before
    answer = run("play", "job", "--check")
    assert answer.status == 0 and "would store: a.rt" in answer.err and Path("a.rt").read_bytes() == before
    answer = run("play", "job", "--force")
    assert answer.status == 0 and answer.out.splitlines()[-1] == f"20000 {content(1, 0, 4)[:4].hex(' ').upper()}"
    assert Path("a.rt").read_bytes() == disk(2).write(3, b"\x5A" * 512, track=2).file()


def test_play_in_another_folder(run: Run) -> None:
    Path("box").mkdir()
    put("box/a.rt", disk_file(2))
    put("box/job", JOB)
    assert run("play", "box/job", "--force", "--json").json["stored"] == ["a.rt"]
    assert files_here() == {"box"} and Path("box/a.rt").read_bytes() == disk(2).write(3, b"\x5A" * 512, track=2).file()


def test_a_refused_request(run: Run) -> None:
    put("a.rt", disk_file(2))
    put("job", b"insert 0 a.rt\nack 0\nread 0 1 0 19 2 10000\n")
    answer = run("play", "job")
    assert answer.status == 1 and answer.out.splitlines()[-1] == "read refused 04"


def test_play_refuses(run: Run) -> None:
    put("job", b"insert 0 a.rt\nnonsense\n")
    answer = run("play", "job")
    assert answer.status == 2 and "line 2 isn't understood: nonsense" in answer.err
    put("job", b"insert 0 a.rt\n")
    answer = run("play", "job")
    assert answer.status == 2 and "a.rt absent" in answer.err
    assert run("play", "nowhere").status == 2


def test_plan_check(run: Run) -> None:
    put("good", b"lose 0 0 1\nhold 9 1\n")
    put("bad", b"# a plan\nlose 0 0 1\nlose 9 0 1\n")
    assert run("plan", "check", "good").out == "good: understood\n"
    answer = run("plan", "check", "good", "bad")
    assert answer.status == 1 and "bad: line 3 isn't understood: lose 9 0 1" in answer.out
    assert run("plan", "check", "--json", "bad").json == [{"file": "bad", "line": 3, "words": "line 3 isn't understood: lose 9 0 1"}]
    put("bytes", b"\xff\xfe\n")
    assert run("plan", "check", "bytes").status == 1
    assert run("plan", "check", "nowhere").status == 2
    assert run("plan").status in (0, 2)


def test_floppy_is_the_program(run: Run, monkeypatch: pytest.MonkeyPatch) -> None:
    assert run("floppy", "format", "a.rt", "2").out == "format ok 4\n"
    assert run("floppy", "verify", "a.rt").out == "verify 72 of 72\n"
    assert run("floppy", "--help").out == "words not understood\n"
    answer = run("floppy", "verify", "no/folder")
    assert answer.status == 2 and answer.out == "words not understood\n"
    assert run("floppy", "verify", "nowhere").status == 5
    Path("a.rt").chmod(0o444)
    monkeypatch.setenv("FLOPPY_PLAN", "plan")
    assert run("floppy", "verify", "a.rt").status == 2


def test_words_that_arent_a_command(run: Run) -> None:
    answer = run("verfy", "a.rt")
    assert answer.status == 2 and "Did you mean verify?" in answer.err
    answer = run("export", "a.rt", "a.img")
    assert answer.status == 2 and "telwyddus floppy export a.rt a.img" in answer.err
    assert run("--version").out.startswith("telwyddus 2.")
    assert "browse" in run("--help").out


def test_every_command_has_help_and_json(run: Run) -> None:
    from telwyddus.command.group import telwyddus
    for name, command in telwyddus.commands.items():
        if name == "floppy":
            continue
        assert run(name, "--help").status == 0
        parts = getattr(command, "commands", {name: command})
        assert all("as_json" in {it.name for it in part.params} for part in parts.values()), name


def test_python_m_and_completion() -> None:
    done = subprocess.run([sys.executable, "-m", "telwyddus", "--version"], capture_output=True, text=True)
    assert done.returncode == 0 and done.stdout.startswith("telwyddus ")
    done = subprocess.run([sys.executable, "-c", "from telwyddus.command import run; import sys; sys.argv[0] = 'telwyddus'; run()"], text=True,
                          capture_output=True, env={**__import__("os").environ, "_TELWYDDUS_COMPLETE": "bash_source"})
    assert "complete" in done.stdout


def test_an_answer_that_nobody_reads(run: Run) -> None:
    put("a.rt", disk_file(80))
    done = subprocess.run(f"{sys.executable} -m telwyddus sectors a.rt | head -1; echo ${{PIPESTATUS[0]}}", shell=True, executable="/bin/bash",
                          capture_output=True, text=True)
    assert "Traceback" not in done.stderr and done.stdout.splitlines()[0].startswith("C")
