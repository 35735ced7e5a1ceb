"""The state file of a long run: a line of JSON for each answer, so that a later run goes on where this one stopped."""
from __future__ import annotations

import fcntl
import json
import os
from pathlib import Path
from types import TracebackType
from typing import Any

from . import files
from .problems import Problem

LONGEST = 1 << 30


class Journal:
    """The answers of a run by their names, kept in a file. Each comes with a stamp, which says what it was made from:
    an answer whose stamp has changed is forgotten."""

    def __init__(self, path: Path | None, head: dict[str, Any], again: bool = False) -> None:
        self.path, self.head = path, head
        self.answers: dict[str, tuple[Any, Any]] = {}
        # Whether an earlier run has made the file, and so the report beside it too.
        self.was_there = path is not None and path.exists()
        if path is None:
            return
        if self.was_there:
            self._read(path, again)
        # A kill may have left a part of a line at the end, so the file is written anew.
        with files.locked(path):
            files.store(path, self._text().encode(), force=True)
        self._file = path.open("a", encoding="utf-8")
        try:
            fcntl.flock(self._file, fcntl.LOCK_EX | fcntl.LOCK_NB)
        except OSError as fault:
            raise Problem(f"{path} is being written by another run. Wait for its end, or name another file with --state.") from fault

    def __enter__(self) -> Journal:
        return self

    def __exit__(self, kind: type[BaseException] | None, error: BaseException | None, trace: TracebackType | None) -> None:
        if self.path is not None:
            self._file.flush()
            os.fsync(self._file.fileno())
            self._file.close()

    def _check_head(self, path: Path, lines: list[bytes]) -> None:
        """Refuses a file that isn't the state of a run, so that it isn't replaced."""
        try:
            head = json.loads(lines[0]) if lines else None
        except ValueError:
            head = None
        if not isinstance(head, dict) or head.get("state of") != self.head.get("state of"):
            raise Problem(f"{path} isn't the state of such a run. Name another file with --state.")

    def _read(self, path: Path, again: bool) -> None:
        lines = files.read(path, LONGEST).splitlines()
        self._check_head(path, lines)
        if again:
            return
        if json.loads(lines[0]) != self.head:
            raise Problem(f"{path} is the state of a run with other arguments. Begin anew with --again, or name another file with --state.")
        for line in lines[1:]:
            try:
                name, stamp, answer = json.loads(line)
            except ValueError:
                continue
            self.answers[name] = stamp, answer

    def _text(self) -> str:
        lines = [self.head, *([name, stamp, answer] for name, (stamp, answer) in self.answers.items())]
        return "".join(json.dumps(line) + "\n" for line in lines)

    def find(self, name: str, stamp: Any) -> Any:
        """The answer of an earlier run, or None if there is none with this stamp."""
        there, answer = self.answers.get(name, (None, None))
        return answer if there == stamp else None

    def add(self, name: str, stamp: Any, answer: Any) -> None:
        """Takes an answer, and writes it down."""
        self.answers[name] = stamp, answer
        if self.path is not None:
            self._file.write(json.dumps([name, stamp, answer]) + "\n")
            self._file.flush()
