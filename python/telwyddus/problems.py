"""What keeps a task from being done, as a sentence that says what to do."""
from __future__ import annotations


class Problem(Exception):
    """A task can't be done. The text is a sentence, or some, for the user."""


class Loss(Problem):
    """A file format can't hold all that a medium has. `losses` lists what it can't hold."""

    def __init__(self, sentence: str, losses: list[str]) -> None:
        super().__init__(sentence)
        self.losses = losses
