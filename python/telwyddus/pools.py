"""Runs one function on many tasks, on all processors of this computer or on those of a cluster. Each task has one answer,
also if a process is killed meanwhile."""
from __future__ import annotations

import signal
import threading
from collections.abc import Callable, Generator, Iterator, Sequence
from concurrent.futures import FIRST_COMPLETED, Future, ProcessPoolExecutor, wait
from concurrent.futures.process import BrokenProcessPool
from contextlib import contextmanager
from multiprocessing import get_context
from typing import TypeVar

Task = TypeVar("Task")
Answer = TypeVar("Answer")
# The places of tasks with their answers; None if the process of a task ended without one.
Answers = Generator[tuple[int, "Answer | None"], None, None]


# What stops this process. A worker has its own way with it.
STOPS = (signal.SIGINT, signal.SIGTERM)


def begin_worker() -> None:
    """Leaves Ctrl-C to the process that waits for the workers, and lets SIGTERM end a worker at once."""
    signal.signal(signal.SIGINT, signal.SIG_IGN)
    signal.signal(signal.SIGTERM, signal.SIG_DFL)


@contextmanager
def signals_held() -> Iterator[None]:
    """Keeps back what stops this process, while it starts others. If it were stopped between two of them, it would wait
    at its end for the first, to which nobody says that no work comes.

    A signal is kept back by its handler. To block it in this thread alone isn't enough: another thread, such as that of
    a progress line, would then get it, and Python lets the main thread handle it all the same."""
    if threading.current_thread() is not threading.main_thread():
        # No handler runs in another thread.
        yield
        return
    came: list[int] = []
    before = {number: signal.signal(number, lambda number, _: came.append(number)) for number in STOPS}
    try:
        yield
    finally:
        for number, handler in before.items():
            signal.signal(number, signal.SIG_DFL if handler is None else handler)
        for late in came:
            signal.raise_signal(late)


def new_pool(jobs: int) -> ProcessPoolExecutor:
    """Some processes that begin as copies of this one."""
    pool = ProcessPoolExecutor(jobs, get_context("fork"), begin_worker)
    with signals_held():
        # The first task starts them all.
        pool.submit(int)
    return pool


def has_queues() -> bool:
    """Whether processes can share a queue on this system."""
    try:
        get_context("fork").Lock()
    except (OSError, ImportError):
        return False
    return True


def run_here(function: Callable[[Task], Answer], tasks: Sequence[Task], jobs: int) -> Answers[Answer]:
    """Runs the tasks in as many processes as `jobs` says. The answers come as they are made.

    Where no processes can share a queue, as without a writable /dev/shm, this process does all tasks itself. If a
    process is killed, the tasks that were on their way are run once more, one at a time. One whose process ends
    then too has no answer."""
    if not has_queues():
        yield from ((place, function(task)) for place, task in enumerate(tasks))
        return
    suspects: list[int] = []
    waiting = list(reversed(range(len(tasks))))
    while waiting:
        yield from run_pool(function, tasks, waiting, jobs, suspects)
    for place in suspects:
        with new_pool(1) as pool:
            try:
                yield place, pool.submit(function, tasks[place]).result()
            except BrokenProcessPool:
                yield place, None


def run_pool(function: Callable[[Task], Answer], tasks: Sequence[Task], waiting: list[int], jobs: int,
             suspects: list[int]) -> Answers[Answer]:
    """Takes tasks from `waiting` until none is left, or until a process is killed: the tasks on their way are then
    added to the suspects."""
    pool = new_pool(min(jobs, len(waiting)))
    running: dict[Future[Answer], int] = {}
    try:
        while waiting or running:
            while waiting and len(running) < 2 * jobs:
                future = pool.submit(function, tasks[waiting[-1]])
                running[future] = waiting.pop()
            for future in sorted(wait(running, return_when=FIRST_COMPLETED).done, key=running.__getitem__):
                answer = future.result()
                yield running.pop(future), answer
    except BrokenProcessPool:
        for future, place in running.items():
            if future.done() and future.exception() is None:
                yield place, future.result()
            else:
                suspects.append(place)
    finally:
        pool.shutdown(cancel_futures=True)
