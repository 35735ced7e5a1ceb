"""Runs one function on many tasks on a cluster, by Dask distributed. Its workers need this package, the library, and the
files under the same paths."""
from __future__ import annotations

import importlib
import logging
from collections.abc import Callable, Iterator, Sequence
from contextlib import contextmanager, suppress
from typing import Any, TypeVar

from .binding import LibraryAbsent, version
from .pools import Answers, run_here
from .problems import Problem

Task = TypeVar("Task")
Answer = TypeVar("Answer")
# How long a scheduler may take to answer, and all its workers, in seconds.
TIMEOUT, WORKERS_TIMEOUT = 10, 120
INSTALL = "Debian has it: apt install python3-distributed"


def run_all(function: Callable[[Task], Answer], tasks: Sequence[Task], jobs: int, scheduler: str | None) -> Answers[Answer]:
    """Runs the tasks on the cluster of a scheduler, or else in processes of this computer."""
    return run_there(function, tasks, scheduler) if scheduler else run_here(function, tasks, jobs)


def run_there(function: Callable[[Task], Answer], tasks: Sequence[Task], scheduler: str) -> Answers[Answer]:
    """Runs the tasks on a cluster. If a worker goes, the others do its tasks. A task with which several workers went,
    one after the other, has no answer."""
    if not tasks:
        return
    with connected(scheduler) as (distributed, client):
        check_workers(client, scheduler)
        places = {future: place for place, future in enumerate(client.map(function, tasks, pure=False))}
        for future in distributed.as_completed(list(places), loop=client.loop):
            try:
                answer = future.result()
            except distributed.KilledWorker:
                yield places[future], None
            except Exception as fault:
                raise gone(scheduler) from fault
            else:
                yield places[future], answer


@contextmanager
def connected(scheduler: str) -> Iterator[tuple[Any, Any]]:
    """The package distributed, and a client of a scheduler."""
    try:
        distributed = importlib.import_module("distributed")
    except ImportError as fault:
        raise Problem(f"--scheduler needs the Python package distributed. {INSTALL}") from fault
    # What it would print is said here as a sentence.
    logging.getLogger("distributed").setLevel(logging.CRITICAL + 1)
    try:
        client = client_of(distributed, scheduler)
    except (OSError, ValueError) as fault:
        raise Problem(f"No scheduler of Dask answers at {scheduler}. Start one with dask-scheduler, and name the address that it prints.") from fault
    with client:
        yield distributed, client


def client_of(distributed: Any, scheduler: str) -> Any:
    """A client of a scheduler. One that can't connect is closed here. Otherwise Python's collector would close it at any
    moment: if another client is just being started then, each waits for the other for ever."""
    client = distributed.Client.__new__(distributed.Client)
    try:
        client.__init__(scheduler, timeout=TIMEOUT, set_as_default=False)
    except BaseException:
        with suppress(Exception):
            client.close()
        raise
    return client


def check_workers(client: Any, scheduler: str) -> None:
    """Refuses a cluster without workers, and one whose workers don't have this package and its library."""
    # What needs no cluster does without this module, which takes long to load.
    import asyncio
    try:
        found = client.run(version_there, callback_timeout=WORKERS_TIMEOUT)
    except ModuleNotFoundError as fault:
        raise Problem(f"The workers of {scheduler} don't have the package {fault.name}. Install telwyddus on each of them.") from fault
    except (asyncio.TimeoutError, TimeoutError) as fault:
        raise Problem(f"A worker of {scheduler} hasn't answered for {WORKERS_TIMEOUT} seconds. End the workers that hang, and run the same command again.") from fault
    if not found:
        raise Problem(f"{scheduler} has no workers. Start some: dask-worker {scheduler}")
    for worker, number in found.items():
        if number != version():
            raise Problem(f"The worker {worker} doesn't have this version of telwyddus and its library. Install it there.")


def version_there() -> int:
    """The version of a worker's library; 0 if it has none."""
    try:
        return version()
    except LibraryAbsent:
        return 0


def gone(scheduler: str) -> Problem:
    """What is said if tasks have no answer for another reason."""
    return Problem(f"The scheduler {scheduler} has gone, or lost what it was to do. Start it again, and run the same command again to go on.")
