"""A round of a campaign: a driver writes sectors while planned faults come, and what then stands on the diskette is
compared with what the driver said."""
from __future__ import annotations

import random
from collections.abc import Callable
from pathlib import Path
from typing import NamedTuple

from .batch import FAULTS, Row
from .binding import LibraryAbsent
from .disks import Disk, Sector
from .geometry import Geometry, Key
from .images import load
from .machines import Machine
from .media import Shape, Tray
from .problems import Problem
from .rig import Rig


class Round(NamedTuple):
    """A round: its seed, the image that it begins with, and how many sectors are written under how many lines of
    faults. If not `is_checked`, the driver doesn't read back what it wrote."""

    seed: int
    path: Path
    geometry: Geometry | None
    sectors: int
    faults: int
    attempts: int
    is_checked: bool


class Judged(NamedTuple):
    """What a round found: what the plan was, how many attempts each sector took, and what is wrong on the diskette."""

    plan: str
    attempts: dict[Key, int]
    wrong: list[str]


def play(task: Round) -> Row:
    """Plays a round. This raises nothing."""
    name = f"seed {task.seed}"
    try:
        judged = judge(task)
    except LibraryAbsent as fault:
        return Row(name, 2, f"{fault}.", {})
    except FAULTS as fault:
        return Row(name, 2, str(fault), {})
    except Exception as fault:
        return Row(name, 2, f"a mistake of this program: {type(fault).__name__}: {fault}", {})
    written = sum(number > 0 for number in judged.attempts.values())
    words = f"{written} of {len(judged.attempts)} sectors written in {sum(judged.attempts.values())} attempts"
    facts = {"plan": judged.plan, "attempts": [[*key, number] for key, number in judged.attempts.items()], "wrong": judged.wrong}
    return Row(name, int(bool(judged.wrong)), "; ".join([words, *judged.wrong]), facts)


def judge(task: Round) -> Judged:
    """Writes sectors under a plan that the seed makes, and looks at the diskette without faults afterwards."""
    chance = random.Random(task.seed)
    image = load(task.path, task.geometry)
    shape = image.tray.shape()
    if shape.is_protected:
        raise Problem(f"{task.path} is write-protected, so no sector can be written.")
    with Disk.of(image.tray, task.geometry or image.geometry) as disk:
        geometry, before = disk.geometry, {sector.key: sector for sector in disk}
        tracks = chance.sample(list(geometry.tracks()), min(2, geometry.cylinders * geometry.heads))
        named = [(*track, sector) for track in tracks for sector in range(1, geometry.sectors + 1)]
        data = {key: chance.randbytes(geometry.size) for key in chance.sample(named, min(task.sectors, len(named)))}
        plan = plan_of(chance, tracks, shape, task.faults)
        with disk.medium() as tray:
            after, attempts = written(tray, plan, data, geometry, task)
    return Judged(plan, attempts, [words for key in before if (words := wrong(before[key], after[key], data.get(key), attempts.get(key)))])


def written(tray: Tray, plan: str, data: dict[Key, bytes], geometry: Geometry, task: Round) -> tuple[dict[Key, Sector], dict[Key, int]]:
    """Writes sectors on a copy of a medium under a plan. Returns what stands on it afterwards, and how many attempts each
    sector took."""
    shape = tray.shape()
    with Tray(tray.image()) as copy, Machine(plan) as machine:
        machine.insert(0, copy)
        rig = Rig(machine, shape)
        attempts = {key: rig.write(key, value, geometry.n, task.attempts, task.is_checked) for key, value in data.items()}
        with Disk.of(machine.eject(0), geometry) as disk:
            return {sector.key: sector for sector in disk}, attempts


def wrong(before: Sector, after: Sector, data: bytes | None, attempts: int | None) -> str:
    """What is wrong with a sector after a round, in words; nothing if it is as the driver said. A sector that the driver
    couldn't write may have its old bytes, its new ones, or a wrong CRC."""
    name = f"sector {' '.join(map(str, before.key))}"
    is_old = after._replace(is_deleted=before.is_deleted) == before
    if data is None:
        return "" if after == before else f"{name} wasn't written and has changed"
    is_new = after.is_good and after.data == data
    if attempts:
        return "" if is_new else f"{name} counts as written and has {'other bytes' if after.is_good else 'no good data'}"
    return "" if is_new or is_old or not after.is_good else f"{name} has neither its old bytes nor its new ones"


Line = Callable[[random.Random, "tuple[int, int]", Shape], str]
# The lines of plans, by their numbers: docs/FORMATS.md. The faults of drives are on the tracks that are written.
LINES: tuple[Line, ...] = (
    lambda chance, track, shape: f"drop 0 {track[0]} {track[1]} {chance.randrange(shape.words)} {chance.randint(1, 4)}",
    lambda chance, track, shape: f"cut 0 {track[0]} {track[1]} {chance.randrange(shape.words)} {chance.randint(1, 4)}",
    lambda chance, track, shape: f"lose 0 {chance.randint(0, track[0])} {chance.randint(1, 3)}",
    lambda chance, track, shape: f"stick 0 {chance.randint(0, track[0] + 1)} {chance.randint(1, 3)}",
    lambda chance, track, shape: f"gap {chance.randint(1, 255)} {chance.randint(1, 50)}",
    lambda chance, track, shape: f"hold {chance.randint(1, 255)} {chance.randint(1, 3)}",
    lambda chance, track, shape: f"stray {chance.randint(1, 65535)} {chance.randint(1, 3)}")


def plan_of(chance: random.Random, tracks: list[tuple[int, int]], shape: Shape, count: int) -> str:
    """A plan with a number of lines, made by chance."""
    return "".join(f"{chance.choice(LINES)(chance, chance.choice(tracks), shape)}\n" for _ in range(count))
