"""A PC's driver for drive 0 of the bare controller. It does what the library's own driver (`Desk`) doesn't: it formats
tracks with any gap 3, and reads the bytes of damaged sectors."""
from __future__ import annotations

from collections.abc import Sequence
from types import TracebackType
from typing import NamedTuple

from .controllers import Controller
from .codes import Lines
from .media import Tray

DOR, MSR, FIFO, CCR = 0x3F2, 0x3F4, 0x3F5, 0x3F7
# A bare command ends after 65,536 steps at most, and a seek over all cylinders after fewer.
MOST_STEPS = 1_000_000
RECALIBRATE, SEEK, SENSE, SPECIFY, CONFIGURE, FORMAT, READ = 0x07, 0x0F, 0x08, 0x03, 0x13, 0x4D, 0x46
# The gap 3 that READ DATA is given, which plays no part.
GAP = 0x1B


class Status(NamedTuple):
    """The first three of a command's seven result bytes."""

    st0: int
    st1: int
    st2: int

    @property
    def is_done(self) -> bool:
        """Whether the command ended normally."""
        return self.st0 & 0xC0 == 0

    @property
    def is_crc_wrong(self) -> bool:
        """Whether the sector was found, and the CRC of its data was wrong."""
        return self.st2 & 0x20 != 0


class Bus:
    """The bare controller with the medium of a tray in drive 0, its motor on, and its DMA channel served."""

    def __init__(self, tray: Tray) -> None:
        shape = tray.shape()
        self._controller = Controller()
        self._controller.insert(0, tray)
        self._controller.write(DOR, 0x1C)
        self._controller.write(CCR, 0 if shape.kilobits == 500 else 2)
        self._run()
        for _ in range(4):
            self._command(SENSE)
            self._results(2)
        self._command(SPECIFY, 0xDF, 0x02)
        # The FIFO is on, with a threshold of 8, and polling is off.
        self._command(CONFIGURE, 0, 0x17, 0)
        # The drive gets up to speed.
        self._controller.run(8000)
        self._seeking(RECALIBRATE, 0)
        self._cylinder = 0

    def __enter__(self) -> Bus:
        return self

    def __exit__(self, kind: type[BaseException] | None, error: BaseException | None, trace: TracebackType | None) -> None:
        self._controller.close()

    def eject(self) -> Tray:
        """The medium, out of the drive."""
        return self._controller.eject(0)

    def format(self, cylinder: int, head: int, keys: Sequence[tuple[int, int, int, int]], gap: int, fill: int = 0xF6) -> bool:
        """Formats a track with sectors of the sector IDs (C, H, R, N), and says whether they had room."""
        self._seek(cylinder)
        self._command(FORMAT, head << 2, keys[0][3], len(keys), gap, fill)
        self._run(bytearray(value for key in keys for value in key))
        return self._status().is_done

    def read(self, cylinder: int, head: int, key: tuple[int, int, int, int]) -> tuple[bytes, Status]:
        """The bytes of a sector as they are on the track, also if their CRC is wrong, and how the command ended."""
        self._seek(cylinder)
        memory = bytearray(128 << key[3])
        self._command(READ, head << 2, *key, key[2], GAP, 0xFF)
        moved = self._run(memory)
        return bytes(memory[:moved]), self._status()

    def _seek(self, cylinder: int) -> None:
        if cylinder != self._cylinder:
            self._seeking(SEEK, 0, cylinder)
            self._cylinder = cylinder

    def _seeking(self, *command: int) -> None:
        self._command(*command)
        self._run()
        self._command(SENSE)
        self._results(2)

    def _command(self, *values: int) -> None:
        for value in values:
            self._controller.write(FIFO, value)

    def _results(self, count: int) -> bytes:
        return bytes(self._controller.read(FIFO) for _ in range(count))

    def _status(self) -> Status:
        st0, st1, st2, *_ = self._results(7)
        return Status(st0, st1, st2)

    def _run(self, memory: bytearray | None = None) -> int:
        """Runs up to the interrupt, and serves the DMA channel meanwhile. Returns how many bytes were moved."""
        controller, place, left = self._controller, 0, MOST_STEPS
        while Lines.INT not in controller.behind:
            if memory is not None and Lines.DRQ in controller.behind and place < len(memory):
                place = self._serve(memory, place)
                continue
            made = controller.run(left)
            left -= made
            if left <= 0:
                raise RuntimeError("the controller gave no interrupt")
        return place

    def _serve(self, memory: bytearray, place: int) -> int:
        """Moves bytes as long as the controller asks; the last one comes with TC."""
        controller = self._controller
        if Lines.TO_MEMORY in controller.behind:
            taken = controller.dack_block_read(len(memory) - place)
            memory[place:place + len(taken)] = taken
            place += len(taken)
        else:
            place += controller.dack_block_write(memory[place:])
        if place == len(memory):
            controller.tc()
        return place
