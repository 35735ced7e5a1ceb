"""A driver on the whole machine, which tries again: what a campaign of planned faults runs."""
from __future__ import annotations

from collections.abc import Callable

from .geometry import Key
from .machines import Machine
from .media import Shape

DOR, MSR, FIFO, CCR = 0x3F2, 0x3F4, 0x3F5, 0x3F7
SPECIFY, SENSE, RECALIBRATE, SEEK, WRITE, READ = 0x03, 0x08, 0x07, 0x0F, 0x45, 0x46
# The 8237A: its mask, flip-flop and mode, and address, page and count of channel 2. The buffer lies at 20000.
MASK, FLIP_FLOP, MODE, ADDRESS, PAGE, COUNT = 0x0A, 0x0C, 0x0B, 0x04, 0x81, 0x05
FROM_DISK, TO_DISK = 0x46, 0x4A
BUFFER = 0x20000
# The gap 3 of reads and writes, which plays no part.
GAP = 0x1B
# The drive gets up to speed in fewer device steps; a command ends, or is given up, after at most so many.
SPIN_UP, MOST = 8000, 200_000
# How often an interrupt may come to nothing before a command is given up.
MOST_SPURIOUS = 100


class NoAnswer(Exception):
    """The controller doesn't end a command, or doesn't take one."""


class Rig:
    """The driver of drive 0 of a machine with a medium in it."""

    def __init__(self, machine: Machine, shape: Shape) -> None:
        self._machine, self._rate = machine, 0 if shape.kilobits == 500 else 2
        self._is_reset = False
        machine.outb(DOR, 0x1C)
        machine.wait(SPIN_UP)

    def write(self, key: Key, data: bytes, n: int, attempts: int, is_checked: bool = True) -> int:
        """Writes a sector, and reads it back if `is_checked`. Returns how many attempts that took; 0 if none did it."""
        for attempt in range(1, attempts + 1):
            try:
                if not self._is_reset:
                    self._reset()
                if self._is_written(key, data, n) and (not is_checked or self._read(key, n) == data):
                    return attempt
            except NoAnswer:
                self._is_reset = False
        return 0

    def _is_written(self, key: Key, data: bytes, n: int) -> bool:
        self._go_to(key[0])
        self._machine.memory_set(BUFFER, data)
        return self._transfer(WRITE, TO_DISK, key, n)

    def _read(self, key: Key, n: int) -> bytes | None:
        self._go_to(key[0])
        self._machine.memory_set(BUFFER, bytes(128 << n))
        return self._machine.memory_get(BUFFER, 128 << n) if self._transfer(READ, FROM_DISK, key, n) else None

    def _transfer(self, command: int, mode: int, key: Key, n: int) -> bool:
        """Reads or writes a sector by DMA, and says whether the command ended normally."""
        cylinder, head, sector = key
        last = (128 << n) - 1
        for port, value in ((MASK, 6), (FLIP_FLOP, 0), (MODE, mode), (ADDRESS, 0), (ADDRESS, 0), (PAGE, BUFFER >> 16),
                            (COUNT, last & 0xFF), (COUNT, last >> 8), (MASK, 2)):
            self._machine.outb(port, value)
        self._command(command, head << 2, cylinder, head, sector, n, sector, GAP, 0xFF)
        # The result phase has begun when RQM, DIO and CB are set.
        self._until(lambda: self._machine.inb(MSR) & 0xD0 == 0xD0)
        return self._results(7)[0] & 0xC0 == 0

    def _go_to(self, cylinder: int) -> None:
        """Moves the heads to a cylinder, by way of track 0."""
        for command in ((RECALIBRATE, 0), (SEEK, 0, cylinder)):
            self._command(*command)
            self._until(self._sensed)

    def _reset(self) -> None:
        """Resets the controller, and takes the interrupts of its four drives that this makes."""
        self._machine.outb(DOR, 0x10)
        self._machine.outb(DOR, 0x1C)
        self._machine.outb(CCR, self._rate)
        self._until(self._sensed)
        for _ in range(3):
            self._sensed()
        self._command(SPECIFY, 0xDF, 0x02)
        self._is_reset = True

    def _sensed(self) -> bool:
        """Asks why an interrupt came, and says whether the controller had one."""
        self._command(SENSE)
        if self._results(1)[0] & 0xC0 == 0x80:
            return False
        self._results(1)
        return True

    def _until(self, is_so: Callable[[], bool]) -> None:
        """Waits for interrupts until one has brought what is asked for. A spurious interrupt brings nothing. It may also
        have taken the place of the awaited one, so the question is asked once more if no interrupt comes."""
        for _ in range(MOST_SPURIOUS):
            has_come = self._machine.wait_irq(MOST)[1]
            self._machine.take_irq()
            if is_so():
                return
            if not has_come:
                break
        raise NoAnswer

    def _command(self, *values: int) -> None:
        for value in values:
            self._ready(0x80)
            self._machine.outb(FIFO, value)

    def _results(self, count: int) -> bytes:
        found = bytearray()
        for _ in range(count):
            self._ready(0xC0)
            found.append(self._machine.inb(FIFO))
        return bytes(found)

    def _ready(self, wanted: int) -> None:
        """Waits until the FIFO can be written (80) or read (C0)."""
        for _ in range(1000):
            if self._machine.inb(MSR) & 0xC0 == wanted:
                return
            self._machine.wait(8)
        raise NoAnswer
