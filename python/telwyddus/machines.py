"""The whole machine, and what runs on it: the program `floppy` over files in memory, and single sectors by a driver."""
from __future__ import annotations

import ctypes
from collections.abc import Iterable, Iterator

from .binding import Data, Holder, byte, count, given, library, port, size
from .codes import CODES, Refused
from .controllers import Drives, Planned


class Machine(Planned):
    """The whole machine: controller, channel 2, memory, and the latch of IRQ 6. It has the faults and delays of a plan,
    if one is given."""

    kind = "machine"

    def inb(self, at: int) -> int:
        """Reads a port, and then lets the device steps of the plan's next gap pass."""
        return int(self._told(ctypes.c_uint8, "inb", port(at)))

    def outb(self, at: int, value: int) -> None:
        """Writes a port, and then lets the device steps of the plan's next gap pass."""
        self._call("outb", port(at), byte(value))

    def wait(self, steps: int) -> None:
        """Makes device steps."""
        self._call("wait", count(steps))

    def take_irq(self) -> bool:
        """Takes the interrupt: clears the latch of IRQ 6, and says whether it was set."""
        return bool(self._told(ctypes.c_uint8, "take_irq"))

    def memory_set(self, address: int, data: Data) -> None:
        """Copies bytes to memory, from an address on."""
        self._call("memory_set", size(address), *given(data))

    def wait_irq(self, most: int) -> tuple[int, bool]:
        """How many device steps were made, and whether the latch is set."""
        made = ctypes.c_uint32()
        is_set = self._told(ctypes.c_uint8, "wait_irq", count(most), ctypes.byref(made))
        return made.value, bool(is_set)

    def memory_get(self, address: int, length: int) -> bytes:
        """The bytes of memory from an address on."""
        out = ctypes.create_string_buffer(length + 1)
        self._call("memory_get", size(address), out, size(length))
        return out.raw[:length]


class Shelf(Holder):
    """Files in memory, on which the program `floppy` runs."""

    kind = "shelf"

    def __init__(self) -> None:
        super().__init__()
        self._call("new")

    def put(self, name: str, data: Data) -> None:
        """Stores a file under a name, in place of a file that has this name."""
        self._call("put", *given(name.encode()), *given(data))

    def get(self, name: str) -> bytes:
        """The bytes of a file."""
        return self._bytes("get", *given(name.encode()))

    def run(self, *words: str) -> int:
        """Runs the program, and returns its exit status."""
        if any("\n" in word for word in words):
            raise ValueError("a line feed in a word")
        return int(self._told(ctypes.c_uint32, "run", *given("\n".join(words).encode())))

    def report(self) -> str:
        """What runs printed since the last report."""
        return self._bytes("report").decode()


class Desk(Drives):
    """Single sectors: a PC/AT with its driver, and two drives without faults. Insert a medium, acknowledge its bay, and
    then read, write and format."""

    kind = "disk"

    def __init__(self) -> None:
        super().__init__()
        self._call("new")

    def acknowledge(self, bay: int) -> None:
        """Acknowledges the medium in a bay, and finds its rate by the address fields of cylinder 0, head 0."""
        self._call("acknowledge", count(bay))

    def set_rate(self, bay: int, kilobits: int) -> None:
        """Sets the rate of an acknowledged bay, 500 or 250 kbit/s."""
        self._call("set_rate", count(bay), port(kilobits))

    def format(self, bay: int, c: int, h: int) -> None:
        """Formats a track in the standard layout of the bay's rate, and reads each sector back."""
        self._call("format", count(bay), byte(c), byte(h))

    def read(self, bay: int, c: int, h: int, r: int, n: int = 2) -> tuple[bytes, bool]:
        """The bytes of a sector, and whether it is marked deleted."""
        room, deleted = 128 << min(n, 6), ctypes.c_uint8()
        out = ctypes.create_string_buffer(room)
        self._call("read", count(bay), byte(c), byte(h), byte(r), byte(n), out, size(room), ctypes.byref(deleted))
        return out.raw, bool(deleted.value)

    def tried(self, bay: int, keys: Iterable[tuple[int, int, int]], n: int = 2) -> Iterator[type[Refused] | None]:
        """Reads sectors one after the other, and says of each why it can't be read; None if it can. The bytes are
        dropped, so this is faster than `read`."""
        entry, slot, room = library().entry("disk_read"), ctypes.byref(self._slot), 128 << min(n, 6)
        bay_number, n_byte, length = count(bay), byte(n), size(room)
        out, deleted = ctypes.create_string_buffer(room), ctypes.byref(ctypes.c_uint8())
        for c, h, r in keys:
            with self._lock:
                code = entry(slot, bay_number, byte(c), byte(h), byte(r), n_byte, out, length, deleted)
            yield CODES[code] if code else None

    def write(self, bay: int, c: int, h: int, r: int, data: Data, n: int = 2, deleted: bool = False) -> None:
        """Writes a sector, and reads it back."""
        self._call("write", count(bay), byte(c), byte(h), byte(r), byte(n), *given(data), byte(int(deleted)))
