"""What a command does in time: the lines of the bare controller, device step by device step, over a seek and a READ DATA
or a WRITE DATA.

The controller gets a formatted diskette. Its heads are sent to cylinder 3. Shortly before the index comes, it gets the
command for the first sector there. Each line is traced from the first byte of the seek to the last result.

    controller  IOR, IOW, DATA  port accesses, and the byte that is moved by a port access or by DACK
                INT, DRQ        its lines
                DACK, TC        the DMA channel, which is served here at once
                MSR             the main status register, as 3F4 gives it
                FIFO            how many bytes are in it; the threshold is 8
    drive       INDEX           the last word of the track passes
                CYLINDER        where the heads are
                GATE            the drive writes
                BYTE            the data bits of the word that passes under head 0

Time is that of the model: one device step is 16 microseconds, and its effects show at its end. Accesses take no time in
the model. To make them visible, each one is drawn 400 ns long, from the end of a step on, and high for half of that.
The program lets a step pass after each access of a port, and two before it takes an interrupt. The FIFO, the index and
the byte are read from the saved state, so this works only with the library of the same version.
"""
from __future__ import annotations

from .cells import byte_of
from .codes import Lines, Signs
from .controllers import Controller
from .disks import Disk
from .geometry import Geometry
from .media import Tray

KEY = C, H, R, N = 3, 0, 1, 2
# No byte is 00, so that the bytes in the FIFO can be distinguished from their number.
CONTENT, OTHER = bytes(1 + i % 255 for i in range(512)), bytes(255 - i % 255 for i in range(512))
READ, WRITE = 0x46, 0x45
# How many words before the index the seek begins.
AHEAD = 80
ACCESS, STROBE = 400, 200
# How many steps pass before the program takes an interrupt.
REACTION = 2
# The signals in their order: name, number of bits, and the part that they belong to.
SIGNALS = [("IOW", 1, "controller"), ("IOR", 1, "controller"), ("DATA", 8, "controller"), ("INT", 1, "controller"), ("DRQ", 1, "controller"),
           ("DACK", 1, "controller"), ("TC", 1, "controller"), ("MSR", 8, "controller"), ("FIFO", 5, "controller"), ("INDEX", 1, "drive"),
           ("CYLINDER", 8, "drive"), ("GATE", 1, "drive"), ("BYTE", 8, "drive")]
BITS = {name: bits for name, bits, _ in SIGNALS}
# What an image file begins with, and how long its header is, in a saved state.
MAGIC, HEADER = b"RTIMAGE2", 14
# How many bytes stand between the FIFO and the image file there: among them are a number of eight bytes and the length
# of the image file.
AFTER_FIFO = 18


class Unexpected(Exception):
    """The controller didn't do what it should have done."""


def must(is_so: bool, what: str) -> None:
    """Checks what the controller did."""
    if not is_so:
        raise Unexpected(f"not as it should be: {what}")


class Look:
    """What a saved state shows of the FIFO and of drive 0, in which the medium of an image is."""

    def __init__(self, state: bytes) -> None:
        image = state.index(MAGIC)
        length = int.from_bytes(state[image - 8:image], "little")
        behind = state[image + length:]
        self.image = state[image:image + length]
        self.heads, self.words = self.image[10], int.from_bytes(self.image[12:HEADER], "big")
        self.cylinder, self.place = behind[0], int.from_bytes(behind[1:3], "little")
        self.fifo = self.bytes_before(state[:image - AFTER_FIFO])

    @staticmethod
    def bytes_before(state: bytes) -> int:
        """The number of bytes at an end; the number stands before the bytes."""
        for count in range(17):
            if state[len(state) - count - 8:len(state) - count] == count.to_bytes(8, "little"):
                return count
        raise Unexpected("a saved state of another form")

    def word(self, place: int) -> int:
        """The word at a place on the track under head 0."""
        at = HEADER + 2 * (self.words * self.heads * self.cylinder + place)
        return self.image[at] << 8 | self.image[at + 1]


class Trace:
    """The values of each signal, each with the nanosecond from which on it holds, and the words that passed."""

    def __init__(self) -> None:
        self.changes: dict[str, list[tuple[int, int | None]]] = {name: [] for name, _, _ in SIGNALS}
        self.passed: list[tuple[int, int]] = []
        self.end = 0

    def put(self, name: str, time: int, value: int | None) -> None:
        """Records the value of a signal from a time on."""
        changes = self.changes[name]
        if not changes or changes[-1][1] != value:
            changes.append((time, value))

    def pulse(self, name: str, time: int) -> None:
        """Records a short pulse of a signal."""
        self.put(name, time, 1)
        self.put(name, time + STROBE, 0)

    def first(self, name: str, value: int, begin: int = 0) -> int:
        """The first time, from a given time on, at which a signal has a value."""
        return next(time for time, it in self.changes[name] if it == value and time >= begin)

    def count(self) -> int:
        """How many changes there are."""
        return sum(map(len, self.changes.values()))


class Bench:
    """A controller whose lines are traced. The program lets a step pass after each port access, and serves DACK at
    once."""

    def __init__(self, controller: Controller) -> None:
        self.controller, self.trace, self.time, self.busy = controller, Trace(), 0, 0
        self.memory, self.moved = bytearray(), 0
        for name in ("IOW", "IOR", "DACK", "TC"):
            self.trace.put(name, 0, 0)
        self.trace.put("DATA", 0, None)
        self.sample(0)

    def is_up(self, line: Lines) -> bool:
        """Whether a line is up now."""
        return line in self.controller.lines()

    def sample(self, time: int) -> None:
        """Records the lines as they are now, as the values from this time on."""
        self.look = Look(self.controller.save())
        cylinder, signs = self.controller.bay(0)
        self.trace.put("INT", time, int(self.is_up(Lines.INT)))
        self.trace.put("DRQ", time, int(self.is_up(Lines.DRQ)))
        self.trace.put("MSR", time, self.controller.read(0x3F4))
        self.trace.put("FIFO", time, self.look.fifo)
        self.trace.put("CYLINDER", time, cylinder)
        self.trace.put("GATE", time, int(Signs.GATE in signs))

    def access(self, strobe: str, value: int) -> int:
        """Draws an access, after those of the same step, and its effects."""
        time, self.busy = self.time + self.busy * ACCESS, self.busy + 1
        self.trace.pulse(strobe, time)
        self.trace.put("DATA", time, value)
        self.trace.put("DATA", time + STROBE, None)
        self.sample(time + STROBE)
        return time

    def step(self) -> None:
        """Makes a device step, and records it."""
        place, words = self.look.place, self.look.words
        self.controller.step()
        begin, self.time, self.busy = self.time, self.time + self.controller.word_time(), 0
        self.sample(self.time)
        word = self.look.word(place)
        self.trace.put("BYTE", begin, byte_of(word))
        self.trace.put("INDEX", begin, int(place + 1 == words))
        self.trace.passed.append((begin, word))
        self.serve()
        self.trace.end = self.time

    def serve(self) -> None:
        """The DMA channel: it moves bytes between memory and the controller while DRQ is up, and gives TC with the
        last."""
        while self.moved < len(self.memory) and self.is_up(Lines.DRQ):
            if self.is_up(Lines.TO_MEMORY):
                self.memory[self.moved] = self.controller.dack_read()
            else:
                self.controller.dack_write(self.memory[self.moved])
            self.moved += 1
            is_last = self.moved == len(self.memory)
            if is_last:
                self.controller.tc()
            time = self.access("DACK", self.memory[self.moved - 1])
            if is_last:
                self.trace.pulse("TC", time)

    def write(self, value: int) -> None:
        """Writes a byte of a command."""
        self.controller.write(0x3F5, value)
        self.access("IOW", value)
        self.serve()
        self.step()

    def read(self) -> int:
        """Reads a result byte."""
        value = self.controller.read(0x3F5)
        self.access("IOR", value)
        self.step()
        return value

    def wait(self) -> None:
        """Makes device steps until the interrupt comes, and then those before it is taken."""
        for _ in range(40000):
            if self.is_up(Lines.INT):
                break
            self.step()
        must(self.is_up(Lines.INT), "no interrupt came")
        for _ in range(REACTION):
            self.step()

    def command(self, *values: int, results: int = 0) -> bytes:
        """Writes a command, and reads its results."""
        for value in values:
            self.write(value)
        return bytes(self.read() for _ in range(results))


def set_up(controller: Controller) -> None:
    """Takes the controller out of reset, with the motor on and at speed, 500 kbit/s, and the FIFO on; this isn't
    traced."""
    controller.write(0x3F2, 0x1C)
    controller.write(0x3F7, 0)
    for _ in range(8000):
        controller.step()
    for drive in range(4):
        controller.write(0x3F5, 0x08)
        results = controller.read(0x3F5), controller.read(0x3F5)
        must(results == (0xC0 | drive, 0), f"what is sensed after the reset: {results}")
    for value in (0x03, 0xDF, 0x02, 0x13, 0x00, 0x07, 0x00):
        controller.write(0x3F5, value)


def approach(controller: Controller, steps: int) -> None:
    """Lets the disk turn until `steps` words are left before the index; this isn't traced."""
    look = Look(controller.save())
    for _ in range((look.words - steps - look.place) % look.words):
        controller.step()


def perform(bench: Bench, is_write: bool) -> None:
    """A seek, and then the command."""
    bench.command(0x0F, H << 2, C)
    bench.wait()
    sensed = bench.command(0x08, results=2)
    must(sensed == bytes([0x20, C]), f"the seek: {sensed.hex(' ')}")
    bench.memory = bytearray(OTHER if is_write else 512)
    bench.command(WRITE if is_write else READ, H << 2, C, H, R, N, R, 0x1B, 0xFF)
    bench.wait()
    results = bench.command(results=7)
    must(results[:3] == bytes([H << 2, 0, 0]), f"the command: {results.hex(' ')}")


def traced(is_write: bool) -> Trace:
    """The trace of the commands, after a check that they did what they should."""
    with Disk.new(Geometry(C + 1, 2, 18)) as disk, Controller() as controller:
        disk[C, H, R] = CONTENT
        with disk.eject(0) as tray:
            controller.insert(0, tray)
        set_up(controller)
        approach(controller, AHEAD)
        bench = Bench(controller)
        perform(bench, is_write)
        with Disk.of(Tray(controller.image(0))) as after:
            must(after[C, H, R] == (OTHER if is_write else CONTENT), "the disk")
        must(bool(is_write) or bench.memory == CONTENT, "what was read of it")
        return bench.trace


def title(is_write: bool) -> str:
    """What is traced, in a line."""
    return f"SEEK {C}, {'WRITE' if is_write else 'READ'} DATA {C} {H} {R} {N}"
