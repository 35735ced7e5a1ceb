"""What has drives: the bare controller for a bus of your own, and the whole machine."""
from __future__ import annotations

import ctypes
from typing import Any

from .binding import Data, Holder, byte, count, given, port, size
from .codes import BadPlan, Lines, Signs
from .media import Place, Shape, Tray

TRACKS = 160


class Tracks(ctypes.Structure):
    """A bit for each track, by cylinder and then head. The lowest bit of the first byte stands for the first track."""

    _fields_ = [("bytes", ctypes.c_uint8 * (TRACKS // 8))]


class Drives(Holder):
    """What a controller, a machine and a disk have in common: two bays."""

    def insert(self, bay: int, tray: Tray) -> None:
        """Puts the medium of a tray into a bay, 0 or 1. The tray is empty afterwards."""
        with tray._lock:
            self._call("insert", count(bay), ctypes.byref(tray._slot))

    def eject(self, bay: int) -> Tray:
        """Takes the medium out of a bay, into a tray that this makes."""
        tray = Tray()
        self._call("eject", count(bay), ctypes.byref(tray._slot))
        return tray


class Saved(Drives):
    """What a controller and a machine have in common besides: their state as bytes, with the media in them."""

    def save(self) -> bytes:
        """Its whole state, as bytes of this version's own form."""
        return self._bytes("save")

    def restore(self, state: Data) -> None:
        """Makes this object what was saved. What it was before is gone; if the bytes are refused, it stays as it was."""
        self._call("restore", *given(state))


class Planned(Saved):
    """An object that can be made with the faults of a plan's text. If a line isn't understood, BadPlan has its number
    as `line`."""

    def __init__(self, plan: str | None = None) -> None:
        super().__init__()
        if plan is None:
            self._call("new")
        else:
            self._planning("new_planned", plan)

    def _planning(self, name: str, *values: Any) -> None:
        """A call whose last value is a plan's text."""
        *before, plan = values
        line = ctypes.c_size_t()
        try:
            self._call(name, *before, *given(plan.encode()), ctypes.byref(line))
        except BadPlan as refused:
            refused.line = line.value
            raise


class Controller(Planned):
    """The bare controller with two drives, for a bus of your own. Its drives have the faults of a plan, if one is
    given.

    `behind` has the lines as the last call gave them. Each call after which a line may differ gives them."""

    kind = "controller"
    behind: Lines = Lines(0)

    def save_bare(self) -> bytes:
        """Its state without the media."""
        return self._bytes("save_bare")

    def restore_bare(self, state: Data) -> None:
        """Makes this controller the one that was saved by save_bare, except for its own media and what was written of
        them. Unfit if the media have other tracks."""
        self._telling("restore_bare", *given(state))

    def restore(self, state: Data) -> None:
        """Makes this controller the one that was saved. What it was before is gone; if the bytes are refused, it stays
        as it was. Store each medium whole afterwards, whatever is_written says, since its file may be another one."""
        self._telling("restore", *given(state))

    def insert(self, bay: int, tray: Tray) -> None:
        """Puts the medium of a tray into a bay, 0 or 1. The tray is empty afterwards."""
        with tray._lock:
            self._telling("insert", count(bay), ctypes.byref(tray._slot))

    def eject(self, bay: int) -> Tray:
        """Takes the medium out of a bay, into a tray that this makes."""
        tray = Tray()
        self._telling("eject", count(bay), ctypes.byref(tray._slot))
        return tray

    def _telling(self, name: str, *values: Any) -> None:
        """A call that hands out the lines through its last pointer. It may set them even if it is refused."""
        with self._lock:
            lines = ctypes.c_uint8(self.behind)
            try:
                self._call(name, *values, ctypes.byref(lines))
            finally:
                self.behind = Lines(lines.value)

    def _telling_more(self, kind: Any, name: str, *values: Any) -> Any:
        """A call like `_telling` that also hands out another value through the pointer in front of the pointer of the
        lines."""
        told = kind()
        self._telling(name, *values, ctypes.byref(told))
        return told.value

    def strap_seeks(self, on: bool) -> None:
        """A strap of the board: commands that name a cylinder first seek it, whatever CONFIGURE sets."""
        self._call("strap_seeks", byte(bool(on)))

    def strap_steps(self, on: bool) -> None:
        """A strap of the board: the pulses of a seek come in the time that SPECIFY sets, so that it can be heard."""
        self._call("strap_steps", byte(bool(on)))

    def read(self, at: int) -> int:
        """The byte that a port, 3F0 to 3F7, gives."""
        return int(self._telling_more(ctypes.c_uint8, "read", port(at)))

    def write(self, at: int, value: int) -> None:
        """Writes a byte to a port."""
        self._telling("write", port(at), byte(value))

    def step(self) -> None:
        """Makes one device step, which is a word time."""
        self._telling("step")

    def run(self, most: int) -> int:
        """Makes device steps up to and with the one in which INT or DRQ changes, at most `most`. Returns how many it
        made."""
        return int(self._telling_more(ctypes.c_uint32, "run", count(most)))

    def lines(self) -> Lines:
        """Its lines: INT, DRQ, whether bytes go to memory, and INDEX of the selected drive."""
        return Lines(self._told(ctypes.c_uint8, "lines"))

    def dack_read(self) -> int:
        """The DMA channel takes a byte."""
        return int(self._telling_more(ctypes.c_uint8, "dack_read"))

    def dack_write(self, value: int) -> None:
        """The DMA channel gives a byte."""
        self._telling("dack_write", byte(value))

    def tc(self) -> None:
        """Terminal count: call it for the last byte, after its DACK."""
        self._telling("tc")

    def dack_block_read(self, room: int) -> bytes:
        """Takes bytes as long as the controller asks, and at most `room`."""
        out = ctypes.create_string_buffer(room + 1)
        moved = self._telling_more(ctypes.c_size_t, "dack_block_read", out, size(room))
        return out.raw[:moved]

    def dack_block_write(self, data: Data) -> int:
        """Gives the controller bytes as long as it asks, and returns how many these were."""
        return int(self._telling_more(ctypes.c_size_t, "dack_block_write", *given(data)))

    def quiet(self, most: int) -> int:
        """A number of device steps, at most `most`, that surely change neither INT nor DRQ."""
        return int(self._told(ctypes.c_uint32, "quiet", count(most)))

    def word_time(self) -> int:
        """Nanoseconds of a device step at the rate that was chosen last."""
        return int(self._told(ctypes.c_uint32, "word_time"))

    def image(self, bay: int) -> bytes:
        """The image file of a bay's medium, which stays in and goes on turning."""
        return self._bytes("image", count(bay))

    def is_written(self, bay: int) -> bool:
        """Whether a bay's medium was written since it was put in, or since that was last forgotten."""
        return bool(self._told(ctypes.c_uint8, "is_written", count(bay)))

    def written(self, bay: int) -> bool:
        """What is_written says; afterwards that is forgotten. So ask is_written, store the image, and then call this."""
        return bool(self._told(ctypes.c_uint8, "written", count(bay)))

    def selected(self) -> int:
        """The drive that is selected, 0 to 3; drives 2 and 3 are absent."""
        return int(self._told(ctypes.c_uint8, "selected"))

    def bay(self, bay: int) -> tuple[int, Signs]:
        """The cylinder under the bay's heads, and its signs."""
        cylinder = ctypes.c_uint8()
        signs = self._told(ctypes.c_uint8, "bay", count(bay), ctypes.byref(cylinder))
        return cylinder.value, Signs(signs)

    # Drives and their media, while they turn.

    def reset(self) -> None:
        """The reset pin: registers are as at power-up, and the controller is held in reset until DOR lets it out."""
        self._telling("reset")

    def attach(self, bay: int, on: bool = True) -> None:
        """Puts the cable of a bay's drive in, or pulls it."""
        self._call("attach", count(bay), byte(bool(on)))

    def protect(self, bay: int, on: bool = True) -> None:
        """Moves the write-protect tab of a bay's medium, which stays in."""
        self._call("protect", count(bay), byte(bool(on)))

    def shape(self, bay: int) -> Shape:
        """All that a bay's medium is, except its cells."""
        shape: Shape = self._told_as(Shape, "shape", count(bay))
        return shape

    def track(self, bay: int, cylinder: int, head: int) -> list[int]:
        """The words of a track of a bay's medium."""
        return self._words("track", count(bay), byte(cylinder), byte(head))

    def flat(self, bay: int) -> bytes:
        """The flat sector file of a bay's medium."""
        place = Place()
        return place.told(lambda: self._bytes("flat", count(bay), behind=place.pointers))

    def written_tracks(self, bay: int) -> list[tuple[int, int]]:
        """The (cylinder, head) of each track that was written since the last call of this."""
        told = self._told_as(Tracks, "written_tracks", count(bay))
        return [divmod(track, 2) for track in range(TRACKS) if told.bytes[track // 8] >> track % 8 & 1]

    def plan(self, bay: int, plan: str) -> None:
        """Plans the faults of a bay's drive from now on."""
        self._planning("plan", count(bay), plan)
