"""The shared library by ctypes: where it is found, how it is called, and what holds an object of it.

Nothing is loaded before the first call. TELWYDDUS_LIBRARY names the library. Without it the library is taken from
beside this package (as in a wheel), from the folder `lib` that this package is installed in (as by tools/install), or
from where the system has its libraries.

A slot of the library may be used by one thread at a time, so each object has a lock of its own. Calls that may last
release the interpreter's lock, and other threads go on meanwhile with other objects. Short calls keep it: releasing it
would cost more than the call.
"""
from __future__ import annotations

import ctypes
import functools
import os
import threading
from array import array
from pathlib import Path
from types import TracebackType
from typing import Any, ClassVar, TypeVar, Union

from .codes import CODES, TooShort

# What goes in as bytes: any of these, whatever the size of its items.
Data = Union[bytes, bytearray, memoryview, "array[Any]"]
Held = TypeVar("Held", bound="Holder")

NAME = "libtelwyddus.so"
# The first number of the versions that this package can call, and the name under which the system has them.
ABI = 2
SONAME = f"{NAME}.{ABI}"

# The calls that work on a whole medium, a whole state or a sector, or that may let many device steps pass.
LASTING = frozenset(
    [f"tray_{name}" for name in ("read", "write", "blank", "read_flat", "read_flat_as", "write_flat", "write_flat_as",
                                 "read_imd", "write_imd", "survey", "track", "set_track")]
    + [f"controller_{name}" for name in ("run", "image", "flat", "track", "save", "save_bare", "restore", "restore_bare")]
    + [f"machine_{name}" for name in ("new_planned", "wait", "wait_irq", "save", "restore", "memory_get", "memory_set")]
    + [f"shelf_{name}" for name in ("put", "get", "run", "report")]
    + [f"disk_{name}" for name in ("new", "acknowledge", "read", "write", "format")])


class LibraryAbsent(OSError):
    """The shared library isn't found, or it has another version than this package."""


def places() -> list[str]:
    """The paths that the library may have, in the order in which they are tried. A bare name is one that the system's
    loader looks for."""
    named = os.environ.get("TELWYDDUS_LIBRARY")
    if named:
        return [named]
    here = Path(__file__).resolve().parent
    # An installed package lies in lib/pythonX.Y/site-packages.
    folders = [here] + [folder for folder in here.parents[:3] if folder.name.startswith("lib")]
    beside = [folder / name for folder in folders for name in (SONAME, NAME)]
    return [str(path) for path in beside if path.is_file()] + [SONAME, NAME]


class Library:
    """The loaded library: once by a handle that keeps the interpreter's lock, and once by one that releases it."""

    def __init__(self, path: str) -> None:
        self.path = path
        self._brief, self._lasting = ctypes.PyDLL(path), ctypes.CDLL(path)

    @functools.cache
    def entry(self, name: str) -> Any:
        """The call `telwyddus_NAME`, which answers a number of 32 bits."""
        entry = getattr(self._lasting if name in LASTING else self._brief, f"telwyddus_{name}")
        entry.restype = ctypes.c_uint32
        return entry


@functools.cache
def library() -> Library:
    """The shared library, which is loaded by the first call of this."""
    refusal = ""
    for place in places():
        try:
            loaded = Library(place)
        except OSError as fault:
            refusal = refusal or str(fault)
            continue
        found = loaded.entry("version")()
        if found // 10000 != ABI:
            raise LibraryAbsent(f"{place} is version {found // 10000} of the library, and this package needs version {ABI}")
        return loaded
    raise LibraryAbsent(f"the shared library of telwyddus isn't found ({refusal}). Install it (tools/install, or Debian's libtelwyddus{ABI}), "
                        "or let TELWYDDUS_LIBRARY name it")


def version() -> int:
    """The library's version: 10,000 times the first number, 100 times the second, and the third."""
    return int(library().entry("version")())


def number(kind: Any, value: int) -> Any:
    """A number, if C can have it; ctypes itself would cut it."""
    if not 0 <= value < 256 ** ctypes.sizeof(kind):
        raise OverflowError(value)
    return kind(value)


@functools.lru_cache(256)
def byte(value: int) -> Any:
    """A number of 8 bits. It is made once, since each read of a sector takes five of them."""
    return number(ctypes.c_uint8, value)


def port(value: int) -> Any:
    """A number of 16 bits."""
    return number(ctypes.c_uint16, value)


def count(value: int) -> Any:
    """A number of 32 bits."""
    return number(ctypes.c_uint32, value)


def size(value: int) -> Any:
    """A length."""
    return number(ctypes.c_size_t, value)


def given(data: Data) -> tuple[bytes, Any]:
    """Bytes that go in: themselves, and how many they are. The items of an array or of a memoryview may be wider than
    a byte; all of their bytes go in."""
    whole = data if isinstance(data, bytes) else memoryview(data).tobytes()
    return whole, size(len(whole))


class Slot(ctypes.Structure):
    """A place of the library for one object. Only the library reads and writes its fields."""

    _fields_ = [("at", ctypes.c_void_p), ("tag", ctypes.c_uint32)]


class Holder:
    """An object of the library, in a slot of its own. It is freed at the end of a `with`, by `close`, or when Python
    drops it. Several threads may use it: their calls come one at a time."""

    kind: ClassVar[str] = ""

    def __init__(self) -> None:
        self._slot, self._lock = Slot(), threading.RLock()

    def __enter__(self: Held) -> Held:
        return self

    def __exit__(self, kind: type[BaseException] | None, error: BaseException | None, trace: TracebackType | None) -> None:
        self.close()

    def __del__(self) -> None:
        self.close()

    def close(self) -> None:
        """Frees the object. It is harmless to do it once more."""
        try:
            entry = library().entry(f"{self.kind}_free")
        except LibraryAbsent:
            return
        with self._lock:
            entry(ctypes.byref(self._slot))

    def _call(self, name: str, *values: Any) -> None:
        """Makes a call. A code other than DONE is raised as its exception."""
        with self._lock:
            code = library().entry(f"{self.kind}_{name}")(ctypes.byref(self._slot), *values)
        if code:
            kind = CODES[code]
            raise kind(f"{self.kind}_{name}: {kind.__doc__}")

    def _told(self, kind: Any, name: str, *values: Any) -> Any:
        """Gives what a call hands out through its last pointer."""
        return self._told_as(kind, name, *values).value

    def _told_as(self, kind: Any, name: str, *values: Any) -> Any:
        """Gives a structure that a call hands out through its last pointer."""
        told = kind()
        self._call(name, *values, ctypes.byref(told))
        return told

    def _items(self, kind: Any, name: str, *values: Any, behind: tuple[Any, ...] = (), room: int = 0) -> Any:
        """Gives an array of items, of a call that says how many there are. `behind` are its arguments after the
        length. If there are more than `room` items, the call is made once more."""
        length = ctypes.c_size_t()
        with self._lock:
            while True:
                out = (kind * (room + 1))()
                try:
                    self._call(name, *values, out, size(room), ctypes.byref(length), *behind)
                    return out[:length.value]
                except TooShort:
                    room = length.value

    def _bytes(self, name: str, *values: Any, behind: tuple[Any, ...] = (), room: int = 0) -> bytes:
        """Gives bytes, of a call that says how many there are."""
        return bytes(self._items(ctypes.c_char, name, *values, behind=behind, room=room))

    def _words(self, name: str, *values: Any) -> list[int]:
        """Gives words, of a call that says how many there are."""
        return list(self._items(ctypes.c_uint16, name, *values))
