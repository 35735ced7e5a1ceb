"""A 1.44 MB medium as qemu/faults judges it: the tracks of an image file, read by bios/track.c and without any part of
the library."""
import array
import ctypes
import os
import subprocess
import sys

TOP = os.path.dirname(os.path.dirname(os.path.abspath(__file__)))
sys.path.append(os.path.join(TOP, "tools"))
from disks import SECTORS, WORDS, Shape  # noqa: E402

WINDOW, TRACKS = 530, 160
SHAPE = Shape(0, 80, 2, 0, WORDS)


class Field(ctypes.Structure):
    _fields_ = [("key", ctypes.c_uint8 * 4), ("window", ctypes.c_uint16), ("is_whole", ctypes.c_bool), ("bytes", ctypes.c_uint8 * 512)]


class Fields(ctypes.Structure):
    _fields_ = [("count", ctypes.c_int), ("fields", Field * 40)]


def swapped(words):
    """Converts words between the byte order of an image file, which has the high byte first, and that of this computer."""
    values = array.array("H", words)
    if sys.byteorder == "little":
        values.byteswap()
    return values.tobytes()


class Tracks:
    """The functions of track.c, compiled into a folder. Words have the byte order of an image file."""

    def __init__(self, work):
        made = os.path.join(work, f"track.{os.getpid()}.so")
        subprocess.run(["gcc", "-std=c11", "-O2", "-fPIC", "-shared", "-o", made, os.path.join(TOP, "bios", "track.c")], check=True)
        self.calls = ctypes.CDLL(made)

    def formatted(self, c, h, first=0):
        words = (ctypes.c_uint16 * WORDS)()
        self.calls.track_format(words, c, h, first)
        return swapped(bytes(words))

    def window(self, content):
        words = (ctypes.c_uint16 * WINDOW)()
        self.calls.track_window(words, (ctypes.c_uint8 * 512)(*content))
        return swapped(bytes(words))

    def sectors(self, track):
        """The sectors by ID; after a format that was cut, an ID may have two. For each: where its window begins, and
        its bytes, or None if it isn't whole."""
        found, by_key = Fields(), {}
        self.calls.track_fields(ctypes.byref(found), (ctypes.c_uint16 * WORDS).from_buffer_copy(swapped(track)))
        for field in found.fields[:found.count]:
            by_key.setdefault(bytes(field.key), []).append((field.window, bytes(field.bytes) if field.is_whole else None))
        return by_key


def read(name):
    """The tracks of an image file."""
    with open(name, "rb") as file:
        image = file.read()
    if len(image) != SHAPE.length() or not image.startswith(SHAPE.header()):
        raise ValueError(f"{name} is no image of 1.44 MB")
    return [image[SHAPE.place(t // 2, t % 2):][:2 * WORDS] for t in range(TRACKS)]


def write(name, tracks):
    with open(name, "wb") as file:
        file.write(SHAPE.header())
        file.writelines(tracks)
