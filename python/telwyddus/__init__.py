"""The diskette path of the PC/AT, proved, in Python: controller, machine, media, single sectors and image files.

`Disk` is for disk images:

    with Disk.open("games.rt") as disk:
        print(disk.geometry.words(), len(disk.verify().bad))
        boot = disk[0, 0, 1]

The others are the library for C (c/telwyddus.h) by ctypes, for emulators and test rigs:

    with Tray(image) as tray, Controller() as controller:
        controller.insert(0, tray)
        controller.write(0x3F2, 0x1C)

Each object frees what it holds at the end of its `with`. If a call answers another code than DONE, the exception of
that name is raised. docs/C.md says what each call does, and how the library is built; `binding` says where it is found.
The command `telwyddus` is in `telwyddus.command`. Only that needs more than Python's standard library.
"""
from .binding import Holder, LibraryAbsent, Slot, version
from .codes import (BadCrc, BadImage, BadPlan, BadState, Changed, Empty, Found, Full, HasMedium, Lines, NoFile, NoMark, NoMedium,
                    NoMemory, NotAsked, NotFound, NotReady, NotText, OutOfRange, Overrun, Protected, Refused, Seek, Signs, TooShort,
                    Unfit)
from .controllers import Controller, Drives, Planned, Saved, Tracks
from .disks import Disk, Field, Sector, State, Verification
from .geometry import Geometry
from .machines import Desk, Machine, Shelf
from .media import Shape, Tray
from .problems import Loss, Problem

__all__ = [
    "BadCrc", "BadImage", "BadPlan", "BadState", "Changed", "Controller", "Desk", "Disk", "Drives", "Empty", "Field", "Found", "Full",
    "Geometry", "HasMedium", "Holder", "LibraryAbsent", "Lines", "Loss", "Machine", "NoFile", "NoMark", "NoMedium", "NoMemory",
    "NotAsked", "NotFound", "NotReady", "NotText", "OutOfRange", "Overrun", "Planned", "Problem", "Protected", "Refused", "Saved",
    "Sector", "Seek", "Shape", "Shelf", "Signs", "Slot", "State", "TooShort", "Tracks", "Tray", "Unfit", "Verification", "version"]
