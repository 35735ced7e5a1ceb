"""The codes that the library's calls answer, as exceptions, and the numbers that it hands out, as enumerations."""
from __future__ import annotations

import enum


class Refused(Exception):
    """A call answered a code other than DONE."""


class Empty(Refused):
    """The object holds nothing, or holds nothing any more."""


class Full(Refused):
    """The object holds something already."""


class NoMemory(Refused):
    """There is no memory left."""


class OutOfRange(Refused):
    """A bay above 1, addresses beyond memory, or a sector that no drive has."""


class BadImage(Refused):
    """The bytes are not those of an image file."""


class HasMedium(Refused):
    """A medium is in the bay already: the new one stays in its tray."""


class NoMedium(Refused):
    """No medium is in the bay, or in the tray."""


class NotAsked(Refused):
    """DRQ is down, or bytes go in the other direction."""


class BadPlan(Refused):
    """A line of the plan isn't understood. `line` is its number, counted from 1; it is 0 if the text is too long."""

    line: int = 0


class TooShort(Refused):
    """The buffer is too short."""


class NotText(Refused):
    """A name, or an argument, isn't UTF-8."""


class NoFile(Refused):
    """No file has this name."""


class NotReady(Refused):
    """No medium is in the bay that is to be acknowledged."""


class Changed(Refused):
    """The bay wasn't acknowledged since its medium was put in."""


class Protected(Refused):
    """The medium is write-protected."""


class NoMark(Refused):
    """The track has no address mark, or the sector no data."""


class NotFound(Refused):
    """The track has no such sector."""


class BadCrc(Refused):
    """The sector's data is damaged."""


class Overrun(Refused):
    """A DMA request waited too long."""


class Seek(Refused):
    """The heads didn't find track 0."""


class Unfit(Refused):
    """The other file format can't hold the track `cylinder` and `head`; both are 255 if it can't hold the whole
    medium."""

    cylinder: int = 255
    head: int = 255


class BadState(Refused):
    """The bytes are not a saved state."""


# The exception of each code, by its number. The code 0 is DONE.
CODES: tuple[type[Refused], ...] = (
    Refused, Empty, Full, NoMemory, OutOfRange, BadImage, HasMedium, NoMedium, NotAsked, BadPlan, TooShort, NotText,
    NoFile, NotReady, Changed, Protected, NoMark, NotFound, BadCrc, Overrun, Seek, Unfit, BadState)


class Lines(enum.IntFlag):
    """The output lines of a controller, and whether bytes go to memory."""

    INT, DRQ, TO_MEMORY, INDEX = 1, 2, 4, 8


class Signs(enum.IntFlag):
    """What is to be seen of a drive."""

    MOTOR, SELECTED, GATE, MEDIUM = 1, 2, 4, 8


class Found(enum.IntEnum):
    """What a survey found after an address field."""

    OK, DELETED, NO_DATA, BAD_CRC, NO_SIZE = 0x00, 0x01, 0x02, 0x10, 0xFF
