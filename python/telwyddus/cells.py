"""The cells of a track: where the fields of a survey end, where nothing is recorded, and marks that belong to no field.

What a field is, and whether its CRC is right, is the library's to say (`Tray.survey`). This finds only how far a field
reaches, for pictures and for lists of what a file format loses.
"""
from __future__ import annotations

import re
from array import array
from collections.abc import Iterator, Sequence
from typing import NamedTuple

from .codes import Found

# A1 with a clock cell left out, and three of them, as cells.
MARK = 0x4489
RUN = f"{MARK:016b}" * 3
# The cells of an address field from its first A1 on, and the cells after it in which its data field has to begin.
ADDRESS_CELLS, REACH = 160, 960
ADDRESS, DATA, DELETED_DATA = 0xFE, 0xFB, 0xF8
# The words of a track that nothing was recorded on, if there are eight or more of them in a row.
BARE = re.compile("0{128,}")


class Extent(NamedTuple):
    """An address field and its data. `start` is the first cell of the three A1, `data` the first cell of the data
    field, if there is one, and `end` the cell after all of it."""

    start: int
    data: int | None
    end: int
    key: tuple[int, int, int, int]
    found: Found


def cells_of(words: Sequence[int]) -> str:
    """The cells of words, as a text of 0 and 1."""
    packed = array("H", words)
    packed.byteswap()
    return f"{int.from_bytes(packed.tobytes(), 'big'):0{16 * len(words)}b}" if words else ""


def byte_of(word: int) -> int:
    """The data bits of a word: every second cell."""
    return sum((word >> 2 * bit & 1) << bit for bit in range(8))


def byte_at(cells: str, place: int) -> int:
    """The byte whose cells begin at a place."""
    return int(cells[place + 1:place + 16:2], 2)


def data_after(cells: str, address_end: int) -> int | None:
    """The first cell of the data field after an address field, if there is one."""
    place = cells.find(RUN, address_end, address_end + REACH + len(RUN) - 1)
    while place >= 0 and place + 64 <= len(cells):
        if byte_at(cells, place + 48) in (DATA, DELETED_DATA):
            return place
        place = cells.find(RUN, place + 1, address_end + REACH + len(RUN) - 1)
    return None


def extents_of(cells: str, lines: Sequence[tuple[int, tuple[int, int, int, int], Found]]) -> list[Extent]:
    """How far the fields of a track reach. A field without data has as many cells as a format would give it, but ends
    at the next field."""
    found = []
    for (start, key, look), after in zip(lines, [*(start for start, _, _ in lines[1:]), len(cells)]):
        address_end = start + ADDRESS_CELLS
        size = 128 << min(key[3], 7)
        data = data_after(cells, address_end) if look in (Found.OK, Found.DELETED, Found.BAD_CRC) else None
        end = address_end + 16 * (67 + size) if data is None else data + 64 + 16 * size + 32
        found.append(Extent(start, data, min(end, len(cells) if data else after), key, look))
    return found


def bare_stretches(cells: str) -> Iterator[tuple[int, int]]:
    """The places where eight or more words 0000 come one after the other: nothing is recorded there."""
    for found in BARE.finditer(cells):
        begin, end = -(-found.start() // 16) * 16, found.end() // 16 * 16
        if end - begin >= 128:
            yield begin, end


def lost_runs(cells: str, extents: Sequence[Extent]) -> Iterator[int]:
    """Each run of three A1 that begins neither a listed address field nor its data."""
    known = {extent.start for extent in extents} | {extent.data for extent in extents}
    place = cells.find(RUN)
    while place >= 0:
        if place not in known:
            yield place
        place = cells.find(RUN, place + 1)


def lost_addresses(cells: str, extents: Sequence[Extent]) -> int:
    """How many address marks begin no listed field: the CRC of such an address field is wrong."""
    return sum(place + 64 <= len(cells) and byte_at(cells, place + 48) == ADDRESS for place in lost_runs(cells, extents))
