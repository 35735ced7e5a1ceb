// What the cells of a track say, by docs/FORMATS.md: MFM, marks, address and data fields, and their CRCs. Nothing here
// asks the library. The page shows with it what the library's survey judges.

/** A1 and C2, each with one clock cell left out. */
export const MARK = 0x4489, INDEX_MARK = 0x5224;
/** The cells of an address field: three A1, FE, C, H, R, N and the CRC. */
export const ADDRESS_CELLS = 160;
/** How many cells after its address field the data of a sector may begin, as bin/picture has it too. */
const REACH = 960;
const SYNC = 12 * 16;   // the bytes 00 in front of a field

/** The CRC with polynomial x^16 + x^12 + x^5 + 1 and preset FFFF. */
export function crc(bytes) {
    let value = 0xFFFF;
    for (const byte of bytes) {
        value ^= byte << 8;
        for (let bit = 0; bit < 8; bit++) value = (value & 0x8000 ? value << 1 ^ 0x1021 : value << 1) & 0xFFFF;
    }
    return value;
}

/** The words of one track. Cells count from the index, and the first follows the last one again. */
export class Track {
    constructor(words) {
        this.words = words;
        this.cells = words.length * 16;
    }

    cell(at) {
        at = (at % this.cells + this.cells) % this.cells;
        return this.words[at >> 4] >> (15 - (at & 15)) & 1;
    }

    /** 16 cells from any cell on. */
    word(at) {
        at = (at % this.cells + this.cells) % this.cells;
        const here = this.words[at >> 4], next = this.words[((at >> 4) + 1) % this.words.length], shift = at & 15;
        return (here << shift | next >> 16 - shift) & 0xFFFF;
    }

    /** The data bits of 16 cells. */
    byte(at) { return dataOf(this.word(at)); }
    bytes(at, count) { return Uint8Array.from({ length: count }, (_, i) => this.byte(at + 16 * i)); }
    isMark(at) { return this.word(at) === MARK && this.word(at + 16) === MARK && this.word(at + 32) === MARK; }

    /** The first cell of the data field after an address field; -1 if there is none. */
    dataAfter(field) {
        const from = field + ADDRESS_CELLS, end = Math.min(from + REACH, this.cells - 64);
        for (let at = from; at <= end; at++) if (this.isMark(at) && [0xFB, 0xF8].includes(this.byte(at + 48))) return at;
        return -1;
    }
}

export function dataOf(word) {
    let byte = 0;
    for (let bit = 14; bit >= 0; bit -= 2) byte = byte << 1 | word >> bit & 1;
    return byte;
}

/** The 16 cells that record a byte after the data bit `last`. */
export function recorded(byte, last) {
    let word = 0;
    for (let bit = 7; bit >= 0; bit--) {
        const is = byte >> bit & 1;
        word = word << 2 | (last || is ? 0 : 2) | is;
        last = is;
    }
    return word;
}

/**
 * The clock cells of a word that aren't as a byte is recorded: `lost` are those that are 0 where the rule has 1, and
 * `extra` those that are 1 where it has 0. Each is a number of a cell, from 0 to 15.
 */
export function oddClocks(track, at) {
    const word = track.word(at), wanted = recorded(dataOf(word), track.cell(at - 1)), lost = [], extra = [];
    for (let cell = 0; cell < 16; cell += 2) {
        const bit = 15 - cell, is = word >> bit & 1;
        if (is !== (wanted >> bit & 1)) (is ? extra : lost).push(cell);
    }
    return { lost, extra };
}

/** What an address field says: C, H, R, N, and the CRC that is recorded and the one that is right. */
export function addressOf(track, at) {
    const bytes = track.bytes(at, 10);
    return { at, key: bytes.slice(4, 8), crc: bytes[8] << 8 | bytes[9], wanted: crc(bytes.subarray(0, 8)) };
}

/** What a sector's data field says; null if there is none, or its size code is none. */
export function dataFieldOf(track, field, n) {
    const at = n <= 6 ? track.dataAfter(field) : -1;
    if (at < 0) return null;
    const size = 128 << n, bytes = track.bytes(at, 4 + size + 2), end = 4 + size;
    return {
        at, size, mark: bytes[3], content: bytes.slice(4, end), end: at + 16 * (end + 2),
        crc: bytes[end] << 8 | bytes[end + 1], wanted: crc(bytes.subarray(0, end)),
    };
}

/** The parts of a sector in their order, each a stretch of whole bytes: its kind, first cell, and number of bytes. */
export function partsOf(track, field, n) {
    const parts = [["sync", field - SYNC, 12], ["mark", field, 3], ["address mark", field + 48, 1], ["sector ID", field + 64, 4], ["CRC", field + 128, 2]];
    const data = dataFieldOf(track, field, n), after = field + ADDRESS_CELLS;
    if (data === null) return [...parts, ["gap", after, Math.min(60, track.cells - after >> 4)]].map(named);
    const gap = Math.max(0, data.at - SYNC - after >> 4), sync = data.at - 16 * 12;
    if (gap > 0) parts.push(["gap", sync - 16 * gap, gap]);
    parts.push(["sync", sync, 12], ["mark", data.at, 3], ["data mark", data.at + 48, 1], ["data", data.at + 64, data.size], ["CRC", data.end - 32, 2], ["gap", data.end, 8]);
    return parts.map(named);
}

const named = ([kind, at, count]) => ({ kind, at, count });

/** The cell after all of a sector, for a drawing. A field without data has as many cells as a format would give it. */
export function endOf(field, n, next) { return Math.min(field + ADDRESS_CELLS + 16 * ((n <= 6 ? 128 << n : 0) + 22 + 12 + 4 + 2), next); }
