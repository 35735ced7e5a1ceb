import assert from "node:assert/strict";
import { test } from "node:test";
import { addressOf, crc, dataFieldOf, dataOf, endOf, MARK, oddClocks, partsOf, recorded, Track } from "../src/cells.js";

/** A track of one sector, word by word from docs/FORMATS.md, moved by some cells. */
function trackOf(content, { moved = 0, mark = 0xFB, key = [3, 1, 7, 2] } = {}) {
    const words = [];
    let last = 0;
    const plain = (bytes) => { for (const byte of bytes) { words.push(recorded(byte, last)); last = byte & 1; } };
    const field = (bytes) => {
        plain(new Uint8Array(12));
        words.push(MARK, MARK, MARK);
        last = 1;
        const sum = crc([0xA1, 0xA1, 0xA1, ...bytes]);
        plain([...bytes, sum >> 8, sum & 255]);
    };
    plain(new Uint8Array(32).fill(0x4E));
    field([0xFE, ...key]);
    plain(new Uint8Array(22).fill(0x4E));
    field([mark, ...content]);
    plain(new Uint8Array(60).fill(0x4E));
    if (moved === 0) return { track: new Track(Uint16Array.from(words)), at: 16 * 44 };
    const cells = words.map((word) => word.toString(2).padStart(16, "0")).join(""), turned = cells.slice(-moved) + cells.slice(0, -moved);
    return { track: new Track(Uint16Array.from(words, (_, i) => parseInt(turned.slice(16 * i, 16 * i + 16), 2))), at: 16 * 44 + moved };
}

const CONTENT = Uint8Array.from({ length: 512 }, (_, i) => i * 7 & 255);

test("bytes are recorded as docs/FORMATS.md has them", () => {
    const zero = { 0x00: 0xAAAA, 0x4E: 0x9254, 0xFC: 0x5552, 0xF6: 0x5514 }, one = { 0x00: 0x2AAA, 0x4E: 0x1254, 0xFE: 0x5554, 0xFB: 0x5545, 0xF8: 0x554A, 0xF6: 0x5514 };
    for (const [byte, word] of Object.entries(zero)) assert.equal(recorded(Number(byte), 0), word);
    for (const [byte, word] of Object.entries(one)) assert.equal(recorded(Number(byte), 1), word);
    for (let byte = 0; byte < 256; byte++) assert.equal(dataOf(recorded(byte, byte & 1)), byte);
});

test("the CRC of three A1 and FE is the one that is known", () => {
    assert.equal(crc([0xA1, 0xA1, 0xA1]), 0xCDB4);
    assert.equal(crc([0xA1, 0xA1, 0xA1, 0xFE]), 0xB230);
});

for (const moved of [0, 1, 7, 15]) {
    test(`a sector is read at phase ${moved}`, () => {
        const { track, at } = trackOf(CONTENT, { moved }), address = addressOf(track, at), data = dataFieldOf(track, at, 2);
        assert.deepEqual([...address.key], [3, 1, 7, 2]);
        assert.equal(address.crc, address.wanted);
        assert.deepEqual(data.content, CONTENT);
        assert.equal(data.crc, data.wanted);
        assert.equal(data.mark, 0xFB);
    });
}

test("a changed cell makes the CRC wrong, and is seen in one byte alone", () => {
    const { track, at } = trackOf(CONTENT), place = dataFieldOf(track, at, 2).at + 64 + 16 * 100 + 1;
    track.words[place >> 4] ^= 0x8000 >> (place & 15);
    const data = dataFieldOf(track, at, 2);
    assert.notEqual(data.crc, data.wanted);
    assert.equal(data.content.filter((byte, i) => byte !== CONTENT[i]).length, 1);
});

test("each mark lost one clock, and no other byte did", () => {
    const { track, at } = trackOf(CONTENT);
    for (const { kind, at: from, count } of partsOf(track, at, 2)) {
        for (let i = 0; i < count; i++) {
            const { lost, extra } = oddClocks(track, from + 16 * i);
            assert.deepEqual([lost, extra], [kind === "mark" ? [10] : [], []], `${kind} ${i}`);
        }
    }
});

test("the parts of a sector lie one after the other", () => {
    const { track, at } = trackOf(CONTENT), parts = partsOf(track, at, 2);
    parts.slice(1).forEach((part, i) => assert.equal(part.at, parts[i].at + 16 * parts[i].count, part.kind));
    assert.equal(parts.find((it) => it.kind === "data").count, 512);
});

test("a deleted mark and a missing one are distinguished", () => {
    const { track, at } = trackOf(CONTENT, { mark: 0xF8 });
    assert.equal(dataFieldOf(track, at, 2).mark, 0xF8);
    const place = dataFieldOf(track, at, 2).at;
    track.words[place >> 4] ^= 0x0400;
    assert.equal(dataFieldOf(track, at, 2), null);
    assert.equal(endOf(at, 2, at + 1000), at + 1000);
});
