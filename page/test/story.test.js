import assert from "node:assert/strict";
import { test } from "node:test";
import { bytesOfKey, bytesOfText } from "../src/keys.js";
import { commandInWords, dorInWords, entryInWords, Story } from "../src/story.js";

/** A story of accesses: [kind, port, value, bytes that have passed by DMA]. */
function told(...accesses) {
    const story = new Story();
    accesses.forEach(([kind, port, value, moved = 0], i) => story.hear(kind, port, value, { at: 1000 * i, moved }));
    return story.fresh();
}
const out = (...bytes) => bytes.map((byte) => ["out", 0x3F5, byte]);

test("a command with its interrupt, its bytes and its results is one entry", () => {
    const entries = told(...out(0xE6, 4, 40, 1, 1, 2, 18, 0x1B, 0xFF), ["in", 0x3F4, 0x10], ["count"], ["interrupt"], ...[4, 0, 0, 40, 1, 1, 2].map((byte) => ["in", 0x3F5, byte, 9216]));
    assert.equal(entries.length, 1);
    const [entry] = entries;
    assert.equal(entryInWords(entry), "READ DATA: drive A, cylinder 40, head 1, sectors 1 to 18 (MT); 9,216 bytes by DMA; 04 00 00 28 01 01 02: done");
    assert.deepEqual([entry.polls, entry.interrupt, entry.hasCount, entry.isBad, entry.end], [1, 11000, true, false, 18000]);
});

test("commands without results, and a failure", () => {
    const entries = told(...out(0x03, 0xDF, 2), ...out(0x0F, 0, 7), ["interrupt"], ...out(0x08), ["in", 0x3F5, 0x20], ["in", 0x3F5, 7], ...out(0x4A, 0), ["in", 0x3F5, 0x40], ["in", 0x3F5, 1]);
    assert.deepEqual(entries.map((it) => it.says), ["SPECIFY", "SEEK: drive A to cylinder 7", "SENSE INTERRUPT", "READ ID: drive A"]);
    assert.equal(entryInWords(entries[2]), "SENSE INTERRUPT; 20 07: done; SE: a seek ended");
    assert.ok(entries[3].isBad && !entries[2].isBad);
});

test("changes of DOR, of the rate and of the change line, and a reset within a command", () => {
    const story = new Story(), hear = (kind, port, value) => story.hear(kind, port, value, { at: 0, moved: 0 });
    for (const [kind, port, value] of [["out", 0x3F2, 0x1C], ["out", 0x3F2, 0x1C], ["out", 0x3F7, 0], ["out", 0x3F7, 0], ["in", 0x3F7, 0x80], ["in", 0x3F7, 0x80], ["in", 0x3F7, 0], ...out(0x46, 0), ["out", 0x3F2, 0x18], ["out", 0x3F2, 0x1C], ...out(0x08)]) hear(kind, port, value);
    assert.deepEqual(story.fresh().map(entryInWords), ["3F2 1C: drive A is selected, the motor of A runs", "3F7 00: the data rate is 500 kbit/s", "3F7 80: the change line is up: the disk was changed, or there is none",
        "3F7 00: the change line is down", "READ DATA", "3F2 18: the controller is held in reset", "3F2 1C: drive A is selected, the motor of A runs", "SENSE INTERRUPT"]);
    assert.deepEqual([story.fresh(), story.commands], [[], 2]);
    hear("out", 0x3F4, 0x80);
    assert.equal(entryInWords(story.fresh()[0]), "3F4 80: a reset by software");
});

test("DOR and commands in words", () => {
    assert.equal(dorInWords(0x34), "drive A is selected, the motors of A, B run; INT and DRQ are shut off");
    assert.equal(dorInWords(0x0D), "drive B is selected, no motor runs");
    assert.equal(commandInWords([0x4D, 4, 2, 18, 0x6C, 0xF6]), "FORMAT TRACK: drive A, head 1, 18 sectors");
    assert.equal(commandInWords([0xC5, 1, 2, 0, 5, 2, 5, 0x1B, 0xFF]), "WRITE DATA: drive B, cylinder 2, head 0, sector 5 (MT)");
});

test("keys", () => {
    assert.deepEqual([bytesOfKey("KeyA", true), bytesOfKey("KeyA", false), bytesOfKey("ArrowUp", false), bytesOfKey("F10", true), bytesOfKey("Pause", true)], [[0x1E], [0x9E], [0xE0, 0xC8], [0x44], null]);
    assert.deepEqual(bytesOfText("a:é\n"), [0x1E, 0x9E, 0x2A, 0x27, 0xA7, 0xAA, 0x1C, 0x9C]);
});
