import assert from "node:assert/strict";
import { test } from "node:test";
import { BITS, bytesOf, COMMANDS, commandOf, countOf, explained, judged, phaseOf } from "../src/chip.js";
import { bytesOfHex, dumped, grouped, hexes, lasting } from "../src/text.js";

test("each register has eight bits, from 7 to 0", () => {
    for (const [name, bits] of Object.entries(BITS)) {
        let next = 7;
        for (const { from, upto } of bits) {
            assert.equal(from, next, name);
            next = upto - 1;
        }
        assert.equal(next, -1, name);
    }
});

test("a code is found with MT, MFM and SK, and an unknown one is invalid", () => {
    assert.equal(commandOf(0xE6).name, "READ DATA");
    assert.equal(commandOf(0x06).name, "READ DATA");
    assert.equal(commandOf(0xC5).name, "WRITE DATA");
    assert.equal(commandOf(0xCA).name, "READ ID");
    assert.equal(commandOf(0xC2).name, "invalid");
    assert.equal(commandOf(0x65).name, "invalid");
    assert.equal(commandOf(0x11).name, "invalid");
    assert.equal(new Set(COMMANDS.map((it) => it.code)).size, COMMANDS.length);
    for (const it of COMMANDS) assert.equal(it.parts.length, it.bytes.length, it.name);
});

test("the channel's count is that of all sectors up to EOT", () => {
    assert.equal(countOf([0x46, 0, 0, 0, 1, 2, 18, 0x1B, 0xFF]), 18 * 512);
    assert.equal(countOf([0xC6, 0, 0, 0, 1, 2, 18, 0x1B, 0xFF]), 36 * 512);
    assert.equal(countOf([0xC6, 4, 0, 1, 7, 2, 7, 0x1B, 0xFF]), 512);
    assert.equal(countOf([0x4D, 0, 2, 18, 0x6C, 0xF6]), 72);
    assert.equal(countOf([0x0F, 0, 5]), 0);
});

test("results are told in words", () => {
    assert.equal(judged([0, 0, 0, 5, 0, 3, 2], ["ST0", "ST1", "ST2", "C", "H", "R", "N"]), "done");
    assert.match(judged([0x40, 0x20, 0x20, 5, 0, 3, 2], ["ST0", "ST1", "ST2"]), /failed; DE: a CRC is wrong; DD/);
    assert.equal(explained("ST0", 0x24).find((it) => it.name === "SE").says, "a seek ended");
    assert.equal(explained("MSR", 0x90).filter((it) => it.says).length, 3);
    assert.deepEqual(bytesOf([0x46, 4]).map((it) => it.name), ["code", "HD"]);
});

test("an MSR shows its phase", () => {
    const phases = { 0x00: "reset", 0x80: "idle", 0x90: "command", 0x10: "execution", 0xD0: "results", 0x81: "seek", 0xF0: "execution", 0xB0: "execution", 0x30: "execution" };
    for (const [msr, phase] of Object.entries(phases)) assert.equal(phaseOf(Number(msr)), phase, Number(msr).toString(16));
});

test("text", () => {
    assert.deepEqual([...bytesOfHex("46 00, ff")], [0x46, 0, 0xFF]);
    assert.equal(bytesOfHex("46 1ff"), null);
    assert.equal(grouped(1234567), "1,234,567");
    assert.equal(hexes([1, 255]), "01 FF");
    assert.equal(lasting(62500, 16000), "1.00 s");
    assert.equal(dumped(Uint8Array.of(65, 0, 66)), "000  41 00 42                                         A.B");
});
