import assert from "node:assert/strict";
import { test } from "node:test";
import { BadImage, Empty, OutOfRange, Refused, Unfit } from "../telwyddus.js";
import { content, library, same } from "./loaded.js";

const { Tray, version } = library;

test("a flat file comes back, by way of an image and an ImageDisk file too", () => {
    const flat = content(), tray = Tray.ofFlat(flat), image = tray.image();
    assert.equal(version(), 20000);
    assert.deepEqual(tray.shape(), { words: 12500, kilobits: 500, cylinders: 80, heads: 2, isProtected: false });
    assert.equal(image.length, 4000014);
    for (const again of [tray, Tray.ofImage(image), Tray.ofImd(tray.imd())]) {
        assert.ok(same(again.flat(), flat));
        again.free();
    }
});

test("other geometries", () => {
    const flat = content(40 * 2 * 9 * 512), tray = Tray.ofFlatAs(flat, 40, 2, 9, 2, 250);
    assert.ok(same(tray.flatAs(40, 2, 9, 2, 250), flat));
    assert.throws(() => tray.flat(), (fault) => fault instanceof Unfit && fault.cylinder === 255 && fault.head === 255);
    assert.throws(() => Tray.ofFlatAs(flat, 0, 2, 9, 2, 250), OutOfRange);
    assert.throws(() => Tray.ofFlatAs(flat, 256, 2, 9, 2, 250), RangeError);
    tray.free();
});

test("a survey finds what was turned on the track, and the flat file names it", () => {
    const tray = Tray.ofFlat(content(737280)), fields = tray.survey(), hit = fields.find((it) => it.cylinder === 12 && it.head === 1 && it.r === 4);
    assert.equal(fields.length, 1440);
    assert.ok(fields.every((it) => it.found === "OK" && it.n === 2 && it.c === it.cylinder && it.h === it.head));
    const words = tray.track(12, 1), cell = hit.cell + 16 * 100 + 1;
    words[cell >> 4] ^= 0x8000 >> (cell & 15);
    tray.setTrack(12, 1, words);
    assert.deepEqual(tray.survey().filter((it) => it.found !== "OK"), [{ ...hit, found: "BAD_CRC" }]);
    assert.throws(() => tray.flat(), (fault) => fault.code === "UNFIT" && fault.cylinder === 12 && fault.head === 1);
    assert.throws(() => tray.setTrack(12, 1, words.subarray(1)), OutOfRange);
    assert.throws(() => tray.track(80, 0), OutOfRange);
    tray.free();
});

test("errors have names, codes and the call", () => {
    assert.throws(() => Tray.ofImage(new Uint8Array(100)), (fault) =>
        fault instanceof BadImage && fault instanceof Refused && fault.name === "BadImage" && fault.code === "BAD_IMAGE" && fault.call === "tray_read");
    assert.throws(() => Tray.ofImage(new Uint8Array(0)), BadImage);
    assert.throws(() => Tray.blank(81), OutOfRange);
    const tray = Tray.blank(1);
    tray.protect();
    assert.ok(tray.shape().isProtected);
    tray.free();
    tray.free();
    assert.throws(() => tray.image(), Empty);
});

test("memory is used again", () => {
    const flat = content(), once = () => { const tray = Tray.ofFlat(flat); tray.image(); tray.free(); };
    once();
    once();
    const before = library.memory();
    for (let i = 0; i < 8; i++) once();
    assert.equal(library.memory(), before);
});
