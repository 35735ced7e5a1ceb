import assert from "node:assert/strict";
import { test } from "node:test";
import { BadPlan, BadState, HasMedium, Lines, NoMedium, NotAsked, OutOfRange, Signs } from "../telwyddus.js";
import { content, Guest, library, same } from "./loaded.js";

const { Controller, Tray } = library, FLAT = content();

function begun() {
    const controller = new Controller(), tray = Tray.ofFlat(FLAT);
    controller.insert(0, tray);
    tray.free();
    return { controller, guest: new Guest(controller) };
}

test("a reset and its interrupt, as docs/C.md has them", () => {
    const controller = new Controller();
    controller.write(0x3F2, 0x1C);
    controller.write(0x3F7, 0);
    assert.equal(controller.wordTime(), 16000);
    assert.ok(controller.run(1000) < 1000 && controller.lines & Lines.INT);
    controller.write(0x3F5, 0x08);
    assert.equal(controller.read(0x3F5), 0xC0);
    assert.equal(controller.read(0x3F7) & 0x80, 0x80);
    controller.free();
});

test("a whole disk is read by DMA, with the FIFO on", () => {
    const { controller, guest } = begun(), memory = new Uint8Array(36 * 512);
    guest.command([0x13, 0, 0x47, 0]);
    for (let cylinder = 0; cylinder < 80; cylinder++) {
        const { results, moved } = guest.command([0xC6, 0, cylinder, 0, 1, 2, 18, 0x1B, 0xFF], memory);
        // 24: head 1, and SE, since CONFIGURE has set EIS
        assert.deepEqual([results.slice(0, 3), moved], [[0x24, 0, 0], memory.length]);
        assert.ok(same(memory, FLAT.subarray(cylinder * memory.length, (cylinder + 1) * memory.length)), `cylinder ${cylinder}`);
    }
    controller.free();
});

test("a sector is written: its track is named, and the file has it", () => {
    const { controller, guest } = begun();
    assert.deepEqual(guest.seek(7, 1), [0x20, 7]);
    const { results } = guest.command([0x45, 4, 7, 1, 3, 2, 3, 0x1B, 0xFF], new Uint8Array(512).fill(0xE5));
    assert.equal(results[0] & 0xC0, 0);
    assert.ok(controller.isWritten(0) && !controller.isWritten(1));
    assert.deepEqual(controller.writtenTracks(0), [[7, 1]]);
    assert.deepEqual(controller.writtenTracks(0), []);
    assert.ok(controller.written(0) && !controller.isWritten(0));
    const wanted = FLAT.slice();
    wanted.fill(0xE5, 15 * 9216 + 1024, 15 * 9216 + 1536);
    assert.ok(same(controller.flat(0), wanted));
    const tray = controller.eject(0);
    assert.ok(same(tray.flat(), wanted));
    assert.throws(() => controller.eject(0), NoMedium);
    tray.free();
    controller.free();
});

test("planned faults", () => {
    const { controller, guest } = begun(), read = () => guest.command([0x46, 0, 0, 0, 1, 2, 1, 0x1B, 0xFF], new Uint8Array(512)).results.slice(0, 3);
    controller.plan(0, "drop 0 0 0 300 2");
    assert.deepEqual([read(), read(), read()], [[0x40, 0x20, 0x20], [0x40, 0x20, 0x20], [0, 0, 0]]);
    assert.throws(() => controller.plan(0, "# fine\ndrop 0 0 0 300"), (fault) => fault instanceof BadPlan && fault.line === 2);
    assert.throws(() => new Controller("nothing"), (fault) => fault instanceof BadPlan && fault.line === 1);
    new Controller("drop 0 0 0 300 1").free();
    controller.free();
});

test("a state in the middle of a command goes on, byte by byte", () => {
    const { controller, guest } = begun(), other = new Controller();
    guest.seek(3);
    for (const byte of [0x46, 0, 3, 0, 1, 2, 18, 0x1B, 0xFF]) controller.write(0x3F5, byte);
    controller.run(3000);
    const state = controller.save();
    other.restore(state);
    assert.ok(same(other.save(), state));
    for (let i = 0; i < 3000; i++) {
        assert.equal(controller.run(50), other.run(50));
        assert.equal(controller.lines, other.lines);
        if (controller.lines & Lines.DRQ) assert.equal(controller.dackRead(), other.dackRead());
    }
    assert.throws(() => other.restore(state.subarray(1)), BadState);
    const bare = controller.saveBare();
    assert.ok(bare.length < 30000);
    controller.restoreBare(bare);
    assert.throws(() => controller.dackWrite(0), NotAsked);
    other.free();
    controller.free();
});

test("drives, cables and numbers", () => {
    const { controller } = begun(), tray = Tray.blank(1, 250);
    assert.throws(() => controller.insert(0, tray), HasMedium);
    controller.insert(1, tray);
    assert.throws(() => controller.insert(1, tray), NoMedium);
    assert.throws(() => controller.insert(2, tray), OutOfRange);
    assert.throws(() => controller.attach(1, false), HasMedium);
    assert.deepEqual(controller.shape(1), { words: 6250, kilobits: 250, cylinders: 1, heads: 2, isProtected: false });
    controller.protect(1);
    assert.ok(controller.shape(1).isProtected);
    const { cylinder, signs } = controller.bay(0);
    assert.deepEqual([cylinder, signs], [0, Signs.MOTOR | Signs.SELECTED | Signs.MEDIUM]);
    assert.equal(controller.track(0, 0, 0).length, 12500);
    assert.equal(controller.selected(), 0);
    assert.equal(controller.quiet(1000), 1000);
    for (const bad of [-1, 256, 1.5, NaN, "1"]) assert.throws(() => controller.write(0x3F5, bad), RangeError);
    controller.reset();
    assert.equal(controller.lines & Lines.INT, 0);
    tray.free();
    controller.free();
});
