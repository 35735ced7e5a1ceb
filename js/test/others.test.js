import assert from "node:assert/strict";
import { test } from "node:test";
import { Worker } from "node:worker_threads";
import { Changed, load, NoFile, NoMark, NotReady, OutOfRange, Protected } from "../telwyddus.js";
import { content, library, same } from "./loaded.js";

const { Desk, Machine, Shelf, Tray } = library;

test("single sectors at a desk", () => {
    const desk = new Desk(), tray = Tray.blank(2), bytes = content(512);
    assert.throws(() => desk.acknowledge(0), NotReady);
    desk.insert(0, tray);
    assert.throws(() => desk.read(0, 0, 0, 1), Changed);
    desk.acknowledge(0);
    assert.throws(() => desk.read(0, 0, 0, 1), NoMark);
    desk.format(0, 1, 0);
    desk.write(0, 1, 0, 7, bytes, { deleted: true });
    const read = desk.read(0, 1, 0, 7);
    assert.ok(read.deleted && same(read.bytes, bytes));
    assert.throws(() => desk.read(0, 0, 0, 1, 9), OutOfRange);
    const out = desk.eject(0);
    out.protect();
    desk.insert(1, out);
    desk.acknowledge(1);
    desk.setRate(1, 500);
    assert.throws(() => desk.format(1, 0, 0), Protected);
    for (const it of [desk, tray, out]) it.free();
});

test("the machine, its memory and its state", () => {
    const machine = new Machine("gap 3 1"), other = new Machine();
    machine.memorySet(0x1000, Uint8Array.of(1, 2, 3));
    machine.outb(0x3F2, 0x1C);
    assert.ok(machine.waitIrq(1000).isSet);
    other.restore(machine.save());
    assert.deepEqual([...other.memoryGet(0x1000, 3)], [1, 2, 3]);
    assert.ok(other.takeIrq() && !other.takeIrq());
    assert.equal(other.inb(0x3F4), machine.inb(0x3F4));
    assert.throws(() => other.memorySet(0xFFFFF, Uint8Array.of(1, 2)), OutOfRange);
    machine.free();
    other.free();
});

test("the program converts and verifies files in memory", () => {
    const files = new Shelf(), flat = content();
    files.put("disk.img", flat);
    assert.equal(files.run("import", "disk.img", "disk.rt"), 0);
    assert.equal(files.run("export", "disk.rt", "again.img"), 0);
    assert.equal(files.run("verify", "other.rt"), 5);
    assert.equal(files.report(), "import ok 2880\nexport ok 2880\nother.rt absent\n");
    assert.equal(files.report(), "");
    assert.ok(same(files.get("again.img"), flat));
    assert.throws(() => files.get("other.rt"), NoFile);
    assert.throws(() => files.run("verify", "a\nb"), RangeError);
    files.put("ünï.rt", Uint8Array.of(1));
    assert.deepEqual([...files.get("ünï.rt")], [1]);
    files.free();
});

test("two instances share nothing", async () => {
    const { readFileSync } = await import("node:fs"), path = process.env.TELWYDDUS_WASM ?? new URL("../telwyddus.wasm", import.meta.url);
    const other = await load(await WebAssembly.compile(readFileSync(path))), before = library.memory();
    other.Tray.ofFlat(content()).free();
    assert.equal(library.memory(), before);
    assert.ok(!(other.Tray.blank(1) instanceof Tray));
});

test("the library works in a worker", async () => {
    const source = `
        import { parentPort, workerData } from "node:worker_threads";
        import { readFileSync } from "node:fs";
        const { load } = await import(workerData.library);
        const { Tray } = await load(readFileSync(workerData.module));
        parentPort.postMessage(Tray.ofFlat(new Uint8Array(737280)).survey().length);`;
    const module = process.env.TELWYDDUS_WASM ?? new URL("../telwyddus.wasm", import.meta.url).pathname;
    const worker = new Worker(new URL(`data:text/javascript,${encodeURIComponent(source)}`), { workerData: { library: new URL("../telwyddus.js", import.meta.url).href, module } });
    const fields = await new Promise((resolve, reject) => { worker.on("message", resolve); worker.on("error", reject); });
    assert.equal(fields, 1440);
});
