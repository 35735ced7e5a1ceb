// What the page's worker does with the library. TELWYDDUS_WASM names the module, else it is js/telwyddus.wasm.
import assert from "node:assert/strict";
import { readFileSync } from "node:fs";
import { test } from "node:test";
import { instantiate } from "../../js/src/library.js";
import { Bench } from "../src/bench.js";
import { addressOf, dataFieldOf, Track } from "../src/cells.js";
import { opened, saved, shapeOf, surveyed, trackOf } from "../src/disk.js";
import { made } from "../src/made.js";
import { Desktop, FORMS } from "../src/work.js";

const library = await instantiate(readFileSync(process.env.TELWYDDUS_WASM ?? new URL("../../js/telwyddus.wasm", import.meta.url)));
const image = made(library), fields = [...surveyed(library, image)].flatMap((piece) => piece.fields);
const same = (one, other) => Buffer.compare(Buffer.from(one), Buffer.from(other)) === 0;

test("a survey in pieces is the survey of the whole", () => {
    const tray = library.Tray.ofImage(image);
    assert.deepEqual(fields, tray.survey());
    tray.free();
    const counts = {};
    for (const { found } of fields) counts[found] = (counts[found] ?? 0) + 1;
    assert.deepEqual(counts, { OK: 2832, DELETED: 4, NO_DATA: 2, BAD_CRC: 6 });
    assert.deepEqual(shapeOf(image), { words: 12500, kilobits: 500, cylinders: 80, heads: 2, isProtected: false });
});

test("what the page reads from cells is what the survey says", () => {
    let words, at;
    for (const field of fields) {
        if (at !== `${field.cylinder} ${field.head}`) words = new Track(trackOf(image, field.cylinder, field.head));
        at = `${field.cylinder} ${field.head}`;
        const address = addressOf(words, field.cell), data = dataFieldOf(words, field.cell, field.n);
        assert.deepEqual([...address.key], [field.c, field.h, field.r, field.n]);
        assert.equal(address.crc, address.wanted);
        const is = data === null ? "NO_DATA" : data.crc !== data.wanted ? "BAD_CRC" : data.mark === 0xF8 ? "DELETED" : "OK";
        assert.equal(is, field.found, `${at} ${field.r}`);
    }
});

test("files of each kind are opened, and saved as they were", () => {
    const flat = new Uint8Array(1474560).map((_, i) => i * 7), small = flat.slice(0, 368640);
    for (const [bytes, kind, as] of [[flat, /1.44 MB/, "flat"], [flat.slice(0, 737280), /720 KB/, "flat"], [small, /^flat file$/, "flat"]]) {
        const read = opened(library, bytes);
        assert.match(read.kind, kind);
        assert.ok(same(saved(library, read.image, as), bytes));
        assert.ok(same(opened(library, read.image).image, read.image));
        const imd = opened(library, saved(library, read.image, "imd"));
        assert.equal(imd.kind, "ImageDisk file");
        assert.equal([...surveyed(library, imd.image)].flatMap((it) => it.fields).length, bytes.length / 512);
    }
    assert.throws(() => opened(library, new Uint8Array(1000)), (fault) => fault.code === "BAD_IMAGE");
    assert.throws(() => saved(library, image, "flat"), (fault) => fault.code === "UNFIT" && fault.cylinder === 5 && fault.head === 0);
});

test("a bench does commands whole and step by step, with the same results", () => {
    const results = [];
    for (const isWhole of [true, false]) {
        const bench = new Bench(library, image), read = [0x46, 0, 0, 0, 1, 2, 18, 0x1B, 0xFF];
        bench.powerUp(500);
        if (isWhole) results.push(bench.whole(read, null, 9216).results);
        else {
            assert.equal(bench.send(read, null, 9216).length, 9);
            assert.equal(bench.state().phase, "execution");
            let changes = 0;
            while (bench.isBusy()) { bench.advance(50000, "change"); changes++; }
            assert.ok(changes > 9000);
            results.push(bench.results());
            const news = bench.news(), drq = news.filter((it) => it.kind === "lines" && it.lines & 2);
            assert.ok(news.every((it, i) => i === 0 || it.at >= news[i - 1].at) && drq.length >= 9216);
            assert.equal(news.filter((it) => it.kind === "dack").reduce((sum, it) => sum + it.moved, 0), 9216);
            assert.equal(bench.news().length, 0);
        }
        bench.free();
    }
    assert.deepEqual(results, [[0, 0, 0, 1, 0, 1, 2], [0, 0, 0, 1, 0, 1, 2]]);
});

test("a channel that waits too long overruns", () => {
    const bench = new Bench(library, image);
    bench.powerUp(500);
    bench.channel.latency = 3;
    assert.deepEqual(bench.whole([0x46, 0, 0, 0, 1, 2, 1, 0x1B, 0xFF], null, 512).results.slice(0, 3), [0x40, 0x10, 0]);
    bench.free();
});

test("planned faults are met by tries", () => {
    const bench = new Bench(library, image);
    bench.powerUp(500);
    bench.plan("drop 0 7 1 300 2");
    const tries = bench.tries(7, 1, [7, 1, 1, 2], 3);
    assert.deepEqual(tries.map((it) => it.results.slice(0, 3)), [[0x44, 0x20, 0x20], [0x44, 0x20, 0x20], [4, 0, 0]]);
    assert.ok(new TextDecoder().decode(tries[2].content).startsWith("Cylinder 7, head 1, record 1."));
    assert.equal(bench.tries(7, 1, [7, 1, 1, 2], 3).length, 1);
    bench.free();
});

test("each form runs, and stores what it says", () => {
    const desktop = new Desktop(library);
    desktop.files.set("disk.rt", image);
    desktop.files.set("flat", new Uint8Array(737280));
    const wanted = { survey: [0, "survey 2844"], verify: [1, "verify 2818 of 2880"], rescue: [1, "rescue 2818 of 2880"], format: [0, "format ok 4"], "format 720 KB": [0, "format ok 4"],
        copy: [0, "copy ok 72"], remaster: [0, "remaster ok 72"], "export a flat file": [0, "export ok 1440"], "import a flat file": [0, "import ok 1440"], "to ImageDisk": [0, "toimd ok 4"], "from ImageDisk": [0, "fromimd ok 4"] };
    const fields = { survey: { disk: "disk.rt" }, verify: { disk: "disk.rt" }, rescue: { from: "disk.rt", to: "saved.rt", log: "log" }, format: { name: "new.rt", cylinders: "2" }, "format 720 KB": { name: "dd.rt", cylinders: "2" },
        copy: { from: "new.rt", to: "copy.rt" }, remaster: { from: "new.rt", to: "again.rt" }, "import a flat file": { flat: "flat", disk: "imported.rt" }, "export a flat file": { disk: "imported.rt", flat: "out" },
        "to ImageDisk": { disk: "new.rt", imd: "new.imd" }, "from ImageDisk": { imd: "new.imd", disk: "back.rt" } };
    assert.deepEqual(Object.keys(wanted).sort(), FORMS.map((it) => it.name).sort());
    for (const name of Object.keys(fields)) {
        const { status, text, stored } = desktop.form(name, fields[name]);
        assert.deepEqual([status, text.trimEnd().split("\n").at(-1)], wanted[name], name);
        assert.deepEqual(stored, FORMS.find((it) => it.name === name).makes(fields[name]), name);
    }
    assert.ok(same(desktop.files.get("copy.rt"), desktop.files.get("new.rt")));
    assert.ok(same(desktop.files.get("out"), desktop.files.get("flat")));
    const { text } = desktop.int13("insert 0 new.rt\ncall 0201 0000 0001 0000 1000\ncall 0201 0000 0001 0000 1000\ndump 10000 4\n");
    assert.equal(text, "insert ok\ncall 0600 0000 0001 0000 1\ncall 0001 0000 0001 0000 0\n10000 F6 F6 F6 F6\n");
});
