// The PC of the page's worker. TELWYDDUS_WASM names the module, else it is js/telwyddus.wasm. Without Debian's package
// seabios this is left out.
import assert from "node:assert/strict";
import { existsSync, readFileSync } from "node:fs";
import { test } from "node:test";
import { afterTrial, trialDisk } from "../../js/pc/trial.js";
import { instantiate } from "../../js/src/library.js";
import { Host } from "../src/host.js";
import { entryInWords } from "../src/story.js";

const BIOS = "/usr/share/seabios/bios.bin", skip = existsSync(BIOS) ? false : `no ${BIOS} here`;
const library = await instantiate(readFileSync(process.env.TELWYDDUS_WASM ?? new URL("../../js/telwyddus.wasm", import.meta.url)));
const same = (one, other) => Buffer.compare(Buffer.from(one), Buffer.from(other)) === 0;

function imageOf(flat) {
    const tray = library.Tray.ofFlat(flat), image = tray.image();
    tray.free();
    return image;
}

/** A PC that is on, and the states that it tells. */
function begun(flat) {
    const states = [], host = new Host(library, (state) => states.push(state));
    host.powerUp(readFileSync(BIOS), imageOf(flat));
    return { host, states };
}
const entriesOf = (states) => [...new Map(states.flatMap((state) => state.entries).map((entry) => [entry.id, entry])).values()];

test("the PC boots in short stretches, and tells what there is to show", { skip }, async () => {
    const flat = trialDisk(), { host, states } = begun(flat);
    assert.deepEqual([host.state().isOn, host.written()], [true, null]);
    await host.go(0);
    const last = states.at(-1), entries = entriesOf(states).map(entryInWords);
    assert.match(last.stopped, /halted/);
    assert.ok(states.length > 5 && !last.isRunning && states[1].isRunning);
    assert.equal(states.filter((state) => state.drive.motor).length > 0, true);
    for (const wanted of [/^3F2 1C: drive A is selected, the motor of A runs$/, /^READ ID: drive A; 00 .*: done$/, /^READ DATA: .*, sector 1.*; 512 bytes by DMA; 00 /, /^SEEK: drive A to cylinder 79$/,
        /^READ DATA: drive A, cylinder 79, head 1, sectors 1 to 18 \(MT\); 9,216 bytes by DMA; 04 /, /^FORMAT TRACK: drive A, head 1, 18 sectors; 72 bytes by DMA; 04 .*: done$/]) {
        assert.ok(entries.some((it) => wanted.test(it)), `${wanted}\n${entries.join("\n")}`);
    }
    assert.ok(last.cells.length === 4000 && last.cpu.registers.length === 8 && last.messages.includes("Booting from Floppy"));
    const written = host.written(), tray = library.Tray.ofImage(written);
    assert.ok(same(tray.flat(), afterTrial(flat)));
    assert.equal(host.written(), null);
    tray.free();
    host.powerDown();
    assert.deepEqual(host.state(), { isOn: false });
});

test("a pause, one instruction, up to the next command, and another disk", { skip }, async () => {
    const { host, states } = begun(trialDisk()), running = host.go(1);
    await new Promise((resolve) => setTimeout(resolve, 100));
    host.stop();
    await running;
    const { instructions } = host.state();
    assert.ok(instructions > 1000 && host.state().at < 1e6);
    host.step();
    assert.equal(host.state().instructions, instructions + 1);
    for (let commands = 1; commands < 4; commands++) {
        await host.toCommand();
        assert.equal(host.story.commands, commands);
        assert.equal(states.at(-1).isRunning, false);
    }
    host.insert(imageOf(new Uint8Array(1474560)));
    assert.ok(host.state().drive.hasMedium);
    host.powerDown();
});

test("keys wait until the BIOS takes them", { skip }, async () => {
    const { host } = begun(trialDisk()), { computer } = host;
    await host.go(0, () => computer.screen.printed.includes("Press ESC"));
    host.keys([0x01, 0x81]);
    await host.go(0, () => computer.screen.printed.includes("Select boot device") || computer.stopped !== null);
    assert.match(computer.screen.text, /Select boot device/);
    host.powerDown();
});
