// The PC of js/pc boots SeaBIOS from a disk that it makes, on the library's controller. Without Debian's package seabios
// this is left out.
import assert from "node:assert/strict";
import { existsSync, readFileSync } from "node:fs";
import { test } from "node:test";
import { Computer } from "../pc/computer.js";
import { afterTrial, trialDisk, VERDICT } from "../pc/trial.js";
import { library, same } from "./loaded.js";

const BIOS = "/usr/share/seabios/bios.bin", skip = existsSync(BIOS) ? false : `no ${BIOS} here`;

function begun(flat) {
    const controller = new library.Controller(), tray = library.Tray.ofFlat(flat);
    controller.insert(0, tray);
    tray.free();
    return { controller, computer: new Computer({ bios: readFileSync(BIOS), controller }) };
}

test("SeaBIOS boots from a made disk, and its guest tries the drive", { skip }, () => {
    const flat = trialDisk(), { controller, computer } = begun(flat), seen = new Set();
    computer.floppy.hears = (kind, port, value) => { if (kind === "out" && port === 0x3F5) seen.add(value); };
    computer.run(62500 * 60);
    assert.match(computer.screen.printed, new RegExp(`trial of drive A: tttttwfm01 ${VERDICT}`));
    assert.match(computer.screen.text, /SeaBIOS \(version/);
    assert.match(computer.messages, /Booting from Floppy/);
    assert.match(computer.stopped, /halted/);
    assert.ok(same(controller.flat(0), afterTrial(flat)));
    assert.ok([0x03, 0x07, 0x08, 0x0F, 0x4D, 0xC5, 0xE6].every((code) => seen.has(code)), [...seen].map((code) => code.toString(16)).join(" "));
    controller.free();
});

test("without a disk SeaBIOS says so, and a key goes to its menu", { skip }, () => {
    const controller = new library.Controller(), computer = new Computer({ bios: readFileSync(BIOS), controller });
    computer.run(62500 * 60, () => computer.screen.printed.includes("Press ESC"));
    computer.keyboard.press(0x01);
    computer.run(computer.words + 62500 * 5, () => computer.screen.printed.includes("Select boot device"));
    assert.match(computer.screen.text, /Select boot device/);
    computer.keyboard.press(0x02);      // the first of the list: the diskette
    computer.run(computer.words + 62500 * 30, () => computer.screen.printed.includes("boot disk"));
    assert.match(computer.screen.text, /Boot failed: could not read the boot disk/);
    controller.free();
});
