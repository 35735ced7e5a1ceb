// Boots the PC from an image, and prints what came of it as JSON. For js/pc/check.
//
//     node boot.mjs MODULE.wasm BIOS IMAGE AFTER [--strap] [--rate N] [--by-rate]
//
// AFTER gets the image of the disk as it is afterwards. --strap lets the controller imply seeks, and --rate sets the data
// rate before the boot, as the BIOS of Bochs needs it. --by-rate lets a device step last as long as the data rate says; without
// it, each step lasts 16 microseconds, as in bios/.
import { readFileSync, writeFileSync } from "node:fs";
import { instantiate } from "../telwyddus.js";
import { Computer } from "./computer.js";
import { VERDICT } from "./trial.js";

const MINUTES_OF_WORDS = 2 * 60 * 62500;
const words = process.argv.slice(2), [module, bios, image, after] = words;

const library = await instantiate(readFileSync(module)), controller = new library.Controller();
if (words.includes("--strap")) controller.strapSeeks(true);
const tray = library.Tray.ofImage(readFileSync(image));
controller.insert(0, tray);
tray.free();

const computer = new Computer({ bios: readFileSync(bios), controller }), began = performance.now();
computer.floppy.followsRate = words.includes("--by-rate");
if (words.includes("--rate")) computer.floppy.write(0x3F7, Number(words[words.indexOf("--rate") + 1]));
computer.run(MINUTES_OF_WORDS, () => computer.screen.printed.includes(VERDICT));
writeFileSync(after, controller.image(0));
console.log(JSON.stringify({
    instructions: computer.cpu.count, words: computer.words, accesses: computer.floppy.accesses, line: computer.screen.printed.split("\n").find((it) => it.includes("trial")) ?? "nothing",
    screen: computer.screen.text, stopped: computer.stopped, seconds: (performance.now() - began) / 1000,
}));
controller.free();
