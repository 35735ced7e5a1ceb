// Files of disks: a flat file becomes an image of cells, some cells are spoilt, and a rescue saves the rest. The program
// `floppy` runs on files in memory.
import { load, NoFile, Unfit } from "telwyddus";

const { Shelf, Tray } = await load(), files = new Shelf();
const run = (...words) => { const status = files.run(...words); process.stdout.write(`${words[0]}: status ${status}: ${files.report()}`); };

files.put("disk.img", new Uint8Array(737280).fill(0x5A));
run("import", "disk.img", "disk.rt");

const tray = Tray.ofImage(files.get("disk.rt")), hit = tray.survey().find((it) => it.cylinder === 3 && it.head === 1 && it.r === 5);
const words = tray.track(3, 1);
words[(hit.cell >> 4) + 200] ^= 0x0040;     // one cell, of a data bit
tray.setTrack(3, 1, words);
files.put("spoilt.rt", tray.image());
try {
    tray.flat();
} catch (fault) {
    if (!(fault instanceof Unfit)) throw fault;
    console.log(`${fault.name}: cylinder ${fault.cylinder}, head ${fault.head}`);
}
run("rescue", "spoilt.rt", "saved.rt", "missing.txt");
process.stdout.write(`missing: ${new TextDecoder().decode(files.get("missing.txt"))}`);
try {
    files.get("other.rt");
} catch (fault) {
    if (!(fault instanceof NoFile)) throw fault;
    console.log(`${fault.name}: ${fault.message}`);
}
tray.free();
files.free();
//> import: status 0: import ok 1440
//> Unfit: cylinder 3, head 1
//> rescue: status 1: rescue 1439 of 1440
//> missing: 3 1 5 10
//> NoFile: shelf_get: no file has this name
