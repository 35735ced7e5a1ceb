// The disk with which the page begins: a flat file with text in it, some sectors damaged, some written deleted at the
// ports of the controller, one track empty, and two tracks of sectors of another size. Runs in the worker.
import { Lines } from "../../js/src/controller.js";

const TEXT = "Telwyddus: the diskette path of a PC, from the cells of a track up to INT 13h. ";
const BYTES = 512, RECORDS = 18;
/** Cells from the first A1 of an address field: to the mark of the data, and to a byte of them, on a standard track. */
const TO_MARK = 16 * 44, TO_DATA = 16 * 300;
const DAMAGED = [[12, 0, 4], [12, 0, 5], [33, 1, 9], [34, 1, 9], [35, 1, 9], [60, 0, 17]], UNMARKED = [[47, 0, 12], [48, 1, 3]];
const DELETED = [[5, 2], [20, 8], [21, 9], [22, 10]], EMPTY = [70, 1], LARGE = [75, 76];

/** The image of the made disk. */
export function made(library) {
    const flat = new Uint8Array(1474560);
    for (let sector = 0; sector * BYTES < flat.length; sector++) {
        const track = Math.floor(sector / RECORDS), text = `Cylinder ${track >> 1}, head ${track & 1}, record ${sector % RECORDS + 1}. ${TEXT.repeat(7)}`;
        new TextEncoder().encodeInto(text, flat.subarray(sector * BYTES, (sector + 1) * BYTES));
    }
    const tray = library.Tray.ofFlat(flat);
    spoil(tray);
    const guest = new library.Controller();
    guest.insert(0, tray);
    tray.free();
    written(guest);
    const image = guest.image(0);
    guest.free();
    return image;
}

function spoil(tray) {
    const turn = ([cylinder, head, r], cells) => {
        const words = tray.track(cylinder, head), at = addressOf(words, r) + cells + 1;
        words[at >> 4] ^= 0x8000 >> (at & 15);
        tray.setTrack(cylinder, head, words);
    };
    for (const place of DAMAGED) turn(place, TO_DATA);
    for (const place of UNMARKED) turn(place, TO_MARK);
    tray.setTrack(...EMPTY, new Uint16Array(tray.shape().words));
}

/** The first cell of the address field of a record on a standard track, which lies at whole words. */
function addressOf(words, r) {
    for (let at = 0, seen = 0; at < words.length; at++) {
        const isField = words[at] === 0x4489 && words[at + 1] === 0x4489 && words[at + 2] === 0x4489 && (words[at + 3] & 0x5555) === 0x5554;
        if (isField && ++seen === r) return 16 * at;
    }
    throw new Error(`no record ${r}`);
}

/** WRITE DELETED DATA of some sectors, and FORMAT TRACK with nine sectors of 1,024 bytes, as a driver and its DMA channel do it. */
function written(guest) {
    const untilInt = () => { while (!(guest.lines & Lines.INT)) guest.run(100000); };
    const results = () => { const got = []; while ((guest.read(0x3F4) & 0xD0) === 0xD0) got.push(guest.read(0x3F5)); return got; };
    const command = (bytes, given = new Uint8Array(0)) => {
        let place = 0;
        for (const byte of bytes) guest.write(0x3F5, byte);
        while (!(guest.lines & Lines.INT)) {
            if (!(guest.lines & Lines.DRQ)) guest.run(100000);
            else {
                place += guest.dackBlockWrite(given.subarray(place));
                if (place === given.length) guest.tc();
            }
        }
        return results();
    };
    const done = (got) => { if (got[0] & 0xC0) throw new Error(`a command ended with ${got}`); };
    guest.strapSeeks(true);
    guest.write(0x3F2, 0x1C);
    guest.write(0x3F7, 0);
    untilInt();
    for (let drive = 0; drive < 4; drive++) { guest.write(0x3F5, 0x08); results(); }
    for (const [cylinder, r] of DELETED) done(command([0x49, 0, cylinder, 0, r, 2, r, 0x1B, 0xFF], new Uint8Array(512).fill(0xE5)));
    for (const cylinder of LARGE) {
        command([0x0F, 0, cylinder]);
        guest.write(0x3F5, 0x08);
        results();
        done(command([0x4D, 0, 3, 9, 0x35, 0x4E], Uint8Array.from({ length: 36 }, (_, i) => [cylinder, 0, 1 + (i >> 2), 3][i & 3])));
    }
}
