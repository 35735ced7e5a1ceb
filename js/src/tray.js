import { byte, flag, port, shapeOf, Slot, wordsOf } from "./memory.js";

/** What a survey found after an address field, by its byte in the header. */
const FOUND = { 0x00: "OK", 0x01: "DELETED", 0x02: "NO_DATA", 0x10: "BAD_CRC", 0xFF: "NO_SIZE" };

/** A medium that a call makes of bytes. */
const of = (kind, name, bytes, ...words) => kind.made((tray) => tray.memory.withBytes(bytes, (at, length) => tray.do(name, at, length, ...words)));

/** A medium outside a drive. `new Tray()` is an empty tray, which an eject fills. */
export class Tray extends Slot {
    static kind = "tray";

    /** The medium of an image file: raw cells. */
    static ofImage(bytes) { return of(this, "read", bytes); }
    /** The medium of a flat sector file, 1.44 MB or 720 KB. */
    static ofFlat(bytes) { return of(this, "read_flat", bytes); }
    /** The medium of a flat sector file of another geometry. */
    static ofFlatAs(bytes, cylinders, heads, sectors, n = 2, kilobits = 500) {
        return of(this, "read_flat_as", bytes, byte(cylinders), byte(heads), byte(sectors), byte(n), port(kilobits));
    }
    /** The medium of an ImageDisk file. */
    static ofImd(bytes) {
        return this.made((tray) => tray.fitting((...place) => tray.memory.withBytes(bytes, (at, length) => tray.do("read_imd", at, length, ...place))));
    }
    /** An unformatted medium with two heads. */
    static blank(cylinders, kilobits = 500) { return this.made((tray) => tray.do("blank", byte(cylinders), port(kilobits))); }

    image() { return this.taken("write"); }
    imd() { return this.fitting((...after) => this.taken("write_imd", [], { after })); }
    flat() { return this.fitting((...after) => this.taken("write_flat", [], { after })); }
    flatAs(cylinders, heads, sectors, n = 2, kilobits = 500) {
        const form = [byte(cylinders), byte(heads), byte(sectors), byte(n), port(kilobits)];
        return this.fitting((...after) => this.taken("write_flat_as", form, { after }));
    }

    /** All that its medium is, except its cells. */
    shape() { return shapeOf(this); }
    protect(on = true) { this.do("protect", flag(on)); }

    /** The words of a track. */
    track(cylinder, head) { return wordsOf(this.taken("track", [byte(cylinder), byte(head)], { unit: 2 })); }
    setTrack(cylinder, head, words) {
        const bytes = new Uint8Array(Uint16Array.from(words).buffer);
        this.memory.withBytes(bytes, (at, length) => this.do("set_track", byte(cylinder), byte(head), at, length / 2n));
    }

    /** Its address fields, in the order of cylinder, head and place, each with what a look at it finds. */
    survey() {
        const bytes = this.taken("survey"), is = new DataView(bytes.buffer), fields = [];
        for (let at = 0; at < bytes.length; at += 11) {
            const [cylinder, head] = bytes.subarray(at, at + 2), [c, h, r, n, found] = bytes.subarray(at + 6, at + 11);
            fields.push({ cylinder, head, cell: is.getUint32(at + 2, true), c, h, r, n, found: FOUND[found] });
        }
        return fields;
    }
}
