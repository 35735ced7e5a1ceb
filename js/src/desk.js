import { Drives } from "./drives.js";
import { byte, count, flag, port } from "./memory.js";

/** Single sectors: a PC/AT with its driver, and two drives without faults. */
export class Desk extends Drives {
    static kind = "disk";

    constructor() {
        super();
        try {
            this.do("new");
        } catch (fault) {
            this.free();
            throw fault;
        }
    }

    acknowledge(bay) { this.do("acknowledge", count(bay)); }
    setRate(bay, kilobits) { this.do("set_rate", count(bay), port(kilobits)); }
    /** Formats a track in the standard layout of the bay's rate. */
    format(bay, c, h) { this.do("format", count(bay), byte(c), byte(h)); }
    /** The bytes of a sector, and whether it is marked deleted. */
    read(bay, c, h, r, n = 2) {
        const room = 128 << Math.min(n, 6);
        return this.memory.with(room + 1, (at) => {
            this.do("read", count(bay), byte(c), byte(h), byte(r), byte(n), at, BigInt(room), at + room);
            return { bytes: this.memory.bytes(at, room).slice(), deleted: this.memory.bytes(at + room, 1)[0] !== 0 };
        });
    }
    /** Writes a sector, and reads it back. */
    write(bay, c, h, r, bytes, { n = 2, deleted = false } = {}) {
        this.memory.withBytes(bytes, (at, length) => this.do("write", count(bay), byte(c), byte(h), byte(r), byte(n), at, length, flag(deleted)));
    }
}
