import { Slot } from "./memory.js";

const text = (bytes) => new TextDecoder().decode(bytes);
const bytesOf = (word) => new TextEncoder().encode(word);

/** Files in memory, on which the program `floppy` runs. */
export class Shelf extends Slot {
    static kind = "shelf";

    constructor() {
        super();
        try {
            this.do("new");
        } catch (fault) {
            this.free();
            throw fault;
        }
    }

    put(name, bytes) {
        this.memory.withBytes(bytesOf(name), (at, length) => this.memory.withBytes(bytes, (data, count) => this.do("put", at, length, data, count)));
    }
    get(name) { return this.memory.withBytes(bytesOf(name), (at, length) => this.taken("get", [at, length])); }
    /** Runs the program with these arguments, and gives its exit status. */
    run(...words) {
        if (words.some((word) => word.includes("\n"))) throw new RangeError("a line feed in an argument");
        return this.memory.withBytes(bytesOf(words.join("\n")), (at, length) => this.told(32, "run", at, length));
    }
    /** What runs printed since the last report. */
    report() { return text(this.taken("report")); }
}
