// The module's memory, and the slots in it. Nothing outside this file knows where an object lies.
import { NoMemory, refusal } from "./errors.js";

const EMPTY = 1, TOO_SHORT = 10;    // codes of the header
// A block that an object has all its life: its slot, which on wasm32 too has a pointer of eight bytes and a tag, and then
// places for what calls hand out through pointers. So a port access needs no block of its own.
const SLOT = 16, NUMBER = 16, LINES = 24, LENGTH = 32, PLACE = 40, LINE = 48, WHOLE = 64;

/** A number that the call can have. JavaScript would cut it without a word. */
export function number(bits, value) {
    if (!Number.isInteger(value) || value < 0 || value >= 2 ** bits) throw new RangeError(`${value} isn't a number of ${bits} bits`);
    return value;
}
export const byte = (value) => number(8, value);
export const port = (value) => number(16, value);
export const count = (value) => number(32, value);
/** Lengths and addresses in the machine's memory have 64 bits on wasm32 too. */
export const size = (value) => BigInt(number(53, value));
export const flag = (on) => (on ? 1 : 0);

/** One instance of the module. */
export class Memory {
    #view = new DataView(new ArrayBuffer(0));

    constructor(calls) {
        this.calls = calls;
        /** Frees what a program forgot to free, some time after it let the object go. */
        this.forgotten = new FinalizationRegistry(({ kind, at }) => this.end(kind, at));
    }

    /** Bytes of the memory. A view is of use up to the next call alone: if the memory grows, older views are empty. */
    bytes(at, length) { return new Uint8Array(this.calls.memory.buffer, at, length); }
    /** The whole memory, made anew if it has grown. */
    get data() {
        const { buffer } = this.calls.memory;
        return this.#view.buffer === buffer ? this.#view : (this.#view = new DataView(buffer));
    }

    take(length) {
        const at = this.calls.heap_take(BigInt(length)) >>> 0;
        if (at === 0) throw new NoMemory("heap_take", "there is no memory left");
        return at;
    }

    /** Gives `use` a block of the memory, and takes it back afterwards. */
    with(length, use) {
        const at = this.take(length || 1);
        try {
            return use(at);
        } finally {
            this.calls.heap_give(at);
        }
    }

    /** The block with these bytes in it. */
    withBytes(bytes, use) {
        return this.with(bytes.length, (at) => {
            this.bytes(at, bytes.length).set(bytes);
            return use(at, BigInt(bytes.length));
        });
    }

    end(kind, at) {
        this.calls[`telwyddus_${kind}_free`](at);
        this.calls.heap_give(at);
    }

    /** How many bytes the module has. It never gives any back. */
    get length() { return this.calls.memory.buffer.byteLength; }
}

/** An object of the library, in a slot of its own. `load` makes classes that have their module as `memory`. */
export class Slot {
    static kind = "";
    /** @type {Memory} */
    static memory;
    /** The classes of the same module. */
    static classes;

    constructor() {
        const { memory, kind } = this.constructor;
        this.memory = memory;
        this.kind = kind;
        this.at = memory.take(WHOLE);
        memory.bytes(this.at, SLOT).fill(0);
        memory.forgotten.register(this, { kind, at: this.at }, this);
    }

    /** Frees the object. It is harmless to do it once more; any other call on it throws Empty afterwards. */
    free() {
        if (this.at === 0) return;
        this.memory.forgotten.unregister(this);
        this.memory.end(this.kind, this.at);
        this.at = 0;
    }

    /** Makes an object, and frees it again if that fails. */
    static made(make) {
        const object = new this();
        try {
            make(object);
            return object;
        } catch (fault) {
            object.free();
            throw fault;
        }
    }

    /** A call, and its code. */
    ask(name, ...words) {
        if (this.at === 0) throw refusal(`${this.kind}_${name}`, EMPTY);
        return this.memory.calls[`telwyddus_${this.kind}_${name}`](this.at, ...words);
    }

    /** A call that has to be done. */
    do(name, ...words) {
        const code = this.ask(name, ...words);
        if (code !== 0) throw refusal(`${this.kind}_${name}`, code);
    }

    #numberAt(bits, at) {
        const { data } = this.memory;
        return bits === 8 ? data.getUint8(at) : bits === 32 ? data.getUint32(at, true) : Number(data.getBigUint64(at, true));
    }

    /** The number that a call hands out through its last pointer. */
    told(bits, name, ...words) {
        this.do(name, ...words, this.at + NUMBER);
        return this.#numberAt(bits, this.at + NUMBER);
    }

    /** A call that hands out the lines through its last pointer, also if it is refused. They go to `lines`. */
    telling(name, ...words) {
        this.memory.data.setUint8(this.at + LINES, this.lines);
        try {
            this.do(name, ...words, this.at + LINES);
        } finally {
            if (this.at !== 0) this.lines = this.memory.data.getUint8(this.at + LINES);
        }
    }

    /** The same, with a number before the lines. */
    tellingNumber(bits, name, ...words) {
        this.telling(name, ...words, this.at + NUMBER);
        return this.#numberAt(bits, this.at + NUMBER);
    }

    /** Bytes of a call that says how many units of `unit` bytes there are. `after` are the arguments after the length. */
    taken(name, words = [], { after = [], unit = 1 } = {}) {
        const told = this.at + LENGTH, length = () => this.#numberAt(64, told);
        const ask = (at, room) => this.ask(name, ...words, at, BigInt(room), told, ...after);
        const first = ask(told, 0);
        if (first === 0) return new Uint8Array(0);
        if (first !== TOO_SHORT) throw refusal(`${this.kind}_${name}`, first);
        return this.memory.with(length() * unit, (at) => {
            const code = ask(at, length());
            if (code !== 0) throw refusal(`${this.kind}_${name}`, code);
            return this.memory.bytes(at, length() * unit).slice();
        });
    }

    /** Gives `use` two bytes for a call that says which track is unfit. They are put into the error. */
    fitting(use) {
        const place = this.at + PLACE;
        try {
            return use(place, place + 1);
        } catch (fault) {
            if (fault.code === "UNFIT") [fault.cylinder, fault.head] = this.memory.bytes(place, 2);
            throw fault;
        }
    }

    /** Gives `use` a plan's text, and room for the number of the line that isn't understood. It is put into the error. */
    planned(plan, use) {
        this.memory.withBytes(new TextEncoder().encode(plan), (at, length) => {
            try {
                use(at, length, this.at + LINE);
            } catch (fault) {
                if (fault.code === "BAD_PLAN") fault.line = this.#numberAt(64, this.at + LINE);
                throw fault;
            }
        });
    }
}

/** Words of 16 cells; the first cell is the highest bit. */
export const wordsOf = (bytes) => new Uint16Array(bytes.buffer, bytes.byteOffset, bytes.length / 2);

/** All that a medium is, except its cells. */
export function shapeOf(slot, ...words) {
    const at = slot.at + NUMBER;
    slot.do("shape", ...words, at);
    const { data } = slot.memory;
    return {
        words: data.getUint16(at, true), kilobits: data.getUint16(at + 2, true),
        cylinders: data.getUint8(at + 4), heads: data.getUint8(at + 5), isProtected: data.getUint8(at + 6) !== 0,
    };
}
