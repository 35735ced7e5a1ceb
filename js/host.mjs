// node js/host.mjs MODULE [ARGUMENT..]: runs a program in C that js/check compiled for wasm32. An argument that is the
// name of a file is given to the program as a file. The program's output, its messages and its status are this one's.
import { existsSync, readFileSync, statSync, writeSync } from "node:fs";

class Ended extends Error {
    constructor(status) {
        super(`status ${status}`);
        this.status = status;
    }
}

const [, , name, ...given] = process.argv, texts = new TextDecoder();
const files = new Map(given.filter((word) => existsSync(word) && statSync(word).isFile()).map((word) => [word, readFileSync(word)]));
const open = [null, null, null];    // the numbers 0 to 2 are the standard streams
let calls;
const view = (at, length) => new Uint8Array(calls.memory.buffer, at >>> 0, Number(length));
const host = {
    write(to, at, length) { writeSync(to, view(at, length)); },
    open(at, length) {
        const found = files.get(texts.decode(view(at, length)));
        return found === undefined ? -1 : open.push(found) - 1;
    },
    size(file) { return open[file].length; },
    read(file, from, to, count) {
        const part = open[file].subarray(from, from + count);
        view(to, part.length).set(part);
        return part.length;
    },
    exit(status) { throw new Ended(status); },
};

const { instance } = await WebAssembly.instantiate(readFileSync(name), { host });
calls = instance.exports;
const words = new TextEncoder().encode([name, ...given].map((word) => word + "\0").join(""));
view(calls.words(), words.length).set(words);
try {
    calls.run(given.length + 1);
} catch (end) {
    if (!(end instanceof Ended)) throw end;
    process.exitCode = end.status;
}
