// The library for C (c/telwyddus.h) in JavaScript. The header says what each call does.
//
//     import { load, Lines } from "telwyddus";
//     const { Tray, Controller } = await load();
//     const tray = Tray.ofImage(bytes), controller = new Controller();
//     controller.insert(0, tray);
//     controller.write(0x3F2, 0x1C);
//
// A call that answers another code than DONE throws the error of that code. Call `free` on what is done with.
import { instantiate } from "./src/library.js";

export * from "./src/errors.js";
export { Lines, Signs } from "./src/controller.js";
export { instantiate };

/** The module that lies beside this file. */
async function beside() {
    const at = new URL("./telwyddus.wasm", import.meta.url);
    if (at.protocol !== "file:") return (await fetch(at)).arrayBuffer();
    const { readFile } = await import("node:fs/promises");
    return readFile(at);
}

/**
 * Makes an instance of the library: {Controller, Tray, Machine, Desk, Shelf, version, memory}. Instances share nothing.
 * @param {BufferSource | WebAssembly.Module} [source] the bytes of telwyddus.wasm; without them, the file beside this one
 */
export async function load(source) { return instantiate(source ?? await beside()); }
