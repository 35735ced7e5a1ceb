// The classes over one instance of the module. This file finds no module by itself, so that a page can bring its own.
import { Controller } from "./controller.js";
import { Desk } from "./desk.js";
import { Machine } from "./machine.js";
import { Memory } from "./memory.js";
import { Shelf } from "./shelf.js";
import { Tray } from "./tray.js";

/** The class for one instance. It has the name of its base, so that messages and debuggers show it. */
const classOver = (base, memory, classes) =>
    ({ [base.name]: class extends base { static memory = memory; static classes = classes; } })[base.name];

/**
 * Makes an instance of the module, with classes of its own.
 * @param {BufferSource | WebAssembly.Module} source the bytes of telwyddus.wasm, or the module compiled
 */
export async function instantiate(source) {
    const module = source instanceof WebAssembly.Module ? source : await WebAssembly.compile(source);
    const memory = new Memory((await WebAssembly.instantiate(module, {})).exports), classes = {};
    for (const base of [Controller, Tray, Machine, Desk, Shelf]) classes[base.name] = classOver(base, memory, classes);
    return Object.freeze({ ...classes, version: () => memory.calls.telwyddus_version(), memory: () => memory.length });
}
