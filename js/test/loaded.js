// The library that js/check names, and a driver at the ports for the tests.
import { readFileSync } from "node:fs";
import { Lines, load } from "../telwyddus.js";

export const library = await load(process.env.TELWYDDUS_WASM ? readFileSync(process.env.TELWYDDUS_WASM) : undefined);

/** A driver and its DMA channel, at the ports of a bare controller. */
export class Guest {
    constructor(controller) {
        this.controller = controller;
        controller.write(0x3F2, 0x1C);
        controller.write(0x3F7, 0);
        this.untilInt();
        for (let drive = 0; drive < 4; drive++) this.command([0x08]);
    }

    untilInt() { while (!(this.controller.lines & Lines.INT)) this.controller.run(100000); }

    /** Writes a command, moves the bytes of `memory`, and gives the results and how many bytes passed. */
    command(bytes, memory = new Uint8Array(0)) {
        const { controller } = this, results = [];
        let moved = 0;
        for (const byte of bytes) controller.write(0x3F5, byte);
        while ((controller.read(0x3F4) & 0xD0) === 0x10) {
            if (!(controller.lines & Lines.DRQ) || moved === memory.length) {
                controller.run(100000);
                continue;
            }
            const rest = memory.subarray(moved);
            if (controller.lines & Lines.TO_MEMORY) {
                const got = controller.dackBlockRead(rest.length);
                rest.set(got);
                moved += got.length;
            } else moved += controller.dackBlockWrite(rest);
            if (moved === memory.length) controller.tc();
        }
        while ((controller.read(0x3F4) & 0xD0) === 0xD0) results.push(controller.read(0x3F5));
        return { results, moved };
    }

    seek(cylinder, head = 0) {
        this.command([0x0F, head << 2, cylinder]);
        this.untilInt();
        return this.command([0x08]).results;
    }
}

export const content = (length = 1474560) => Uint8Array.from({ length }, (_, i) => i * 31 + (i >> 9) * 7 & 255);
export const same = (one, other) => Buffer.compare(Buffer.from(one), Buffer.from(other)) === 0;
