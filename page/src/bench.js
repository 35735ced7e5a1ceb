// A controller on a bench: the page sends it commands and lets device steps pass, and every change of a line is kept for
// the drawing. The DMA channel is here too. Runs in the worker.
import { Lines, Signs } from "../../js/src/controller.js";
import { commandOf, phaseOf } from "./chip.js";

export class Bench {
    constructor(library, image) {
        this.library = library;
        this.controller = new library.Controller();
        this.now = 0;           // device steps since the bench was made
        this.events = [];       // what the page hasn't heard yet: {at, kind, ..}, of kind "lines", "out", "in", "dack" or "tc"
        this.channel = { memory: new Uint8Array(0), place: 0, latency: 0, wait: 0 };
        this.seen = "";
        this.insert(image);
    }

    free() { this.controller.free(); }

    insert(image) {
        if (!image) return;
        const tray = this.library.Tray.ofImage(image);
        this.controller.insert(0, tray);
        tray.free();
        this.look();
    }

    image() { return this.controller.image(0); }
    plan(text) { this.controller.plan(0, text); }

    note(event) { this.events.push({ at: this.now, ...event }); }

    /** What happened since this was asked last. */
    news() {
        const { events } = this;
        this.events = [];
        return events;
    }

    /** Keeps the lines, if one of them or the phase is another one than before. */
    look() {
        const { lines } = this.controller, phase = phaseOf(this.controller.read(0x3F4)), seen = `${lines} ${phase}`;
        if (seen === this.seen) return;
        this.seen = seen;
        this.note({ kind: "lines", lines: this.controller.lines, phase });
    }

    out(port, value) {
        this.controller.write(port, value);
        this.note({ kind: "out", port, value });
        this.look();
    }

    in(port) {
        const value = this.controller.read(port);
        this.note({ kind: "in", port, value });
        this.look();
        return value;
    }

    // ---- a command

    /** Writes a command's bytes to 3F5 as long as the controller takes them. Tells of each byte the MSR before it. */
    send(bytes, data, count) {
        this.channel = { ...this.channel, memory: channelMemory(commandOf(bytes[0]), data, count), place: 0, wait: this.channel.latency };
        const sent = [];
        for (const byte of bytes) {
            const msr = this.controller.read(0x3F4);
            if ((msr & 0xC0) !== 0x80) break;
            this.out(0x3F5, byte);
            sent.push({ byte, msr });
        }
        return sent;
    }

    /** Lets bytes pass while DRQ is up. With a latency, DRQ waits so many device steps first. */
    serve() {
        const { controller, channel } = this;
        while (controller.lines & Lines.DRQ && channel.place < channel.memory.length) {
            if (channel.wait > 0) {
                channel.wait--;
                return;
            }
            const rest = channel.memory.subarray(channel.place);
            let moved;
            if (controller.lines & Lines.TO_MEMORY) {
                const got = controller.dackBlockRead(rest.length);
                rest.set(got);
                moved = got.length;
            } else moved = controller.dackBlockWrite(rest);
            channel.place += moved;
            channel.wait = channel.latency;
            this.note({ kind: "dack", moved });
            if (channel.place === channel.memory.length) {
                controller.tc();
                this.note({ kind: "tc" });
            }
            this.look();
        }
    }

    /**
     * Lets device steps pass, at most so many, up to the end of `until`: "change" (INT or DRQ changes), "end" (nothing is
     * executed any more), or nothing.
     */
    advance(most, until = "") {
        const { controller } = this, from = this.now, lines = () => controller.lines & (Lines.INT | Lines.DRQ);
        while (this.now - from < most) {
            this.serve();
            if (until === "end" && !this.isBusy()) break;
            const before = lines();
            controller.step();
            this.now++;
            this.look();
            if (until === "change" && lines() !== before) return this.now - from;   // a DRQ that rose is served next time
        }
        this.serve();
        return this.now - from;
    }

    /** Whether a command is executed or held, or heads still move. */
    isBusy() {
        const msr = this.controller.read(0x3F4);
        if (phaseOf(msr) === "execution") return true;
        return (msr & 0x0F) !== 0 && !(this.controller.lines & Lines.INT);
    }

    /** Reads the result bytes, if there are any. */
    results() {
        const got = [];
        while ((this.controller.read(0x3F4) & 0xD0) === 0xD0 && got.length < 16) got.push(this.in(0x3F5));
        return got;
    }

    /** What a person at the bench sees now. */
    state() {
        const { controller } = this, bay = controller.bay(0), msr = controller.read(0x3F4);
        return {
            now: this.now, msr, phase: phaseOf(msr), dor: controller.read(0x3F2), dir: controller.read(0x3F7), lines: controller.lines, wordTime: controller.wordTime(),
            cylinder: bay.cylinder, motor: (bay.signs & Signs.MOTOR) !== 0, gate: (bay.signs & Signs.GATE) !== 0, hasMedium: (bay.signs & Signs.MEDIUM) !== 0,
            moved: this.channel.place, count: this.channel.memory.length,
        };
    }

    // ---- a driver

    /** A whole command: its bytes, its execution, and its results. */
    whole(bytes, data, count) {
        const from = this.now;
        const sent = this.send(bytes, data, count);
        this.advance(400000, "end");
        return { bytes: sent.map((it) => it.byte), results: this.results(), steps: this.now - from, moved: this.channel.place };
    }

    /** What a BIOS does first: the reset ends, the interrupt of the four drives is taken, the heads go to track 0. */
    powerUp(kilobits) {
        const sense = () => this.whole([0x08]);
        this.out(0x3F2, 0x18);
        this.out(0x3F7, kilobits === 250 ? 2 : 0);
        this.out(0x3F2, 0x1C);
        this.advance(1000, "change");
        for (let drive = 0; drive < 4; drive++) sense();
        this.whole([0x03, 0xDF, 0x02]);
        this.advance(7000);     // the medium comes up to speed
        this.whole([0x07, 0]);
        sense();
    }

    /**
     * Reads a sector as a driver does: a seek, then READ DATA, so many times at most, with a RECALIBRATE between the tries.
     * Tells of each try the results and where it lies in time.
     */
    tries(cylinder, head, [c, h, r, n], most) {
        const tries = [], unit = head << 2;
        while (tries.length < most) {
            if (tries.length > 0) { this.whole([0x07, 0]); this.whole([0x08]); }
            this.whole([0x0F, unit, cylinder]);
            this.whole([0x08]);
            const from = this.now, done = this.whole([0x46, unit, c, h, r, n, r, 0x1B, 0xFF], null, 128 << n);
            tries.push({ ...done, from, upto: this.now, content: this.channel.memory.slice(0, this.channel.place) });
            if ((done.results[0] & 0xC0) === 0) break;
        }
        return tries;
    }
}

/** The channel's bytes for a command: room for those that are read, or those that are given, over and over. */
function channelMemory(command, data, count) {
    const memory = new Uint8Array(command.moves === null ? 0 : count ?? 0);
    if (command.moves !== "read" && data?.length) for (let at = 0; at < memory.length; at++) memory[at] = data[at % data.length];
    return memory;
}
