// The bare controller of the library in the PC: its ports, channel 2 of the 8237 with its page register, and its
// interrupt line.
import { Lines } from "../src/controller.js";

/** The PC counts its time in word times of 500 kbit/s. */
const NANOSECONDS = 16000;
const READ = 1, WRITE = 2;      // what a transfer does: to memory, or from it

/** Channel 2 of an 8237. Its other channels aren't there. */
class Channel {
    constructor(ram) { Object.assign(this, { ram, address: 0, count: 0, page: 0, mode: 0, command: 0, status: 0, isMasked: true, isSecond: false }); }

    /** Whether a byte may pass: single transfers, with the address going up. */
    get grants() { return !this.isMasked && !(this.command & 4) && (this.mode & 0xF0) === 0x40 && (this.mode & 0x0C) !== 0x0C; }
    get kind() { return this.mode >> 2 & 3; }
    get place() { return (this.page & 15) << 16 | this.address; }

    /** Goes on to the next byte, and says whether that was the last one. */
    next() {
        this.address = this.address + 1 & 0xFFFF;
        this.count = this.count - 1 & 0xFFFF;
        if (this.count !== 0xFFFF) return false;
        this.status |= 4;
        this.isMasked = true;
        return true;
    }

    /** A register of 16 bits passes in two halves. */
    #half(old, value) {
        this.isSecond = !this.isSecond;
        return this.isSecond ? old & 0xFF00 | value : value << 8 | old & 0xFF;
    }

    write(port, value) {
        if (port === 0x04) this.address = this.#half(this.address, value);
        else if (port === 0x05) this.count = this.#half(this.count, value);
        else if (port === 0x08) this.command = value;
        else if (port === 0x0A && (value & 3) === 2) this.isMasked = (value & 4) !== 0;
        else if (port === 0x0B && (value & 3) === 2) this.mode = value;
        else if (port === 0x0C) this.isSecond = false;
        else if (port === 0x0D) Object.assign(this, { isSecond: false, status: 0, command: 0, isMasked: true });
        else if (port === 0x0E) this.isMasked = false;
        else if (port === 0x0F) this.isMasked = (value & 4) !== 0;
        else if (port === 0x81) this.page = value;
    }

    read(port) {
        if (port === 0x81) return this.page;
        if (port === 0x08) {
            const { status } = this;
            this.status = 0;
            return status;
        }
        if (port !== 0x04 && port !== 0x05) return 0xFF;
        const value = port === 0x04 ? this.address : this.count;
        this.isSecond = !this.isSecond;
        return this.isSecond ? value & 0xFF : value >> 8;
    }
}

export class Floppy {
    /**
     * @param controller a Controller of the library, with its media
     * @param {Uint8Array} ram the PC's memory
     * @param {() => void} interrupt asks for interrupt line 6
     */
    constructor(controller, ram, interrupt) {
        this.controller = controller;
        this.channel = new Channel(ram);
        this.interrupt = interrupt;
        this.accesses = this.moved = this.steps = 0;    // of ports, of bytes by DMA, of the device
        this.isUp = this.hasRisen = false;              // INT, as it was seen last, and whether it rose since the last step
        this.followsRate = true;                        // a device step lasts as long as the rate says; otherwise always 16 microseconds
        this.wordTime = controller.wordTime();
        this.owed = 0;
        /** Hears what happens here: "out" and "in" with a port and a byte, "interrupt", and "count" at the end of a transfer. */
        this.hears = null;
    }

    static has(port) { return (port >= 0x3F2 && port <= 0x3F5) || port === 0x3F7 || port < 0x10 || port === 0x81; }

    #tell(kind, port, value) { if (this.hears !== null) this.hears(kind, port, value); }

    /** After each call of the controller: bytes pass by DMA while DRQ is up, and INT may have risen. */
    attend() {
        const { controller, channel } = this;
        while (controller.lines & Lines.DRQ && channel.grants) this.#transfer();
        const isUp = (controller.lines & Lines.INT) !== 0;
        if (isUp && !this.isUp) {
            this.hasRisen = true;
            this.#tell("interrupt");
        }
        this.isUp = isUp;
    }

    #transfer() {
        const { controller, channel } = this, { ram, place, kind } = channel;
        if (controller.lines & Lines.TO_MEMORY) {
            const byte = controller.dackRead();
            if (kind === READ) ram[place] = byte;
        } else controller.dackWrite(kind === WRITE ? ram[place] : 0xFF);
        this.moved++;
        if (!channel.next()) return;
        controller.tc();
        this.#tell("count");
    }

    read(port) {
        this.accesses++;
        if (port < 0x10 || port === 0x81) return this.channel.read(port);
        const value = this.controller.read(port);
        this.attend();
        this.#tell("in", port, value);
        return value;
    }

    write(port, value) {
        this.accesses++;
        if (port < 0x10 || port === 0x81) {
            this.channel.write(port, value);
            return;
        }
        this.controller.write(port, value);
        this.wordTime = this.controller.wordTime();     // 3F4 and 3F7 choose the rate
        this.#tell("out", port, value);
        this.attend();
    }

    /** How many device steps there are in some word times of the PC. */
    #stepsIn(words) {
        if (!this.followsRate) return words;
        this.owed += NANOSECONDS * words;
        const steps = Math.floor(this.owed / this.wordTime);
        this.owed -= steps * this.wordTime;
        return steps;
    }

    /** Lets word times pass. A run of the controller ends when a line changes, so no byte comes late. */
    pass(words) {
        this.attend();
        let rises = this.hasRisen;
        this.hasRisen = false;
        for (let left = this.#stepsIn(words); left > 0;) {
            const made = this.controller.run(left);
            left -= made;
            this.steps += made;
            this.attend();
            rises ||= this.hasRisen;
            this.hasRisen = false;
        }
        if (rises) this.interrupt();
    }
}
