// A small PC/AT around the controller of the library. It has what a BIOS asks for, and boots from a diskette. Its model is
// bios/pc.c with bios/cpu.c, which has libx86emu for its processor.
import { Clock, Interrupts, Keyboard, Timer } from "./chips.js";
import { Floppy } from "./floppy.js";
import { Memory, VIDEO_INTERRUPT } from "./memory.js";
import { INTERRUPT, Stop } from "./names.js";
import { Processor } from "./processor.js";
import { Screen } from "./screen.js";

/** SeaBIOS looks for its message port, and writes to it what it does. */
const MESSAGES = 0x402, MESSAGES_ARE_THERE = 0xE9;
const KEPT = 8192;

export class Computer {
    /**
     * @param given.bios the bytes of a BIOS that ends at 1 MB
     * @param given.controller a Controller of the library, whose media are in its drives
     * @param given.perWord how many instructions the processor executes in a word time of 16 microseconds
     */
    constructor({ bios, controller, perWord = 16 }) {
        this.memory = new Memory(bios);
        this.cpu = new Processor(this.memory, this);
        this.screen = new Screen(this.memory.ram);
        this.interrupts = new Interrupts();
        this.timer = new Timer();
        this.clock = new Clock();
        this.keyboard = new Keyboard(() => this.interrupts.set(1, true));
        this.floppy = new Floppy(controller, this.memory.ram, () => this.interrupts.set(6, true));
        this.perWord = perWord;
        this.words = 0;         // word times that have passed
        this.extra = 0;         // time besides that of instructions: of port accesses, and of waiting
        this.retrace = 0;
        this.messages = "";     // the end of what the BIOS wrote to its message port
        this.stopped = null;    // why the PC can't go on
    }

    // ---- time

    #catchUp() {
        const due = Math.floor((this.cpu.count + this.extra) / this.perWord) - this.words;
        if (due <= 0) return;
        this.words += due;
        if (this.timer.pass(due) > 0) this.interrupts.set(0, true);
        this.floppy.pass(due);
    }

    /** A port access takes the time of an instruction, and everything else catches up before it. */
    #access() {
        this.extra++;
        this.#catchUp();
    }

    // ---- the processor's bus

    in(port, size) {
        this.#access();
        let value = 0;
        for (let i = 0; i < size; i++) value |= this.#read(port + i & 0xFFFF) << 8 * i;
        return value >>> 0;
    }

    out(port, size, value) {
        this.#access();
        for (let i = 0; i < size; i++) this.#write(port + i & 0xFFFF, value >>> 8 * i & 0xFF);
    }

    /** Interrupts that aren't the BIOS's. */
    serves(vector) {
        if (vector !== VIDEO_INTERRUPT) return false;
        this.screen.call(this.cpu);
        return true;
    }

    #read(port) {
        if (Floppy.has(port)) return this.floppy.read(port);
        switch (port) {
        case 0x20: case 0x21: return this.interrupts.pair[0].read(port & 1);
        case 0xA0: case 0xA1: return this.interrupts.pair[1].read(port & 1);
        case 0x40: case 0x41: case 0x42: case 0x43: return this.timer.read(port & 3);
        case 0x60: return this.keyboard.readData();
        case 0x61: return this.timer.readPort61();
        case 0x64: return this.keyboard.status;
        case 0x70: return this.clock.at;
        case 0x71: return this.clock.read(this.words);
        case 0x92: return 0x02;             // addresses have all their bits
        case 0x3DA: return this.retrace ^= 9;
        case MESSAGES: return MESSAGES_ARE_THERE;
        }
        return 0xFF;
    }

    #write(port, value) {
        if (Floppy.has(port)) {
            this.floppy.write(port, value);
            return;
        }
        switch (port) {
        case 0x20: case 0x21: this.interrupts.pair[0].write(port & 1, value); return;
        case 0xA0: case 0xA1: this.interrupts.pair[1].write(port & 1, value); return;
        case 0x40: case 0x41: case 0x42: case 0x43: this.timer.write(port & 3, value); return;
        case 0x60: this.keyboard.writeData(value); return;
        case 0x61: this.timer.writePort61(value); return;
        case 0x64: this.keyboard.writeCommand(value); return;
        case 0x70: this.clock.at = value & 0x7F; return;
        case 0x71: this.clock.write(value); return;
        case MESSAGES: this.messages = (this.messages + String.fromCharCode(value)).slice(-KEPT);
        }
    }

    // ---- running

    /** While the processor is halted, time passes until a line is up. */
    #sleep(upto) {
        while (this.interrupts.line < 0 && this.words < upto) {
            this.extra += this.perWord;
            this.#catchUp();
        }
        this.cpu.isHalted = this.interrupts.line < 0;
    }

    /** Serves an interrupt, if one waits and the processor takes it. Some instructions hold it off until the next one has ended. */
    #serve() {
        const { cpu, interrupts } = this;
        while ((cpu.flags & INTERRUPT) !== 0 && interrupts.line >= 0) {
            if (!cpu.holdsOff) {
                cpu.isHalted = false;
                cpu.interrupt(interrupts.take());
                return;
            }
            cpu.run(cpu.count + 1);
        }
    }

    #slice(most, upto) {
        const { cpu } = this;
        if (!cpu.isHalted) {
            cpu.run(cpu.count + most);
            this.#catchUp();
        }
        if (cpu.isHalted && !(cpu.flags & INTERRUPT)) {
            this.stopped = "the processor halted, and takes no interrupt";
            return;
        }
        if (cpu.isHalted) this.#sleep(upto);
        this.#serve();
    }

    /** Up to the end of the word time; one instruction while an interrupt waits, since it may be let in for a moment only. */
    #most() {
        const left = (this.words + 1) * this.perWord - this.cpu.count - this.extra;
        return left > 0 && this.interrupts.line < 0 ? left : 1;
    }

    /** Runs until so many word times have passed in all, until `isOver` says so, or until the PC stops. */
    run(upto, isOver = () => false) {
        try {
            while (this.words < upto && this.stopped === null && !isOver()) this.#slice(this.#most(), upto);
        } catch (fault) {
            this.#stop(fault);
        }
    }

    /** Executes one instruction. If the processor is halted, time passes until it goes on. */
    step() {
        try {
            if (this.stopped === null) this.#slice(1, Infinity);
        } catch (fault) {
            this.#stop(fault);
        }
    }

    #stop(fault) {
        if (!(fault instanceof Stop)) throw fault;
        this.stopped = fault.message;
    }
}
