// The chips of a PC/AT that a BIOS needs besides the floppy controller: interrupt controllers, timer, clock, keyboard.

/** An 8259. A line that rises stays asked for until it is taken or falls. */
class InterruptController {
    constructor(base) { Object.assign(this, { asked: 0, served: 0, masked: 0xFF, base, word: 0, readsServed: false, hasFourth: false }); }

    /** The line of the highest priority that may interrupt now, or -1. `extra` is a line that is asked for besides. */
    highest(extra = 0) {
        const wanted = (this.asked | extra) & ~this.masked;
        for (let line = 0; line < 8; line++) {
            if (this.served >> line & 1) return -1;
            if (wanted >> line & 1) return line;
        }
        return -1;
    }

    take(line) {
        this.served |= 1 << line;
        this.asked &= ~(1 << line);
    }

    read(register) { return register === 1 ? this.masked : this.readsServed ? this.served : this.asked; }

    write(register, value) {
        if (register === 0) this.#command(value);
        else if (this.word === 1) {
            this.base = value & 0xF8;
            this.word = 2;
        } else if (this.word === 2) this.word = this.hasFourth ? 3 : 0;
        else if (this.word === 3) this.word = 0;
        else this.masked = value;
    }

    #command(value) {
        if (value & 0x10) Object.assign(this, { asked: 0, served: 0, masked: 0, base: 0, word: 1, readsServed: false, hasFourth: (value & 1) !== 0 });
        else if (value & 8) {
            if (value & 2) this.readsServed = (value & 1) !== 0;
        } else if ((value & 0xE0) === 0x20) this.served &= this.served - 1;     // the end of the interrupt in service that is highest
        else if ((value & 0xE0) === 0x60) this.served &= ~(1 << (value & 7));
    }
}

/** The two 8259 of an AT. The second one is at line 2 of the first one. */
export class Interrupts {
    constructor() { this.pair = [new InterruptController(0x08), new InterruptController(0x70)]; }

    set(line, isUp) {
        const controller = this.pair[line >> 3], bit = 1 << (line & 7);
        controller.asked = isUp ? controller.asked | bit : controller.asked & ~bit;
    }

    /** The line that interrupts next, or -1. */
    get line() {
        const second = this.pair[1].highest(), first = this.pair[0].highest(second < 0 ? 0 : 4);
        return first === 2 && second >= 0 ? 8 + second : first;
    }

    /** The processor takes the interrupt: gives its vector. */
    take() {
        const { line } = this;
        if (line > 7) this.pair[0].served |= 4;
        this.pair[line >> 3].take(line & 7);
        return this.pair[line >> 3].base + (line & 7);
    }
}

/** A counter of an 8254. It counts down, and begins again; in mode 0 it counts once. */
class Counter {
    constructor() { Object.assign(this, { load: 0x10000, count: 0x10000, latch: 0, mode: 0, access: 3, isLatched: false, writesHigh: false, readsHigh: false, isOver: false }); }

    /** Lets clocks pass, and says how often it came to 0. */
    pass(clocks) {
        let ends = 0;
        for (let left = clocks; left > 0;) {
            const some = Math.min(left, this.count);
            this.count -= some;
            left -= some;
            if (this.count > 0) break;
            this.count = this.mode === 0 ? 0x10000 : this.load;
            this.isOver ||= this.mode === 0;
            ends++;
        }
        return ends;
    }

    hold() { Object.assign(this, { latch: this.count & 0xFFFF, isLatched: true }); }

    command(value) {
        if ((value & 0x30) === 0) this.hold();
        else Object.assign(this, { access: value >> 4 & 3, mode: value >> 1 & 3, writesHigh: false, readsHigh: false, isOver: false });
    }

    write(value) {
        if (this.access === 3 && !this.writesHigh) {
            this.load = this.load & 0xFF00 | value;
            this.writesHigh = true;
            return;
        }
        const count = this.access === 1 ? value : this.access === 2 ? value << 8 : this.load & 0xFF | value << 8;
        this.writesHigh = false;
        this.load = this.count = count || 0x10000;
        this.isOver = false;
    }

    read() {
        const value = this.isLatched ? this.latch : this.count & 0xFFFF;
        const isLow = this.access === 1 || (this.access === 3 && !this.readsHigh);
        if (this.access === 3) this.readsHigh = !this.readsHigh;
        if (!isLow || this.access === 1) this.isLatched = false;
        return isLow ? value & 0xFF : value >> 8;
    }
}

/** An 8254 of 1.193182 MHz. Counter 0 is at interrupt line 0, and port 61 lets counter 2 count. */
export class Timer {
    constructor() {
        this.counters = [new Counter(), new Counter(), new Counter()];
        this.port61 = this.refresh = 0;
        this.rest = 0;      // millionths of a clock
    }

    /** Lets word times of 16 microseconds pass, and says how often counter 0 came to 0. */
    pass(words) {
        this.rest += 19090912 * words;
        const clocks = Math.floor(this.rest / 1000000);
        this.rest %= 1000000;
        const ticks = this.counters[0].pass(clocks);
        this.counters[1].pass(clocks);
        if (this.port61 & 1) this.counters[2].pass(clocks);
        return ticks;
    }

    read(register) { return register === 3 ? 0xFF : this.counters[register].read(); }

    write(register, value) {
        if (register < 3) this.counters[register].write(value);
        else if (value >> 6 < 3) this.counters[value >> 6].command(value);
        else if ((value & 0x20) === 0) this.counters.forEach((counter, i) => { if (value >> i + 1 & 1) counter.hold(); });
    }

    readPort61() {
        this.refresh ^= 0x10;
        return this.port61 & 0x0F | this.refresh | (this.counters[2].isOver ? 0x20 : 0);
    }

    writePort61(value) { this.port61 = value & 3; }
}

/** What the memory of the clock has at first: a date, one drive of 1.44 MB, 640 KB and 15 MB, and to boot from a diskette. */
const CLOCK = [[0x02, 0x30], [0x04, 0x12], [0x06, 7], [0x07, 0x28], [0x08, 0x11], [0x09, 0x26], [0x0A, 0x26], [0x0B, 0x02], [0x0D, 0x80], [0x32, 0x20],
    [0x10, 0x40], [0x14, 0x25], [0x15, 0x80], [0x16, 0x02], [0x17, 0x00], [0x18, 0x3C], [0x30, 0x00], [0x31, 0x3C], [0x2D, 0x20], [0x38, 0x00], [0x3D, 0x01]];
const WORDS_A_SECOND = 62500;

/** The clock with its memory. Only its seconds go on. */
export class Clock {
    constructor() {
        this.bytes = new Uint8Array(128);
        this.at = 0;
        for (const [at, value] of CLOCK) this.bytes[at] = value;
        const sum = this.bytes.subarray(0x10, 0x2E).reduce((whole, byte) => whole + byte, 0);
        this.bytes[0x2E] = sum >> 8;
        this.bytes[0x2F] = sum;
    }

    /** Reads the byte that was chosen; `words` are the word times since the start. */
    read(words) {
        const { at, bytes } = this, value = bytes[at], seconds = Math.floor(words / WORDS_A_SECOND) % 60;
        if (at === 0x00) return Math.floor(seconds / 10) << 4 | seconds % 10;
        if (at === 0x0A) return value & 0x7F | (words % WORDS_A_SECOND < 16 ? 0x80 : 0);
        if (at === 0x0C) bytes[at] = 0;
        return value;
    }

    write(value) { if (this.at !== 0x0D) this.bytes[this.at] = value; }
}

/** The keyboard with its controller. It gives the first set of scan codes. */
export class Keyboard {
    /** @param {() => void} interrupt asks for interrupt line 1 */
    constructor(interrupt) { Object.assign(this, { interrupt, queue: [], last: 0, mode: 0x45, command: 0, output: 0x03 }); }

    give(...bytes) {
        for (const byte of bytes) {
            this.queue.push(byte);
            if (this.mode & 1) this.interrupt();
        }
    }

    /** A byte of a key. The keyboard keeps it if it is switched off, or while an earlier byte waits; then this is false. */
    press(byte) {
        if (this.mode & 0x10 || this.queue.length > 0) return false;
        this.give(byte);
        return true;
    }

    get status() { return 0x1C | (this.queue.length > 0 ? 1 : 0); }

    readData() {
        if (this.queue.length === 0) return this.last;
        this.last = this.queue.shift();
        if (this.queue.length > 0 && this.mode & 1) this.interrupt();
        return this.last;
    }

    writeCommand(value) {
        this.command = 0;
        const answer = { 0x20: this.mode, 0xAA: 0x55, 0xAB: 0x00, 0xA9: 0x00, 0xC0: 0x80, 0xD0: this.output }[value];
        if (answer !== undefined) this.give(answer);
        else if (value === 0xAD) this.mode |= 0x10;
        else if (value === 0xAE) this.mode &= 0xEF;
        else if (value === 0xA7) this.mode |= 0x20;
        else if (value === 0xA8) this.mode &= 0xDF;
        else if (value === 0x60 || (value >= 0xD1 && value <= 0xD4)) this.command = value;
    }

    /** A byte for the controller, after its command, or one for the keyboard. There is no mouse. */
    writeData(value) {
        const { command } = this;
        this.command = 0;
        if (command === 0x60) this.mode = value;
        else if (command === 0xD1) this.output = value;
        else if (command === 0xD2) this.give(value);
        else if (command === 0xED || command === 0xF3 || command === 0xF0) this.give(0xFA);
        else if (command !== 0xD3 && command !== 0xD4) this.#tell(value);
    }

    #tell(value) {
        this.give(0xFA);
        if (value === 0xFF) this.give(0xAA);
        else if (value === 0xF2) this.give(0xAB, 0x41);
        else if (value === 0xED || value === 0xF3 || value === 0xF0) this.command = value;
    }
}
