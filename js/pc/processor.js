// A processor of the 80386's instruction set, without paging, tasks, virtual 8086 mode and privilege levels. Limits of
// segments aren't checked. An instruction is executed at a time, and counted; one with a repeat prefix counts once.
import { BP, BX, CS, DI, DS, ES, Fault, FS, GS, INTERRUPT, PROTECTION, REPEAT, REPEAT_WHILE_DIFFERENT, SETTABLE, SI, SP, SS, Stop, TRAP } from "./names.js";
import { OPERATIONS } from "./operations.js";

/** What a prefix does, by its byte. Other bytes have null here. */
const PREFIXES = new Array(256).fill(null);
for (const [byte, segment] of [[0x26, ES], [0x2E, CS], [0x36, SS], [0x3E, DS], [0x64, FS], [0x65, GS]]) PREFIXES[byte] = (cpu) => { cpu.override = segment; };
PREFIXES[0x66] = (cpu) => { cpu.size = cpu.areWide[CS] ? 2 : 4; };
PREFIXES[0x67] = (cpu) => { cpu.addressSize = cpu.areWide[CS] ? 2 : 4; };
PREFIXES[0xF0] = () => {};      // LOCK: there is no other processor
PREFIXES[0xF2] = (cpu) => { cpu.repeat = REPEAT_WHILE_DIFFERENT; };
PREFIXES[0xF3] = (cpu) => { cpu.repeat = REPEAT; };

/** The registers of an address of 16 bits, and the segment that it has. */
const PAIRS = [[BX, SI, DS], [BX, DI, DS], [BP, SI, SS], [BP, DI, SS], [SI, -1, DS], [DI, -1, DS], [BP, -1, SS], [BX, -1, DS]];
const PAGING = 0x80000000, PROTECTED = 1;

export class Processor {
    /**
     * @param memory has read8, read16, read32 and the same of write
     * @param bus has in(port, size) and out(port, size, value), and serves(vector), which says whether it did the work of
     *   a software interrupt itself
     */
    constructor(memory, bus) {
        Object.assign(this, { memory, bus });
        this.registers = new Uint32Array(8);
        this.words = new Uint16Array(this.registers.buffer);
        this.bytes = new Uint8Array(this.registers.buffer);
        this.selectors = new Uint16Array(6);
        this.bases = new Uint32Array(6);
        this.areWide = new Uint8Array(6);       // the bit of a descriptor that says 32 bits
        this.control = new Uint32Array(8);
        this.debug = new Uint32Array(8);
        this.global = { base: 0, limit: 0xFFFF };
        this.interrupts = { base: 0, limit: 0xFFFF };
        this.flags = 2;
        this.count = 0;                         // instructions that were executed
        this.isHalted = false;
        this.holdsOff = false;                  // the last instruction holds interrupts off until the next one has ended
        this.pointer = 0xFFF0;
        this.setSegment(CS, 0xF000);
        // of the instruction that is executed
        Object.assign(this, { begin: 0, size: 2, addressSize: 2, override: -1, repeat: 0, field: 0, place: 0, isRegister: false, base: 0, offset: 0 });
    }

    // ---- registers, of one, two or four bytes

    register(size, number) { return size === 4 ? this.registers[number] : size === 2 ? this.words[2 * number] : this.bytes[number < 4 ? 4 * number : 4 * number - 15]; }

    setRegister(size, number, value) {
        if (size === 4) this.registers[number] = value;
        else if (size === 2) this.words[2 * number] = value;
        else this.bytes[number < 4 ? 4 * number : 4 * number - 15] = value;
    }

    // ---- memory at linear addresses

    read(size, address) {
        const { memory } = this;
        return size === 4 ? memory.read32(address >>> 0) : size === 2 ? memory.read16(address >>> 0) : memory.read8(address >>> 0);
    }

    write(size, address, value) {
        const { memory } = this;
        if (size === 4) memory.write32(address >>> 0, value);
        else if (size === 2) memory.write16(address >>> 0, value);
        else memory.write8(address >>> 0, value & 0xFF);
    }

    /** The next bytes of the instruction. */
    fetch(size) {
        const value = this.read(size, this.bases[CS] + this.pointer);
        this.advance(size);
        return value;
    }

    fetchSigned() { return this.fetch(1) << 24 >> 24; }

    advance(size) { this.pointer = this.areWide[CS] ? this.pointer + size >>> 0 : this.pointer & 0xFFFF0000 | this.pointer + size & 0xFFFF; }

    // ---- the operand that the second byte of an instruction names

    /** Reads that byte: `field` is its middle number, and the operand is a register, or a place in memory. */
    decode() {
        const byte = this.fetch(1);
        this.field = byte >> 3 & 7;
        this.place = byte & 7;
        this.isRegister = byte >= 0xC0;
        if (this.isRegister) return;
        if (this.addressSize === 4) this.#decodeWide(byte >> 6);
        else this.#decodeNarrow(byte >> 6);
    }

    #decodeNarrow(mode) {
        const [one, other, segment] = PAIRS[this.place], isBare = mode === 0 && this.place === 6;
        let offset = isBare ? this.fetch(2) : this.words[2 * one] + (other < 0 ? 0 : this.words[2 * other]);
        if (mode === 1) offset += this.fetchSigned();
        if (mode === 2) offset += this.fetch(2);
        this.#point(isBare ? DS : segment, offset & 0xFFFF);
    }

    #decodeWide(mode) {
        let offset, segment = DS;
        if (this.place === SP) ({ offset, segment } = this.#scaled(mode));
        else if (this.place === BP && mode === 0) offset = this.fetch(4);
        else {
            offset = this.registers[this.place];
            if (this.place === BP) segment = SS;
        }
        if (mode === 1) offset += this.fetchSigned();
        if (mode === 2) offset += this.fetch(4);
        this.#point(segment, offset >>> 0);
    }

    /** An address with an index that is multiplied by 1, 2, 4 or 8. */
    #scaled(mode) {
        const byte = this.fetch(1), index = byte >> 3 & 7, base = byte & 7, isBare = base === BP && mode === 0;
        const from = isBare ? this.fetch(4) : this.registers[base];
        const segment = !isBare && (base === SP || base === BP) ? SS : DS;
        return { offset: from + (index === SP ? 0 : this.registers[index] * (1 << (byte >> 6))), segment };
    }

    #point(segment, offset) {
        this.offset = offset;
        this.base = this.bases[this.override < 0 ? segment : this.override];
    }

    get address() { return this.base + this.offset; }

    operand(size) { return this.isRegister ? this.register(size, this.place) : this.read(size, this.base + this.offset); }

    setOperand(size, value) {
        if (this.isRegister) this.setRegister(size, this.place, value);
        else this.write(size, this.base + this.offset, value);
    }

    // ---- the stack

    push(size, value) {
        const top = this.areWide[SS] ? this.registers[SP] - size >>> 0 : this.words[2 * SP] - size & 0xFFFF;
        this.write(size, this.bases[SS] + top, value);
        this.setRegister(this.areWide[SS] ? 4 : 2, SP, top);
    }

    pop(size) {
        const width = this.areWide[SS] ? 4 : 2, value = this.read(size, this.bases[SS] + this.register(width, SP));
        this.setRegister(width, SP, this.register(width, SP) + size);
        return value;
    }

    // ---- where the next instruction lies

    jump(offset) { this.pointer = this.size === 2 ? offset & 0xFFFF : offset >>> 0; }
    jumpBy(distance) { this.jump(this.pointer + distance); }
    jumpFar(selector, offset) {
        this.setSegment(CS, selector);
        this.jump(offset);
    }

    // ---- segments

    get isProtected() { return (this.control[0] & PROTECTED) !== 0; }

    setSegment(number, selector) {
        if (this.isProtected) {
            this.#setProtected(number, selector);
            return;
        }
        this.selectors[number] = selector;
        this.bases[number] = selector << 4;
    }

    #setProtected(number, selector) {
        if ((selector & ~3) === 0 && number !== CS && number !== SS) {
            this.selectors[number] = selector;
            this.bases[number] = this.areWide[number] = 0;
            return;
        }
        const { low, high } = this.#descriptor(this.global, selector & ~7, selector & ~3);
        if (selector & 4 || (high & 0x9000) !== 0x9000) throw new Fault(PROTECTION, selector & ~3);     // no segment that is present
        this.selectors[number] = selector;
        this.bases[number] = low >>> 16 | (high & 0xFF) << 16 | high & 0xFF000000;
        this.areWide[number] = high >>> 22 & 1;
    }

    #descriptor(table, at, code) {
        if (at + 7 > table.limit) throw new Fault(PROTECTION, code);
        return { low: this.read(4, table.base + at), high: this.read(4, table.base + at + 4) };
    }

    setControl(number, value) {
        if (number === 0 && value & PAGING) throw new Stop("paging isn't there");
        this.control[number] = value;
    }

    // ---- flags and interrupts

    setFlags(size, value) { this.flags = (size === 4 ? 0 : this.flags & ~0xFFFF) | value & SETTABLE | 2; }

    interrupt(vector, code = null) {
        if (this.isProtected) {
            this.#interruptProtected(vector, code);
            return;
        }
        const at = this.interrupts.base + 4 * vector;
        this.#enter(2, this.read(2, at + 2), this.read(2, at));
        this.flags &= ~(INTERRUPT | TRAP);
    }

    #enter(size, selector, offset) {
        for (const value of [this.flags, this.selectors[CS], this.pointer]) this.push(size, value);
        this.setSegment(CS, selector);
        this.pointer = offset;
    }

    #interruptProtected(vector, code) {
        const { low, high } = this.#descriptor(this.interrupts, 8 * vector, 8 * vector + 2), kind = high >>> 8 & 31, isWide = (kind & 8) !== 0;
        if (!(high & 0x8000) || (kind & 0x17) < 6 || (kind & 0x17) > 7) throw new Fault(PROTECTION, 8 * vector + 2);
        this.#enter(isWide ? 4 : 2, low >>> 16, (low & 0xFFFF | (isWide ? high & 0xFFFF0000 : 0)) >>> 0);
        if (code !== null) this.push(isWide ? 4 : 2, code);
        this.flags &= kind & 1 ? ~TRAP : ~(INTERRUPT | TRAP);
    }

    /** A software interrupt, which the bus may serve by itself. */
    call(vector) { if (!this.bus.serves(vector)) this.interrupt(vector); }

    // ---- instructions

    /** Executes one instruction. */
    step() {
        this.begin = this.pointer;
        this.size = this.addressSize = this.areWide[CS] ? 4 : 2;
        this.override = -1;
        this.repeat = 0;
        this.holdsOff = false;
        try {
            let byte = this.fetch(1);
            for (; PREFIXES[byte] !== null; byte = this.fetch(1)) PREFIXES[byte](this);
            OPERATIONS[byte](this, byte);
        } catch (fault) {
            this.#fault(fault);
        }
        this.count++;
    }

    #fault(fault) {
        if (!(fault instanceof Fault)) throw fault;
        this.pointer = this.begin;
        try {
            this.interrupt(fault.vector, fault.code);
        } catch (again) {
            if (!(again instanceof Fault)) throw again;
            throw new Stop(`fault ${fault.vector} couldn't be served`);
        }
    }

    /** Executes instructions up to a count of all, or up to HLT. */
    run(upto) { while (this.count < upto && !this.isHalted) this.step(); }
}

/** The registers as a person reads them. */
export const registersOf = (cpu) => ({
    registers: [...cpu.registers], selectors: [...cpu.selectors], pointer: cpu.pointer, flags: cpu.flags, isProtected: cpu.isProtected, isWide: cpu.areWide[CS] !== 0,
});
