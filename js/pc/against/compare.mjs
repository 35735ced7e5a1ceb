// Compares the processor of js/pc with libx86emu: node compare.mjs CASES. CASES is what the program cases.c wrote.
import { readFileSync } from "node:fs";
import { ADJUST, CARRY, OVERFLOW, PARITY, SIGN, STATUS, Stop, ZERO } from "../names.js";
import { Processor } from "../processor.js";

const LENGTH = 16, PORT = 0x40000000, NO_INTERRUPT = 0xFFFF, COMPARED = 0xFD5;

class Reader {
    constructor(bytes) {
        this.view = new DataView(bytes.buffer, bytes.byteOffset, bytes.length);
        this.at = 0;
    }
    get isOver() { return this.at >= this.view.byteLength; }
    number() { return this.view.getUint32((this.at += 4) - 4, true); }
    numbers(count) { return Array.from({ length: count }, () => this.number()); }
    bytes(count) { return Array.from({ length: count }, () => this.view.getUint8(this.at++)); }
    state() {
        const registers = this.numbers(8), [flags, pointer] = this.numbers(2);
        const segments = Array.from({ length: 6 }, () => this.numbers(3)), [globalBase, globalLimit, base, limit, control] = this.numbers(5);
        return { registers, flags, pointer, segments, tables: [globalBase, globalLimit, base, limit, control] };
    }
    case() {
        const salt = this.number(), code = this.bytes(LENGTH), before = this.state(), after = this.state(), vector = this.number();
        const written = new Map(Array.from({ length: this.number() }, () => this.numbers(2)));
        return { salt, code, before, after, vector, written };
    }
}

/** Memory and ports with bytes that are computed from their address, as cases.c has them. */
class World {
    constructor({ salt, code, before }) {
        Object.assign(this, { salt, code, written: new Map() });
        this.codeAt = before.segments[1][1] + before.pointer >>> 0;
    }
    byteAt(at) {
        let x = Math.imul(at ^ this.salt, 0x9E3779B1);
        x ^= x >>> 15;
        return Math.imul(x, 0x85EBCA6B) >>> 24;
    }
    read8(at) { return this.written.get(at) ?? (at - this.codeAt >>> 0 < LENGTH ? this.code[at - this.codeAt >>> 0] : this.byteAt(at)); }
    read16(at) { return this.read8(at) | this.read8(at + 1 >>> 0) << 8; }
    read32(at) { return (this.read16(at) | this.read16(at + 2 >>> 0) << 16) >>> 0; }
    write8(at, value) { this.written.set(at, value & 0xFF); }
    write16(at, value) { this.write8(at, value); this.write8(at + 1 >>> 0, value >> 8); }
    write32(at, value) { this.write16(at, value); this.write16(at + 2 >>> 0, value >>> 16); }
    in(port, size) {
        let value = 0;
        for (let i = 0; i < size; i++) value |= this.byteAt(PORT + port + i) << 8 * i;
        return value >>> 0;
    }
    out(port, size, value) { for (let i = 0; i < size; i++) this.written.set(PORT + port + i, value >>> 8 * i & 0xFF); }
    serves() { return false; }
}

class Watched extends Processor {
    vector = NO_INTERRUPT;
    loadsNone = false;
    setSegment(number, selector) {
        this.loadsNone ||= this.isProtected && selector < 8;
        super.setSegment(number, selector);
    }
    interrupt(vector, code) {
        this.vector = vector;
        if (!this.isProtected) super.interrupt(vector, code);
    }
}

function begun(world, { registers, flags, pointer, segments, tables: [globalBase, globalLimit, base, limit, control] }) {
    const cpu = new Watched(world, world);
    cpu.registers.set(registers);
    segments.forEach(([selector, at, isWide], i) => {
        cpu.selectors[i] = selector;
        cpu.bases[i] = at;
        cpu.areWide[i] = isWide;
    });
    Object.assign(cpu, { flags, pointer, global: { base: globalBase, limit: globalLimit }, interrupts: { base, limit } });
    cpu.control[0] = control;
    return cpu;
}

// ---- what the instruction set leaves open

const SEGMENTS = [0x26, 0x2E, 0x36, 0x3E, 0x64, 0x65];

/** The instruction without its prefixes, and the size of its operands. */
function partsOf({ code, before }) {
    const isWide = before.segments[1][2] === 1, isPrefix = (byte) => SEGMENTS.includes(byte) || [0x66, 0x67, 0xF0, 0xF2, 0xF3].includes(byte);
    let at = 0, narrow = false, address = false;
    for (; isPrefix(code[at]); at++) {
        narrow ||= code[at] === 0x66;
        address ||= code[at] === 0x67;
    }
    return { first: code[at], second: code[at + 1], third: code[at + 2], size: isWide !== narrow ? 4 : 2, addressSize: isWide !== address ? 4 : 2, prefixes: code.slice(0, at) };
}
const field = (byte) => byte >> 3 & 7;

/** The flags that an instruction leaves undefined. */
function openFlags(parts) {
    const { first, second } = parts, arithmetic = SIGN | ZERO | ADJUST | PARITY;
    if (first === 0x0F) return openExtended(parts);
    if ([0x37, 0x3F].includes(first)) return OVERFLOW | SIGN | ZERO | PARITY;
    if ([0x27, 0x2F].includes(first)) return OVERFLOW;
    if ([0xD4, 0xD5].includes(first)) return OVERFLOW | ADJUST | CARRY | (first === 0xD4 ? ZERO : 0);   // libx86emu looks at AH too
    if ([0x69, 0x6B].includes(first)) return arithmetic;
    if ([0xF6, 0xF7].includes(first)) return field(second) > 5 ? STATUS : field(second) > 3 ? arithmetic : field(second) < 2 ? ADJUST : 0;
    if ((first & 0xFE) === 0xC0 || (first & 0xFC) === 0xD0) return (field(second) > 3 ? ADJUST : 0) | ((first & 0xFE) === 0xD0 && field(second) !== 7 ? 0 : OVERFLOW);
    if (first < 0x40 && [1, 4, 6].includes(field(first))) return ADJUST;
    if ([0x84, 0x85, 0xA8, 0xA9].includes(first)) return ADJUST;
    if (first >= 0x80 && first <= 0x83 && [1, 4, 6].includes(field(second))) return ADJUST;
    return 0;
}
function openExtended({ second }) {
    if ([0xA4, 0xA5, 0xAC, 0xAD].includes(second)) return ADJUST | OVERFLOW;
    if ([0xA3, 0xAB, 0xB3, 0xBB, 0xBA].includes(second)) return OVERFLOW | SIGN | ADJUST | PARITY;
    if ([0xBC, 0xBD].includes(second)) return STATUS & ~ZERO;
    if (second === 0xAF) return SIGN | ZERO | ADJUST | PARITY;
    return 0;
}

// ---- what libx86emu does in another way than the processor's manual says. Such cases are left out, and counted.

const isShift = ({ first }) => (first & 0xFE) === 0xC0 || (first & 0xFE) === 0xD2;
const isDoubleShift = ({ first, second }) => first === 0x0F && [0xA4, 0xA5, 0xAC, 0xAD].includes(second);
const lastByte = ({ code, before, after }) => code[after.pointer - before.pointer - 1];
/** How many bits a shift goes, before that is cut to five bits: CL, or the last byte of the instruction. */
function bitsOf(one, { first, second }) {
    const isInRegister = first === 0x0F ? (second & 1) === 1 : first >= 0xD2;
    return isInRegister ? one.before.registers[1] & 0xFF : lastByte(one);
}
const widthOf = ({ first, size }) => (first !== 0x0F && (first & 1) === 0 ? 8 : 8 * size);
function isFarBit({ before }, { first, second, third, size }) {
    if (first !== 0x0F || ![0xA3, 0xAB, 0xB3, 0xBB].includes(second) || third >= 0xC0) return false;
    const number = before.registers[field(third)] & (size === 2 ? 0xFFFF : -1);
    return number < 0 || number >= 8 * size;
}

const isStackWide = ({ before }) => before.segments[2][2] === 1;
const LEFT_OUT = {
    "after an undefined instruction the instruction is done all the same": (one, { first, second }) => [0x8F, 0xC6, 0xC7].includes(first) && field(second) !== 0,
    "an address of EBP and a byte lies in the data segment": (one, { first, second, third, addressSize, prefixes }) => {
        const byte = first === 0x0F ? third : second;
        return addressSize === 4 && (byte & 0xC7) === 0x45 && !prefixes.some((it) => SEGMENTS.includes(it));
    },
    "RET takes the size of operands for that of the stack": (one, { first, size }) => (first === 0xC2 || first === 0xCA) && (size === 4) !== isStackWide(one),
    "LOOP and JCXZ take the size of operands for that of addresses": (one, { first, size, addressSize }) => first >= 0xE0 && first <= 0xE3 && size !== addressSize,
    "DAS looks at what its first step left": ({ before }, { first }) => first === 0x2F && ((before.registers[0] & 0xFF) < 6 || ((before.registers[0] & 0xFF) > 0x99 && (before.registers[0] & 0xFF) < 0xA6)),
    "LMSW loads all bits, and INVLPG is there": (one, { first, second, third }) => first === 0x0F && second === 0x01 && field(third) > 5,
    "POP to an address of ESP takes its value before the pop": (one, { first, second, third, addressSize }) => first === 0x8F && addressSize === 4 && second < 0xC0 && (second & 7) === 4 && (third & 7) === 4,
    "CALL by ESP takes its value after the push": (one, { first, second }) => first === 0xFF && second === 0xD4,
    "a coprocessor's instruction is an undefined one there": (one, { first }) => first >= 0xD8 && first <= 0xDF,
    "BOUND isn't there": (one, { first }) => first === 0x62,
    "INS and OUTS of words go on by one byte, and OUTS reads at ES": (one, { first }) => first >= 0x6D && first <= 0x6F,
    "XLAT takes the size of operands for that of addresses": (one, { first, size, addressSize }) => first === 0xD7 && size !== addressSize,
    "ENTER and LEAVE take the size of the stack for that of operands": ({ before }, { first, size }) => (first === 0xC8 || first === 0xC9) && (size === 4) !== isStackWide({ before }),
    "the count of a shift isn't cut to five bits": (one, parts) => (isShift(parts) || isDoubleShift(parts)) && bitsOf(one, parts) > 31,
    "a shift by all bits, or by more, clears the parity": (one, parts) => isShift(parts) && field(parts.second) > 3 && bitsOf(one, parts) >= widthOf(parts),
    "a double shift by all bits, or by more, gives 0": (one, parts) => isDoubleShift(parts) && bitsOf(one, parts) >= widthOf(parts),
    "BT doesn't reach bits beyond its operand": isFarBit,
    "a bit's number in the instruction isn't cut to the operand's size": (one, parts) => parts.first === 0x0F && parts.second === 0xBA && lastByte(one) >= 8 * parts.size,
    "MOV of CR and DR looks at the bits that say memory or register": (one, { first, second, third }) => first === 0x0F && second >= 0x20 && second <= 0x23 && third < 0xC0,
    "MOV of a segment register takes CS, and one that isn't there": (one, { first, second }) => (first === 0x8C && field(second) > 5) || (first === 0x8E && (field(second) > 5 || field(second) === 1)),
};

function differences(one, parts, cpu, world) {
    const { after, vector, written } = one, found = [], tell = (name, is, wanted) => { if (is !== wanted) found.push(`${name}: ${is.toString(16)}, libx86emu ${wanted.toString(16)}`); };
    tell("interrupt", cpu.vector, vector);
    if (vector !== NO_INTERRUPT && cpu.isProtected) return found;
    const isOpen = parts.first === 0x0F && [0xBC, 0xBD].includes(parts.second) && cpu.flags & ZERO;     // BSF and BSR of 0
    if (!isOpen) [...cpu.registers].forEach((value, i) => tell(`register ${i}`, value, after.registers[i]));
    const compared = COMPARED & ~openFlags(parts);
    tell("flags", cpu.flags & compared, after.flags & compared);
    tell("pointer", cpu.pointer, after.pointer);
    after.segments.forEach(([selector, base, isWide], i) => {
        tell(`selector ${i}`, cpu.selectors[i], selector);
        tell(`base ${i}`, cpu.bases[i], base);
        tell(`width ${i}`, cpu.areWide[i], isWide);
    });
    [cpu.global.base, cpu.global.limit, cpu.interrupts.base, cpu.interrupts.limit, cpu.control[0]].forEach((value, i) => tell(`table ${i}`, value, after.tables[i]));
    for (const at of new Set([...written.keys(), ...world.written.keys()])) tell(`byte ${at.toString(16)}`, world.written.get(at) ?? -1, written.get(at) ?? -1);
    return found;
}

/** Executes a case, and gives the differences. */
function tried(one, parts, cpu, world) {
    try {
        cpu.step();
    } catch (fault) {
        if (!(fault instanceof Stop)) throw fault;
        leaveOut("paging can be switched on");
        return [];
    }
    if (!cpu.loadsNone) return differences(one, parts, cpu, world);
    leaveOut("selectors below 8 are all the same");
    return [];
}

const leaveOut = (reason) => leftOut.set(reason, (leftOut.get(reason) ?? 0) + 1);
const reader = new Reader(readFileSync(process.argv[2])), wrong = new Map(), leftOut = new Map();
let cases = 0, bad = 0;
while (!reader.isOver) {
    const one = reader.case(), parts = partsOf(one), reason = Object.keys(LEFT_OUT).find((name) => LEFT_OUT[name](one, parts));
    if (reason) {
        leaveOut(reason);
        continue;
    }
    cases++;
    const world = new World(one), cpu = begun(world, one.before);
    const found = tried(one, parts, cpu, world);
    if (found.length === 0) continue;
    bad++;
    const name = `${parts.first.toString(16)}${parts.first === 0x0F ? ` ${parts.second.toString(16)}` : ""}`;
    const told = wrong.get(name) ?? { count: 0, examples: [] };
    told.count++;
    if (told.examples.length < 3) told.examples.push(`${one.code.map((byte) => byte.toString(16).padStart(2, "0")).join(" ")} (${["real", "protected"][one.before.tables[4] & 1]}, size ${parts.size}): ${found.slice(0, 4).join("; ")}`);
    wrong.set(name, told);
}
for (const [name, { count, examples }] of [...wrong].sort((one, other) => other[1].count - one[1].count)) console.log(`${name}: ${count}\n    ${examples.join("\n    ")}`);
for (const [reason, count] of leftOut) console.log(`left out ${count}: in libx86emu ${reason}`);
console.log(`${cases} cases, ${bad} differ`);
process.exit(bad > 0 ? 1 : 0);
