// What instructions of one byte and of two have in common.
import { CARRY, Fault, OVERFLOW, PARITY, SIGN, SS, UNDEFINED, ZERO } from "./names.js";

/** Defines the operation of a byte, or of so many bytes one after another. */
export function define(table, first, operation, count = 1) { for (let byte = first; byte < first + count; byte++) table[byte] = operation; }

const isLess = (flags) => !(flags & SIGN) !== !(flags & OVERFLOW);
/** By bits 3 to 1 of an instruction. Bit 0 asks for the opposite. */
const CONDITIONS = [
    (flags) => flags & OVERFLOW, (flags) => flags & CARRY, (flags) => flags & ZERO, (flags) => flags & (CARRY | ZERO),
    (flags) => flags & SIGN, (flags) => flags & PARITY, isLess, (flags) => flags & ZERO || isLess(flags),
];
export const isMet = (cpu, byte) => Boolean(CONDITIONS[byte >> 1 & 7](cpu.flags)) !== Boolean(byte & 1);

/** Reads the operand's byte, for an instruction whose operand has to lie in memory. */
export function decodeMemory(cpu) {
    cpu.decode();
    if (cpu.isRegister) throw new Fault(UNDEFINED);
}

/** Reads the operand's byte, for an instruction that has a single meaning for it. */
export function decodeOnly(cpu) {
    cpu.decode();
    if (cpu.field !== 0) throw new Fault(UNDEFINED);
}

/** LDS, LES and their like: an offset and a selector lie in memory. */
export function loadFar(cpu, segment) {
    decodeMemory(cpu);
    const offset = cpu.read(cpu.size, cpu.address);
    cpu.setSegment(segment, cpu.read(2, cpu.address + cpu.size));
    cpu.setRegister(cpu.size, cpu.field, offset);
}

export function popSegment(cpu, segment) {
    cpu.setSegment(segment, cpu.pop(cpu.size) & 0xFFFF);
    cpu.holdsOff = segment === SS;
}
