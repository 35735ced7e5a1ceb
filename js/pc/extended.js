// The instructions that begin with the byte 0F, by their second byte.
import { multiplyInto, shiftDouble } from "./arithmetic.js";
import { decodeMemory, define, isMet, loadFar, popSegment } from "./common.js";
import { CARRY, CX, Fault, FS, GS, signed, SS, UNDEFINED, unsigned, ZERO } from "./names.js";

const EXTENDED = new Array(256).fill(() => { throw new Fault(UNDEFINED); });
const one = (first, operation, count) => define(EXTENDED, first, operation, count);

/** In memory the address is enough. Of a base, an instruction with operands of 16 bits has three bytes only. */
function storeTable(cpu, { base, limit }) {
    cpu.write(2, cpu.address, limit);
    cpu.write(4, cpu.address + 2, cpu.size === 2 ? base & 0xFFFFFF : base);
}
function loadTable(cpu, table) {
    const base = cpu.read(4, cpu.address + 2);
    table.limit = cpu.read(2, cpu.address);
    table.base = cpu.size === 2 ? base & 0xFFFFFF : base;
}
/** LMSW loads four bits, and can't leave protected mode. */
const setMachineStatus = (cpu, value) => cpu.setControl(0, (cpu.control[0] & ~0xE | value & 0xF) >>> 0);
/** SGDT, SIDT, LGDT, LIDT, SMSW, LMSW. */
const TABLES = [
    (cpu) => storeTable(cpu, cpu.global), (cpu) => storeTable(cpu, cpu.interrupts), (cpu) => loadTable(cpu, cpu.global), (cpu) => loadTable(cpu, cpu.interrupts),
    (cpu) => cpu.setOperand(2, cpu.control[0]), null, (cpu) => setMachineStatus(cpu, cpu.operand(2)), null,
];
one(0x01, (cpu) => {
    cpu.decode();
    const operation = TABLES[cpu.field];
    if (operation === null || (cpu.field < 4 && cpu.isRegister)) throw new Fault(UNDEFINED);
    operation(cpu);
});
one(0x06, (cpu) => cpu.setControl(0, (cpu.control[0] & ~8) >>> 0));
/** INVD and WBINVD: there is no cache. */
one(0x08, () => {}, 2);

/** Moves of control and debug registers: the operand is a register, whatever the bits say that tell it from memory. */
function special(byte, move) {
    one(byte, (cpu) => {
        const fields = cpu.fetch(1);
        move(cpu, fields >> 3 & 7, fields & 7);
    });
}
special(0x20, (cpu, number, register) => cpu.setRegister(4, register, cpu.control[number]));
special(0x21, (cpu, number, register) => cpu.setRegister(4, register, cpu.debug[number]));
special(0x22, (cpu, number, register) => cpu.setControl(number, cpu.register(4, register)));
special(0x23, (cpu, number, register) => { cpu.debug[number] = cpu.register(4, register); });

one(0x80, (cpu, byte) => {
    const by = signed(cpu.size, cpu.fetch(cpu.size));
    if (isMet(cpu, byte)) cpu.jumpBy(by);
}, 16);
one(0x90, (cpu, byte) => {
    cpu.decode();
    cpu.setOperand(1, isMet(cpu, byte) ? 1 : 0);
}, 16);

for (const [first, segment] of [[0xA0, FS], [0xA8, GS]]) {
    one(first, (cpu) => cpu.push(cpu.size, cpu.selectors[segment]));
    one(first + 1, (cpu) => popSegment(cpu, segment));
}
for (const [byte, segment] of [[0xB2, SS], [0xB4, FS], [0xB5, GS]]) one(byte, (cpu) => loadFar(cpu, segment));

/** SHLD and SHRD, by a number of bits in the instruction or in CL. */
function shiftedDouble(cpu, isLeft, bitsOf) {
    cpu.decode();
    const value = cpu.operand(cpu.size);
    cpu.setOperand(cpu.size, shiftDouble(cpu, isLeft, cpu.size, value, cpu.register(cpu.size, cpu.field), bitsOf(cpu)));
}
for (const [first, isLeft] of [[0xA4, true], [0xAC, false]]) {
    one(first, (cpu) => shiftedDouble(cpu, isLeft, () => cpu.fetch(1)));
    one(first + 1, (cpu) => shiftedDouble(cpu, isLeft, () => cpu.register(1, CX)));
}

// ---- single bits

/** By their number: BT, BTS, BTR, BTC. */
const BIT_OPERATIONS = [null, (value, bit) => value | bit, (value, bit) => value & ~bit, (value, bit) => value ^ bit];

function testBit(cpu, kind, number) {
    const value = cpu.operand(cpu.size), bit = 1 << (number & 8 * cpu.size - 1);
    cpu.flags = cpu.flags & ~CARRY | (value & bit ? CARRY : 0);
    if (kind > 0) cpu.setOperand(cpu.size, unsigned(cpu.size, BIT_OPERATIONS[kind](value, bit)));
}
/** A bit's number in a register may point to any place in memory, before the operand or after it. */
function testFar(cpu, kind) {
    cpu.decode();
    const number = signed(cpu.size, cpu.register(cpu.size, cpu.field));
    if (!cpu.isRegister) cpu.offset += Math.floor(number / (8 * cpu.size)) * cpu.size;
    testBit(cpu, kind, number);
}
[0xA3, 0xAB, 0xB3, 0xBB].forEach((byte, kind) => one(byte, (cpu) => testFar(cpu, kind)));
one(0xBA, (cpu) => {
    cpu.decode();
    if (cpu.field < 4) throw new Fault(UNDEFINED);
    testBit(cpu, cpu.field - 4, cpu.fetch(1));
});

/** BSF and BSR: the number of the lowest, or of the highest bit that is set. */
function scan(cpu, numberOf) {
    cpu.decode();
    const value = cpu.operand(cpu.size);
    cpu.flags = cpu.flags & ~ZERO | (value === 0 ? ZERO : 0);
    if (value !== 0) cpu.setRegister(cpu.size, cpu.field, numberOf(value));
}
one(0xBC, (cpu) => scan(cpu, (value) => 31 - Math.clz32(value & -value)));
one(0xBD, (cpu) => scan(cpu, (value) => 31 - Math.clz32(value)));

// ---- moves with another size, and multiplication

for (const size of [1, 2]) {
    one(0xB5 + size, (cpu) => {
        cpu.decode();
        cpu.setRegister(cpu.size, cpu.field, cpu.operand(size));
    });
    one(0xBD + size, (cpu) => {
        cpu.decode();
        cpu.setRegister(cpu.size, cpu.field, signed(size, cpu.operand(size)));
    });
}
one(0xAF, (cpu) => {
    cpu.decode();
    cpu.setRegister(cpu.size, cpu.field, multiplyInto(cpu, cpu.size, cpu.register(cpu.size, cpu.field), cpu.operand(cpu.size)));
});

export function defineExtended(table) {
    define(table, 0x0F, (cpu) => {
        const byte = cpu.fetch(1);
        EXTENDED[byte](cpu, byte);
    });
}
