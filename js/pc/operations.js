// What each instruction does, by its first byte. An operation gets the processor, and the byte.
import { add, adjust, BINARY, decimalAdjust, decrement, divide, divideDigits, increment, logical, multiply, multiplyDigits, multiplyInto, shift, subtract } from "./arithmetic.js";
import { decodeMemory, decodeOnly, define, isMet, loadFar, popSegment } from "./common.js";
import { defineExtended } from "./extended.js";
import { AX, BOUND, BP, BX, CARRY, CS, CX, DI, DIRECTION, DS, DX, ES, Fault, INTERRUPT, OVERFLOW, SI, signed, SP, SS, UNDEFINED, unsigned, ZERO } from "./names.js";
import { defineStrings } from "./strings.js";

const undefinedOperation = () => { throw new Fault(UNDEFINED); };
export const OPERATIONS = new Array(256).fill(undefinedOperation);

const one = (first, operation, count) => define(OPERATIONS, first, operation, count);
/** The same for two bytes, the second of which has operands of the instruction's size in place of single bytes. */
function both(first, operation) {
    one(first, (cpu) => operation(cpu, 1));
    one(first + 1, (cpu) => operation(cpu, cpu.size));
}
/** A number of the instruction, with its sign. */
const distance = (cpu) => signed(cpu.size, cpu.fetch(cpu.size));

// ---- arithmetic

/** ADD, OR, ADC, SBB, AND, SUB, XOR and CMP have six forms each. */
BINARY.forEach((operation, number) => {
    const isStored = number !== 7, first = 8 * number;
    both(first, (cpu, size) => {
        cpu.decode();
        const result = operation(cpu, size, cpu.operand(size), cpu.register(size, cpu.field));
        if (isStored) cpu.setOperand(size, result);
    });
    both(first + 2, (cpu, size) => {
        cpu.decode();
        const result = operation(cpu, size, cpu.register(size, cpu.field), cpu.operand(size));
        if (isStored) cpu.setRegister(size, cpu.field, result);
    });
    both(first + 4, (cpu, size) => {
        const result = operation(cpu, size, cpu.register(size, AX), cpu.fetch(size));
        if (isStored) cpu.setRegister(size, AX, result);
    });
});

/** An operand, and a number: of its size, or a byte with its sign. */
function withNumber(cpu, size, isByte) {
    cpu.decode();
    const value = cpu.operand(size), number = isByte ? unsigned(size, cpu.fetchSigned()) : cpu.fetch(size);
    const result = BINARY[cpu.field](cpu, size, value, number);
    if (cpu.field !== 7) cpu.setOperand(size, result);
}
both(0x80, (cpu, size) => withNumber(cpu, size, false));
both(0x82, (cpu, size) => withNumber(cpu, size, true));

/** INC and DEC of a register. */
one(0x40, (cpu, byte) => cpu.setRegister(cpu.size, byte & 7, increment(cpu, cpu.size, cpu.register(cpu.size, byte & 7))), 8);
one(0x48, (cpu, byte) => cpu.setRegister(cpu.size, byte & 7, decrement(cpu, cpu.size, cpu.register(cpu.size, byte & 7))), 8);

/** TEST. */
both(0x84, (cpu, size) => {
    cpu.decode();
    logical(cpu, size, cpu.operand(size) & cpu.register(size, cpu.field));
});
both(0xA8, (cpu, size) => logical(cpu, size, cpu.register(size, AX) & cpu.fetch(size)));

/** DAA, DAS, AAA, AAS, AAM, AAD. */
one(0x27, (cpu) => decimalAdjust(cpu, 1));
one(0x2F, (cpu) => decimalAdjust(cpu, -1));
one(0x37, (cpu) => adjust(cpu, 1));
one(0x3F, (cpu) => adjust(cpu, -1));
one(0xD4, (cpu) => divideDigits(cpu, cpu.fetch(1)));
one(0xD5, (cpu) => multiplyDigits(cpu, cpu.fetch(1)));

/** IMUL with a number. */
one(0x69, (cpu) => {
    cpu.decode();
    const value = cpu.operand(cpu.size);
    cpu.setRegister(cpu.size, cpu.field, multiplyInto(cpu, cpu.size, value, cpu.fetch(cpu.size)));
});
one(0x6B, (cpu) => {
    cpu.decode();
    const value = cpu.operand(cpu.size);
    cpu.setRegister(cpu.size, cpu.field, multiplyInto(cpu, cpu.size, value, cpu.fetchSigned()));
});

/** ROL, ROR, RCL, RCR, SHL, SHR, SAR: by a number, by one, by CL. */
function shifted(cpu, size, bitsOf) {
    cpu.decode();
    const value = cpu.operand(size);
    cpu.setOperand(size, shift(cpu, cpu.field, size, value, bitsOf(cpu)));
}
both(0xC0, (cpu, size) => shifted(cpu, size, () => cpu.fetch(1)));
both(0xD0, (cpu, size) => shifted(cpu, size, () => 1));
both(0xD2, (cpu, size) => shifted(cpu, size, () => cpu.register(1, CX)));

/** TEST, TEST, NOT, NEG, MUL, IMUL, DIV, IDIV. */
const UNARY = [
    (cpu, size, value) => logical(cpu, size, value & cpu.fetch(size)),
    (cpu, size, value) => logical(cpu, size, value & cpu.fetch(size)),
    (cpu, size, value) => cpu.setOperand(size, ~value),
    (cpu, size, value) => cpu.setOperand(size, subtract(cpu, size, 0, value)),
    (cpu, size, value) => multiply(cpu, size, value, false),
    (cpu, size, value) => multiply(cpu, size, value, true),
    (cpu, size, value) => divide(cpu, size, value, false),
    (cpu, size, value) => divide(cpu, size, value, true),
];
both(0xF6, (cpu, size) => {
    cpu.decode();
    UNARY[cpu.field](cpu, size, cpu.operand(size));
});

/** CBW and CWD, or CWDE and CDQ. */
one(0x98, (cpu) => cpu.setRegister(cpu.size, AX, signed(cpu.size / 2, cpu.register(cpu.size / 2, AX))));
one(0x99, (cpu) => cpu.setRegister(cpu.size, DX, signed(cpu.size, cpu.register(cpu.size, AX)) < 0 ? -1 : 0));

// ---- moves

/** MOV from a register, and into one; XCHG. */
both(0x88, (cpu, size) => {
    cpu.decode();
    cpu.setOperand(size, cpu.register(size, cpu.field));
});
both(0x8A, (cpu, size) => {
    cpu.decode();
    cpu.setRegister(size, cpu.field, cpu.operand(size));
});
both(0x86, (cpu, size) => {
    cpu.decode();
    const value = cpu.operand(size);
    cpu.setOperand(size, cpu.register(size, cpu.field));
    cpu.setRegister(size, cpu.field, value);
});
/** XCHG with AX. */
one(0x90, (cpu, byte) => {
    const value = cpu.register(cpu.size, byte & 7);
    cpu.setRegister(cpu.size, byte & 7, cpu.register(cpu.size, AX));
    cpu.setRegister(cpu.size, AX, value);
}, 8);
/** MOV of a number. */
one(0xB0, (cpu, byte) => cpu.setRegister(1, byte & 7, cpu.fetch(1)), 8);
one(0xB8, (cpu, byte) => cpu.setRegister(cpu.size, byte & 7, cpu.fetch(cpu.size)), 8);
both(0xC6, (cpu, size) => {
    decodeOnly(cpu);
    cpu.setOperand(size, cpu.fetch(size));
});

/** The place that the instruction names by its offset alone. */
const direct = (cpu) => cpu.bases[cpu.override < 0 ? DS : cpu.override] + cpu.fetch(cpu.addressSize);
both(0xA0, (cpu, size) => cpu.setRegister(size, AX, cpu.read(size, direct(cpu))));
both(0xA2, (cpu, size) => cpu.write(size, direct(cpu), cpu.register(size, AX)));
/** XLAT. */
one(0xD7, (cpu) => {
    const width = cpu.addressSize, offset = cpu.register(width, BX) + cpu.register(1, AX);
    cpu.setRegister(1, AX, cpu.read(1, cpu.bases[cpu.override < 0 ? DS : cpu.override] + (width === 2 ? offset & 0xFFFF : offset)));
});

/** LEA. */
one(0x8D, (cpu) => {
    decodeMemory(cpu);
    cpu.setRegister(cpu.size, cpu.field, cpu.offset);
});
/** MOV from a segment register, and into one. */
one(0x8C, (cpu) => {
    cpu.decode();
    if (cpu.field > 5) throw new Fault(UNDEFINED);
    cpu.setOperand(cpu.isRegister ? cpu.size : 2, cpu.selectors[cpu.field]);
});
one(0x8E, (cpu) => {
    cpu.decode();
    if (cpu.field > 5 || cpu.field === CS) throw new Fault(UNDEFINED);
    cpu.setSegment(cpu.field, cpu.operand(2));
    cpu.holdsOff = cpu.field === SS;
});

one(0xC4, (cpu) => loadFar(cpu, ES));
one(0xC5, (cpu) => loadFar(cpu, DS));

// ---- the stack

/** PUSH and POP of registers, numbers and segment registers. */
one(0x50, (cpu, byte) => cpu.push(cpu.size, cpu.register(cpu.size, byte & 7)), 8);
one(0x58, (cpu, byte) => cpu.setRegister(cpu.size, byte & 7, cpu.pop(cpu.size)), 8);
one(0x68, (cpu) => cpu.push(cpu.size, cpu.fetch(cpu.size)));
one(0x6A, (cpu) => cpu.push(cpu.size, cpu.fetchSigned()));
for (const segment of [ES, CS, SS, DS]) {
    one(8 * segment + 6, (cpu) => cpu.push(cpu.size, cpu.selectors[segment]));
    if (segment !== CS) one(8 * segment + 7, (cpu) => popSegment(cpu, segment));
}
/** POP into an operand. If its address uses the stack pointer, this is the one after the pop. */
one(0x8F, (cpu) => {
    const value = cpu.pop(cpu.size);
    decodeOnly(cpu);
    cpu.setOperand(cpu.size, value);
});
/** PUSHA and POPA. */
one(0x60, (cpu) => {
    const top = cpu.register(cpu.size, SP);
    for (let number = 0; number < 8; number++) cpu.push(cpu.size, number === SP ? top : cpu.register(cpu.size, number));
});
one(0x61, (cpu) => {
    for (const number of [DI, SI, BP, SP, BX, DX, CX, AX]) {
        const value = cpu.pop(cpu.size);
        if (number !== SP) cpu.setRegister(cpu.size, number, value);
    }
});
/** PUSHF, POPF, SAHF, LAHF. */
one(0x9C, (cpu) => cpu.push(cpu.size, cpu.flags));
one(0x9D, (cpu) => cpu.setFlags(cpu.size, cpu.pop(cpu.size)));
one(0x9E, (cpu) => { cpu.flags = cpu.flags & ~0xFF | cpu.register(1, AX + 4) & 0xD5 | 2; });
one(0x9F, (cpu) => cpu.setRegister(1, AX + 4, cpu.flags));

/** ENTER and LEAVE. */
one(0xC8, (cpu) => {
    const bytes = cpu.fetch(2), levels = cpu.fetch(1) & 31, width = cpu.areWide[SS] ? 4 : 2;
    cpu.push(cpu.size, cpu.register(cpu.size, BP));
    const frame = cpu.register(width, SP);
    for (let level = 1; level < levels; level++) {
        cpu.setRegister(width, BP, cpu.register(width, BP) - cpu.size);
        cpu.push(cpu.size, cpu.read(cpu.size, cpu.bases[SS] + cpu.register(width, BP)));
    }
    if (levels > 0) cpu.push(cpu.size, frame);
    cpu.setRegister(cpu.size, BP, frame);
    cpu.setRegister(width, SP, cpu.register(width, SP) - bytes);
});
one(0xC9, (cpu) => {
    const width = cpu.areWide[SS] ? 4 : 2;
    cpu.setRegister(width, SP, cpu.register(width, BP));
    cpu.setRegister(cpu.size, BP, cpu.pop(cpu.size));
});

// ---- jumps

/** Jumps on a condition. */
one(0x70, (cpu, byte) => {
    const by = cpu.fetchSigned();
    if (isMet(cpu, byte)) cpu.jumpBy(by);
}, 16);
/** LOOPNE, LOOPE, LOOP: they count CX down. */
one(0xE0, (cpu, byte) => {
    const by = cpu.fetchSigned(), width = cpu.addressSize;
    cpu.setRegister(width, CX, cpu.register(width, CX) - 1);
    const isWanted = byte === 0xE2 || Boolean(cpu.flags & ZERO) === (byte === 0xE1);
    if (cpu.register(width, CX) !== 0 && isWanted) cpu.jumpBy(by);
}, 3);
/** JCXZ, JMP and CALL. */
one(0xE3, (cpu) => {
    const by = cpu.fetchSigned();
    if (cpu.register(cpu.addressSize, CX) === 0) cpu.jumpBy(by);
});
one(0xEB, (cpu) => cpu.jumpBy(cpu.fetchSigned()));
one(0xE9, (cpu) => cpu.jumpBy(distance(cpu)));
one(0xE8, (cpu) => {
    const by = distance(cpu);
    cpu.push(cpu.size, cpu.pointer);
    cpu.jumpBy(by);
});
const far = (cpu) => { const offset = cpu.fetch(cpu.size); return [cpu.fetch(2), offset]; };
one(0xEA, (cpu) => cpu.jumpFar(...far(cpu)));
one(0x9A, (cpu) => callFar(cpu, ...far(cpu)));
function callFar(cpu, selector, offset) {
    cpu.push(cpu.size, cpu.selectors[CS]);
    cpu.push(cpu.size, cpu.pointer);
    cpu.jumpFar(selector, offset);
}
function release(cpu, bytes) {
    const width = cpu.areWide[SS] ? 4 : 2;
    cpu.setRegister(width, SP, cpu.register(width, SP) + bytes);
}
/** RET, near and far. */
one(0xC3, (cpu) => cpu.jump(cpu.pop(cpu.size)));
one(0xC2, (cpu) => {
    const bytes = cpu.fetch(2);
    cpu.jump(cpu.pop(cpu.size));
    release(cpu, bytes);
});
function returnFar(cpu) {
    const offset = cpu.pop(cpu.size);
    cpu.jumpFar(cpu.pop(cpu.size) & 0xFFFF, offset);
}
one(0xCB, returnFar);
one(0xCA, (cpu) => {
    const bytes = cpu.fetch(2);
    returnFar(cpu);
    release(cpu, bytes);
});

/** INT 3, INT, INTO, IRET, BOUND. */
one(0xCC, (cpu) => cpu.call(3));
one(0xCD, (cpu) => cpu.call(cpu.fetch(1)));
one(0xCE, (cpu) => { if (cpu.flags & OVERFLOW) cpu.call(4); });
one(0xCF, (cpu) => {
    returnFar(cpu);
    cpu.setFlags(cpu.size, cpu.pop(cpu.size));
});
one(0x62, (cpu) => {
    decodeMemory(cpu);
    const value = signed(cpu.size, cpu.register(cpu.size, cpu.field));
    const least = signed(cpu.size, cpu.read(cpu.size, cpu.address)), most = signed(cpu.size, cpu.read(cpu.size, cpu.address + cpu.size));
    if (value < least || value > most) throw new Fault(BOUND);
});

/** INC and DEC; CALL and JMP to an operand, near and far; PUSH. */
both(0xFE, (cpu, size) => {
    cpu.decode();
    if (cpu.field < 2) cpu.setOperand(size, (cpu.field === 0 ? increment : decrement)(cpu, size, cpu.operand(size)));
    else if (size === 1 || cpu.field === 7) throw new Fault(UNDEFINED);
    else INDIRECT[cpu.field - 2](cpu);
});
const INDIRECT = [
    (cpu) => {
        const target = cpu.operand(cpu.size);
        cpu.push(cpu.size, cpu.pointer);
        cpu.jump(target);
    },
    (cpu) => callFar(cpu, ...farOperand(cpu)),
    (cpu) => cpu.jump(cpu.operand(cpu.size)),
    (cpu) => cpu.jumpFar(...farOperand(cpu)),
    (cpu) => cpu.push(cpu.size, cpu.operand(cpu.size)),
];
function farOperand(cpu) {
    if (cpu.isRegister) throw new Fault(UNDEFINED);
    return [cpu.read(2, cpu.address + cpu.size), cpu.read(cpu.size, cpu.address)];
}

// ---- ports

both(0xE4, (cpu, size) => cpu.setRegister(size, AX, cpu.bus.in(cpu.fetch(1), size)));
both(0xE6, (cpu, size) => cpu.bus.out(cpu.fetch(1), size, cpu.register(size, AX)));
both(0xEC, (cpu, size) => cpu.setRegister(size, AX, cpu.bus.in(cpu.register(2, DX), size)));
both(0xEE, (cpu, size) => cpu.bus.out(cpu.register(2, DX), size, cpu.register(size, AX)));

// ---- flags and the processor

/** HLT, CMC, CLC, STC, CLI, STI, CLD, STD, SALC, WAIT. */
one(0xF4, (cpu) => { cpu.isHalted = true; });
one(0xF5, (cpu) => { cpu.flags ^= CARRY; });
for (const [byte, flag] of [[0xF8, CARRY], [0xFA, INTERRUPT], [0xFC, DIRECTION]]) {
    one(byte, (cpu) => { cpu.flags &= ~flag; });
    one(byte + 1, (cpu) => { cpu.flags |= flag; });
}
one(0xFB, (cpu) => {
    cpu.flags |= INTERRUPT;
    cpu.holdsOff = true;
});
one(0xD6, (cpu) => cpu.setRegister(1, AX, cpu.flags & CARRY ? 0xFF : 0));
one(0x9B, () => {});
/** There is no coprocessor: its instructions do nothing. */
one(0xD8, (cpu) => cpu.decode(), 8);

defineStrings(OPERATIONS);
defineExtended(OPERATIONS);
