// Arithmetic, and the flags that it sets. Numbers have no sign: they are from 0 up to the mask of their size.
import { ADJUST, AX, CARRY, DIVIDE, DX, Fault, MASK, OVERFLOW, PARITY, SIGN, signed, STATUS, TOP, unsigned, ZERO } from "./names.js";

/** The parity flag of a byte: set if it has an even number of ones. */
const PARITY_OF = Uint8Array.from({ length: 256 }, (_, byte) => {
    let ones = 0;
    for (let left = byte; left > 0; left >>= 1) ones += left & 1;
    return ones & 1 ? 0 : PARITY;
});

/** Zero, sign and parity of a result. */
const looks = (size, result) => (result === 0 ? ZERO : 0) | (result & TOP[size] ? SIGN : 0) | PARITY_OF[result & 0xFF];

function sum(cpu, size, one, other, carry) {
    const whole = one + other + carry, result = unsigned(size, whole);
    cpu.flags = cpu.flags & ~STATUS | looks(size, result) | (one ^ other ^ result) & ADJUST | (whole > MASK[size] ? CARRY : 0)
        | ((one ^ result) & (other ^ result) & TOP[size] ? OVERFLOW : 0);
    return result;
}

function difference(cpu, size, one, other, borrow) {
    const whole = one - other - borrow, result = unsigned(size, whole);
    cpu.flags = cpu.flags & ~STATUS | looks(size, result) | (one ^ other ^ result) & ADJUST | (whole < 0 ? CARRY : 0)
        | ((one ^ other) & (one ^ result) & TOP[size] ? OVERFLOW : 0);
    return result;
}

export function logical(cpu, size, value) {
    const result = unsigned(size, value);
    cpu.flags = cpu.flags & ~STATUS | looks(size, result);
    return result;
}

export const add = (cpu, size, one, other) => sum(cpu, size, one, other, 0);
export const subtract = (cpu, size, one, other) => difference(cpu, size, one, other, 0);
const or = (cpu, size, one, other) => logical(cpu, size, one | other);
const and = (cpu, size, one, other) => logical(cpu, size, one & other);
const exclusive = (cpu, size, one, other) => logical(cpu, size, one ^ other);
const addWithCarry = (cpu, size, one, other) => sum(cpu, size, one, other, cpu.flags & CARRY);
const subtractWithBorrow = (cpu, size, one, other) => difference(cpu, size, one, other, cpu.flags & CARRY);
/** By their number in an instruction. The last one is a comparison: its result isn't stored. */
export const BINARY = [add, or, addWithCarry, subtractWithBorrow, and, subtract, exclusive, subtract];

/** INC and DEC leave the carry as it was. */
function withoutCarry(cpu, operation, size, value) {
    const carry = cpu.flags & CARRY, result = operation(cpu, size, value, 1);
    cpu.flags = cpu.flags & ~CARRY | carry;
    return result;
}
export const increment = (cpu, size, value) => withoutCarry(cpu, add, size, value);
export const decrement = (cpu, size, value) => withoutCarry(cpu, subtract, size, value);

// ---- shifts and rotations: each bit by itself

const setCarry = (cpu, carry) => { cpu.flags = cpu.flags & ~CARRY | (carry ? CARRY : 0); };
const isTop = (size, value) => (value & TOP[size] ? 1 : 0);

function rotateLeft(cpu, size, value) {
    const top = isTop(size, value);
    setCarry(cpu, top);
    return unsigned(size, value << 1 | top);
}

function rotateRight(cpu, size, value) {
    setCarry(cpu, value & 1);
    return unsigned(size, value >>> 1 | (value & 1 ? TOP[size] : 0));
}

function rotateLeftThrough(cpu, size, value) {
    const carry = cpu.flags & CARRY;
    setCarry(cpu, isTop(size, value));
    return unsigned(size, value << 1 | carry);
}

function rotateRightThrough(cpu, size, value) {
    const carry = cpu.flags & CARRY;
    setCarry(cpu, value & 1);
    return unsigned(size, value >>> 1 | (carry ? TOP[size] : 0));
}

function shiftLeft(cpu, size, value) {
    setCarry(cpu, isTop(size, value));
    return unsigned(size, value << 1);
}

function shiftRight(cpu, size, value) {
    setCarry(cpu, value & 1);
    return value >>> 1;
}

function shiftRightSigned(cpu, size, value) {
    setCarry(cpu, value & 1);
    return unsigned(size, value >>> 1 | value & TOP[size]);
}

/** By their number in an instruction. */
const SHIFTS = [rotateLeft, rotateRight, rotateLeftThrough, rotateRightThrough, shiftLeft, shiftRight, shiftLeft, shiftRightSigned];
const LEFTWARD = 0b01010101;

/** A shift or rotation by some bits. Overflow says whether the last bit changed the sign (to the left: the carry). */
export function shift(cpu, kind, size, value, bits) {
    const count = bits & 31;
    if (count === 0) return value;
    let result = value, before = value;
    for (let i = 0; i < count; i++) {
        before = result;
        result = SHIFTS[kind](cpu, size, result);
    }
    const changes = LEFTWARD >> kind & 1 ? isTop(size, result) !== (cpu.flags & CARRY) : isTop(size, result) !== isTop(size, before);
    cpu.flags = cpu.flags & ~OVERFLOW | (changes ? OVERFLOW : 0);
    if (kind > 3) cpu.flags = cpu.flags & ~(ZERO | SIGN | PARITY | ADJUST) | looks(size, result);
    return result;
}

/** SHLD and SHRD: bits of `more` come in at the other end. */
export function shiftDouble(cpu, isLeft, size, value, more, bits) {
    const count = bits & 31;
    if (count === 0) return value;
    let result = value, rest = more, before = value;
    for (let i = 0; i < count; i++) {
        before = result;
        setCarry(cpu, isLeft ? isTop(size, result) : result & 1);
        result = unsigned(size, isLeft ? result << 1 | isTop(size, rest) : result >>> 1 | (rest & 1 ? TOP[size] : 0));
        rest = unsigned(size, isLeft ? rest << 1 : rest >>> 1);
    }
    const changes = isTop(size, result) !== isTop(size, before);
    cpu.flags = cpu.flags & ~(OVERFLOW | ZERO | SIGN | PARITY | ADJUST) | looks(size, result) | (changes ? OVERFLOW : 0);
    return result;
}

// ---- multiplication and division

/** Carry and overflow say that the upper half of a product is of use. */
const setWide = (cpu, isWide) => { cpu.flags = cpu.flags & ~(CARRY | OVERFLOW) | (isWide ? CARRY | OVERFLOW : 0); };

/** A product, and its two halves without a sign. `isSigned` says whether the factors have signs. */
function product(size, one, other, isSigned) {
    const bits = 8 * size;
    const whole = isSigned ? BigInt(signed(size, one)) * BigInt(signed(size, other)) : BigInt(one) * BigInt(other);
    return { whole, low: Number(BigInt.asUintN(bits, whole)), high: Number(BigInt.asUintN(bits, whole >> BigInt(bits))) };
}

/** MUL and IMUL of AL, AX or EAX. */
export function multiply(cpu, size, factor, isSigned) {
    const { whole, low, high } = product(size, cpu.register(size, AX), factor, isSigned);
    if (size === 1) cpu.setRegister(2, AX, high << 8 | low);
    else {
        cpu.setRegister(size, AX, low);
        cpu.setRegister(size, DX, high);
    }
    setWide(cpu, isSigned ? whole !== BigInt(signed(size, low)) : high !== 0);
}

/** IMUL into a register: the product's lower half. */
export function multiplyInto(cpu, size, one, other) {
    const { whole, low } = product(size, one, other, true);
    setWide(cpu, whole !== BigInt(signed(size, low)));
    return low;
}

/** DIV and IDIV of AX, DX AX or EDX EAX. */
export function divide(cpu, size, divisor, isSigned) {
    if (divisor === 0) throw new Fault(DIVIDE);
    const bits = 8 * size, high = size === 1 ? cpu.register(2, AX) >> 8 : cpu.register(size, DX);
    const dividend = BigInt(high) << BigInt(bits) | BigInt(cpu.register(size, AX));
    const [over, under] = isSigned ? [BigInt.asIntN(2 * bits, dividend), BigInt(signed(size, divisor))] : [dividend, BigInt(divisor)];
    const quotient = over / under, rest = Number(BigInt.asUintN(bits, over % under));
    if (quotient !== (isSigned ? BigInt.asIntN(bits, quotient) : BigInt.asUintN(bits, quotient))) throw new Fault(DIVIDE);
    const low = Number(BigInt.asUintN(bits, quotient));
    if (size === 1) cpu.setRegister(2, AX, rest << 8 | low);
    else {
        cpu.setRegister(size, AX, low);
        cpu.setRegister(size, DX, rest);
    }
}

// ---- decimal numbers in AL and AH

/** DAA and DAS: `sign` is 1 or -1. */
export function decimalAdjust(cpu, sign) {
    const before = cpu.register(1, AX), hadCarry = cpu.flags & CARRY;
    let value = before, flags = 0;
    if ((before & 15) > 9 || cpu.flags & ADJUST) {
        value += 6 * sign;
        flags |= ADJUST | (hadCarry || value < 0 || value > 0xFF ? CARRY : 0);
    }
    if (before > 0x99 || hadCarry) {
        value += 0x60 * sign;
        flags |= CARRY;
    }
    cpu.setRegister(1, AX, value);
    cpu.flags = cpu.flags & ~STATUS | flags | looks(1, value & 0xFF);
}

/** AAA and AAS. */
export function adjust(cpu, sign) {
    const isOver = (cpu.register(1, AX) & 15) > 9 || cpu.flags & ADJUST;
    if (isOver) cpu.setRegister(2, AX, cpu.register(2, AX) + 0x106 * sign);
    cpu.setRegister(1, AX, cpu.register(1, AX) & 15);
    cpu.flags = cpu.flags & ~(CARRY | ADJUST) | (isOver ? CARRY | ADJUST : 0);
}

/** AAM. */
export function divideDigits(cpu, base) {
    if (base === 0) throw new Fault(DIVIDE);
    const value = cpu.register(1, AX);
    cpu.setRegister(2, AX, Math.floor(value / base) << 8 | logical(cpu, 1, value % base));
}

/** AAD. */
export function multiplyDigits(cpu, base) {
    const value = cpu.register(2, AX);
    cpu.setRegister(2, AX, logical(cpu, 1, (value >> 8) * base + (value & 0xFF)));
}
