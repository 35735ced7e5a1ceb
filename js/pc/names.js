// Numbers of registers, segments and flags, as the encoding of instructions has them; and the faults of the processor.

export const AX = 0;
export const CX = 1;
export const DX = 2;
export const BX = 3;
export const SP = 4;
export const BP = 5;
export const SI = 6;
export const DI = 7;

export const ES = 0;
export const CS = 1;
export const SS = 2;
export const DS = 3;
export const FS = 4;
export const GS = 5;

export const CARRY = 0x001;
export const PARITY = 0x004;
export const ADJUST = 0x010;
export const ZERO = 0x040;
export const SIGN = 0x080;
export const TRAP = 0x100;
export const INTERRUPT = 0x200;
export const DIRECTION = 0x400;
export const OVERFLOW = 0x800;
/** The flags that arithmetic sets. */
export const STATUS = 0x8D5;
/** The flags that a program can set: also the input and output privilege level, and the nested task. */
export const SETTABLE = 0x7FD5;

/** The prefixes of instructions for strings. */
export const REPEAT = 1;
export const REPEAT_WHILE_DIFFERENT = 2;

/** Vectors of faults. */
export const DIVIDE = 0;
export const BOUND = 5;
export const UNDEFINED = 6;
export const PROTECTION = 13;

/** An instruction that can't be done: the processor goes back to its begin, and takes this interrupt. */
export class Fault extends Error {
    constructor(vector, code = null) {
        super(`fault ${vector}`);
        this.vector = vector;
        this.code = code;
    }
}

/** A state in which this processor can't go on, such as paging, which it doesn't have. */
export class Stop extends Error {}

/** The highest value, and the highest bit, of a number of one, two or four bytes. */
export const MASK = [0, 0xFF, 0xFFFF, 0, 0xFFFFFFFF];
export const TOP = [0, 0x80, 0x8000, 0, 0x80000000];

/** The number with its sign, of a number of one, two or four bytes. */
export const signed = (size, value) => (size === 4 ? value | 0 : size === 2 ? value << 16 >> 16 : value << 24 >> 24);
/** The same number without a sign. */
export const unsigned = (size, value) => (size === 4 ? value >>> 0 : value & MASK[size]);
