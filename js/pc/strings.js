// The instructions for strings, with their repeat prefixes.
import { subtract } from "./arithmetic.js";
import { AX, CX, DI, DIRECTION, DS, DX, ES, REPEAT, SI, ZERO } from "./names.js";

const source = (cpu) => cpu.bases[cpu.override < 0 ? DS : cpu.override] + cpu.register(cpu.addressSize, SI);
const target = (cpu) => cpu.bases[ES] + cpu.register(cpu.addressSize, DI);

/** Moves a pointer to the next element. */
function next(cpu, number, size) {
    const width = cpu.addressSize, by = cpu.flags & DIRECTION ? -size : size;
    cpu.setRegister(width, number, cpu.register(width, number) + by);
}

/** What an instruction does with one element, by its first byte. Each has a form for bytes and one for larger elements. */
const STRINGS = {
    0x6C: (cpu, size) => {
        cpu.write(size, target(cpu), cpu.bus.in(cpu.register(2, DX), size));
        next(cpu, DI, size);
    },
    0x6E: (cpu, size) => {
        cpu.bus.out(cpu.register(2, DX), size, cpu.read(size, source(cpu)));
        next(cpu, SI, size);
    },
    0xA4: (cpu, size) => {
        cpu.write(size, target(cpu), cpu.read(size, source(cpu)));
        next(cpu, SI, size);
        next(cpu, DI, size);
    },
    0xA6: (cpu, size) => {
        subtract(cpu, size, cpu.read(size, source(cpu)), cpu.read(size, target(cpu)));
        next(cpu, SI, size);
        next(cpu, DI, size);
    },
    0xAA: (cpu, size) => {
        cpu.write(size, target(cpu), cpu.register(size, AX));
        next(cpu, DI, size);
    },
    0xAC: (cpu, size) => {
        cpu.setRegister(size, AX, cpu.read(size, source(cpu)));
        next(cpu, SI, size);
    },
    0xAE: (cpu, size) => {
        subtract(cpu, size, cpu.register(size, AX), cpu.read(size, target(cpu)));
        next(cpu, DI, size);
    },
};
const COMPARES = new Set([0xA6, 0xAE]);

/** Does it once, or as often as CX says. A comparison ends early when the zero flag isn't what the prefix wants. */
function repeated(cpu, size, once, compares) {
    if (cpu.repeat === 0) {
        once(cpu, size);
        return;
    }
    const width = cpu.addressSize;
    while (cpu.register(width, CX) !== 0) {
        once(cpu, size);
        cpu.setRegister(width, CX, cpu.register(width, CX) - 1);
        if (compares && (cpu.flags & ZERO) !== (cpu.repeat === REPEAT ? ZERO : 0)) break;
    }
}

export function defineStrings(table) {
    for (const [name, once] of Object.entries(STRINGS)) {
        const byte = Number(name), compares = COMPARES.has(byte);
        table[byte] = (cpu) => repeated(cpu, 1, once, compares);
        table[byte + 1] = (cpu) => repeated(cpu, cpu.size, once, compares);
    }
}
