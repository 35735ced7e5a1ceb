// The screen: 25 rows of 80 characters in the memory at B8000, and INT 10h, by which a BIOS and its guests write there.
import { AX, BP, BX, CX, DX, ES } from "./names.js";

const CELLS = 0xB8000, ROWS = 25, COLUMNS = 80, MODE = 0x449, COLUMN = 0x450, ROW = 0x451;
const RETURN = 13, LINE = 10, BACK = 8, BELL = 7;
/** How many characters of what was printed are kept. */
const KEPT = 4096;

export class Screen {
    constructor(ram) {
        this.ram = ram;
        this.printed = "";      // the end of what was written as on a teletype
    }

    get row() { return this.ram[ROW]; }
    get column() { return this.ram[COLUMN]; }
    /** The characters with their colours. */
    get cells() { return this.ram.slice(CELLS, CELLS + 2 * ROWS * COLUMNS); }

    #at(row, column) { return CELLS + 2 * (COLUMNS * row + column); }

    /** Moves lines up; without a number, or beyond it, lines are blanked. */
    #scroll(top, bottom, lines, colour) {
        const { ram } = this;
        for (let row = top; row <= bottom; row++) {
            const from = this.#at(row + lines, 0), at = this.#at(row, 0);
            if (lines > 0 && row + lines <= bottom) ram.copyWithin(at, from, from + 2 * COLUMNS);
            else for (let i = 0; i < 2 * COLUMNS; i += 2) ram.set([0x20, colour], at + i);
        }
    }

    #put(row, column, byte, colour) {
        if (row >= ROWS || column >= COLUMNS) return;
        this.ram[this.#at(row, column)] = byte;
        if (colour !== undefined) this.ram[this.#at(row, column) + 1] = colour;
    }

    #keep(byte) { if (byte > 0) this.printed = (this.printed + String.fromCharCode(byte)).slice(-KEPT); }

    /** Writes a character as a teletype does. */
    type(byte) {
        const { ram } = this;
        if (byte !== RETURN && byte !== BELL) this.#keep(byte);
        if (byte === RETURN) ram[COLUMN] = 0;
        else if (byte === LINE) ram[ROW]++;
        else if (byte === BACK) ram[COLUMN] -= ram[COLUMN] > 0 ? 1 : 0;
        else if (byte !== BELL) this.#typed(byte);
        if (ram[ROW] >= ROWS) {
            this.#scroll(0, ROWS - 1, 1, 7);
            ram[ROW] = ROWS - 1;
        }
    }

    #typed(byte) {
        const { ram } = this;
        this.#put(ram[ROW], ram[COLUMN], byte, 7);
        if (++ram[COLUMN] < COLUMNS) return;
        ram[COLUMN] = 0;
        ram[ROW]++;
        this.#keep(LINE);
    }

    #goTo(place) {
        this.ram[ROW] = place >> 8;
        this.ram[COLUMN] = place & 0xFF;
    }

    /** A row of the screen as text. */
    line(row) {
        const bytes = Array.from({ length: COLUMNS }, (_, column) => this.ram[this.#at(row, column)]);
        return bytes.map((byte) => (byte >= 32 && byte < 127 ? String.fromCharCode(byte) : byte === 0 ? " " : ".")).join("").trimEnd();
    }
    get text() { return Array.from({ length: ROWS }, (_, row) => this.line(row)).join("\n").trimEnd(); }

    /** INT 10h, with the registers of the processor. */
    call(cpu) {
        const service = SERVICES[cpu.register(1, AX + 4)];
        if (service) service(this, cpu, { row: this.ram[ROW], column: this.ram[COLUMN], low: cpu.register(1, AX) });
    }

    /** The services that reach into what is private here. */
    clear() {
        this.#scroll(0, ROWS - 1, 0, 7);
        this.#goTo(0);
        this.ram[MODE] = 3;
    }
    place(place) { this.#goTo(place); }
    scrollPart(top, bottom, lines, colour) { this.#scroll(top, Math.min(bottom, ROWS - 1), lines, colour); }
    cell(row, column) { return row < ROWS && column < COLUMNS ? this.ram[this.#at(row, column) + 1] << 8 | this.ram[this.#at(row, column)] : 0; }
    repeat(row, column, count, byte, colour) {
        for (let i = 0; i < count && column + i < COLUMNS; i++) this.#put(row, column + i, byte, colour);
        this.#keep(byte);
    }
}

const high = (cpu, register) => cpu.register(1, register + 4), low = (cpu, register) => cpu.register(1, register);

/** A text with or without colours; it says whether the cursor goes on. */
function typeText(screen, cpu, { row, column, low: how }) {
    screen.place(cpu.register(2, DX));
    for (let i = 0; i < cpu.register(2, CX); i++) screen.type(cpu.memory.read8(cpu.bases[ES] + (cpu.register(2, BP) + (how & 2 ? 2 * i : i) & 0xFFFF)));
    if (!(how & 1)) screen.place(row << 8 | column);
}

/** By AH. */
const SERVICES = {
    0x00: (screen) => screen.clear(),
    0x02: (screen, cpu) => screen.place(cpu.register(2, DX)),
    0x03: (screen, cpu, { row, column }) => {
        cpu.setRegister(2, DX, row << 8 | column);
        cpu.setRegister(2, CX, 0x0607);
    },
    0x06: (screen, cpu, { low: lines }) => screen.scrollPart(high(cpu, CX), high(cpu, DX), lines, high(cpu, BX)),
    0x08: (screen, cpu, { row, column }) => cpu.setRegister(2, AX, screen.cell(row, column)),
    0x09: (screen, cpu, { row, column, low: byte }) => screen.repeat(row, column, cpu.register(2, CX), byte, low(cpu, BX)),
    0x0A: (screen, cpu, { row, column, low: byte }) => screen.repeat(row, column, cpu.register(2, CX), byte),
    0x0E: (screen, cpu, { low: byte }) => screen.type(byte),
    0x0F: (screen, cpu) => {
        cpu.setRegister(2, AX, COLUMNS << 8 | 3);
        cpu.setRegister(1, BX + 4, 0);
    },
    0x12: (screen, cpu) => {
        if (low(cpu, BX) !== 0x10) return;
        cpu.setRegister(2, BX, 0x0003);
        cpu.setRegister(2, CX, 0);
    },
    0x13: typeText,
    0x1A: (screen, cpu) => {
        cpu.setRegister(1, AX, 0x1A);
        cpu.setRegister(2, BX, 0x0008);
    },
};
