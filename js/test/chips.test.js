// The chips of js/pc, and a PC around a controller that does nothing.
import assert from "node:assert/strict";
import { test } from "node:test";
import { Clock, Interrupts, Keyboard, Timer } from "../pc/chips.js";
import { Computer } from "../pc/computer.js";
import { Floppy } from "../pc/floppy.js";
import { AX, BX, CX, DX, ES } from "../pc/names.js";

function served() {
    const interrupts = new Interrupts();
    for (const [number, base] of [[0, 0x08], [1, 0x70]]) {
        interrupts.pair[number].write(0, 0x11);
        for (const word of [base, 4, 1, 0x00]) interrupts.pair[number].write(1, word);
    }
    return interrupts;
}

test("an 8259: priorities, masks, and the end of an interrupt", () => {
    const interrupts = served();
    interrupts.set(6, true);
    interrupts.set(1, true);
    assert.deepEqual([interrupts.line, interrupts.take(), interrupts.line], [1, 0x09, -1]);      // line 6 has to wait
    interrupts.pair[0].write(0, 0x20);
    interrupts.pair[0].write(1, 0x40);
    assert.equal(interrupts.line, -1);
    interrupts.pair[0].write(1, 0x00);
    assert.equal(interrupts.take(), 0x0E);
    interrupts.pair[0].write(0, 0x0B);
    assert.equal(interrupts.pair[0].read(0), 0x40);
    interrupts.pair[0].write(0, 0x66);
    assert.equal(interrupts.pair[0].read(0), 0x00);
    interrupts.set(8, true);
    interrupts.set(14, true);
    assert.deepEqual([interrupts.take(), interrupts.line], [0x70, -1]);
    interrupts.pair[0].write(0, 0x20);
    interrupts.pair[1].write(0, 0x20);
    assert.equal(interrupts.take(), 0x76);
    interrupts.set(3, true);
    interrupts.set(3, false);
    assert.equal(interrupts.line, -1);
});

test("an 8254 counts 1.193182 million times a second", () => {
    const timer = new Timer();
    let ticks = 0;
    for (let i = 0; i < 62500; i++) ticks += timer.pass(1);
    assert.equal(ticks, 18);
    timer.write(3, 0x34);
    timer.write(0, 0xA9);
    timer.write(0, 0x04);       // 1,193 clocks: a millisecond
    ticks = 0;
    for (let i = 0; i < 62500; i++) ticks += timer.pass(1);
    assert.equal(ticks, 1000);
    timer.write(3, 0x00);
    const low = timer.read(0);
    timer.pass(5);
    assert.equal(timer.counters[0].latch, low | timer.read(0) << 8);
    timer.write(3, 0xB0);
    timer.write(2, 100);
    timer.write(2, 0);
    timer.pass(10);
    assert.equal(timer.readPort61() & 0x20, 0);
    timer.writePort61(1);
    timer.pass(10);
    assert.equal(timer.readPort61() & 0x20, 0x20);
    timer.write(3, 0xC2);
    assert.ok(timer.counters[0].isLatched);
});

test("the clock has a drive of 1.44 MB, and a sum over its memory", () => {
    const clock = new Clock(), read = (at, words = 0) => { clock.at = at; return clock.read(words); };
    assert.equal(read(0x10), 0x40);
    let sum = 0;
    for (let at = 0x10; at < 0x2E; at++) sum += read(at);
    assert.equal(read(0x2E) << 8 | read(0x2F), sum);
    assert.deepEqual([read(0x00, 62500 * 75), read(0x0A, 0) & 0x80, read(0x0A, 100) & 0x80], [0x15, 0x80, 0]);
});

test("the keyboard: its controller's commands, and keys", () => {
    let asked = 0;
    const keyboard = new Keyboard(() => asked++), answers = () => { const got = []; while (keyboard.status & 1) got.push(keyboard.readData()); return got; };
    keyboard.writeCommand(0xAA);
    assert.deepEqual(answers(), [0x55]);
    keyboard.writeCommand(0x60);
    keyboard.writeData(0x45);
    keyboard.writeCommand(0x20);
    keyboard.writeData(0xFF);
    keyboard.writeData(0xF3);
    keyboard.writeData(0x00);
    keyboard.writeData(0xF2);
    assert.deepEqual(answers(), [0x45, 0xFA, 0xAA, 0xFA, 0xFA, 0xFA, 0xAB, 0x41]);
    asked = 0;
    assert.ok(keyboard.press(0x1E));
    assert.ok(!keyboard.press(0x9E));
    assert.deepEqual([answers(), asked], [[0x1E], 1]);
    keyboard.writeCommand(0xAD);
    assert.ok(!keyboard.press(0x9E));
});

/** A controller that asks for some bytes, or gives some, at its first steps. */
class Fake {
    constructor(given, isToMemory) { Object.assign(this, { given, isToMemory, taken: [], lines: 0, hasCount: false, runs: 0 }); }
    wordTime() { return this.rate ?? 16000; }
    read() { return 0x80; }
    write() {}
    run(most) {
        this.runs += most;
        this.lines = this.given.length > 0 ? 2 | (this.isToMemory ? 4 : 0) : 1;
        return most;
    }
    #passed() { if (this.given.length === 0 || this.hasCount) this.lines = 1; }
    dackRead() {
        const byte = this.given.shift();
        this.#passed();
        return byte;
    }
    dackWrite(byte) {
        this.taken.push(byte);
        this.given.shift();
        this.#passed();
    }
    tc() {
        this.hasCount = true;
        this.#passed();
    }
    bay() { return { cylinder: 0, signs: 0 }; }
}

/** A channel that is set to move so many bytes at 0001FFFE, which is near the end of a page. */
function programmed(fake, mode, count) {
    const ram = new Uint8Array(1 << 20), told = [], floppy = new Floppy(fake, ram, () => told.push("6"));
    floppy.hears = (kind) => told.push(kind);
    for (const [port, value] of [[0x0A, 6], [0x0C, 0], [0x0B, mode], [0x04, 0xFE], [0x04, 0xFF], [0x05, count - 1], [0x05, 0], [0x81, 1], [0x0A, 2]]) floppy.write(port, value);
    return { ram, told, floppy };
}

test("DMA to memory goes around in its page, up to the terminal count", () => {
    const fake = new Fake([1, 2, 3, 4, 5], true), { ram, told, floppy } = programmed(fake, 0x46, 4);
    floppy.pass(1);
    assert.deepEqual([ram[0x1FFFE], ram[0x1FFFF], ram[0x10000], ram[0x10001], ram[0x20000]], [1, 2, 3, 4, 0]);
    assert.deepEqual([fake.hasCount, told, floppy.moved], [true, ["count", "interrupt", "6"], 4]);
    assert.deepEqual([floppy.read(0x08), floppy.read(0x08), floppy.channel.isMasked], [4, 0, true]);
    floppy.write(0x0C, 0);
    assert.deepEqual([floppy.read(0x04), floppy.read(0x04), floppy.read(0x05), floppy.read(0x05), floppy.read(0x81)], [0x02, 0x00, 0xFF, 0xFF, 1]);
});

test("DMA from memory, and no DMA while the channel is masked", () => {
    const fake = new Fake([0, 0, 0], false), { ram, floppy } = programmed(fake, 0x4A, 9);
    ram.set([7, 8], 0x1FFFE);
    ram[0x10000] = 9;
    floppy.write(0x0F, 4);
    floppy.pass(1);
    assert.equal(fake.taken.length, 0);
    floppy.write(0x0E, 0);
    floppy.pass(1);
    assert.deepEqual([fake.taken, fake.hasCount], [[7, 8, 9], false]);
});

test("a device step lasts as long as the rate says", () => {
    const fake = new Fake([], true);
    fake.rate = 32000;
    const floppy = new Floppy(fake, new Uint8Array(16), () => {});
    for (let i = 0; i < 5; i++) floppy.pass(1);
    assert.equal(fake.runs, 2);
    floppy.followsRate = false;
    floppy.pass(3);
    assert.equal(fake.runs, 5);
});

/** A PC that begins with this code, as its BIOS. */
function booted(...code) {
    const bios = new Uint8Array(0x10000);
    bios.set(code);
    bios.set([0xEA, 0, 0, 0, 0xF0], 0xFFF0);
    return new Computer({ bios, controller: new Fake([], true) });
}

test("a PC stops where it can't go on", () => {
    const computer = booted(0xFA, 0xF4);
    computer.run(1000);
    assert.match(computer.stopped, /halted/);
    assert.deepEqual([computer.cpu.count, computer.words < 3], [3, true]);
    computer.step();
    assert.equal(computer.cpu.count, 3);
});

test("a halted PC waits for the timer", () => {
    // The interrupt controller is set, vector 8 points to an IRET, and then STI and HLT.
    const computer = booted(...[[0x20, 0x11], [0x21, 0x08], [0x21, 0x04], [0x21, 0x01], [0x21, 0xFE]].flatMap(([port, value]) => [0xB0, value, 0xE6, port]),
        0x31, 0xC0, 0x8E, 0xD8, 0xC7, 0x06, 0x20, 0x00, 0x00, 0x01, 0xC7, 0x06, 0x22, 0x00, 0x00, 0xF0, 0xFB, 0xF4, 0xFA, 0xF4);
    computer.memory.ram[0xF0100] = 0xCF;
    computer.run(62500);
    assert.match(computer.stopped, /halted/);
    assert.ok(computer.words > 3400 && computer.words < 3450, `${computer.words}`);     // 65,536 clocks
});

test("the screen, and INT 10h", () => {
    const computer = booted(0xF4), { cpu, screen, memory } = computer;
    const call = (ax, { bx = 0, cx = 0, dx = 0 } = {}) => {
        for (const [register, value] of [[AX, ax], [BX, bx], [CX, cx], [DX, dx]]) cpu.setRegister(2, register, value);
        screen.call(cpu);
    };
    call(0x0003);
    for (const letter of "one\r\ntwo") call(0x0E00 | letter.charCodeAt(0));
    assert.deepEqual([screen.text, screen.printed, screen.row, screen.column], ["one\ntwo", "one\ntwo", 1, 3]);
    call(0x0200, { dx: 0x184F });
    call(0x0E41);
    assert.deepEqual([screen.line(23)[79], screen.row, screen.column], ["A", 24, 0]);
    assert.equal(screen.line(0), "two");
    call(0x0941, { bx: 0x1E, cx: 3 });
    call(0x0800);
    assert.equal(cpu.register(2, AX), 0x1E41);
    call(0x0300);
    assert.deepEqual([cpu.register(2, DX), cpu.register(2, CX)], [0x1800, 0x0607]);
    call(0x0600, { bx: 0x0700, dx: 0x184F });
    assert.equal(screen.text, "");
    call(0x0F00);
    assert.equal(cpu.register(2, AX), 0x5003);
    memory.ram.set(Buffer.from("text"), 0x500);
    cpu.setSegment(ES, 0x50);
    cpu.registers[5] = 0;
    call(0x1301, { cx: 4, dx: 0x0102 });
    assert.deepEqual([screen.line(1), screen.column], ["  text", 6]);
});

test("the BIOS can write its shadow, and not the video ROM", () => {
    const { memory } = booted(0xF4);
    memory.write32(0xE0000, 0x12345678);
    memory.write16(0xC0020, 0);
    memory.write16(0x40, 0);
    assert.deepEqual([memory.read32(0xE0000), memory.read8(0xC0020), memory.read32(0x40)], [0x12345678, 0xCD, 0xC0000020]);
    assert.deepEqual([memory.read32(0x2000000), memory.read16(0xFFFFFFF0), memory.read32(0xFFFFFF)], [0xFFFFFFFF, 0x00EA, 0xFFFFFF00]);
});
