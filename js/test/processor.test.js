// The processor of js/pc, where libx86emu isn't a model for it: js/pc/against/compare.mjs leaves these instructions out.
// What has to come is from the processor's manual.
import assert from "node:assert/strict";
import { test } from "node:test";
import { AX, BP, BX, CARRY, CS, CX, DI, DS, DX, ES, INTERRUPT, OVERFLOW, PARITY, SI, SP, SS, Stop, ZERO } from "../pc/names.js";
import { Processor } from "../pc/processor.js";

/** A memory of 1 MB, and ports that keep what was written to them. */
class World {
    bytes = new Uint8Array(1 << 20);
    written = [];
    read8(at) { return this.bytes[at]; }
    read16(at) { return this.bytes[at] | this.bytes[at + 1] << 8; }
    read32(at) { return (this.read16(at) | this.read16(at + 2) << 16) >>> 0; }
    write8(at, value) { this.bytes[at] = value; }
    write16(at, value) { this.write8(at, value); this.write8(at + 1, value >> 8); }
    write32(at, value) { this.write16(at, value); this.write16(at + 2, value >>> 16); }
    in(port, size) { return size === 1 ? 0x5A : size === 2 ? 0x1234 : 0x12345678; }
    out(port, size, value) { this.written.push([port, size, value]); }
    serves() { return false; }
}

const AT = 0x1000, STACK = 0x8000;

/** A processor in real mode, or in protected mode with segments of 32 bits, before an instruction. */
function begun(code, { registers = {}, isProtected = false, flags = 2 } = {}) {
    const world = new World(), cpu = new Processor(world, world);
    for (let segment = 0; segment < 6; segment++) cpu.setSegment(segment, 0);
    if (isProtected) {
        cpu.control[0] = 1;
        cpu.areWide.fill(1);
        cpu.global = { base: 0x400, limit: 0x27 };
        cpu.interrupts = { base: 0x600, limit: 0x7F };
    }
    cpu.pointer = AT;
    cpu.flags = flags;
    cpu.registers[SP] = STACK;
    for (const [number, value] of Object.entries(registers)) cpu.registers[number] = value;
    world.bytes.set(code, AT);
    return { world, cpu };
}

function stepped(code, given) {
    const begin = begun(code, given);
    begin.cpu.step();
    return begin;
}
const is = (cpu, flag) => (cpu.flags & flag) !== 0;

test("counts of shifts are cut to five bits, and bits beyond the operand are gone", () => {
    assert.equal(stepped([0xD2, 0xE0], { registers: { [AX]: 0x41, [CX]: 33 } }).cpu.register(1, AX), 0x82);     // SHL AL, CL
    assert.equal(stepped([0xC1, 0xE0, 0x24], { registers: { [AX]: 1 } }).cpu.register(2, AX), 0x10);            // SHL AX, 36
    const { cpu } = stepped([0xC0, 0xE8, 9], { registers: { [AX]: 0xFF } });                                    // SHR AL, 9
    assert.deepEqual([cpu.register(1, AX), is(cpu, ZERO), is(cpu, PARITY), is(cpu, CARRY)], [0, true, true, false]);
    const sar = stepped([0xC0, 0xF8, 12], { registers: { [AX]: 0x80 } }).cpu;                                   // SAR AL, 12
    assert.deepEqual([sar.register(1, AX), is(sar, CARRY)], [0xFF, true]);
    const rcr = stepped([0xC1, 0xD8, 17], { registers: { [AX]: 0x1234 }, flags: 3 }).cpu;                       // RCR AX, 17: all around
    assert.deepEqual([rcr.register(2, AX), is(rcr, CARRY)], [0x1234, true]);
    const one = stepped([0xD0, 0xF8], { registers: { [AX]: 0x81 }, flags: 2 | OVERFLOW }).cpu;                  // SAR AL, 1
    assert.deepEqual([one.register(1, AX), is(one, OVERFLOW), is(one, CARRY)], [0xC0, false, true]);
    assert.equal(stepped([0x0F, 0xA4, 0xD8, 16], { registers: { [AX]: 0x1111, [BX]: 0x2222 } }).cpu.register(2, AX), 0x2222);    // SHLD AX, BX, 16
    assert.equal(stepped([0x0F, 0xA4, 0xD8, 36], { registers: { [AX]: 0x1111, [BX]: 0x2222 } }).cpu.register(2, AX), 0x1112);    // SHLD AX, BX, 36
});

test("decimal numbers", () => {
    for (const [before, flags, after, carry] of [[0x9A, 2, 0x34, true], [0x05, 0x12, 0xFF, true], [0x23, 2, 0x23, false], [0x9F, 3, 0x39, true], [0x01, 0x13, 0x9B, true]]) {
        const { cpu } = stepped([0x2F], { registers: { [AX]: before }, flags });    // DAS
        assert.deepEqual([cpu.register(1, AX), is(cpu, CARRY)], [after, carry], before.toString(16));
    }
    const { cpu } = stepped([0xD4, 10], { registers: { [AX]: 20 } });               // AAM
    assert.deepEqual([cpu.register(2, AX), is(cpu, ZERO)], [0x0200, true]);
});

test("divisions that don't fit are faults, and go back to their instruction", () => {
    for (const [code, registers] of [[[0xF6, 0xF3], { [AX]: 0x0100, [BX]: 1 }], [[0x66, 0xF7, 0xFB], { [AX]: 0, [DX]: 0x80000000, [BX]: 0xFFFFFFFF }], [[0xF7, 0xF3], { [BX]: 0 }], [[0xD4, 0], {}]]) {
        const { cpu, world } = begun(code, { registers });
        world.write16(0, 0x2000);
        cpu.step();
        assert.equal(cpu.pointer, 0x2000);
        assert.equal(world.read16(STACK - 6), AT);
    }
    const { cpu } = stepped([0xF7, 0xFB], { registers: { [AX]: 0x8000, [DX]: 0xFFFF, [BX]: 1 } });      // IDIV: -32768 by 1
    assert.equal(cpu.register(2, AX), 0x8000);
});

test("BOUND", () => {
    for (const [value, isIn] of [[4, true], [3, false], [9, true], [10, false], [0xFFFF, false]]) {
        const { cpu, world } = begun([0x62, 0x06, 0x00, 0x05], { registers: { [AX]: value } });
        world.write16(0x500, 4);
        world.write16(0x502, 9);
        world.write16(4 * 5, 0x3000);
        cpu.step();
        assert.equal(cpu.pointer, isIn ? AT + 4 : 0x3000, `${value}`);
    }
});

test("strings at ports", () => {
    const ins = stepped([0xF3, 0x6D], { registers: { [CX]: 2, [DI]: 0x700, [DX]: 0x80 } });
    assert.deepEqual([ins.cpu.register(2, DI), ins.world.read32(0x700), ins.cpu.register(2, CX)], [0x704, 0x12341234, 0]);
    const outs = begun([0x66, 0x6F], { registers: { [SI]: 0x700, [DX]: 0x80 } });
    outs.world.write32(0x700, 0xCAFE0123);
    outs.cpu.step();
    assert.deepEqual([outs.world.written, outs.cpu.register(2, SI)], [[[0x80, 4, 0xCAFE0123]], 0x704]);
});

test("each size where it belongs: of operands, of addresses, of the stack", () => {
    const xlat = begun([0x66, 0xD7], { registers: { [BX]: 0x10700, [AX]: 2 } });
    xlat.world.bytes[0x702] = 0x99;
    xlat.cpu.step();
    assert.equal(xlat.cpu.register(1, AX), 0x99);
    const loop = stepped([0x66, 0xE2, 0x10], { registers: { [CX]: 0x10001 } });
    assert.deepEqual([loop.cpu.registers[CX], loop.cpu.pointer], [0x10000, AT + 3]);
    const loopWide = stepped([0x67, 0xE1, 0x10], { registers: { [CX]: 0x10001 }, flags: 2 | ZERO });
    assert.deepEqual([loopWide.cpu.registers[CX], loopWide.cpu.pointer], [0x10000, AT + 3 + 0x10]);
    assert.equal(stepped([0x66, 0xE3, 0x10], { registers: { [CX]: 0x10000 } }).cpu.pointer, AT + 3 + 0x10);     // JCXZ
    const enter = stepped([0x66, 0xC8, 0x10, 0x00, 0x00], { registers: { [BP]: 0x12345678 } });
    assert.deepEqual([enter.world.read32(STACK - 4), enter.cpu.register(2, SP), enter.cpu.register(2, BP)], [0x12345678, STACK - 20, STACK - 4]);
    const ret = begun([0x66, 0xC2, 0x08, 0x00], { registers: { [SP]: 0x1FFF0 } });
    ret.world.write32(0xFFF0, 0x2222);
    ret.cpu.step();
    assert.deepEqual([ret.cpu.pointer, ret.cpu.registers[SP]], [0x2222, 0x1FFFC]);
    const leave = begun([0x66, 0xC9], { registers: { [BP]: 0x7000 } });
    leave.world.write32(0x7000, 0xABCD1234);
    leave.cpu.step();
    assert.deepEqual([leave.cpu.registers[BP], leave.cpu.registers[SP]], [0xABCD1234, 0x7004]);
});

test("single bits lie anywhere in memory", () => {
    for (const [number, at, mask] of [[-1, 0x6FE, 0x80], [-17, 0x6FC, 0x80], [35, 0x704, 0x08]]) {
        const { world } = stepped([0x0F, 0xAB, 0x06, 0x00, 0x07], { registers: { [AX]: number } });     // BTS [0700], AX
        assert.equal(world.bytes[at + (mask === 0x80 ? 1 : 0)], mask, `${number}`);
    }
    assert.equal(stepped([0x0F, 0xBA, 0xE8, 0x24], {}).cpu.register(2, AX), 0x10);                      // BTS AX, 36
});

test("addresses and calls", () => {
    const stack = begun([0x67, 0x8B, 0x45, 0x04], { registers: { [BP]: 0x700 } });     // MOV AX, [EBP + 4]
    stack.cpu.setSegment(SS, 0x100);
    stack.world.write16(0x1704, 0x4321);
    stack.cpu.step();
    assert.equal(stack.cpu.register(2, AX), 0x4321);
    const call = stepped([0xFF, 0xD4], { registers: { [SP]: 0x9000 } });                // CALL SP
    assert.deepEqual([call.cpu.pointer, call.world.read16(0x8FFE)], [0x9000, AT + 2]);
    const pop = begun([0x67, 0x8F, 0x44, 0x24, 0x10], { registers: { [SP]: 0x700 } });  // POP [ESP + 10]: of the time after the pop
    pop.world.write16(0x700, 0x5678);
    pop.cpu.step();
    assert.equal(pop.world.read16(0x712), 0x5678);
    const push = stepped([0x54], { registers: { [SP]: 0x9000 } });                      // PUSH SP
    assert.equal(push.world.read16(0x8FFE), 0x9000);
    const control = stepped([0x0F, 0x20, 0x05], { isProtected: true });                 // MOV EBP, CR0, whatever the upper bits say
    assert.deepEqual([control.cpu.registers[BP], control.cpu.pointer], [1, AT + 3]);
    const status = stepped([0x0F, 0x01, 0xF0], { isProtected: true, registers: { [AX]: 0xFFF0 } });     // LMSW AX
    assert.equal(status.cpu.control[0], 1);
    const none = stepped([0xDB, 0xE3]);                                                 // FNINIT: there is no coprocessor
    assert.equal(none.cpu.pointer, AT + 2);
});

test("undefined instructions", () => {
    for (const code of [[0x8E, 0xC8], [0x8E, 0xF8], [0x8C, 0xF0], [0xC6, 0xC8, 0], [0x8F, 0xC8], [0x62, 0xC0], [0x0F, 0x0B], [0x0F, 0xA2], [0x8D, 0xC0]]) {
        const { cpu, world } = begun(code);
        world.write16(4 * 6, 0x3000);
        cpu.step();
        assert.equal(cpu.pointer, 0x3000, code.map((byte) => byte.toString(16)).join(" "));
    }
});

/** Descriptors 08: code of 32 bits; 10: data of 32 bits at 00100000; 18: not there; 20: code of 16 bits. And two gates. */
function tables(world) {
    [[0x0000FFFF, 0x00CF9A00], [0x0000FFFF, 0x00CF9210], [0x0000FFFF, 0x00CF1200], [0x0000FFFF, 0x00009A00]].forEach(([low, high], i) => {
        world.write32(0x408 + 8 * i, low);
        world.write32(0x40C + 8 * i, high);
    });
    for (const [vector, offset, kind] of [[13, 0x3000, 0x8E00], [3, 0x4000, 0x8F00], [6, 0x5000, 0x8600]]) {
        world.write32(0x600 + 8 * vector, 0x080000 | offset);
        world.write32(0x604 + 8 * vector, kind);
    }
}

test("segments in protected mode", () => {
    const loaded = (register, selector) => {
        const begin = begun([0x8E, 0xC0 | register << 3], { isProtected: true, registers: { [AX]: selector } });
        tables(begin.world);
        begin.cpu.step();
        return begin;
    };
    const { cpu } = loaded(DS, 0x10);
    assert.deepEqual([cpu.selectors[DS], cpu.bases[DS], cpu.areWide[DS]], [0x10, 0x100000, 1]);
    assert.equal(loaded(ES, 3).cpu.selectors[ES], 3);       // no segment
    for (const [register, selector, code] of [[SS, 0, 0], [DS, 0x18, 0x18], [DS, 0x0C, 0x0C], [DS, 0x28, 0x28]]) {
        const fault = loaded(register, selector);
        assert.equal(fault.cpu.pointer, 0x3000, `${selector}`);
        assert.deepEqual([0, 4, 8, 12].map((at) => fault.world.read32(STACK - 16 + at)), [code, AT, 0, 2]);
    }
});

test("interrupts in protected mode, and the way back", () => {
    const begin = begun([0xCC], { isProtected: true, flags: 2 | INTERRUPT });
    tables(begin.world);
    begin.cpu.step();
    assert.deepEqual([begin.cpu.pointer, begin.cpu.selectors[CS], is(begin.cpu, INTERRUPT)], [0x4000, 8, true]);     // a trap gate
    begin.world.bytes[0x4000] = 0xCF;
    begin.world.write32(STACK - 8, 8);
    begin.cpu.step();
    assert.deepEqual([begin.cpu.pointer, begin.cpu.registers[SP], begin.cpu.flags], [AT + 1, STACK, 2 | INTERRUPT]);
    const narrow = begun([0x0F, 0x0B], { isProtected: true });
    tables(narrow.world);
    narrow.cpu.step();
    assert.deepEqual([narrow.cpu.pointer, narrow.cpu.registers[SP]], [0x5000, STACK - 6]);
    const lost = begun([0xCD, 0x07], { isProtected: true });
    tables(lost.world);
    lost.world.write32(0x604 + 8 * 13, 0);
    assert.throws(() => lost.cpu.step(), Stop);
    assert.throws(() => stepped([0x0F, 0x22, 0xC0], { registers: { [AX]: 0x80000000 } }), Stop);        // paging
});

test("far jumps into protected mode, and out of it", () => {
    const { cpu, world } = begun([0x0F, 0x22, 0xC0, 0x66, 0xEA, 0x00, 0x20, 0x00, 0x00, 0x08, 0x00], { registers: { [AX]: 1 } });
    cpu.global = { base: 0x400, limit: 0x27 };
    tables(world);
    world.bytes.set([0xB8, 0x78, 0x56, 0x34, 0x12, 0xEA, 0x00, 0x30, 0x00, 0x00, 0x20, 0x00], 0x2000);
    world.bytes.set([0x0F, 0x22, 0xC3, 0xEA, 0x05, 0x00, 0x00, 0x05], 0x3000);
    for (let i = 0; i < 6; i++) cpu.step();
    assert.deepEqual([cpu.registers[AX], cpu.selectors[CS], cpu.bases[CS], cpu.pointer, cpu.areWide[CS], cpu.isProtected], [0x12345678, 0x500, 0x5000, 5, 0, false]);
});

test("HLT stops, and STI and loads of SS hold interrupts off", () => {
    const { cpu } = begun([0xFB, 0xF4]);
    cpu.step();
    assert.ok(cpu.holdsOff);
    cpu.run(10);
    assert.deepEqual([cpu.isHalted, cpu.count, cpu.holdsOff], [true, 2, false]);
    assert.ok(stepped([0x17]).cpu.holdsOff);
    assert.ok(stepped([0x8E, 0xD0]).cpu.holdsOff);
    assert.ok(!stepped([0x8E, 0xD8]).cpu.holdsOff);
});
