// The controller as a device of an emulator: its time, its DMA channel and its interrupt. A guest reads a sector.
import { Lines, load } from "telwyddus";

const { Controller, Tray } = await load();

/** A bus with one device on it. Time is counted in nanoseconds. */
class Device {
    now = 0;            // the emulator's time
    at = 0;             // device steps were made up to this time
    irq = false;
    channel = { memory: new Uint8Array(0), place: 0 };

    constructor(controller) {
        this.controller = controller;
        this.wordTime = controller.wordTime();
    }

    /** After each call that can change a line: bytes pass while DRQ is up, then the interrupt line follows INT. */
    attend() {
        const { controller, channel } = this;
        while (controller.lines & Lines.DRQ && channel.place < channel.memory.length) {
            const rest = channel.memory.subarray(channel.place);
            if (controller.lines & Lines.TO_MEMORY) {
                const got = controller.dackBlockRead(rest.length);
                rest.set(got);
                channel.place += got.length;
            } else channel.place += controller.dackBlockWrite(rest);
            if (channel.place === channel.memory.length) controller.tc();
        }
        this.irq = (controller.lines & Lines.INT) !== 0;
    }

    /** Makes the device steps that are due. A run ends after each change of a line, so no byte comes late. */
    catchUp() {
        for (let due = Math.floor((this.now - this.at) / this.wordTime); due > 0; due = Math.floor((this.now - this.at) / this.wordTime)) {
            this.at += this.controller.run(due) * this.wordTime;
            this.attend();
        }
    }

    read(port) {
        this.catchUp();
        const value = this.controller.read(port);
        this.attend();
        return value;
    }

    write(port, value) {
        this.catchUp();
        this.controller.write(port, value);
        this.wordTime = this.controller.wordTime();     // 3F4 and 3F7 choose the rate
        this.attend();
    }
}

const controller = new Controller(), flat = Uint8Array.from({ length: 1474560 }, (_, i) => i >> 9 & 255);
controller.insert(0, Tray.ofFlat(flat));
const device = new Device(controller), send = (...bytes) => { for (const byte of bytes) device.write(0x3F5, byte); };
/** Lets time pass up to the interrupt, a millisecond at a time. */
const wait = () => {
    const from = device.now;
    while (!device.irq) { device.now += 1e6; device.catchUp(); }
    return `${(device.now - from) / 1e6} ms`;
};
const results = (count) => Array.from({ length: count }, () => device.read(0x3F5).toString(16).padStart(2, "0")).join(" ");

device.write(0x3F2, 0x1C);
device.write(0x3F7, 0);
wait();
for (let drive = 0; drive < 4; drive++) { send(0x08); results(2); }
send(0x0F, 0, 5);
wait();
send(0x08);
console.log(`the heads are there: ${results(2)}`);
device.channel = { memory: new Uint8Array(512), place: 0 };
send(0x46, 0, 5, 0, 3, 2, 3, 0x1B, 0xFF);
const took = wait();
console.log(`a sector is read in ${took}: ${results(7)}`);
console.log(`its bytes are ${device.channel.memory.every((byte) => byte === (5 * 36 + 2 & 255)) ? "right" : "wrong"}`);
//> the heads are there: 20 05
//> a sector is read in 132 ms: 00 00 00 06 00 01 02
//> its bytes are right
