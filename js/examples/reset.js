// A controller of your own: an empty drive, its change line, and the interrupt that follows a reset. This is
// c/examples/first.c in JavaScript.
import { Lines, load } from "telwyddus";

const { Controller } = await load(), controller = new Controller();
controller.write(0x3F2, 0x1C);  // drive 0, its motor, no reset
controller.write(0x3F7, 0);     // 500 kbit/s
const made = controller.run(1000);
console.log(`INT is ${controller.lines & Lines.INT ? "up" : "down"} after ${made * controller.wordTime()} ns`);
controller.write(0x3F5, 0x08);  // SENSE INTERRUPT
console.log(`ST0 is ${controller.read(0x3F5).toString(16).toUpperCase()}`);
console.log(`the change line is ${controller.read(0x3F7) & 0x80 ? "up" : "down"}`);
controller.free();
//> INT is up after 16000 ns
//> ST0 is C0
//> the change line is up
