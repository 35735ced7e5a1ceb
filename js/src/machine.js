import { Planned } from "./drives.js";
import { byte, count, port, size } from "./memory.js";

/** The whole machine: controller, DMA channel 2, 1 MiB of memory, and the latch of IRQ 6. */
export class Machine extends Planned {
    static kind = "machine";

    inb(at) { return this.told(8, "inb", port(at)); }
    outb(at, value) { this.do("outb", port(at), byte(value)); }
    wait(steps) { this.do("wait", count(steps)); }
    /** Waits for the latch; says how many device steps were made, and whether it is set. */
    waitIrq(most) {
        return this.memory.with(8, (at) => {
            this.do("wait_irq", count(most), at, at + 4);
            const { data } = this.memory;
            return { made: data.getUint32(at, true), isSet: data.getUint8(at + 4) !== 0 };
        });
    }
    /** Clears the latch, and says whether it was set. */
    takeIrq() { return this.told(8, "take_irq") !== 0; }
    memoryGet(address, length) {
        return this.memory.with(length, (at) => {
            this.do("memory_get", size(address), at, BigInt(length));
            return this.memory.bytes(at, length).slice();
        });
    }
    memorySet(address, bytes) { this.memory.withBytes(bytes, (at, length) => this.do("memory_set", size(address), at, length)); }
}
