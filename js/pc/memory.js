// The memory of the PC: 16 MB, with the BIOS below 1 MB and again below 4 GB.

const BYTES = 16 << 20;
const BIOS_END = 0x100000, HIGH = 0xFFFE0000;
/** The video ROM's place. Its interrupt 10h is interrupt F1h, which the screen serves. */
const VIDEO = 0xC0000, VIDEO_END = 0xC0800, VIDEO_ENTRY = 0x20, VIDEO_VECTOR = 0x40;
export const VIDEO_INTERRUPT = 0xF1;

export class Memory {
    constructor(bios) {
        this.ram = new Uint8Array(BYTES);
        this.ram.fill(0xFF, VIDEO, BIOS_END);
        this.ram.set([0xCD, VIDEO_INTERRUPT, 0xCF], VIDEO + VIDEO_ENTRY);   // int F1h; iret
        this.ram.set([VIDEO_ENTRY, 0x00, VIDEO >> 4 & 0xFF, VIDEO >> 12], VIDEO_VECTOR);
        const fits = bios.subarray(Math.max(0, bios.length - (BIOS_END - VIDEO)));
        this.ram.set(fits, BIOS_END - fits.length);
    }

    /** Where an address lies in the memory; undefined beyond it. */
    #place(address) { return address >= HIGH ? address & BIOS_END - 1 : address; }

    read8(address) { return this.ram[address < BYTES ? address : this.#place(address)] ?? 0xFF; }

    read16(address) {
        if (address < BYTES - 1) return this.ram[address] | this.ram[address + 1] << 8;
        return this.read8(address) | this.read8(address + 1 >>> 0) << 8;
    }

    read32(address) {
        const { ram } = this;
        if (address < BYTES - 3) return (ram[address] | ram[address + 1] << 8 | ram[address + 2] << 16 | ram[address + 3] << 24) >>> 0;
        return (this.read16(address) | this.read16(address + 2 >>> 0) << 16) >>> 0;
    }

    /** The BIOS can be written, since it runs in shadow memory. The video ROM and its vector can't. */
    write8(address, value) {
        const place = this.#place(address);
        if ((place >= VIDEO && place < VIDEO_END) || (place >= VIDEO_VECTOR && place < VIDEO_VECTOR + 4)) return;
        this.ram[place] = value;    // a write beyond the memory does nothing
    }

    write16(address, value) {
        this.write8(address, value);
        this.write8(address + 1 >>> 0, value >> 8);
    }

    write32(address, value) {
        this.write16(address, value);
        this.write16(address + 2 >>> 0, value >>> 16);
    }
}
