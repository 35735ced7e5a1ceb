// The PC in the worker: it runs in short stretches, so that the page's questions come in between, and tells the page what
// there is to show.
import { Computer } from "../../js/pc/computer.js";
import { Signs } from "../../js/src/controller.js";
import { registersOf } from "../../js/pc/processor.js";
import { phaseOf } from "./chip.js";
import { Story } from "./story.js";

const WORDS_A_SECOND = 62500, MICROSECONDS = 16;
/** How long a stretch lasts at most, and how often the page hears of it, in milliseconds. */
const STRETCH = 12, TOLD_EVERY = 40;
/** Word times in a piece of a stretch: the clock is looked at after each. */
const PIECE = 500;
/** Keys that wait for the keyboard. */
const MOST_KEYS = 4096;

const pause = (ms) => new Promise((resolve) => setTimeout(resolve, ms));

export class Host {
    #keys = [];
    #run = 0;

    /** @param {(state: object) => void} tell shows the page a state */
    constructor(library, tell) {
        Object.assign(this, { library, tell, controller: null, computer: null, isRunning: false });
    }

    /** Switches the PC on, with a disk in drive A. */
    powerUp(bios, image) {
        this.powerDown();
        this.controller = new this.library.Controller();
        this.insert(image);
        this.computer = new Computer({ bios, controller: this.controller });
        this.story = new Story();
        this.#keys = [];
        const { computer, story } = this;
        computer.floppy.hears = (kind, port, value) => story.hear(kind, port, value, { at: computer.words * MICROSECONDS, moved: computer.floppy.moved });
    }

    powerDown() {
        this.isRunning = false;
        this.#run++;
        this.controller?.free();
        this.controller = this.computer = null;
    }

    insert(image) {
        if (this.controller.bay(0).signs & Signs.MEDIUM) this.controller.eject(0).free();
        const tray = this.library.Tray.ofImage(image);
        this.controller.insert(0, tray);
        tray.free();
    }

    /** The disk, if the PC has written on it since this was asked last; otherwise null. */
    written() {
        if (this.controller === null || !this.controller.isWritten(0)) return null;
        this.controller.written(0);
        return this.controller.image(0);
    }

    keys(bytes) { this.#keys.push(...bytes.slice(0, MOST_KEYS - this.#keys.length)); }

    // ---- running

    /** Lets it run, at a speed: 1 is real time, 0 as fast as it goes. It ends when the PC stops, or when `isOver` says so. */
    async go(speed, isOver = () => false) {
        const mine = ++this.#run;
        this.isRunning = true;
        let began = performance.now(), from = this.computer.words, told = 0;
        while (mine === this.#run && this.computer.stopped === null && !isOver()) {
            const now = performance.now();
            if (now - began > 1000) [began, from] = [now, this.computer.words];   // what couldn't be made up for is forgotten
            this.#stretch(now, speed === 0 ? Infinity : from + (now - began) / 1000 * WORDS_A_SECOND * speed, isOver);
            if (now - told > TOLD_EVERY) {
                this.tell(this.state());
                told = now;
            }
            await pause(speed === 0 ? 0 : 4);
        }
        if (mine !== this.#run) return;
        this.isRunning = false;
        this.tell(this.state());
    }

    #stretch(began, upto, isOver) {
        const { computer } = this;
        while (computer.words < upto && computer.stopped === null && !isOver() && performance.now() - began < STRETCH) {
            if (this.#keys.length > 0 && computer.keyboard.press(this.#keys[0])) this.#keys.shift();
            computer.run(Math.min(upto, computer.words + PIECE), isOver);
        }
    }

    stop() {
        this.#run++;
        this.isRunning = false;
    }

    /** One instruction. */
    step() {
        this.stop();
        this.computer.step();
    }

    /** Runs as fast as it goes, up to the next command at the controller. */
    toCommand() {
        const { story } = this, before = story.commands;
        return this.go(0, () => story.commands > before);
    }

    // ---- what there is to show

    state() {
        const { computer, controller } = this;
        if (computer === null) return { isOn: false };
        const bay = controller.bay(0), { floppy, screen, cpu } = computer, registers = registersOf(cpu);
        return {
            isOn: true, isRunning: this.isRunning, stopped: computer.stopped, at: computer.words * MICROSECONDS, instructions: cpu.count, cells: screen.cells, row: screen.row, column: screen.column,
            messages: computer.messages, entries: this.story.fresh(), cpu: { ...registers, code: this.#code(registers) }, accesses: floppy.accesses, moved: floppy.moved,
            drive: { phase: phaseOf(controller.read(0x3F4)), cylinder: bay.cylinder, motor: (bay.signs & Signs.MOTOR) !== 0, selected: (bay.signs & Signs.SELECTED) !== 0,
                writes: (bay.signs & Signs.GATE) !== 0, hasMedium: (bay.signs & Signs.MEDIUM) !== 0, interrupt: floppy.isUp },
        };
    }

    #code({ pointer }) { return Array.from({ length: 8 }, (_, i) => this.computer.memory.read8(this.computer.cpu.bases[1] + pointer + i >>> 0)); }
}
