import { Planned } from "./drives.js";
import { byte, count, flag, port, shapeOf, wordsOf } from "./memory.js";

/** The bits of `lines`. */
export const Lines = Object.freeze({ INT: 1, DRQ: 2, TO_MEMORY: 4, INDEX: 8 });
/** The bits of a bay's signs. */
export const Signs = Object.freeze({ MOTOR: 1, SELECTED: 2, GATE: 4, MEDIUM: 8 });

/** The bare controller with two drives, for a bus of your own. `lines` is as the last call gave it. */
export class Controller extends Planned {
    static kind = "controller";

    /** @param {string} [plan] the text of a plan, whose faults the drives have */
    constructor(plan) {
        super(plan);
        this.lines = this.told(8, "lines");
    }

    read(at) { return this.tellingNumber(8, "read", port(at)); }
    write(at, value) { this.telling("write", port(at), byte(value)); }
    /** One device step. */
    step() { this.telling("step"); }
    /** Device steps up to the one in which INT or DRQ changes, but at most so many; says how many were made. */
    run(most) { return this.tellingNumber(32, "run", count(most)); }
    /** A number of device steps that surely change neither INT nor DRQ: `most`, or 0. */
    quiet(most) { return this.told(32, "quiet", count(most)); }
    /** How long a device step lasts, in nanoseconds. */
    wordTime() { return this.told(32, "word_time"); }
    /** The reset pin. */
    reset() { this.telling("reset"); }
    strapSeeks(on) { this.do("strap_seeks", flag(on)); }
    strapSteps(on) { this.do("strap_steps", flag(on)); }

    // ---- the DMA channel is yours: these are DACK and the terminal count

    dackRead() { return this.tellingNumber(8, "dack_read"); }
    dackWrite(value) { this.telling("dack_write", byte(value)); }
    /** Takes bytes as long as the controller asks, and at most so many. */
    dackBlockRead(most) {
        return this.memory.with(most, (at) => {
            const moved = this.tellingNumber(64, "dack_block_read", at, BigInt(most));
            return this.memory.bytes(at, moved).slice();
        });
    }
    /** Gives bytes as long as the controller asks, and says how many passed. */
    dackBlockWrite(bytes) { return this.memory.withBytes(bytes, (at, length) => this.tellingNumber(64, "dack_block_write", at, length)); }
    tc() { this.telling("tc"); }

    // ---- drives, and the media in them

    insert(bay, tray) { this.telling("insert", count(bay), tray.at); }
    eject(bay) { return this.constructor.classes.Tray.made((tray) => this.telling("eject", count(bay), tray.at)); }
    image(bay) { return this.taken("image", [count(bay)]); }
    flat(bay) { return this.fitting((...after) => this.taken("flat", [count(bay)], { after })); }
    shape(bay) { return shapeOf(this, count(bay)); }
    track(bay, cylinder, head) { return wordsOf(this.taken("track", [count(bay), byte(cylinder), byte(head)], { unit: 2 })); }
    protect(bay, on = true) { this.do("protect", count(bay), flag(on)); }
    attach(bay, on = true) { this.do("attach", count(bay), flag(on)); }
    /** Whether a word of the medium was replaced since that was last forgotten. `written` forgets it, `isWritten` doesn't. */
    isWritten(bay) { return this.told(8, "is_written", count(bay)) !== 0; }
    written(bay) { return this.told(8, "written", count(bay)) !== 0; }
    /** The [cylinder, head] of each track that was written since the last call of this. */
    writtenTracks(bay) {
        const bits = this.memory.with(20, (at) => {
            this.do("written_tracks", count(bay), at);
            return this.memory.bytes(at, 20).slice();
        });
        return Array.from({ length: 160 }, (_, track) => track).filter((track) => bits[track >> 3] >> (track & 7) & 1).map((track) => [track >> 1, track & 1]);
    }
    /** The cylinder under a bay's heads, and its signs. */
    bay(bay) {
        return this.memory.with(2, (at) => {
            this.do("bay", count(bay), at, at + 1);
            const [cylinder, signs] = this.memory.bytes(at, 2);
            return { cylinder, signs };
        });
    }
    /** The drive that DOR selects, 0 to 3. */
    selected() { return this.told(8, "selected"); }
    /** Plans the faults of a bay's drive from now on. */
    plan(bay, plan) { this.planned(plan, (at, length, line) => this.do("plan", count(bay), at, length, line)); }

    // ---- states

    restore(state) { this.memory.withBytes(state, (at, length) => this.telling("restore", at, length)); }
    /** The state without the media. */
    saveBare() { return this.taken("save_bare"); }
    restoreBare(state) { this.memory.withBytes(state, (at, length) => this.telling("restore_bare", at, length)); }
}
