// What controllers, machines and desks have in common: two bays, plans, and states as bytes.
import { count, Slot } from "./memory.js";

/** An object with two bays, 0 and 1. */
export class Drives extends Slot {
    /** Puts the medium of a tray into a bay. The tray is empty afterwards. */
    insert(bay, tray) { this.do("insert", count(bay), tray.at); }
    /** Takes the medium out of a bay, into a new tray. */
    eject(bay) { return this.constructor.classes.Tray.made((tray) => this.do("eject", count(bay), tray.at)); }
}

/** An object whose drives can have the faults of a plan, and whose state can be kept as bytes. */
export class Planned extends Drives {
    constructor(plan) {
        super();
        try {
            if (plan === undefined) this.do("new");
            else this.planned(plan, (at, length, line) => this.do("new_planned", at, length, line));
        } catch (fault) {
            this.free();
            throw fault;
        }
    }

    /** The whole state, with the media. */
    save() { return this.taken("save"); }
    /** Makes this object what was saved. If the bytes are refused, it stays as it was. */
    restore(state) { this.memory.withBytes(state, (at, length) => this.do("restore", at, length)); }
}
