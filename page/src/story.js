// What a program does at the ports of the controller, as entries for readers: one for each command, with its bytes, what
// passed by DMA, its interrupt and its results; and one for each change of DOR, the data rate and the change line. Runs
// in the worker.
import { commandOf, judged } from "./chip.js";
import { grouped, hex, hexes } from "./text.js";

const DRIVES = "ABCD";
const RATES = ["500 kbit/s", "300 kbit/s", "250 kbit/s", "1 Mbit/s"];
const DOR = 0x3F2, MSR = 0x3F4, DATA = 0x3F5, RATE = 0x3F7;

/** What DOR says, in words. */
export function dorInWords(value) {
    if (!(value & 4)) return "the controller is held in reset";
    const motors = [...DRIVES].filter((_, drive) => value >> drive + 4 & 1);
    const motor = motors.length === 0 ? "no motor runs" : motors.length === 1 ? `the motor of ${motors[0]} runs` : `the motors of ${motors.join(", ")} run`;
    return `drive ${DRIVES[value & 3]} is selected, ${motor}${value & 8 ? "" : "; INT and DRQ are shut off"}`;
}

/** A command in a few words: what it is for, and where. */
export function commandInWords(bytes) {
    const { name, parts, code } = commandOf(bytes[0]);
    if (bytes.length <= parts.length) return name;
    const drive = `drive ${DRIVES[bytes[1] & 3]}`;
    if (parts.length === 8) {
        const [, , c, h, r, , eot] = bytes;
        return `${name}: ${drive}, cylinder ${c}, head ${h}, ${r === eot ? `sector ${r}` : `sectors ${r} to ${eot}`}${bytes[0] & 0x80 ? " (MT)" : ""}`;
    }
    if (code === 0x0F) return `${name}: ${drive} to cylinder ${bytes[2]}`;
    if (code === 0x4D) return `${name}: ${drive}, head ${bytes[1] >> 2 & 1}, ${bytes[3]} sectors`;
    return parts[0]?.[0] === "HD" || parts[0]?.[0] === "DS" ? `${name}: ${drive}` : name;
}

/** The entries, in the order of time. `fresh` gives those that are new or changed since it was asked last. */
export class Story {
    #fresh = new Set();
    #next = 1;
    #dor = 0;
    #change = -1;
    #rate = -1;

    constructor() { Object.assign(this, { entry: null, commands: 0 }); }    // the command that is under way, and how many began

    fresh() {
        const entries = [...this.#fresh];
        this.#fresh.clear();
        return entries;
    }

    #add(entry) {
        const made = { id: this.#next++, ...entry };
        this.#fresh.add(made);
        return made;
    }

    #tell(more) {
        if (this.entry === null) return;
        Object.assign(this.entry, more);
        this.#fresh.add(this.entry);
    }

    /** Hears of a port or a line, at a time in microseconds. `moved` is how many bytes have passed by DMA up to now. */
    hear(kind, port, value, { at, moved }) {
        if (kind === "interrupt") this.#tell({ interrupt: at });
        else if (kind === "count") this.#tell({ hasCount: true });
        else if (kind === "out") this.#out(port, value, at, moved);
        else this.#in(port, value, at, moved);
    }

    #out(port, value, at, moved) {
        const isReset = port === DOR ? !(value & 4) : port === MSR && (value & 0x80) !== 0;
        if (isReset) this.entry = null;
        if (port === DATA) this.#byte(value, at, moved);
        else if (port === DOR && value !== this.#dor) this.#add({ at, kind: "port", port, value, says: dorInWords(this.#dor = value) });
        else if (port === RATE && value !== this.#rate) this.#add({ at, kind: "port", port, value, says: `the data rate is ${RATES[(this.#rate = value) & 3]}` });
        else if (port === MSR) this.#add({ at, kind: "port", port, value, says: isReset ? "a reset by software" : `the data rate is ${RATES[value & 3]}` });
    }

    /** A byte of a command. The first one begins an entry. */
    #byte(value, at, moved) {
        if (this.entry === null || this.entry.bytes.length === this.entry.needs) {
            this.entry = this.#add({ at, kind: "command", bytes: [], needs: 1 + commandOf(value).parts.length, results: [], polls: 0, begin: moved, moved: 0 });
            this.commands++;
        }
        this.entry.bytes.push(value);
        this.#tell({ says: commandInWords(this.entry.bytes) });
    }

    #in(port, value, at, moved) {
        if (port === MSR && this.entry !== null) this.entry.polls++;
        else if (port === DATA && this.entry !== null) this.#result(value, at, moved);
        else if (port === RATE && (value & 0x80) !== this.#change) {
            this.#change = value & 0x80;
            this.#add({ at, kind: "port", port, value, says: this.#change ? "the change line is up: the disk was changed, or there is none" : "the change line is down" });
        }
    }

    #result(value, at, moved) {
        const { entry } = this, results = [...entry.results, value], names = commandOf(entry.bytes[0]).results;
        this.#tell({ results, isBad: names[0] === "ST0" && (results[0] & 0xC0) === 0x40, moved: moved - entry.begin, judged: judged(results, names), end: at });
    }
}

/** An entry as one line of text. */
export function entryInWords(entry) {
    if (entry.kind === "port") return `${hex(entry.port, 3)} ${hex(entry.value)}: ${entry.says}`;
    const after = entry.results.length > 0 ? `; ${hexes(entry.results)}: ${entry.judged}` : "";
    return `${entry.says}${entry.moved > 0 ? `; ${grouped(entry.moved)} bytes by DMA` : ""}${after}`;
}
