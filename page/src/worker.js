// The page's worker: it has the library, the disk, the bench and the files. The page asks by messages, so that it never
// waits for a whole disk.
import { trialDisk } from "../../js/pc/trial.js";
import { instantiate } from "../../js/src/library.js";
import { Bench } from "./bench.js";
import { opened, saved, shapeOf, surveyed, trackOf } from "./disk.js";
import { Host } from "./host.js";
import { made } from "./made.js";
import { Desktop } from "./work.js";

const DISK = "disk.rt";
let library, image = null, bench = null, benches = 0, plan = "", desktop, shown = 0, host, inHost = null;

const tell = (event, told) => postMessage({ event, ...told });

/** Shows an image: its survey goes to the page in pieces. A later call ends an earlier one. */
async function show(bytes, name, kind) {
    const mine = ++shown, began = performance.now();
    image = bytes;
    desktop.files.set(DISK, image);
    tell("disk", { name, kind, shape: shapeOf(image), length: image.length });
    for (const piece of surveyed(library, image)) {
        if (mine !== shown) return;
        tell("fields", piece);
        await new Promise((resolve) => setTimeout(resolve));   // lets messages of the page in between
    }
    if (mine === shown) tell("surveyed", { ms: performance.now() - began });
}

function theBench() {
    if (bench === null) {
        bench = new Bench(library, image);
        benches++;
        bench.powerUp(image ? shapeOf(image).kilobits : 500);
        bench.plan(plan);
    }
    return bench;
}

/** What the page shows after something was done on the bench: which bench it is, its state, and the news. */
const benchState = (more = {}) => ({ ...more, state: theBench().state(), news: bench.news(), bench: benches });

/** If the bench wrote on its disk, that is the page's disk from now on. */
function takeWritten() {
    if (!bench.controller.isWritten(0)) return false;
    bench.controller.written(0);
    show(bench.image(), "disk.rt", "written at the ports");
    return true;
}

function newBench() {
    bench?.free();
    bench = null;
}

// ---- the PC

/** What the PC shows. While it waits, the page has the disk as the PC wrote it. */
function hostState() {
    const state = host.state();
    if (!state.isRunning) takeFromHost();
    return state;
}

/** If the page shows another disk by now, the one that the PC wrote is a file beside it. */
function takeFromHost() {
    const written = host.written();
    if (written === null) return;
    if (image !== inHost) {
        desktop.files.set("pc.rt", written);
        return;
    }
    newBench();
    show(written, DISK, "written by the PC");
    inHost = image;
}

function putIntoHost(put) {
    put();
    inHost = image;
}

function bootDisk() {
    const tray = library.Tray.ofFlat(trialDisk()), bytes = tray.image();
    tray.free();
    newBench();
    show(bytes, "the boot disk", "made here");
}

const ASKED = {
    async begin({ module }) {
        library = await instantiate(module);
        desktop = new Desktop(library);
        host = new Host(library, (state) => {
            tell("pc", state);
            if (!state.isRunning) takeFromHost();
        });
        return { version: library.version() };
    },
    made() {
        newBench();
        show(made(library), "the made disk", "made here");
    },
    open({ bytes, name }) {
        const { kind, image: read } = opened(library, bytes);
        newBench();
        desktop.files.set(name, bytes);
        show(read, name, kind);
        return { kind };
    },
    track: ({ cylinder, head }) => trackOf(image, cylinder, head),
    save: ({ kind }) => saved(library, image, kind),
    memory: () => library.memory(),

    benchNew() { newBench(); return benchState(); },
    benchState: () => benchState(),
    benchSend({ bytes, data, count }) { return benchState({ sent: theBench().send(bytes, data, count) }); },
    benchAdvance({ most, until }) { return benchState({ made: theBench().advance(most, until) }); },
    benchResults() { return { results: theBench().results(), wrote: takeWritten(), ...benchState() }; },
    benchLatency({ steps }) { theBench().channel.latency = steps; },
    benchPlan({ text }) {
        theBench().plan(text);
        plan = text;    // which a controller has too that is made later
    },
    benchTries({ cylinder, head, key, most }) { return benchState({ tries: theBench().tries(cylinder, head, key, most) }); },

    pcPower({ bios, disk }) {
        if (disk === "boot") bootDisk();
        putIntoHost(() => host.powerUp(bios, image));
        return hostState();
    },
    pcGo({ speed }) {
        host.go(speed);
        return host.state();
    },
    pcPause() { host.stop(); return hostState(); },
    pcStep() { host.step(); return hostState(); },
    pcToCommand() { host.toCommand(); return host.state(); },
    pcKeys: ({ bytes }) => host.keys(bytes),
    pcInsert() {
        takeFromHost();
        putIntoHost(() => host.insert(image));
        return host.state();
    },

    files: () => desktop.list(),
    file: ({ name }) => desktop.files.get(name),
    put({ name, bytes }) { desktop.files.set(name, bytes); return desktop.list(); },
    form: ({ name, fields }) => afterRun(desktop.form(name, fields)),
    int13: ({ text }) => afterRun(desktop.int13(text)),
    speed: () => speed(),
};

/** How many seconds a format of a cylinder takes here, for estimates. */
function speed() {
    const own = new Desktop(library), cylinders = 4;
    return own.run(["format", "trial.rt", String(cylinders)], []).seconds / cylinders;
}

/** Answers what a run did. If it stored another disk under the page's name, that is the page's disk from now on. */
function afterRun(told) {
    const stored = desktop.files.get(DISK);
    if (told.stored.includes(DISK)) {
        if (same(stored, image)) desktop.files.set(DISK, image);
        else {
            newBench();
            show(stored, DISK, "stored by the program");
        }
    }
    return { ...told, files: desktop.list() };
}

const same = (one, other) => one.length === other.length && one.every((byte, i) => byte === other[i]);

self.onmessage = async ({ data: { id, what, args } }) => {
    try {
        postMessage({ id, answer: await ASKED[what](args ?? {}) });
    } catch (fault) {
        postMessage({ id, fault: { name: fault.name, message: fault.message, code: fault.code, line: fault.line, cylinder: fault.cylinder, head: fault.head } });
    }
};
