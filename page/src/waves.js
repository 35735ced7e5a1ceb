// INT, DRQ, INDEX, the phases and the port accesses over time, as a logic analyser draws them.
import { by, colour, fill, penOf, table } from "./dom.js";
import { grouped, hex, lasting } from "./text.js";
import { Lines } from "../../js/src/controller.js";

const LEFT = 62, LANE = 30, TOP = 18;
const LANES = [["phase", null], ["ports", null], ["INT", Lines.INT], ["DRQ", Lines.DRQ], ["INDEX", Lines.INDEX]];
const SHADES = { reset: "part-quiet", idle: "part-quiet", command: "part-id", execution: "part-data", results: "part-crc", seek: "part-mark" };

/** The most events that are kept. When there are more, the oldest half goes. */
const MOST = 60000;

export class Waves {
    constructor(canvas) {
        Object.assign(this, { canvas, events: [], bench: 0, from: 0, upto: 1, wordTime: 16000 });
        canvas.addEventListener("keydown", (event) => this.#key(event));
        canvas.addEventListener("wheel", (event) => {
            if (!event.ctrlKey) return;
            event.preventDefault();
            this.zoom(event.deltaY < 0 ? 0.5 : 2);
        }, { passive: false });
        for (const [id, act] of [["wave-in", () => this.zoom(0.5)], ["wave-out", () => this.zoom(2)], ["wave-left", () => this.move(-0.4)], ["wave-right", () => this.move(0.4)], ["wave-all", () => this.whole()]]) by(id).onclick = act;
        new ResizeObserver(() => this.draw()).observe(canvas);
    }

    /** Shows what a bench did, from the step `from` on. The events of an earlier bench go. */
    show({ news, bench, state }, from) {
        if (bench !== this.bench) this.events = [];
        this.bench = bench;
        this.events.push(...news);
        if (this.events.length > MOST) this.events.splice(0, this.events.length - MOST / 2);
        this.wordTime = state.wordTime;
        this.now = state.now;
        this.begin = Math.max(from, this.events[0]?.at ?? 0);
        this.whole();
        fill(by("events"), table("The last changes and accesses", ["step", "what"], this.events.slice(-60).reverse().map((it) => [grouped(it.at), says(it)])));
    }

    whole() { this.look(this.begin ?? 0, Math.max((this.now ?? 0) + 1, (this.begin ?? 0) + 4)); }
    look(from, upto) {
        Object.assign(this, { from, upto });
        this.draw();
    }
    zoom(by) {
        const middle = (this.from + this.upto) / 2, half = Math.max(2, (this.upto - this.from) * by / 2);
        this.look(Math.max(0, middle - half), middle + half);
    }
    move(share) {
        const step = Math.max(-this.from, (this.upto - this.from) * share);
        this.look(this.from + step, this.upto + step);
    }

    #x(at) { return LEFT + (at - this.from) / (this.upto - this.from) * (this.canvas.clientWidth - LEFT - 4); }

    draw() {
        const width = this.canvas.clientWidth, height = TOP + LANES.length * LANE + 18;
        if (width === 0) return;
        const pen = penOf(this.canvas, width, height);
        pen.font = "11px system-ui, sans-serif";
        pen.fillStyle = colour("ink");
        LANES.forEach(([name], i) => pen.fillText(name, 2, TOP + LANE * i + 18));
        pen.fillText(`step ${grouped(Math.round(this.from))}`, LEFT, 11);
        const end = `step ${grouped(Math.round(this.upto))}, ${lasting(this.upto - this.from, this.wordTime)} shown`;
        pen.fillText(end, width - pen.measureText(end).width - 4, 11);
        pen.save();
        pen.beginPath();
        pen.rect(LEFT, TOP, width - LEFT, height);
        pen.clip();
        this.#lanes(pen);
        pen.restore();
        this.canvas.setAttribute("aria-label", `Waves of INT, DRQ and INDEX from step ${Math.round(this.from)} to ${Math.round(this.upto)}. Plus and minus zoom, arrow keys move.`);
    }

    #lanes(pen) {
        const lines = this.events.filter((it) => it.kind === "lines");
        // The stretches between changes. What came before the first that is kept isn't known, so nothing is drawn there.
        lines.forEach((it, i) => {
            const upto = lines[i + 1]?.at ?? this.now + 1;
            if (upto < this.from || it.at > this.upto) return;
            const x = this.#x(it.at), wide = Math.max(this.#x(upto) - x, 1);
            LANES.forEach(([, bit], lane) => bit && this.#line(pen, it.lines & bit, (lines[i - 1]?.lines ?? it.lines) & bit, x, wide, TOP + LANE * lane));
        });
        const phases = lines.filter((it, i) => it.phase !== lines[i - 1]?.phase);
        phases.forEach((it, i) => this.#phase(pen, it.phase, Math.max(this.#x(it.at), LEFT), this.#x(phases[i + 1]?.at ?? this.now + 1)));
        for (const it of this.events) if (it.kind !== "lines" && it.at >= this.from && it.at <= this.upto) this.#access(pen, it);
    }

    #phase(pen, phase, x, upto) {
        if (upto <= x || x > this.canvas.clientWidth) return;
        pen.fillStyle = colour(SHADES[phase]);
        pen.fillRect(x, TOP + 4, upto - x, LANE - 10);
        pen.fillStyle = colour("ink");
        if (upto - x > 7 * phase.length + 6) pen.fillText(phase, x + 4, TOP + 18);
    }

    #line(pen, isUp, wasUp, x, wide, y) {
        pen.fillStyle = colour(isUp ? "up" : "down");
        if (isUp) pen.fillRect(x, y + 5, wide, LANE - 11);
        else pen.fillRect(x, y + LANE - 8, wide, 2);
        if (Boolean(isUp) !== Boolean(wasUp)) {
            pen.fillStyle = colour("up");
            pen.fillRect(x - 0.5, y + 5, 1.5, LANE - 11);
        }
    }

    #access(pen, event) {
        const x = this.#x(event.at), y = TOP + LANE;
        pen.fillStyle = colour({ out: "clock", in: "data", dack: "up", tc: "lost" }[event.kind]);
        if (event.kind === "dack") pen.fillRect(x, y + LANE * 2 + 1, 1, 4);
        else pen.fillRect(x, y + 4, 1.5, LANE - 10);
    }

    #key(event) {
        const act = { "+": () => this.zoom(0.5), "=": () => this.zoom(0.5), "-": () => this.zoom(2), ArrowLeft: () => this.move(-0.2), ArrowRight: () => this.move(0.2), Home: () => this.whole() }[event.key];
        if (!act) return;
        event.preventDefault();
        act();
    }
}

/** An event in words. */
function says(event) {
    if (event.kind === "lines") return `${event.phase}; ${["INT", "DRQ", "TO_MEMORY", "INDEX"].filter((name) => event.lines & Lines[name]).join(", ") || "no line"} up`;
    if (event.kind === "dack") return `the channel moved ${event.moved} byte${event.moved === 1 ? "" : "s"}`;
    if (event.kind === "tc") return "terminal count";
    return `${event.kind === "out" ? "written to" : "read from"} ${hex(event.port, 3)}: ${hex(event.value)}`;
}

