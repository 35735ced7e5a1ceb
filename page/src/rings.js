// The sides of the disk as rings: cylinder 0 outside, the index at the top, cells clockwise.
import { endOf } from "./cells.js";
import { colour, penOf } from "./dom.js";
import { keyOf, LOOKS, placeOf } from "./looks.js";

const OUTER = 0.96, INNER = 0.26;   // of half the width
const BROAD = 3.2;                  // CSS pixels: how broad a sector is drawn at least that isn't simply intact

export class Rings {
    /** @param {HTMLCanvasElement} canvas @param {(field: object) => void} chosen hears which field was chosen */
    constructor(canvas, head, chosen) {
        Object.assign(this, { canvas, head, chosen, fields: [], shape: null, selected: null });
        this.byTrack = new Map();
        canvas.addEventListener("click", (event) => this.#click(event));
        canvas.addEventListener("keydown", (event) => this.#key(event));
        new ResizeObserver(() => this.draw()).observe(canvas);
    }

    begin(shape) {
        this.shape = shape;
        this.fields = [];
        this.byTrack.clear();
        this.draw();
    }

    /** Takes the fields of some cylinders, and draws these alone. */
    add(fields, from, upto) {
        const own = fields.filter((field) => field.head === this.head);
        this.fields.push(...own);
        for (let cylinder = from; cylinder < upto; cylinder++) this.byTrack.set(cylinder, own.filter((field) => field.cylinder === cylinder));
        const pen = this.canvas.getContext("2d");
        for (let cylinder = from; cylinder < upto; cylinder++) this.#track(pen, cylinder);
        this.#others(pen);
        this.#name();
    }

    #name() {
        const bad = this.fields.filter((field) => field.found !== "OK" && field.found !== "DELETED");
        this.canvas.setAttribute("aria-label", `Side ${this.head}: ${this.fields.length} sectors, ${bad.length} of them not intact. Arrow keys choose a sector: up and down the cylinder, left and right the sector.`);
    }

    // ---- places

    get #half() { return this.canvas.clientWidth / 2; }
    get #wide() { return (OUTER - INNER) * this.#half / Math.max(this.shape.cylinders, 40); }
    #radius(cylinder) { return OUTER * this.#half - this.#wide * (cylinder + 0.5); }
    #angle(cell) { return cell / (this.shape.words * 16) * 2 * Math.PI - Math.PI / 2; }
    #end(field) {
        const track = this.byTrack.get(field.cylinder), next = track[track.indexOf(field) + 1]?.cell ?? this.shape.words * 16;
        return endOf(field.cell, field.n, next);
    }

    // ---- drawing

    draw() {
        const width = this.canvas.clientWidth;
        if (width === 0) return;
        const pen = penOf(this.canvas, width, width);
        pen.clearRect(0, 0, width, width);
        if (this.shape === null || this.head >= this.shape.heads) return;
        for (let cylinder = 0; cylinder < this.shape.cylinders; cylinder++) this.#track(pen, cylinder);
        this.#others(pen);
        pen.fillStyle = colour("quiet");
        pen.textAlign = "center";
        pen.font = "600 14px system-ui, sans-serif";
        pen.fillText(`side ${this.head}`, this.#half, this.#half + 5);
        pen.fillRect(this.#half - 1, 0, 2, this.#half * (1 - OUTER));    // the index
        this.#mark(pen);
    }

    #arc(pen, cylinder, from, upto, stroke, wide) {
        pen.beginPath();
        pen.arc(this.#half, this.#half, this.#radius(cylinder), this.#angle(from), this.#angle(upto));
        pen.strokeStyle = stroke;
        pen.lineWidth = wide;
        pen.stroke();
    }

    /** Narrow rings touch each other, since a gap between them would leave too little of each colour. */
    get #line() { return this.#wide < 3 ? this.#wide * 1.05 : this.#wide * 0.85; }

    #track(pen, cylinder) {
        const fields = this.byTrack.get(cylinder);
        this.#arc(pen, cylinder, 0, this.shape.words * 16, colour(fields?.length === 0 ? "unrecorded" : "gap"), this.#line);
        for (const field of fields ?? []) if (field.found === "OK") this.#sector(pen, field, this.#line);
    }

    /** What isn't simply intact is drawn last and broader, so that it can be seen. */
    #others(pen) { for (const field of this.fields) if (field.found !== "OK") this.#sector(pen, field, Math.max(this.#line, BROAD)); }
    #sector(pen, field, wide) { this.#arc(pen, field.cylinder, field.cell, this.#end(field), LOOKS[field.found].colour, wide); }

    #mark(pen) {
        const field = this.selected;
        if (field === null || field.head !== this.head) return;
        this.#arc(pen, field.cylinder, field.cell, this.#end(field), colour("ink"), Math.max(this.#wide * 2, 8));
        this.#sector(pen, field, Math.max(this.#wide, 4));
    }

    select(field) {
        this.selected = field;
        this.draw();
    }

    // ---- choosing

    /** The field at a point of the canvas, in CSS pixels. A field that is drawn broader is met by a click beside it too. */
    at(x, y) {
        if (this.shape === null) return undefined;
        const half = this.#half, radius = Math.hypot(x - half, y - half), cylinder = Math.floor((OUTER * half - radius) / this.#wide);
        const turn = ((Math.atan2(y - half, x - half) + Math.PI / 2) / (2 * Math.PI) + 1) % 1, cell = turn * this.shape.words * 16;
        const isHit = (field) => field.cell <= cell && cell < this.#end(field), off = (field) => Math.abs(this.#radius(field.cylinder) - radius);
        const broad = this.fields.filter((field) => field.found !== "OK" && isHit(field) && off(field) <= BROAD / 2 + 1).sort((one, other) => off(one) - off(other));
        return broad[0] ?? this.byTrack.get(cylinder)?.find(isHit);
    }

    /** The middle of a field on the canvas, in CSS pixels. */
    placeOf(field) {
        const angle = (this.#angle(field.cell) + this.#angle(this.#end(field))) / 2, radius = this.#radius(field.cylinder);
        return { x: this.#half + radius * Math.cos(angle), y: this.#half + radius * Math.sin(angle) };
    }

    #click(event) {
        const field = this.at(event.offsetX, event.offsetY);
        if (field) this.chosen(field);
    }

    #key(event) {
        const steps = { ArrowUp: [-1, 0], ArrowDown: [1, 0], ArrowLeft: [0, -1], ArrowRight: [0, 1] }[event.key];
        if (!steps || this.fields.length === 0) return;
        event.preventDefault();
        if (this.selected?.head !== this.head) this.chosen(this.fields[0]);
        else this.chosen(this.#neighbour(this.selected, ...steps));
    }

    /** The field so many cylinders and places on; empty tracks are passed over. */
    #neighbour(field, cylinders, places) {
        const own = this.byTrack.get(field.cylinder), place = own.indexOf(field);
        if (places) return own[(place + places + own.length) % own.length];
        for (let c = field.cylinder + cylinders; c >= 0 && c < this.shape.cylinders; c += cylinders) {
            const there = this.byTrack.get(c);
            if (there?.length) return there[Math.min(place, there.length - 1)];
        }
        return field;
    }
}

/** What a field is, in a sentence. */
export const told = (field) => `${placeOf(field)}: ${keyOf(field)}, ${LOOKS[field.found].name}`;
