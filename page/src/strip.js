// The cells of a sector: each byte with its 16 cells, clock and data. The clocks that a mark leaves out are marked, and a
// click on a cell plans a fault of its word.
import { dataOf, INDEX_MARK, MARK, oddClocks, partsOf } from "./cells.js";
import { colour, penOf } from "./dom.js";
import { hex } from "./text.js";

const CELL = 5, HIGH = 14, LABEL = 15, ROW = HIGH + LABEL + 9, BYTE = 16 * CELL + 4;
const SHADES = { sync: "part-quiet", gap: "part-quiet", mark: "part-mark", "address mark": "part-mark", "data mark": "part-mark", "sector ID": "part-id", CRC: "part-crc", data: "part-data" };

export class Strip {
    /** @param {(word: number) => void} planned hears on which word of the track a fault is wanted, or no longer wanted */
    constructor(canvas, planned) {
        Object.assign(this, { canvas, planned, bytes: [], faults: new Set(), cursor: 0, track: null });
        canvas.addEventListener("click", (event) => this.#click(event));
        canvas.addEventListener("keydown", (event) => this.#key(event));
        new ResizeObserver(() => this.draw()).observe(canvas.parentElement);
    }

    /** Shows the parts of a field of a track. */
    show(track, field) {
        this.track = track;
        this.bytes = partsOf(track, field.cell, field.n).flatMap(({ kind, at, count }) => Array.from({ length: count }, (_, i) => ({ kind, at: at + 16 * i })));
        this.cursor = this.bytes.findIndex((it) => it.kind === "mark");
        this.draw();
    }

    /** How many lost clocks the bytes that are shown have. */
    lost() { return this.bytes.reduce((sum, { at }) => sum + oddClocks(this.track, at).lost.length, 0); }

    get #columns() { return Math.max(1, Math.floor(this.canvas.parentElement.clientWidth / BYTE)); }

    draw() {
        if (this.track === null || this.canvas.parentElement.clientWidth === 0) return;
        const columns = this.#columns, rows = Math.ceil(this.bytes.length / columns), pen = penOf(this.canvas, columns * BYTE, rows * ROW);
        this.canvas.style.width = `${columns * BYTE}px`;
        const ink = Object.fromEntries(["ink", "quiet", "clock", "data", "lost", "fault", "empty", ...new Set(Object.values(SHADES))].map((name) => [name, colour(name)]));
        pen.font = "11px ui-monospace, monospace";
        this.bytes.forEach((byte, i) => this.#byte(pen, ink, byte, i % columns * BYTE, Math.floor(i / columns) * ROW, i === this.cursor));
        this.#name();
    }

    #byte(pen, ink, { kind, at }, x, y, isHere) {
        const word = this.track.word(at), odd = oddClocks(this.track, at), text = `${hex(dataOf(word))}${word === MARK ? " A1" : word === INDEX_MARK ? " C2" : ""}`;
        pen.fillStyle = ink[SHADES[kind]];
        pen.fillRect(x, y, BYTE - 3, LABEL);
        pen.fillStyle = ink.ink;
        pen.fillText(kind === "mark" ? `${hex(dataOf(word))} mark` : text, x + 3, y + 11);
        for (let cell = 0; cell < 16; cell++) {
            const isOne = word >> (15 - cell) & 1, left = x + cell * CELL, isFault = this.faults.has(((at + cell) % this.track.cells) >> 4);
            if (isFault) { pen.fillStyle = ink.fault; pen.fillRect(left, y + LABEL, CELL, HIGH + 6); }
            pen.fillStyle = isOne ? (cell % 2 ? ink.data : ink.clock) : ink.empty;
            pen.fillRect(left, y + LABEL + 2 + (isOne ? 0 : HIGH - 4), CELL - 1, isOne ? HIGH : 4);
            if (odd.lost.includes(cell)) { pen.fillStyle = ink.lost; pen.fillRect(left, y + LABEL + 2, CELL - 1, HIGH); }
        }
        if (isHere) { pen.strokeStyle = ink.ink; pen.lineWidth = 1.5; pen.strokeRect(x + 0.5, y + 0.5, BYTE - 4, ROW - 4); }
    }

    #name() {
        const { kind, at } = this.bytes[this.cursor] ?? this.bytes[0], word = at >> 4, clocks = oddClocks(this.track, at).lost.length;
        const told = `${kind}, byte ${hex(this.track.byte(at))}, from cell ${at}${clocks ? `, ${clocks} clock${clocks > 1 ? "s" : ""} lost` : ""}${this.faults.has(word) ? `, fault planned at word ${word}` : ""}`;
        this.canvas.setAttribute("aria-label", `Cells of the sector: ${told}. Arrow keys choose a byte, Enter plans a fault of its word.`);
    }

    /** The byte and the cell at a point of the canvas. */
    at(x, y) {
        const columns = this.#columns, column = Math.floor(x / BYTE), i = Math.floor(y / ROW) * columns + column;
        if (column >= columns || !this.bytes[i]) return null;
        return { i, cell: this.bytes[i].at + Math.min(15, Math.floor((x - column * BYTE) / CELL)) };
    }

    /** Where the byte of this number is drawn. */
    placeOf(i) { return { x: i % this.#columns * BYTE + BYTE / 2, y: Math.floor(i / this.#columns) * ROW + LABEL + 6 }; }

    #click(event) {
        const found = this.at(event.offsetX, event.offsetY);
        if (found === null) return;
        this.cursor = found.i;
        this.planned((found.cell % this.track.cells) >> 4);
    }

    #key(event) {
        const columns = this.#columns, step = { ArrowLeft: -1, ArrowRight: 1, ArrowUp: -columns, ArrowDown: columns }[event.key];
        if (step !== undefined) {
            event.preventDefault();
            this.cursor = Math.max(0, Math.min(this.bytes.length - 1, this.cursor + step));
            this.draw();
        } else if (event.key === "Enter" || event.key === " ") {
            event.preventDefault();
            this.planned((this.bytes[this.cursor].at % this.track.cells) >> 4);
        }
    }
}
