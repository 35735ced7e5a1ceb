// The PC of the page: its screen, its keys, and what its BIOS does at the ports of the controller.
import { bytesOf, commandOf, explained } from "./chip.js";
import { by, fill, make, say, table } from "./dom.js";
import { bytesOfKey, bytesOfText } from "./keys.js";
import { dorInWords, entryInWords } from "./story.js";
import { grouped, hex, hexes } from "./text.js";

const SPEEDS = [[1, "real time"], [0.1, "a tenth of real time"], [0.01, "a hundredth of real time"], [0, "as fast as it goes"]];
const COLUMNS = 80, CYLINDERS = 80, MOST_ENTRIES = 400;
/** The colours of a text screen. */
const COLOURS = ["#000000", "#0000aa", "#00aa00", "#00aaaa", "#aa0000", "#aa00aa", "#aa5500", "#aaaaaa", "#555555", "#5555ff", "#55ff55", "#55ffff", "#ff5555", "#ff55ff", "#ffff55", "#ffffff"];
const REGISTERS = ["EAX", "ECX", "EDX", "EBX", "ESP", "EBP", "ESI", "EDI"], SEGMENTS = ["ES", "CS", "SS", "DS", "FS", "GS"];
const FLAGS = [[0x800, "overflow"], [0x400, "direction"], [0x200, "interrupts"], [0x80, "sign"], [0x40, "zero"], [0x10, "adjust"], [0x04, "parity"], [0x01, "carry"]];

const seconds = (microseconds) => `${(microseconds / 1e6).toFixed(3)} s`;
const letterOf = (byte) => (byte >= 32 && byte < 127 ? String.fromCharCode(byte) : byte === 0 ? " " : "·");

export class ComputerPart {
    /** @param {import("./link.js").Link} link @param {{name: string, bytes: Uint8Array} | null} bios what the page has for a BIOS */
    constructor(link, bios) {
        Object.assign(this, { link, bios, isOn: false, isRunning: false, seen: "", entries: new Map(), chosen: 0, reached: null });
        fill(by("pc-speed"), ...SPEEDS.map(([speed, name]) => make("option", { value: speed }, name)));
        by("pc-power").onclick = () => this.#power();
        by("pc-pause").onclick = () => this.#pause();
        by("pc-step").onclick = () => this.#ask("pcStep");
        by("pc-command").onclick = () => this.#ask("pcToCommand");
        by("pc-insert").onclick = () => this.#ask("pcInsert");
        by("pc-speed").onchange = () => { if (this.isRunning) this.#ask("pcGo", { speed: this.#speed }); };
        by("pc-type").onkeydown = (event) => { if (event.key === "Enter") this.#type(); };
        by("pc-enter").onclick = () => this.#type();
        by("pc-pick").onclick = () => by("pc-file").click();
        by("pc-file").onchange = (event) => { if (event.target.files[0]) this.#take(event.target.files[0]); };
        by("pc-story").onkeydown = (event) => this.#walk(event);
        for (const kind of ["keydown", "keyup"]) by("pc-screen").addEventListener(kind, (event) => this.#key(event));
        this.#show(new Uint8Array(2 * COLUMNS * 25));
        this.#lit();
    }

    get #speed() { return Number(by("pc-speed").value); }

    /** What can be done now, and which BIOS there is. */
    #lit() {
        by("pc-power").disabled = this.bios === null;
        by("pc-power").textContent = this.isOn ? "Off and on" : "Power on";
        by("pc-pause").textContent = this.isRunning ? "Pause" : "Go on";
        for (const id of ["pc-pause", "pc-step", "pc-command", "pc-insert", "pc-enter"]) by(id).disabled = !this.isOn || (id !== "pc-insert" && id !== "pc-enter" && this.stopped);
        by("pc-licence").textContent = this.bios === null ? "This page has no BIOS: choose a file with one, such as bios.bin of Debian's package seabios."
            : `The BIOS is ${this.bios.name}.${this.bios.says ? ` ${this.bios.says}` : ""}`;
    }

    async #take(file) {
        this.bios = { name: file.name, bytes: new Uint8Array(await file.arrayBuffer()) };
        this.#lit();
    }

    async #ask(what, args) { this.hear(await this.link.ask(what, args)); }

    async #power() {
        this.entries.clear();
        Object.assign(this, { chosen: 0, reached: null });
        fill(by("pc-story"));
        fill(by("pc-entry"));
        await this.#ask("pcPower", { bios: this.bios.bytes, disk: by("pc-disk").value });
        by("pc-disk").value = "page";       // where the boot disk is from now on
        await this.#ask("pcGo", { speed: this.#speed });
        by("pc-screen").focus({ preventScroll: true });
    }

    async #pause() { await (this.isRunning ? this.#ask("pcPause") : this.#ask("pcGo", { speed: this.#speed })); }

    /** Keys of the screen go to the PC, but for the tabulator key, which leaves the screen. */
    #key(event) {
        const bytes = bytesOfKey(event.code, event.type === "keydown");
        if (bytes === null || event.code === "Tab" || !this.isOn) return;
        event.preventDefault();
        this.link.ask("pcKeys", { bytes });
    }

    #type() {
        this.link.ask("pcKeys", { bytes: bytesOfText(`${by("pc-type").value}\n`) });
        by("pc-type").value = "";
    }

    // ---- what the worker tells

    /** Shows a state. The worker tells one some 25 times a second while the PC runs. */
    hear(state) {
        Object.assign(this, { isOn: state.isOn, isRunning: state.isRunning, stopped: Boolean(state.stopped) });
        this.#lit();
        if (!state.isOn) return;
        this.#show(state.cells, state.isRunning ? state.row * COLUMNS + state.column : -1);
        this.#drive(state);
        this.#processor(state);
        for (const entry of state.entries) this.#entry(entry);
        by("pc-messages").textContent = state.messages;
        const how = state.stopped ? `It stopped: ${state.stopped}` : state.isRunning ? "It runs" : "It waits";
        by("pc-told").textContent = `${how}; ${seconds(state.at)} of its time, ${grouped(state.instructions)} instructions.`;
        if (state.stopped && by("pc-told").dataset.stopped !== "yes") say(`${by("pc-told").textContent} ${by("pc-screen").textContent.trim().split("\n").at(-1)}`);
        by("pc-told").dataset.stopped = state.stopped ? "yes" : "no";
    }

    /** The screen: each row is a text, in pieces of the same colours. */
    #show(cells, cursor = -1) {
        const seen = `${cells.join()} ${cursor}`;
        if (seen === this.seen) return;
        this.seen = seen;
        const pieces = [];
        for (let at = 0; at < cells.length / 2; at++) {
            if (at > 0 && at % COLUMNS === 0) pieces.push({ colour: -1, text: "\n" });
            const colour = at === cursor ? -2 : cells[2 * at + 1];
            if (pieces.at(-1)?.colour === colour) pieces.at(-1).text += letterOf(cells[2 * at]);
            else pieces.push({ colour, text: letterOf(cells[2 * at]) });
        }
        fill(by("pc-screen"), ...pieces.map(({ colour, text }) => {
            if (colour === -1 || (colour & ~8) === 7 - (colour & 8) || colour === 0) return text;
            if (colour === -2) return make("span", { className: "cursor" }, text);
            return make("span", { style: `color:${COLOURS[colour & 15]};background:${COLOURS[colour >> 4 & 7]}` }, text);
        }));
    }

    #drive({ drive, accesses, moved }) {
        by("pc-heads").style.setProperty("--at", drive.cylinder / (CYLINDERS - 1));
        by("pc-heads").classList.toggle("turns", drive.motor);
        by("pc-heads").classList.toggle("writes", drive.writes);
        by("pc-heads").setAttribute("aria-label", `The heads are on cylinder ${drive.cylinder}`);
        fill(by("pc-drive"), ...[
            ["heads", `cylinder ${drive.cylinder}`], ["motor", drive.motor ? "on" : "off"], ["drive A", drive.selected ? "selected" : "not selected"], ["write gate", drive.writes ? "on: it records" : "off"],
            ["disk", drive.hasMedium ? "in" : "out"], ["phase", drive.phase], ["INT", drive.interrupt ? "up" : "down"], ["port accesses", grouped(accesses)], ["by DMA", `${grouped(moved)} bytes`],
        ].flatMap(([name, value]) => [make("dt", {}, name), make("dd", {}, value)]));
    }

    #processor({ cpu }) {
        const width = cpu.isWide ? 8 : 4, facts = [["mode", cpu.isProtected ? `protected, ${cpu.isWide ? 32 : 16} bits` : "real"],
            ["next", `${hex(cpu.selectors[1], 4)}:${hex(cpu.pointer, width)}  ${hexes(cpu.code)}`],
            ...REGISTERS.map((name, i) => [name, hex(cpu.registers[i], 8)]), ["segments", SEGMENTS.map((name, i) => `${name} ${hex(cpu.selectors[i], 4)}`).join(" ")],
            ["flags", FLAGS.filter(([bit]) => cpu.flags & bit).map(([, name]) => name).join(", ") || "none"]];
        fill(by("pc-cpu"), ...facts.flatMap(([name, value]) => [make("dt", {}, name), make("dd", {}, make("code", {}, value))]));
    }

    // ---- the story

    #entry(entry) {
        const known = this.entries.get(entry.id), button = known?.button ?? make("button", { type: "button", tabIndex: -1, onclick: () => this.#choose(entry.id) });
        button.className = entry.isBad ? "bad" : "";
        fill(button, make("span", { className: "quiet" }, seconds(entry.at)), ` ${entryInWords(entry)}`);
        this.entries.set(entry.id, { entry, button });
        if (this.chosen === entry.id) this.#choose(entry.id);
        if (known) return;
        const list = by("pc-story"), isAtEnd = list.scrollHeight - list.scrollTop - list.clientHeight < 30;
        list.append(make("li", {}, button));
        if (list.children.length > MOST_ENTRIES) list.firstChild.remove();
        if (isAtEnd) list.scrollTop = list.scrollHeight;
        if (this.chosen === 0 && document.activeElement !== this.reached) this.#reach(button);
    }

    /** The tabulator key reaches one entry of the list. Arrow keys lead from there to the others. */
    #reach(button) {
        if (this.reached !== null) this.reached.tabIndex = -1;
        button.tabIndex = 0;
        this.reached = button;
    }

    #walk(event) {
        const list = by("pc-story"), item = document.activeElement.parentElement;
        const next = { ArrowUp: item.previousSibling, ArrowDown: item.nextSibling, Home: list.firstChild, End: list.lastChild }[event.key];
        if (!next) return;
        event.preventDefault();
        this.#reach(next.firstChild);
        next.firstChild.focus();
    }

    /** Explains an entry: each byte of a command, and each bit of its results. */
    #choose(id) {
        const { entry, button } = this.entries.get(id);
        this.chosen = id;
        this.#reach(button);
        if (entry.kind === "port") {
            fill(by("pc-entry"), make("h3", {}, `${hex(entry.port, 3)}: ${hex(entry.value)}`), make("p", {}, entry.port === 0x3F2 ? dorInWords(entry.value) : entry.says));
            return;
        }
        const names = commandOf(entry.bytes[0]).results, facts = [entry.polls > 0 && `${entry.polls} reads of MSR`, entry.interrupt !== undefined && `INT rose ${seconds(entry.interrupt - entry.at)} after its first byte`,
            entry.moved > 0 && `${grouped(entry.moved)} bytes passed by DMA${entry.hasCount ? ", up to the terminal count" : ""}`].filter(Boolean);
        fill(by("pc-entry"), make("h3", {}, entry.says), facts.length > 0 ? make("p", {}, `${facts.join("; ")}.`) : null,
            table("The bytes of the command", ["byte", "name", "what it says"], bytesOf(entry.bytes).map((it) => [hex(it.byte), it.name, it.says])), ...entry.results.map((byte, i) => this.#result(names[i] ?? "more", byte)));
    }

    #result(name, byte) {
        const bits = explained(name, byte);
        if (bits.length === 0) return make("p", { className: "byte" }, `${name}: ${hex(byte)} (${byte})`);
        return table(`${name}: ${hex(byte)}`, ["bit", "name", "value", "what it says"], bits.map((it) => [it.bit, it.name, it.value, it.says ?? ""]));
    }
}
