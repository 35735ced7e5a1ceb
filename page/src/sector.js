// The panel of one sector: its address field, its bytes, its cells, and the faults that are planned on its track.
import { addressOf, dataFieldOf, Track } from "./cells.js";
import { judged } from "./chip.js";
import { by, fill, make, say } from "./dom.js";
import { keyOf, LOOKS } from "./looks.js";
import { told } from "./rings.js";
import { Strip } from "./strip.js";
import { dumped, hex, hexes, lasting } from "./text.js";

const RESULTS = ["ST0", "ST1", "ST2", "C", "H", "R", "N"];

export class Sector {
    /** @param {import("./link.js").Link} link @param {(answer: object) => void} traced hears what the bench did */
    constructor(link, traced) {
        Object.assign(this, { link, traced, field: null, track: null });
        this.faults = [];   // {cylinder, head, word, count}
        this.strip = new Strip(by("cells"), (word) => this.#toggle(word));
        by("tries").onclick = () => this.#tries();
        by("no-faults").onclick = () => { this.faults = []; this.#planned(); };
        by("plan").onchange = () => this.#typed();
    }

    async show(field) {
        this.field = field;
        this.track = new Track(await this.link.ask("track", { cylinder: field.cylinder, head: field.head }));
        if (this.field !== field) return;   // another one was chosen meanwhile
        by("sector").hidden = false;
        by("sector-title").textContent = `Cylinder ${field.cylinder}, head ${field.head}: ${keyOf(field)}`;
        fill(by("sector-found"), make("i", { className: "dot", style: `background:${LOOKS[field.found].colour}` }), LOOKS[field.found].name);
        const address = addressOf(this.track, field.cell), data = dataFieldOf(this.track, field.cell, field.n);
        fill(by("sector-facts"), ...this.#facts(address, data));
        by("bytes").textContent = data ? dumped(data.content) : "No data field follows this address field.";
        by("tries").disabled = data === null;
        fill(by("tried"));
        this.strip.faults = this.#words();
        this.strip.show(this.track, field);
        by("lost-clocks").textContent = `${this.strip.lost()} clocks lost in the marks that are shown`;
        say(told(field));
    }

    #facts(address, data) {
        const fact = (name, value, isBad = false) => [make("dt", {}, name), make("dd", { className: isBad ? "bad" : "" }, value)];
        const crc = (is, wanted) => (is === wanted ? `${hex(is, 4)}, right` : `${hex(is, 4)}, but ${hex(wanted, 4)} would be right`);
        const facts = [
            fact("Address field", `cell ${address.at} (word ${address.at >> 4}, bit ${address.at & 15}); C H R N ${hexes(address.key)}`),
            fact("its CRC", crc(address.crc, address.wanted), address.crc !== address.wanted),
        ];
        if (data === null) facts.push(fact("Data field", "none", true));
        else {
            facts.push(fact("Data field", `cell ${data.at}; mark ${hex(data.mark)} (${data.mark === 0xF8 ? "deleted" : "data"}); ${data.size} bytes`));
            facts.push(fact("its CRC", crc(data.crc, data.wanted), data.crc !== data.wanted));
        }
        return facts.flat();
    }

    // ---- faults

    #words() {
        const { cylinder, head } = this.field;
        return new Set(this.faults.filter((it) => it.cylinder === cylinder && it.head === head).map((it) => it.word));
    }

    #toggle(word) {
        const { cylinder, head } = this.field, here = this.faults.findIndex((it) => it.cylinder === cylinder && it.head === head && it.word === word);
        if (here >= 0) this.faults.splice(here, 1);
        else this.faults.push({ cylinder, head, word, count: Math.max(1, Math.min(10000, Number(by("fault-count").value) || 1)) });
        this.#planned();
        say(here >= 0 ? `no fault at word ${word}` : `fault planned at word ${word}`);
    }

    #planned() {
        by("plan").value = this.faults.map((it) => `drop 0 ${it.cylinder} ${it.head} ${it.word} ${it.count}`).join("\n");
        this.#draw();
        this.#plan();
    }

    /** Gives the plan to the drive, where commands of the console meet it too. Says whether it is understood. */
    async #plan() {
        try {
            await this.link.ask("benchPlan", { text: by("plan").value });
            return true;
        } catch (fault) {
            fill(by("tried"), make("li", { className: "bad" }, fault.code === "BAD_PLAN" ? `line ${fault.line} of the plan isn't understood` : fault.message));
            return false;
        }
    }

    /** The plan was typed. Lines that the strip can't show stay in the text, and go to the drive all the same. */
    #typed() {
        this.faults = [...by("plan").value.matchAll(/^drop 0 (\d+) (\d+) (\d+) (\d+)$/gm)].map(([, cylinder, head, word, count]) =>
            ({ cylinder: Number(cylinder), head: Number(head), word: Number(word), count: Number(count) }));
        this.#draw();
        this.#plan();
    }

    #draw() {
        if (this.field === null) return;
        this.strip.faults = this.#words();
        this.strip.draw();
    }

    /** Reads the sector with the faults that are planned, three times at most, as a driver does. */
    async #tries() {
        const { field } = this;
        if (!await this.#plan()) return;
        const key = [field.c, field.h, field.r, field.n], answer = await this.link.ask("benchTries", { cylinder: field.cylinder, head: field.head, key, most: 3 });
        fill(by("tried"), ...answer.tries.map((it, i) => {
            const isDone = (it.results[0] & 0xC0) === 0, time = lasting(it.steps, answer.state.wordTime);
            return make("li", { className: isDone ? "good" : "bad" }, `Try ${i + 1}: ${hexes(it.results)} after ${time}, ${it.moved} bytes: ${judged(it.results, RESULTS)}`);
        }));
        const last = answer.tries.at(-1);
        say(`${answer.tries.length} tries, the last one ${judged(last.results, RESULTS)}`);
        this.traced(answer);
    }
}
