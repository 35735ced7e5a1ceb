// The console of the controller: commands go to its ports byte by byte, device steps pass, and each result is explained.
import { bytesOf, COMMANDS, commandOf, countOf, explained, judged } from "./chip.js";
import { by, fill, make, say, table } from "./dom.js";
import { bytesOfHex, grouped, hex, hexes, lasting } from "./text.js";
import { Waves } from "./waves.js";

/** Device steps that "at speed" makes in a second, by the number of the choice. A real drive makes 62,500 at 500 kbit/s. */
const SPEEDS = [[50, "50 steps a second"], [1000, "1,000 steps a second"], [6250, "a tenth of real time"], [62500, "real time"], [625000, "ten times real time"]];
const MOST = 400000;    // no command lasts longer, but for READ TRACK of many sectors

export class Console {
    /** @param {import("./link.js").Link} link */
    constructor(link) {
        this.link = link;
        this.waves = new Waves(by("waves"));
        this.begin = 0;
        this.playing = false;
        fill(by("command"), ...COMMANDS.map((it) => make("option", { value: it.code }, `${hex(it.code)} ${it.name}`)));
        fill(by("speed"), ...SPEEDS.map(([rate, name]) => make("option", { value: rate }, name)));
        by("speed").value = 6250;
        by("command").onchange = () => this.#choose();
        by("command-bytes").oninput = () => this.#explainBytes();
        by("send").onclick = () => this.#send();
        by("step").onclick = () => this.#advance(1);
        by("step-many").onclick = () => this.#advance(16);
        by("step-change").onclick = () => this.#advance(MOST, "change");
        by("step-end").onclick = () => this.#end();
        by("whole").onclick = async () => { if (await this.#send()) await this.#end(); };
        by("play").onclick = () => this.#play();
        by("bench-new").onclick = () => this.restart();
        by("latency").onchange = () => link.ask("benchLatency", { steps: Math.max(0, Number(by("latency").value) || 0) });
        by("command-bytes").onkeydown = (event) => { if (event.key === "Enter") by("whole").click(); };
        this.#choose();
    }

    async restart() {
        this.begin = 0;
        this.show(await this.link.ask("benchNew"));
        fill(by("command-log"));
        fill(by("results"));
    }

    #choose() {
        const is = COMMANDS.find((it) => it.code === Number(by("command").value));
        by("command-bytes").value = hexes([is.code, ...is.bytes]);
        this.#explainBytes();
    }

    #bytes() { return bytesOfHex(by("command-bytes").value); }

    #explainBytes() {
        const bytes = this.#bytes(), isFine = bytes !== null && bytes.length > 0;
        by("command-bytes").setAttribute("aria-invalid", String(!isFine));
        if (!isFine) {
            fill(by("command-explained"), make("p", { className: "bad" }, "These are no bytes in hexadecimal, such as 46 00 05 00 01 02 12 1B FF."));
            return;
        }
        by("count").value = countOf(bytes);
        const rows = bytesOf(bytes).map((it) => [hex(it.byte), it.name, it.says]), lacking = commandOf(bytes[0]).parts.slice(bytes.length - 1);
        fill(by("command-explained"), table("The bytes of the command", ["byte", "name", "what it says"], [...rows, ...lacking.map(([name, says]) => ["..", name, `${says} (still to come)`])]));
    }

    #data(bytes) {
        if (commandOf(bytes[0]).moves !== "format") return new TextEncoder().encode(by("data").value || "\0");
        const sectors = bytes[3] ?? 0, cylinder = this.state?.cylinder ?? 0, head = (bytes[1] ?? 0) >> 2 & 1;
        return Uint8Array.from({ length: 4 * sectors }, (_, i) => [cylinder, head, 1 + (i >> 2), bytes[2] ?? 2][i & 3]);
    }

    async #send() {
        const bytes = this.#bytes();
        if (bytes === null || bytes.length === 0) return false;
        this.begin = this.state?.now ?? 0;
        const answer = await this.link.ask("benchSend", { bytes, data: this.#data(bytes), count: Number(by("count").value) || 0 });
        fill(by("results"));
        fill(by("command-log"), table("What the controller took", ["byte", "MSR before it"], answer.sent.map((it) => [hex(it.byte), `${hex(it.msr)} (a byte of a command may be written)`])));
        if (answer.sent.length < bytes.length) by("command-log").append(make("p", { className: "bad" }, `The controller took ${answer.sent.length} of ${bytes.length} bytes.`));
        this.sent = bytes;
        this.show(answer);
        return true;
    }

    async #advance(most, until = "") { this.show(await this.link.ask("benchAdvance", { most, until })); }

    /** Lets the command end, and reads its results. */
    async #end() {
        await this.#advance(MOST, "end");
        await this.#results();
    }

    async #results() {
        const answer = await this.link.ask("benchResults"), names = commandOf(this.sent?.[0] ?? 0).results;
        this.show(answer);
        if (answer.results.length === 0) {
            fill(by("results"), make("p", {}, "There are no result bytes. After a seek or a reset, SENSE INTERRUPT (08) tells how it ended."));
            return;
        }
        const bad = names[0] === "ST0" && answer.results[0] >> 6 === 1, told = judged(answer.results, names);
        fill(by("results"), make("p", { className: bad ? "bad" : "good", id: "judged" }, `${hexes(answer.results)}: ${told}`), ...answer.results.map((byte, i) => this.#result(names[i] ?? "more", byte)));
        const memory = answer.state.moved;
        if (memory > 0) by("results").append(make("p", {}, `The channel moved ${grouped(memory)} bytes.`));
        say(told);
    }

    #result(name, byte) {
        const bits = explained(name, byte);
        if (bits.length === 0) return make("p", { className: "byte" }, `${name}: ${hex(byte)} (${byte})`);
        return table(`${name}: ${hex(byte)}`, ["bit", "name", "value", "what it says"], bits.map((it) => [it.bit, it.name, it.value, it.says ?? ""]));
    }

    /** Lets steps pass at the chosen speed, until the command has ended or the button is pressed again. */
    async #play() {
        this.playing = !this.playing;
        by("play").textContent = this.playing ? "Pause" : "At speed";
        let last = performance.now(), owed = 0;
        while (this.playing) {
            await new Promise(requestAnimationFrame);
            const now = performance.now();
            owed += Number(by("speed").value) * Math.min(0.2, (now - last) / 1000);
            last = now;
            const steps = Math.floor(owed);
            owed -= steps;
            if (steps > 0) await this.#advance(steps, "end");
            if (this.state.phase !== "execution" && this.state.phase !== "seek") break;
        }
        if (this.playing) await this.#results();
        this.playing = false;
        by("play").textContent = "At speed";
    }

    /** Shows what the bench answered. `from` is the step from which the waves are drawn. */
    show(answer, from) {
        if (answer.bench !== this.bench) this.begin = 0;    // another controller, whose steps count from 0
        this.bench = answer.bench;
        const { state } = answer, lit = (is) => (is ? "up" : "down");
        this.state = state;
        fill(by("bench-state"), ...[
            ["phase", state.phase], ["step", `${grouped(state.now)} (${lasting(state.now, state.wordTime)})`], ["INT", lit(state.lines & 1)], ["DRQ", lit(state.lines & 2)], ["INDEX", lit(state.lines & 8)],
            ["heads", `cylinder ${state.cylinder}`], ["motor", state.motor ? "on" : "off"], ["disk", state.hasMedium ? "in" : "out"], ["change line", lit(state.dir & 0x80)],
            ["channel", `${grouped(state.moved)} of ${grouped(state.count)} bytes`],
        ].flatMap(([name, value]) => [make("dt", {}, name), make("dd", {}, value)]));
        fill(by("msr"), table(`MSR: ${hex(state.msr)}`, ["bit", "name", "value", "what it says"], explained("MSR", state.msr).map((it) => [it.bit, it.name, it.value, it.says ?? ""])));
        this.waves.show(answer, from ?? this.begin);
    }
}

