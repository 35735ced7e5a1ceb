// Whole forms and INT 13h: runs of the proved program on files in memory, with what they print and store.
import { by, download, fill, make, say } from "./dom.js";
import { grouped } from "./text.js";
import { FORMS, STATUS } from "./work.js";

/** The calls of INT 13h that the page offers: AX and CX and DX for sector 1 of cylinder 0 of drive 0. */
const CALLS = [["02 read a sector", "0201 0000 0001 0000 1000"], ["02 read a track", "0212 0000 0001 0000 1000"], ["03 write a sector", "0301 0000 0001 0000 1000"],
    ["04 verify a track", "0412 0000 0001 0000 0000"], ["08 drive parameters", "0800 0000 0000 0000 0000"], ["15 drive type", "1500 0000 0000 0000 0000"],
    ["16 change line", "1600 0000 0000 0000 0000"], ["00 reset", "0000 0000 0000 0000 0000"], ["01 last status", "0100 0000 0000 0000 0000"]];
/** What AH says after a call. */
const ANSWERS = { "00": "done", "01": "such a call, drive or place isn't there", "02": "no address mark", "03": "protected", "04": "no such sector", "06": "the disk was changed; it is acknowledged now",
    "08": "DMA overrun", "09": "the bytes cross a page of 64 KB", "10": "damaged data", "40": "no track 0", "80": "not ready" };

export class Forms {
    /** @param {import("./link.js").Link} link @param {(name: string, bytes: Uint8Array) => void} open shows a file as the page's disk */
    constructor(link, open) {
        Object.assign(this, { link, open, cylinders: 80, format: 0 });
        this.took = new Map();  // seconds of a cylinder, by form, as measured here
        fill(by("form"), ...FORMS.map((it) => make("option", {}, it.name)));
        by("form").onchange = () => this.#choose();
        by("run-form").onsubmit = (event) => { event.preventDefault(); this.#run(); };
        fill(by("call"), ...CALLS.map(([name, words]) => make("option", { value: words }, name)));
        by("add-call").onclick = () => { by("calls").value = `${by("calls").value.trimEnd()}\ncall ${by("call").value}\n`.trimStart(); };
        by("calls").value = "insert 0 disk.rt\ncall 0212 0000 0001 0000 1000\ncall 0212 0000 0001 0000 1000\ndump 10000 32\n";
        by("run-int13").onclick = () => this.#int13();
    }

    /** Shows the files, and the fields of the form with them. */
    list(files) {
        this.files = files;
        fill(by("files"), ...files.map(({ name, length }) => make("li", {}, make("span", {}, `${name} (${grouped(length)} bytes)`),
            make("button", { type: "button", onclick: () => this.#show(name), "aria-label": `Show ${name} as the disk` }, "Show"),
            make("button", { type: "button", onclick: () => this.#save(name), "aria-label": `Save ${name}` }, "Save"))));
        this.#choose();
    }

    async #show(name) { this.open(name, await this.link.ask("file", { name })); }
    async #save(name) { download(name, await this.link.ask("file", { name })); }

    get #form() { return FORMS.find((it) => it.name === by("form").value); }

    #choose() {
        by("form-says").textContent = `It ${this.#form.says}.`;
        const typed = new Map([...by("form-fields").querySelectorAll("[name]")].map((it) => [it.name, it.value]));
        fill(by("form-fields"), ...this.#form.fields.map(([name, kind, first]) => {
            const files = this.files ?? [], input = kind === "file" ? make("select", { name }, ...files.map((it) => make("option", {}, it.name)))
                : make("input", { name, value: typed.get(name) || first, inputMode: kind === "number" ? "numeric" : "text", size: 14 });
            if (kind === "file") input.value = files.some((it) => it.name === typed.get(name)) ? typed.get(name) : "disk.rt";
            return make("label", {}, name, input);
        }));
    }

    /** Shows how far a run may be. The program is one call, which tells nothing before its end: so this is an estimate. */
    #progress(seconds) {
        const began = performance.now(), bar = by("progress");
        bar.hidden = false;
        bar.removeAttribute("value");
        const timer = setInterval(() => {
            const passed = (performance.now() - began) / 1000;
            if (seconds > 0) bar.value = Math.min(0.97, passed / seconds);
            by("progress-text").textContent = `running for ${passed.toFixed(1)} s${seconds > 0 ? `, about ${seconds.toFixed(1)} s in all (an estimate)` : ""}`;
        }, 50);
        return () => { clearInterval(timer); bar.hidden = true; };
    }

    async #run() {
        const form = this.#form, fields = Object.fromEntries(new FormData(by("run-form")));
        by("run").disabled = true;
        by("progress-text").textContent = "starting";
        if (this.format === 0) this.format = await this.link.ask("speed");
        const cylinders = Number(fields.cylinders) || this.cylinders;
        const done = this.#progress(cylinders * (this.took.get(form.name) ?? form.cost * this.format));
        try {
            const told = await this.link.ask("form", { name: form.name, fields });
            this.took.set(form.name, told.seconds / cylinders);
            this.#tell(told, by("form-output"));
            this.list(told.files);
        } catch (fault) {
            by("progress-text").textContent = fault.message;
        } finally {
            done();
            by("run").disabled = false;
        }
    }

    #tell({ status, text, stored, seconds }, output) {
        const lines = text.trimEnd().split("\n"), shown = lines.length > 400 ? [...lines.slice(0, 200), `.. ${grouped(lines.length - 300)} lines ..`, ...lines.slice(-100)] : lines;
        output.textContent = shown.join("\n");
        const told = `Status ${status}: ${STATUS[status]}. It took ${seconds.toFixed(2)} s${stored.length ? `, and stored ${stored.join(", ")}` : ""}.`;
        by("progress-text").textContent = told;
        say(`${lines.at(-1)}. ${told}`);
    }

    async #int13() {
        const told = await this.link.ask("int13", { text: by("calls").value });
        const answers = told.text.trimEnd().split("\n").map((line) => {
            const ah = /^call (\w\w)\w\w .* ([01])$/.exec(line);
            return ah ? `${line.padEnd(34)} AH ${ah[1]}: ${ANSWERS[ah[1]] ?? "unknown"}${ah[2] === "1" ? ", carry" : ""}` : line;
        });
        by("int13-output").textContent = answers.join("\n");
        say(`status ${told.status}: ${STATUS[told.status]}`);
        this.list(told.files);
    }
}
