// The page: it starts the worker, and connects what a person does with what the worker tells.
import { ComputerPart } from "./computer.js";
import { Console } from "./console.js";
import { by, download, fill, make, say } from "./dom.js";
import { Forms } from "./forms.js";
import { Link } from "./link.js";
import { LOOKS } from "./looks.js";
import { Rings } from "./rings.js";
import { Sector } from "./sector.js";
import { grouped, many } from "./text.js";

const page = { shape: null, counts: {}, name: "" };
const link = new Link(WORKER_SOURCE, heard);    // page/make puts the worker's text in
const rings = [0, 1].map((head) => new Rings(by(`side-${head}`), head, choose));
const bench = new Console(link);
const sector = new Sector(link, (answer) => bench.show(answer, answer.tries[0].from));
const forms = new Forms(link, open);
let computer = null;

// ---- the disk

function heard(event, told) {
    if (event === "disk") begin(told);
    else if (event === "fields") add(told);
    else if (event === "surveyed") finished(told);
    else if (event === "pc") computer.hear(told);
    else if (event === "broken") by("told").textContent = `The library can't run here: ${told.message}`;
}

function begin({ name, kind, shape }) {
    Object.assign(page, { name, shape, kind, counts: Object.fromEntries(Object.keys(LOOKS).map((look) => [look, 0])) });
    forms.cylinders = shape.cylinders;
    by("sector").hidden = true;
    by("side-1").parentElement.hidden = shape.heads < 2;
    for (const it of rings) { it.selected = null; it.begin(shape); }
    legend();
    by("told").textContent = `${name} (${kind}): ${many(shape.cylinders, "cylinder")}, ${many(shape.heads, "head")}, ${shape.kilobits} kbit/s, ${grouped(shape.words)} words a track${shape.isProtected ? ", write-protected" : ""}`;
}

function add({ fields, from, upto }) {
    for (const field of fields) page.counts[field.found]++;
    for (const it of rings) it.add(fields, from, upto);
    legend();
    document.body.dataset.picture ??= Math.round(performance.now());
}

async function finished({ ms }) {
    const all = Object.values(page.counts).reduce((sum, count) => sum + count, 0), bad = page.counts.BAD_CRC + page.counts.NO_DATA + page.counts.NO_SIZE;
    by("surveyed").textContent = `${many(all, "sector")}, ${bad === 0 ? "all intact" : `${bad} not intact`}`;
    by("surveyed").dataset.ms = Math.round(ms);
    say(`${page.name}: ${by("surveyed").textContent}`);
    const shown = [...rings[0].fields, ...rings[1].fields], first = shown.find((field) => field.found === "BAD_CRC") ?? shown[0];
    if (first && rings.every((it) => it.selected === null)) choose(first);
    document.body.dataset.whole ??= Math.round(performance.now());
    document.body.dataset.ready = "disk";
    forms.list(await link.ask("files"));
    bench.show(await link.ask("benchState"));
    by("memory").textContent = `${Math.round(await link.ask("memory") / 2 ** 20)} MB of memory`;
    document.body.dataset.ready = "all";
}

function legend() {
    fill(by("legend"), ...Object.entries(LOOKS).map(([look, { name, colour }]) =>
        make("li", {}, make("i", { className: "dot", style: `background:${colour}` }), `${name}: ${grouped(page.counts[look])}`)));
}

function choose(field) {
    for (const it of rings) it.select(field);
    sector.show(field);
}

// ---- files

async function open(name, bytes) {
    by("surveyed").textContent = "";
    document.body.dataset.ready = "";
    try {
        await link.ask("open", { name, bytes });
    } catch (fault) {
        const why = fault.code === "BAD_IMAGE" ? "it is no image of cells, no ImageDisk file, and no flat file of a length that is known here" : fault.message;
        by("told").textContent = `${name} can't be opened: ${why}.`;
        say(by("told").textContent);
    }
}

const taken = async (file) => open(file.name.replace(/[^\w.-]/g, "_"), new Uint8Array(await file.arrayBuffer()));
by("file").onchange = (event) => { if (event.target.files[0]) taken(event.target.files[0]); };
by("pick").onclick = () => by("file").click();
by("made").onclick = () => link.ask("made");
document.addEventListener("dragover", (event) => { event.preventDefault(); document.body.classList.add("over"); });
document.addEventListener("dragleave", (event) => { if (event.relatedTarget === null) document.body.classList.remove("over"); });
document.addEventListener("drop", (event) => {
    event.preventDefault();
    document.body.classList.remove("over");
    if (event.dataTransfer.files[0]) taken(event.dataTransfer.files[0]);
});
for (const [kind, ending] of [["rt", "rt"], ["flat", "img"], ["imd", "imd"]]) {
    by(`save-${kind}`).onclick = async () => {
        try {
            download(`disk.${ending}`, await link.ask("save", { kind }));
        } catch (fault) {
            const where = fault.cylinder === undefined ? "" : fault.cylinder === 255 ? ": the medium has another geometry" : `: cylinder ${fault.cylinder}, head ${fault.head} doesn't fit`;
            by("told").textContent = `Such a file can't have this disk${where}.`;
            say(by("told").textContent);
        }
    };
}

// ---- the parts of the page, and its theme

const PARTS = ["disk", "console", "computer", "forms"];
function part(name) {
    for (const it of PARTS) {
        by(`part-${it}`).hidden = it !== name;
        by(`tab-${it}`).setAttribute("aria-selected", String(it === name));
        by(`tab-${it}`).tabIndex = it === name ? 0 : -1;
    }
}
PARTS.forEach((name, i) => {
    by(`tab-${name}`).onclick = () => part(name);
    by(`tab-${name}`).onkeydown = (event) => {
        const step = { ArrowRight: 1, ArrowLeft: -1 }[event.key];
        if (!step) return;
        const next = PARTS[(i + step + PARTS.length) % PARTS.length];
        part(next);
        by(`tab-${next}`).focus();
    };
});
part("disk");

by("theme").onchange = () => {
    document.documentElement.dataset.theme = by("theme").value;
    redraw();
};
matchMedia("(prefers-color-scheme: dark)").addEventListener("change", redraw);
function redraw() {
    for (const it of rings) it.draw();
    sector.strip.draw();
    bench.waves.draw();
}

/** Files come compressed, in the page itself. */
async function unpacked(text) {
    const packed = Uint8Array.from(atob(text), (it) => it.charCodeAt(0));
    return new Response(new Blob([packed]).stream().pipeThrough(new DecompressionStream("gzip"))).arrayBuffer();
}
computer = new ComputerPart(link, BIOS.text === "" ? null : { name: BIOS.name, says: BIOS.says, bytes: new Uint8Array(await unpacked(BIOS.text)) });
const { version } = await link.ask("begin", { module: await unpacked(MODULE_TEXT) });
by("version").textContent = `library ${Math.floor(version / 10000)}.${Math.floor(version / 100) % 100}.${version % 100}`;
await link.ask("made");
