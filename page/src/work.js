// Whole forms: each runs the proved program `floppy` on files in memory. Runs in the worker.

/**
 * The forms. `fields` are what the page asks for: a file, a name for a new file, or a number. `words` gives the
 * arguments of the program, and `makes` the files that it stores. `cost` is how long a form takes for a
 * cylinder, as measured, if a format of it takes 1.
 */
export const FORMS = [
    { name: "survey", says: "lists every address field and what stands after it", fields: [["disk", "file"]], words: (f) => ["survey", f.disk], makes: () => [], cost: 1 },
    { name: "verify", says: "reads every standard sector", fields: [["disk", "file"]], words: (f) => ["verify", f.disk], makes: () => [], cost: 0.5 },
    { name: "copy", says: "copies all standard sectors to a new disk, and reads them back", fields: [["from", "file"], ["to", "new", "copy.rt"]],
        words: (f) => ["copy", f.from, f.to], makes: (f) => [f.to], cost: 3 },
    { name: "rescue", says: "copies what can be read, and lists in a log what can't", fields: [["from", "file"], ["to", "new", "rescued.rt"], ["log", "new", "missing.txt"]],
        words: (f) => ["rescue", f.from, f.to, f.log], makes: (f) => [f.to, f.log], cost: 2.5 },
    { name: "format", says: "makes a formatted disk of 1.44 MB", fields: [["name", "new", "new.rt"], ["cylinders", "number", "80"]],
        words: (f) => ["format", f.name, f.cylinders], makes: (f) => [f.name], cost: 1 },
    { name: "format 720 KB", says: "makes a formatted disk of 720 KB", fields: [["name", "new", "new.rt"], ["cylinders", "number", "80"]],
        words: (f) => ["formatdd", f.name, f.cylinders], makes: (f) => [f.name], cost: 0.6 },
    { name: "remaster", says: "lays all intact sectors out anew", fields: [["from", "file"], ["to", "new", "remastered.rt"]],
        words: (f) => ["remaster", f.from, f.to], makes: (f) => [f.to], cost: 2.4 },
    { name: "export a flat file", says: "stores the standard sectors alone", fields: [["disk", "file"], ["flat", "new", "disk.img"]],
        words: (f) => ["export", f.disk, f.flat], makes: (f) => [f.flat], cost: 0.6 },
    { name: "import a flat file", says: "makes a disk of a flat file", fields: [["flat", "file"], ["disk", "new", "imported.rt"]],
        words: (f) => ["import", f.flat, f.disk], makes: (f) => [f.disk], cost: 2.6 },
    { name: "to ImageDisk", says: "stores an ImageDisk file", fields: [["disk", "file"], ["imd", "new", "disk.imd"]],
        words: (f) => ["toimd", f.disk, f.imd], makes: (f) => [f.imd], cost: 0.8 },
    { name: "from ImageDisk", says: "makes a disk of an ImageDisk file", fields: [["imd", "file"], ["disk", "new", "disk.rt"]],
        words: (f) => ["fromimd", f.imd, f.disk], makes: (f) => [f.disk], cost: 0.4 },
];

/** What an exit status of the program means. */
export const STATUS = ["all was done", "some answer is a refusal, or a track is unfit", "the arguments are no subcommand", "a text isn't understood",
    "a file isn't in its format", "a file is absent", "the files failed", "there wasn't enough memory", "the output failed"];

/** Files by name, and the runs on them. */
export class Desktop {
    constructor(library) {
        this.library = library;
        this.files = new Map();
    }

    list() { return [...this.files].map(([name, bytes]) => ({ name, length: bytes.length })); }

    /**
     * Runs the program with some files, and keeps what it stored under the names `makes`. The program is asked for files
     * by name, so only those that the arguments name are put before it.
     */
    run(words, makes, more = []) {
        const shelf = new this.library.Shelf(), began = performance.now();
        try {
            for (const name of new Set([...words.slice(1), ...more])) if (this.files.has(name)) shelf.put(name, this.files.get(name));
            const status = shelf.run(...words), text = shelf.report(), stored = [];
            for (const name of makes) {
                const bytes = got(shelf, name);
                if (bytes === null) continue;
                this.files.set(name, bytes);
                stored.push(name);
            }
            return { status, text, stored, seconds: (performance.now() - began) / 1000 };
        } finally {
            shelf.free();
        }
    }

    form(name, fields) {
        const form = FORMS.find((it) => it.name === name);
        return this.run(form.words(fields), form.makes(fields));
    }

    /** Runs a text of INT 13h calls. The disks that it inserts are stored again under their names. */
    int13(text) {
        this.files.set("calls.txt", new TextEncoder().encode(text));
        const names = [...text.matchAll(/^\s*insert\s+\d+\s+(\S+)/gm)].map((found) => found[1]);
        return this.run(["int13", "calls.txt"], names, names);
    }
}

function got(shelf, name) {
    try {
        return shelf.get(name);
    } catch (fault) {
        if (fault.code === "NO_FILE") return null;
        throw fault;
    }
}
