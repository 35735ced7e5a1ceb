// Small helpers for the document. No framework stands behind the page.

export const by = (id) => document.getElementById(id);

/** An element with properties, attributes ("aria-.." and "data-..") and children. */
export function make(tag, props = {}, ...children) {
    const element = document.createElement(tag);
    for (const [name, value] of Object.entries(props)) {
        if (value === undefined || value === null) continue;
        if (name in element && !name.includes("-") && name !== "list") element[name] = value;
        else element.setAttribute(name, value);
    }
    element.append(...children.filter((child) => child !== null && child !== undefined));
    return element;
}

export function fill(element, ...children) { element.replaceChildren(...children.filter((child) => child !== null && child !== undefined)); }

/** A table with a head and rows of cells; a cell is text or an element. */
export function table(caption, heads, rows) {
    return make("table", {}, make("caption", {}, caption), make("thead", {}, make("tr", {}, ...heads.map((it) => make("th", { scope: "col" }, it)))),
        make("tbody", {}, ...rows.map((row) => make("tr", {}, ...row.map((it) => make("td", {}, it))))));
}

/** A colour of the page's theme. */
export const colour = (name) => getComputedStyle(document.documentElement).getPropertyValue(`--${name}`).trim();

/** Makes a canvas as sharp as the screen, and gives its pen in CSS pixels. */
export function penOf(canvas, width, height) {
    const scale = window.devicePixelRatio || 1;
    canvas.width = Math.round(width * scale);
    canvas.height = Math.round(height * scale);
    canvas.style.height = `${height}px`;
    const pen = canvas.getContext("2d");
    pen.setTransform(scale, 0, 0, scale, 0, 0);
    return pen;
}

/** Gives bytes to the person as a file. */
export function download(name, bytes) {
    const link = make("a", { href: URL.createObjectURL(new Blob([bytes])), download: name });
    document.body.append(link);
    link.click();
    link.remove();
    setTimeout(() => URL.revokeObjectURL(link.href), 10000);
}

/** Says something to those who listen to the page. */
export function say(text) { by("said").textContent = text; }
