// The disk that the page shows: where it comes from, and what it is saved as. Runs in the worker.

const FLAT = { 1474560: "1.44 MB", 737280: "720 KB" };
/** The rate and the sectors of a track of the flat files of other geometries that are common: cylinders, heads, sectors, rate. */
const OTHER = { 368640: [40, 2, 9, 250], 327680: [40, 2, 8, 250], 184320: [40, 1, 9, 250], 163840: [40, 1, 8, 250], 1638400: [80, 2, 20, 500], 819200: [80, 2, 10, 250] };
/** How many cylinders are surveyed before the page hears of them. */
const PIECE = 8;

/** The medium of a file: its image, and what kind of file it was. A file of no known kind throws the library's error. */
export function opened(library, bytes) {
    const { Tray } = library, starts = String.fromCharCode(...bytes.subarray(0, 8));
    const [kind, make] = starts.startsWith("IMD ") ? ["ImageDisk file", () => Tray.ofImd(bytes)]
        : starts.startsWith("RTIMAGE") ? ["image of cells", () => Tray.ofImage(bytes)]
        : FLAT[bytes.length] ? [`flat file of ${FLAT[bytes.length]}`, () => Tray.ofFlat(bytes)]
        : OTHER[bytes.length] ? ["flat file", () => otherFlat(Tray, bytes)]
        : ["file", () => Tray.ofImage(bytes)];
    const tray = make();
    try {
        return { kind, image: tray.image() };
    } finally {
        tray.free();
    }
}

function otherFlat(Tray, bytes) {
    const [cylinders, heads, sectors, kilobits] = OTHER[bytes.length];
    return Tray.ofFlatAs(bytes, cylinders, heads, sectors, 2, kilobits);
}

/** All that an image says of itself, besides its cells. */
export function shapeOf(image) {
    return { words: image[12] << 8 | image[13], kilobits: image[11] === 2 ? 250 : 500, cylinders: image[9], heads: image[10], isProtected: (image[8] & 1) === 1 };
}

const HEADER = 14;
export const placeOf = (shape, cylinder, head) => HEADER + 2 * shape.words * (cylinder * shape.heads + head);

/** The words of a track of an image. */
export function trackOf(image, cylinder, head) {
    const shape = shapeOf(image), at = placeOf(shape, cylinder, head);
    return Uint16Array.from({ length: shape.words }, (_, i) => image[at + 2 * i] << 8 | image[at + 2 * i + 1]);
}

/**
 * What stands on an image, in pieces of some cylinders, so that the page can draw the first ones while the others are
 * looked at. Each piece is surveyed as an image of its own.
 */
export function* surveyed(library, image) {
    const shape = shapeOf(image);
    for (let from = 0; from < shape.cylinders; from += PIECE) {
        const upto = Math.min(from + PIECE, shape.cylinders), piece = new Uint8Array(placeOf(shape, upto - from, 0));
        piece.set(image.subarray(0, HEADER));
        piece[9] = upto - from;
        piece.set(image.subarray(placeOf(shape, from, 0), placeOf(shape, upto, 0)), HEADER);
        const tray = library.Tray.ofImage(piece);
        try {
            yield { from, upto, fields: tray.survey().map((field) => ({ ...field, cylinder: field.cylinder + from })) };
        } finally {
            tray.free();
        }
    }
}

/** The image as another kind of file: "rt", "flat" or "imd". */
export function saved(library, image, kind) {
    if (kind === "rt") return image;
    const tray = library.Tray.ofImage(image), shape = tray.shape();
    try {
        if (kind === "imd") return tray.imd();
        const forms = Object.values(OTHER).filter(([cylinders, heads, , kilobits]) => cylinders === shape.cylinders && heads === shape.heads && kilobits === shape.kilobits);
        for (const [cylinders, heads, sectors, kilobits] of forms) {
            const bytes = fitting(() => tray.flatAs(cylinders, heads, sectors, 2, kilobits));
            if (bytes !== null) return bytes;
        }
        return tray.flat();
    } finally {
        tray.free();
    }
}

/** What a call gives, or null if the file can't have the medium. */
function fitting(call) {
    try {
        return call();
    } catch (fault) {
        if (fault.code === "UNFIT") return null;
        throw fault;
    }
}
