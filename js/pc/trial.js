// The disk with which the PC is tried: its boot sector is bios/trial.asm, and the tracks that this reads have bytes of a
// known sum. js/pc/check compares the bytes here with what nasm makes, and the disk with that of bios/run.

/** bios/trial.asm for 18 sectors, as nasm assembles it. */
const BOOT = `
+jHAjtC8AHyO2Pv8iBaxfbgAEI7AvoR96F4BxgaifVIw5OgFAcYGon1UvuB9gDz/dAro3QCwdOg1AevxxgaifVewPLkAAugIAbgBA7kFArYA6N
QAsAC5AALo9QC4AQK5BQLowwCwPLkAAujpALB36P0AxgaifUYx/7EBtgG4AwGriMi0Aqv+wYD5E3XwuBIFtQPokQC4EgK1A+iJALD2uQAk6LEA
sGboxQDGBqJ9TbCZuQAk6JoAtgG4EgO1A+hlALgSBLUD6F0AsAC5ACTogAC4EgK1A+hNALCZuQAk6HUAvvB96CsAsG3ogwDGBqJ9TooWsX24AQ
K5EwK2ADHbzRNzMIbE6FUAvqV96GsA+vTr/K2IxYjmuBIC6AkA6CIAOwR1D63DsQEx24oWsX3NE3IBw1C+l33oPwBYhsToHQDrzDHbMcC5ABIm
AwdDQ+L5wzH/86rDMf/zrnXXw1DA6AToAwBYJA8EMDw5dgIEB7QOuwcAVs0QXsOshMB0Beju/+v2w3RyaWFsIG9mIGRyaXZlIEE6IAAgRkFJTE
VEIGluID8gACBhbGwgZ29vZA0KAAAAAAAAAAAAAAAAAAAAAAAAAAAAAAAAAAAAAAAAAAAAAAAAAAAAAAAAAAAAAAAAAAEAAAEAAAAoAQAATwEA
AAMAAAD/AAAAAAAAAAAAVao=`;
const TABLE = 0x1E0, TABLE_END = 0xFF, BYTES = 512, SECTORS = 18, TRACK = SECTORS * BYTES, TRACKS = 160;
/** What the boot sector writes: a sector, and a track that it formats before. */
const WRITTEN = { cylinder: 2, head: 0, sector: 5, byte: 0x3C }, FORMATTED = { cylinder: 3, head: 1, byte: 0x99 };
/** What it prints last if each call of INT 13h did what it should. */
export const VERDICT = "all good";

export const bootSector = () => Uint8Array.from(atob(BOOT.replace(/\s/g, "")), (letter) => letter.charCodeAt(0));
const placeOf = (cylinder, head, sector = 1) => (2 * cylinder + head) * TRACK + (sector - 1) * BYTES;

/** Bytes that look random, and always the same. */
function* bytes() {
    for (let state = 12345n; ;) {
        state = state * 1103515245n + 12345n & 0x7FFFFFFFn;
        yield Number(state >> 16n & 255n);
    }
}

/** The flat file of the disk. The boot sector has a list of cylinder, head and sum of each track that it reads. */
export function trialDisk() {
    const flat = new Uint8Array(TRACKS * TRACK).fill(0xF6), boot = bootSector(), random = bytes();
    for (let at = TABLE; boot[at] !== TABLE_END; at += 4) {
        const place = placeOf(boot[at], boot[at + 1]);
        let sum = 0;
        for (let i = 0; i < TRACK; i++) {
            flat[place + i] = random.next().value;
            sum += flat[place + i] << 8 * (i & 1);
        }
        boot[at + 2] = sum;
        boot[at + 3] = sum >> 8;
    }
    flat.set(boot);
    return flat;
}

/** The flat file as the boot sector has to leave it. */
export function afterTrial(flat) {
    const after = flat.slice(), sector = placeOf(WRITTEN.cylinder, WRITTEN.head, WRITTEN.sector), track = placeOf(FORMATTED.cylinder, FORMATTED.head);
    after.fill(WRITTEN.byte, sector, sector + BYTES);
    after.fill(FORMATTED.byte, track, track + TRACK);
    return after;
}
