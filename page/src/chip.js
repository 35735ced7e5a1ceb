// The 82077AA for readers: its commands with their bytes, and what each bit of its registers and results says.
// docs/C.md has the same in full.
import { hex } from "./text.js";

const BITS_HD = "head in bit 2, drive in bits 1 and 0";
const SECTOR = [["HD", BITS_HD], ["C", "cylinder"], ["H", "head, as the address field has it"], ["R", "record: the sector's number"],
    ["N", "size code: 2 is 512 bytes"], ["EOT", "the last record of the track"], ["GPL", "gap 3; changes nothing here"], ["DTL", "changes nothing here"]];
const SEVEN = ["ST0", "ST1", "ST2", "C", "H", "R", "N"];

/** `moves` says in which direction bytes pass: to memory (read), or from it (write, format). */
const command = (code, name, parts, bytes, results, moves = null) => ({ code, name, parts, bytes, results, moves });
export const COMMANDS = [
    command(0x46, "READ DATA", SECTOR, [0, 0, 0, 1, 2, 18, 0x1B, 0xFF], SEVEN, "read"),
    command(0x4C, "READ DELETED DATA", SECTOR, [0, 0, 0, 1, 2, 18, 0x1B, 0xFF], SEVEN, "read"),
    command(0x45, "WRITE DATA", SECTOR, [0, 0, 0, 1, 2, 18, 0x1B, 0xFF], SEVEN, "write"),
    command(0x49, "WRITE DELETED DATA", SECTOR, [0, 0, 0, 1, 2, 18, 0x1B, 0xFF], SEVEN, "write"),
    command(0x42, "READ TRACK", SECTOR, [0, 0, 0, 1, 2, 18, 0x1B, 0xFF], SEVEN, "read"),
    command(0x56, "VERIFY", [...SECTOR.slice(0, 7), ["SC", "number of sectors, if bit 7 of HD (EC) is set"]], [0, 0, 0, 1, 2, 18, 0x1B, 0xFF], SEVEN),
    command(0x4A, "READ ID", [["HD", BITS_HD]], [0], SEVEN),
    command(0x4D, "FORMAT TRACK", [["HD", BITS_HD], ["N", "size code"], ["SC", "sectors on the track"], ["GPL", "gap 3"], ["D", "fill byte"]],
        [0, 2, 18, 0x6C, 0xF6], SEVEN, "format"),
    command(0x07, "RECALIBRATE", [["DS", "drive"]], [0], []),
    command(0x0F, "SEEK", [["HD", BITS_HD], ["NCN", "cylinder to go to"]], [0, 0], []),
    command(0xCF, "RELATIVE SEEK inward", [["HD", BITS_HD], ["RCN", "cylinders to go"]], [0, 1], []),
    command(0x8F, "RELATIVE SEEK outward", [["HD", BITS_HD], ["RCN", "cylinders to go"]], [0, 1], []),
    command(0x08, "SENSE INTERRUPT", [], [], ["ST0", "PCN"]),
    command(0x04, "SENSE DRIVE STATUS", [["HD", BITS_HD]], [0], ["ST3"]),
    command(0x03, "SPECIFY", [["SRT HUT", "step rate, head unload time"], ["HLT ND", "head load time; bit 0 is non-DMA"]], [0xDF, 0x02], []),
    command(0x13, "CONFIGURE", [["0", "always 00"], ["CONF", "EIS 40, EFIFO 20 (FIFO off), POLL 10 (polling off), threshold"], ["PRETRK", "precompensation track"]],
        [0, 0x57, 0], []),
    command(0x0E, "DUMPREG", [], [], ["PCN0", "PCN1", "PCN2", "PCN3", "SRT HUT", "HLT ND", "SC or EOT", "LOCK..", "CONF", "PRETRK"]),
    command(0x12, "PERPENDICULAR MODE", [["PERP", "OW in bit 7, drives, GAP, WGATE"]], [0], []),
    command(0x94, "LOCK", [], [], ["LOCK"]),
    command(0x14, "UNLOCK", [], [], ["LOCK"]),
    command(0x10, "VERSION", [], [], ["VERSION"]),
];

/** The command of a code, with any of its bits MT, MFM and SK. A code that none has is an invalid one. */
export function commandOf(code) {
    const invalid = command(code, "invalid", [], [], ["ST0"]), plain = COMMANDS.find((it) => it.code === code);
    if (plain) return plain;
    const bare = COMMANDS.find((it) => it.results === SEVEN && it.code === (code & 0x1F | 0x40));
    const refused = { 0x42: 0xA0, 0x4D: 0xA0, 0x45: 0x20, 0x49: 0x20 }[bare?.code] ?? 0;
    return bare && !(code & refused) ? bare : invalid;
}

/** What each byte of a command is, in order: its short name, and what it says. */
export function bytesOf(bytes) {
    const is = commandOf(bytes[0]), flags = is.parts.length > 7 ? [bytes[0] & 0x80 && "MT: both heads", bytes[0] & 0x40 && "MFM", bytes[0] & 0x20 && "SK: skip the other mark"] : [];
    const told = [["code", [is.name, ...flags.filter(Boolean)].join(", ")], ...is.parts];
    return [...bytes].map((byte, i) => ({ byte, name: told[i]?.[0] ?? "more", says: told[i]?.[1] ?? "one byte too many" }));
}

/** How many bytes the channel has to move for a command: of all sectors from R to EOT, on both heads with MT. */
export function countOf(bytes) {
    const is = commandOf(bytes[0]);
    if (is.moves === "format") return 4 * (bytes[3] ?? 0);
    if (is.moves === null) return 0;
    const [, , , , r = 1, n = 2, eot = 1] = bytes, sectors = Math.max(1, eot - r + 1), more = bytes[0] & 0x80 && !(bytes[1] & 4) ? eot : 0;
    return is.code === 0x42 ? (128 << Math.min(n, 6)) * eot : (128 << Math.min(n, 6)) * (sectors + more);
}

const IC = ["done", "failed", "no such command", "polled after a reset"];
const one = (bit, name, says) => ({ from: bit, upto: bit, name, says: (value) => (value ? says : null) });
const many = (from, upto, name, says) => ({ from, upto, name, says });
/** The bits of registers and result bytes, the highest first. `says` gives a text, or null if the bit tells nothing. */
export const BITS = {
    MSR: [one(7, "RQM", "a byte can pass at 3F5"), many(6, 6, "DIO", (v) => (v ? "that byte is to be read" : "that byte is to be written")), one(5, "NDM", "bytes of the execution pass at 3F5"),
        one(4, "CB", "a command is under way"), ...[3, 2, 1, 0].map((d) => one(d, `D${d}B`, `drive ${d} seeks, or its seek isn't sensed yet`))],
    ST0: [many(7, 6, "IC", (v) => IC[v]), one(5, "SE", "a seek ended"), one(4, "EC", "track 0 wasn't found"), one(3, "", "unused"), many(2, 2, "H", (v) => `head ${v}`), many(1, 0, "DS", (v) => `drive ${v}`)],
    ST1: [one(7, "EN", "no terminal count came up to EOT"), one(6, "", "unused"), one(5, "DE", "a CRC is wrong"), one(4, "OR", "a byte came too late"), one(3, "", "unused"),
        one(2, "ND", "no such sector"), one(1, "NW", "the medium is protected"), one(0, "MA", "no address mark")],
    ST2: [one(7, "", "unused"), one(6, "CM", "the other data mark"), one(5, "DD", "the CRC of the data is wrong"), one(4, "WC", "another cylinder's field"), one(3, "", "unused"),
        one(2, "", "unused"), one(1, "BC", "that cylinder is FF"), one(0, "MD", "no data mark")],
    ST3: [one(7, "", "unused"), one(6, "WP", "the medium is protected"), one(5, "1", "always 1"), one(4, "T0", "the heads are on track 0"), one(3, "1", "always 1"), many(2, 2, "H", (v) => `head ${v}`), many(1, 0, "DS", (v) => `drive ${v}`)],
    DOR: [3, 2, 1, 0].map((d) => one(d + 4, `MOT${d}`, `motor ${d} is on`)).concat(one(3, "DMAGATE", "INT and DRQ are let out"), many(2, 2, "RESET", (v) => (v ? "not in reset" : "in reset")), many(1, 0, "SEL", (v) => `drive ${v}`)),
};

/** The bits of a byte: name, value, and what it tells. */
export function explained(name, byte) {
    return (BITS[name] ?? []).map(({ from, upto, name: bit, says }) => {
        const value = byte >> upto & (1 << from - upto + 1) - 1;
        return { bit: from === upto ? `${from}` : `${from}, ${upto}`, name: bit, value: value.toString(2).padStart(from - upto + 1, "0"), says: says(value) };
    });
}

/** One sentence on the results of a command. */
export function judged(results, names) {
    if (names[0] !== "ST0") return results.map((byte, i) => `${names[i] ?? "more"} ${hex(byte)}`).join(", ");
    const told = names.slice(0, 3).flatMap((name, i) => (BITS[name] && results[i] !== undefined ? explained(name, results[i]) : []))
        .filter((it) => it.says && it.name && !["H", "DS"].includes(it.name)).map((it) => (it.name === "IC" ? it.says : `${it.name}: ${it.says}`));
    return told.join("; ");
}

/** The phase that an MSR shows. */
export function phaseOf(msr) {
    if (msr === 0) return "reset";
    if ((msr & 0xD0) === 0xD0 && !(msr & 0x20)) return "results";
    if ((msr & 0xD0) === 0x90 && !(msr & 0x20)) return "command";
    if (msr & 0x10) return "execution";
    return msr & 0x0F ? "seek" : "idle";
}
