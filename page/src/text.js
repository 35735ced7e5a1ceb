// Numbers and bytes as text, and text as bytes.

export const hex = (value, digits = 2) => value.toString(16).toUpperCase().padStart(digits, "0");
export const hexes = (bytes) => Array.from(bytes, (byte) => hex(byte)).join(" ");
export const many = (count, word) => `${grouped(count)} ${word}${count === 1 ? "" : "s"}`;
export const grouped = (count) => String(count).replace(/\B(?=(\d{3})+$)/g, ",");

/** Bytes of a text like "46 00 05"; null if it is no such text. */
export function bytesOfHex(text) {
    const words = text.trim().split(/[\s,]+/).filter(Boolean);
    return words.every((word) => /^[0-9a-f]{1,2}$/i.test(word)) ? Uint8Array.from(words, (word) => parseInt(word, 16)) : null;
}

/** Bytes as printable text, with a full stop for each other byte. */
export const printed = (bytes) => Array.from(bytes, (byte) => (byte >= 32 && byte < 127 ? String.fromCharCode(byte) : ".")).join("");

/** A dump: the place, 16 bytes in hexadecimal, and the same as text. */
export function dumped(bytes, a_row = 16) {
    const rows = [];
    for (let at = 0; at < bytes.length; at += a_row) {
        const part = bytes.subarray(at, at + a_row);
        rows.push(`${hex(at, 3)}  ${hexes(part).padEnd(3 * a_row - 1)}  ${printed(part)}`);
    }
    return rows.join("\n");
}

/** How long so many device steps last. */
export function lasting(steps, nanoseconds) {
    const ms = steps * nanoseconds / 1e6;
    return ms < 1 ? `${(ms * 1000).toFixed(0)} µs` : ms < 1000 ? `${ms.toFixed(ms < 10 ? 2 : 1)} ms` : `${(ms / 1000).toFixed(2)} s`;
}
