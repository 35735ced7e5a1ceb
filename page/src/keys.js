// Keys as the keyboard of a PC gives them: the first set of scan codes, by the place of a key on an English keyboard.

const ROWS = [[0x01, "Escape Digit1 Digit2 Digit3 Digit4 Digit5 Digit6 Digit7 Digit8 Digit9 Digit0 Minus Equal Backspace Tab"],
    [0x10, "KeyQ KeyW KeyE KeyR KeyT KeyY KeyU KeyI KeyO KeyP BracketLeft BracketRight Enter ControlLeft"],
    [0x1E, "KeyA KeyS KeyD KeyF KeyG KeyH KeyJ KeyK KeyL Semicolon Quote Backquote ShiftLeft Backslash"],
    [0x2C, "KeyZ KeyX KeyC KeyV KeyB KeyN KeyM Comma Period Slash ShiftRight NumpadMultiply AltLeft Space CapsLock F1 F2 F3 F4 F5 F6 F7 F8 F9 F10"]];
const CODES = new Map(ROWS.flatMap(([first, names]) => names.split(" ").map((name, i) => [name, [first + i]])));
for (const [name, code] of Object.entries({ ArrowUp: 0x48, ArrowLeft: 0x4B, ArrowRight: 0x4D, ArrowDown: 0x50, Home: 0x47, PageUp: 0x49, End: 0x4F, PageDown: 0x51, Insert: 0x52, Delete: 0x53 })) CODES.set(name, [0xE0, code]);
const RELEASED = 0x80;

/** The bytes of a key that goes down or comes up; null if a PC's keyboard doesn't have it. */
export function bytesOfKey(name, isDown) {
    const code = CODES.get(name);
    if (code === undefined) return null;
    return isDown ? code : [...code.slice(0, -1), code.at(-1) | RELEASED];
}

const PLAIN = { " ": "Space", "-": "Minus", "=": "Equal", "[": "BracketLeft", "]": "BracketRight", ";": "Semicolon", "'": "Quote", "`": "Backquote", "\\": "Backslash", ",": "Comma", ".": "Period", "/": "Slash", "\n": "Enter" };
const SHIFTED = { "!": "Digit1", "@": "Digit2", "#": "Digit3", $: "Digit4", "%": "Digit5", "^": "Digit6", "&": "Digit7", "*": "Digit8", "(": "Digit9", ")": "Digit0", _: "Minus", "+": "Equal", "{": "BracketLeft", "}": "BracketRight", ":": "Semicolon", "\"": "Quote", "~": "Backquote", "|": "Backslash", "<": "Comma", ">": "Period", "?": "Slash" };

/** The bytes of a text that is typed. What the keyboard doesn't have is left out. */
export function bytesOfText(text) {
    return [...text].flatMap((letter) => {
        const isShifted = /[A-Z]/.test(letter) || letter in SHIFTED;
        const name = /[a-z]/i.test(letter) ? `Key${letter.toUpperCase()}` : /\d/.test(letter) ? `Digit${letter}` : PLAIN[letter] ?? SHIFTED[letter];
        if (name === undefined) return [];
        const press = [...bytesOfKey(name, true), ...bytesOfKey(name, false)];
        return isShifted ? [...bytesOfKey("ShiftLeft", true), ...press, ...bytesOfKey("ShiftLeft", false)] : press;
    });
}
