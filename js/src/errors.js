// The codes of c/telwyddus.h as errors. Each code but DONE has a class, so that a program can catch the one that it
// expects, and `name` and `code` tell it in a message.

/** A call answered a code other than DONE. */
export class Refused extends Error {
    /** @param {string} call the call's name in the header, without "telwyddus_" */
    constructor(call, what) {
        super(`${call}: ${what}`);
        this.call = call;
    }
}

export class Empty extends Refused {}
export class Full extends Refused {}
export class NoMemory extends Refused {}
export class OutOfRange extends Refused {}
export class BadImage extends Refused {}
export class HasMedium extends Refused {}
export class NoMedium extends Refused {}
export class NotAsked extends Refused {}
/** `line` is the number of the line that isn't understood, counted from 1; it is 0 if the text is too long. */
export class BadPlan extends Refused {}
export class TooShort extends Refused {}
export class NotText extends Refused {}
export class NoFile extends Refused {}
export class NotReady extends Refused {}
export class Changed extends Refused {}
export class Protected extends Refused {}
export class NoMark extends Refused {}
export class NotFound extends Refused {}
export class BadCrc extends Refused {}
export class Overrun extends Refused {}
export class Seek extends Refused {}
/** `cylinder` and `head` name the track that the file can't have; both are 255 if it can't have the whole medium. */
export class Unfit extends Refused {}
export class BadState extends Refused {}

const CODES = [
    null,
    [Empty, "EMPTY", "the object holds nothing"],
    [Full, "FULL", "the object holds something already"],
    [NoMemory, "NO_MEMORY", "there is no memory left"],
    [OutOfRange, "OUT_OF_RANGE", "there is no such bay, track, sector or range of memory"],
    [BadImage, "BAD_IMAGE", "the bytes are not those of such a file"],
    [HasMedium, "HAS_MEDIUM", "a medium is in the bay already"],
    [NoMedium, "NO_MEDIUM", "no medium is in the bay, or in the tray"],
    [NotAsked, "NOT_ASKED", "DRQ is down, or bytes go in the other direction"],
    [BadPlan, "BAD_PLAN", "a line of the plan isn't understood"],
    [TooShort, "TOO_SHORT", "the buffer is too short"],
    [NotText, "NOT_TEXT", "a name, or an argument, isn't UTF-8"],
    [NoFile, "NO_FILE", "no file has this name"],
    [NotReady, "NOT_READY", "no medium is in the bay that is to be acknowledged"],
    [Changed, "CHANGED", "the bay wasn't acknowledged since its medium was put in"],
    [Protected, "PROTECTED", "the medium is write-protected"],
    [NoMark, "NO_MARK", "the track has no address mark, or the sector has no data"],
    [NotFound, "NOT_FOUND", "the track has no such sector"],
    [BadCrc, "BAD_CRC", "the sector's data is damaged"],
    [Overrun, "OVERRUN", "a DMA request waited too long"],
    [Seek, "SEEK", "the heads didn't find track 0"],
    [Unfit, "UNFIT", "the other file format can't hold the medium, or one of its tracks"],
    [BadState, "BAD_STATE", "the bytes are not a saved state"],
];
for (const entry of CODES.slice(1)) {
    const [kind, code] = entry;
    kind.prototype.name = kind.name;
    kind.prototype.code = code;
}

/** The error of a call that answered this code. */
export function refusal(call, number) {
    const [kind, , what] = CODES[number] ?? [Refused, "", `the code ${number}`];
    return new kind(call, what);
}

