/** The library for C in JavaScript. c/telwyddus.h says what each call does; docs/WEB.md shows how to begin. */

/** A call answered a code other than DONE. Each code has a class of its own below. */
export class Refused extends Error {
    /** The code's name in the header, such as "NO_MEDIUM". */
    readonly code: string;
    /** The call's name in the header, without "telwyddus_". */
    readonly call: string;
}
export class Empty extends Refused {}
export class Full extends Refused {}
export class NoMemory extends Refused {}
export class OutOfRange extends Refused {}
export class BadImage extends Refused {}
export class HasMedium extends Refused {}
export class NoMedium extends Refused {}
export class NotAsked extends Refused {}
export class BadPlan extends Refused {
    /** The line that isn't understood, counted from 1; 0 if the text is too long. */
    readonly line: number;
}
export class TooShort extends Refused {}
export class NotText extends Refused {}
export class NoFile extends Refused {}
export class NotReady extends Refused {}
export class Changed extends Refused {}
export class Protected extends Refused {}
export class NoMark extends Refused {}
export class NotFound extends Refused {}
export class BadCrc extends Refused {}
export class Overrun extends Refused {}
export class Seek extends Refused {}
export class Unfit extends Refused {
    /** The track that the file can't have; both are 255 if it can't have the whole medium. */
    readonly cylinder: number;
    readonly head: number;
}
export class BadState extends Refused {}

/** The bits of a controller's lines. */
export const Lines: { readonly INT: 1; readonly DRQ: 2; readonly TO_MEMORY: 4; readonly INDEX: 8 };
/** The bits of a bay's signs. */
export const Signs: { readonly MOTOR: 1; readonly SELECTED: 2; readonly GATE: 4; readonly MEDIUM: 8 };

export type Bay = 0 | 1;
export interface Shape {
    /** Words of 16 cells on a track. */
    words: number;
    kilobits: number;
    cylinders: number;
    heads: number;
    isProtected: boolean;
}
/** What a look at a sector finds: its data, its data marked deleted, no data, data with a wrong CRC, or no size code. */
export type Found = "OK" | "DELETED" | "NO_DATA" | "BAD_CRC" | "NO_SIZE";
export interface Field {
    /** The track. */
    cylinder: number;
    head: number;
    /** The first cell of the field's three A1, counted from the index. */
    cell: number;
    c: number;
    h: number;
    r: number;
    n: number;
    found: Found;
}

/** What all objects have. An object is used by one call at a time. */
interface Held {
    /** Frees the object. It is harmless to do it once more; any other call throws Empty afterwards. */
    free(): void;
}

/** A medium outside a drive. */
export interface Tray extends Held {
    /** Its image file: raw cells. */
    image(): Uint8Array;
    /** Its ImageDisk file. */
    imd(): Uint8Array;
    /** Its flat sector file. */
    flat(): Uint8Array;
    flatAs(cylinders: number, heads: number, sectors: number, n?: number, kilobits?: number): Uint8Array;
    shape(): Shape;
    protect(on?: boolean): void;
    /** The words of a track, each of 16 cells, the first in the highest bit. */
    track(cylinder: number, head: number): Uint16Array;
    setTrack(cylinder: number, head: number, words: ArrayLike<number>): void;
    /** Its address fields, in the order of cylinder, head and place. */
    survey(): Field[];
}
export interface TrayClass {
    /** An empty tray. */
    new (): Tray;
    ofImage(bytes: Uint8Array): Tray;
    ofFlat(bytes: Uint8Array): Tray;
    ofFlatAs(bytes: Uint8Array, cylinders: number, heads: number, sectors: number, n?: number, kilobits?: number): Tray;
    ofImd(bytes: Uint8Array): Tray;
    /** An unformatted medium with two heads. */
    blank(cylinders: number, kilobits?: number): Tray;
}

interface Drives extends Held {
    /** Puts the medium of a tray into a bay. The tray is empty afterwards. */
    insert(bay: Bay, tray: Tray): void;
    /** Takes the medium out of a bay, into a new tray. */
    eject(bay: Bay): Tray;
}

/** The bare controller with two drives, for a bus of your own. */
export interface Controller extends Drives {
    /** INT, DRQ, TO_MEMORY and INDEX as the last call gave them. */
    lines: number;
    read(port: number): number;
    write(port: number, value: number): void;
    step(): void;
    /** Device steps up to the one in which INT or DRQ changes, but at most so many; says how many were made. */
    run(most: number): number;
    /** A number of device steps, at most `most`, that surely change neither INT nor DRQ. */
    quiet(most: number): number;
    /** How long a device step lasts, in nanoseconds. */
    wordTime(): number;
    reset(): void;
    strapSeeks(on: boolean): void;
    strapSteps(on: boolean): void;
    dackRead(): number;
    dackWrite(value: number): void;
    dackBlockRead(most: number): Uint8Array;
    dackBlockWrite(bytes: Uint8Array): number;
    tc(): void;
    image(bay: Bay): Uint8Array;
    flat(bay: Bay): Uint8Array;
    shape(bay: Bay): Shape;
    track(bay: Bay, cylinder: number, head: number): Uint16Array;
    protect(bay: Bay, on?: boolean): void;
    attach(bay: Bay, on?: boolean): void;
    isWritten(bay: Bay): boolean;
    written(bay: Bay): boolean;
    writtenTracks(bay: Bay): [cylinder: number, head: number][];
    bay(bay: Bay): { cylinder: number; signs: number };
    selected(): number;
    plan(bay: Bay, plan: string): void;
    save(): Uint8Array;
    restore(state: Uint8Array): void;
    saveBare(): Uint8Array;
    restoreBare(state: Uint8Array): void;
}

/** The whole machine: controller, DMA channel 2, 1 MiB of memory, and the latch of IRQ 6. */
export interface Machine extends Drives {
    inb(port: number): number;
    outb(port: number, value: number): void;
    wait(steps: number): void;
    waitIrq(most: number): { made: number; isSet: boolean };
    takeIrq(): boolean;
    memoryGet(address: number, length: number): Uint8Array;
    memorySet(address: number, bytes: Uint8Array): void;
    save(): Uint8Array;
    restore(state: Uint8Array): void;
}

/** Files in memory, on which the program `floppy` runs. */
export interface Shelf extends Held {
    put(name: string, bytes: Uint8Array): void;
    get(name: string): Uint8Array;
    /** Runs the program with these arguments, and gives its exit status. */
    run(...words: string[]): number;
    /** What runs printed since the last report. */
    report(): string;
}

/** Single sectors: a PC/AT with its driver, and two drives without faults. */
export interface Desk extends Drives {
    acknowledge(bay: Bay): void;
    setRate(bay: Bay, kilobits: number): void;
    format(bay: Bay, c: number, h: number): void;
    read(bay: Bay, c: number, h: number, r: number, n?: number): { bytes: Uint8Array; deleted: boolean };
    write(bay: Bay, c: number, h: number, r: number, bytes: Uint8Array, more?: { n?: number; deleted?: boolean }): void;
}

export interface Library {
    readonly Tray: TrayClass;
    /** `plan` is the text of a plan, whose faults the drives have. */
    readonly Controller: new (plan?: string) => Controller;
    readonly Machine: new (plan?: string) => Machine;
    readonly Shelf: new () => Shelf;
    readonly Desk: new () => Desk;
    /** The version of the library, such as 20000 for 2.0.0. */
    version(): number;
    /** How many bytes of memory the module has. */
    memory(): number;
}

/** Makes an instance of the library from the bytes of telwyddus.wasm, or from the file beside this module. */
export function load(source?: BufferSource | WebAssembly.Module): Promise<Library>;
/** The same, always from bytes or from a compiled module. */
export function instantiate(source: BufferSource | WebAssembly.Module): Promise<Library>;
