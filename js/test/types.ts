// What a program in TypeScript writes. js/check compiles it against js/telwyddus.d.ts, and runs nothing.
import { load, Lines, Refused, Unfit, BadPlan, type Library, type Tray } from "telwyddus";
const library: Library = await load();
const { Tray, Controller, Machine, Shelf, Desk, version } = library;
const tray: Tray = Tray.ofFlat(new Uint8Array(737280));
const found: string[] = tray.survey().map((it) => `${it.cylinder} ${it.found}`);
const controller = new Controller("drop 0 0 0 300 1");
controller.insert(0, tray);
const up: boolean = (controller.lines & Lines.INT) !== 0;
const [first] = controller.writtenTracks(0);
const cylinder: number | undefined = first?.[0];
try { controller.eject(1).free(); } catch (fault) { if (fault instanceof Unfit) console.log(fault.cylinder, fault.code); else if (fault instanceof BadPlan) console.log(fault.line); else if (fault instanceof Refused) console.log(fault.call); }
const machine = new Machine(); const { made, isSet } = machine.waitIrq(10);
const files = new Shelf(); const status: number = files.run("verify", "a");
const desk = new Desk(); desk.write(0, 1, 0, 7, new Uint8Array(512), { deleted: true });
console.log(found, up, cylinder, made, isSet, status, version());
// @ts-expect-error: there is no bay 2
controller.insert(2, tray);
