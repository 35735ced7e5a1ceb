// The page's side of the worker: a question gives a promise of its answer.

/** An error that the worker met, with what the library's error said. */
export class WorkerFault extends Error {
    constructor(fault) {
        super(fault.message);
        Object.assign(this, fault);
    }
}

export class Link {
    #waiting = new Map();
    #next = 1;
    #worker;

    /** @param {(event: string, told: object) => void} hears what the worker tells by itself */
    constructor(source, hears) {
        this.#worker = new Worker(URL.createObjectURL(new Blob([source], { type: "text/javascript" })));
        this.#worker.onmessage = ({ data }) => {
            if (data.event) {
                hears(data.event, data);
                return;
            }
            const { resolve, reject } = this.#waiting.get(data.id);
            this.#waiting.delete(data.id);
            if (data.fault) reject(new WorkerFault(data.fault));
            else resolve(data.answer);
        };
        this.#worker.onerror = (event) => hears("broken", { message: event.message });
    }

    ask(what, args) {
        return new Promise((resolve, reject) => {
            const id = this.#next++;
            this.#waiting.set(id, { resolve, reject });
            this.#worker.postMessage({ id, what, args });
        });
    }
}
