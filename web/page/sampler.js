// Calls of popsample in a worker, one at a time. A call that is stopped ends with its worker, and the next one has
// another.

export class Sampler {
    #module;
    #worker = null;
    #number = 0;
    #reject = null;

    /** @param {string} module the file of the module, in the folder popsample */
    constructor(module) {
        this.#module = module;
        this.#start();
    }

    #start() {
        const url = new URL("./worker.js", import.meta.url);
        url.searchParams.set("module", this.#module);
        this.#worker = new Worker(url, { type: "module" });
    }

    /**
     * Runs the arguments on a text. A call before that isn't at its end is stopped.
     * @returns {Promise<{ status: number, output: string, refusal: string | null, milliseconds: number,
     *     label: string }>}
     */
    run(words, text) {
        if (this.#reject !== null) this.stop();
        const number = ++this.#number;
        return new Promise((resolve, reject) => {
            this.#reject = reject;
            this.#worker.onmessage = ({ data }) => {
                if (data.number !== number) return;
                this.#reject = null;
                resolve(data);
            };
            this.#worker.onerror = (event) => {
                this.#reject = null;
                reject(new Error(event.message || "The worker didn't start."));
            };
            this.#worker.postMessage({ number, words, text });
        });
    }

    /** Stops the call, whose promise is rejected. */
    stop() {
        if (this.#reject === null) return;
        this.#worker.terminate();
        this.#start();
        this.#reject(new DOMException("The run was stopped.", "AbortError"));
        this.#reject = null;
    }
}
