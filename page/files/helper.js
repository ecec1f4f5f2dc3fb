// The worker, which is made once it is needed, and if there is none the same work in the page, in small steps.
import { codecOf } from "./loading.js";
import { work } from "./work.js";

// How long a worker may take to begin.
const PATIENCE = 5000;

export class Helper {
    #module;
    #make;
    #isReady;
    #waiting = new Map();
    #count = 0;
    #codec = null;
    #last = {};

    constructor(module, make) {
        this.#module = module;
        this.#make = make;
    }

    // Whether there is a worker.
    get isReady() {
        return (this.#isReady ??= new Promise((done) => {
            try {
                this.worker = this.#make();
            } catch {
                return done(false);
            }
            this.worker.addEventListener("error", () => {
                done(false);
                // (what it was asked for comes no more; what follows is done in the page)
                this.#isReady = Promise.resolve(false);
                for (const { fail } of this.#waiting.values()) fail(new Error("the worker stopped"));
                this.#waiting.clear();
            });
            this.worker.addEventListener("message", ({ data }) => (data.isReady ? done(true) : this.#hear(data)));
            this.worker.postMessage({ module: this.#module });
            setTimeout(() => done(false), PATIENCE);
        }));
    }

    #hear({ number, news, result, error }) {
        const { done, fail, tell, task } = this.#waiting.get(number) ?? {};
        const isLast = this.#last[task] === number;
        if (news !== undefined) return isLast ? tell(news) : undefined;
        this.#waiting.delete(number);
        if (!isLast) return done?.(null);
        if (error === undefined) done?.(result);
        else fail?.(new Error(error));
    }

    // What a task gives for a Blob, or null if another one of its kind was asked for meanwhile.
    async ask(task, asked, tell) {
        const number = ++this.#count;
        this.#last[task] = number;
        const isWanted = () => this.#last[task] === number;
        if (!(await this.isReady)) {
            this.#codec ??= await codecOf(this.#module);
            return work(this.#codec, { task, ...asked }, (news) => isWanted() && tell(news), isWanted);
        }
        if (!isWanted()) return null;
        return new Promise((done, fail) => {
            this.#waiting.set(number, { done, fail, tell, task });
            this.worker.postMessage({ task, number, ...asked });
        });
    }

    // Lets a task go that is under way.
    stop(task) {
        this.#last[task] = ++this.#count;
        if (this.worker) this.worker.postMessage({ task, number: this.#count, isStop: true });
    }
}
