/** The workers that run the programs, so that the page never waits. */
import { Failed } from './engine.js';

/**
 * @typedef {import('./engine.js').Answer} Answer
 * @typedef {{
 *   words: string[],
 *   input: string | Uint8Array,
 *   signal: AbortSignal | undefined,
 *   resolve: (answer: Answer) => void,
 *   reject: (reason: unknown) => void,
 * }} Question
 */

/** Why a question has no answer: it was stopped. */
export class Stopped extends Error {}

/** Asks as many questions at a time as there may be workers; the others wait in order. */
export class Workers {
    /**
     * @param {Promise<() => Worker>} maker Makes a worker that has the module, once that is there.
     * @param {number} most How many there may be.
     * @param {number} [memory] How many bytes of memory each call may take.
     */
    constructor(maker, most, memory) {
        this.memory = memory;
        /** @type {(() => Worker) | null} */
        this.make = null;
        this.most = most;
        void maker.then((make) => {
            this.make = make;
            this.next();
        });
        this.busy = 0;
        this.number = 0;
        /** @type {Worker[]} */
        this.idle = [];
        /** @type {Question[]} */
        this.waiting = [];
    }

    /**
     * Runs a program. When the signal aborts, its worker is ended at once.
     * @param {string[]} words
     * @param {string | Uint8Array} input
     * @param {AbortSignal} [signal]
     * @returns {Promise<Answer>}
     */
    ask(words, input, signal) {
        return new Promise((resolve, reject) => {
            this.waiting.push({ words, input, signal, resolve, reject });
            this.next();
        });
    }

    /** Begins what waits, as far as there are workers for it. */
    next() {
        while (this.make && this.busy < this.most) {
            const question = this.waiting.shift();
            if (!question) return;
            if (question.signal?.aborted) question.reject(new Stopped());
            else this.begin(question, this.idle.pop() ?? this.make());
        }
    }

    /**
     * @param {Question} question
     * @param {Worker} worker
     */
    begin({ words, input, signal, resolve, reject }, worker) {
        const number = ++this.number;
        this.busy += 1;
        const end = (/** @type {boolean} */ isKept) => {
            worker.onmessage = worker.onerror = null;
            signal?.removeEventListener('abort', stop);
            if (isKept) this.idle.push(worker);
            else worker.terminate();
            this.busy -= 1;
            this.next();
        };
        const stop = () => {
            end(false);
            reject(new Stopped());
        };
        signal?.addEventListener('abort', stop);
        worker.onmessage = ({ data }) => {
            if (data.number !== number) return;
            if (data.answer) resolve(data.answer);
            else reject(new Failed(data.failed));
            end(Boolean(data.answer));
        };
        worker.onerror = (event) => {
            reject(new Failed(event.message));
            end(false);
        };
        worker.postMessage({ number, words, input, memory: this.memory });
    }

    /** Ends the workers that have nothing to do. */
    close() {
        for (const worker of this.idle.splice(0)) worker.terminate();
    }
}
