/** What a worker does: it takes the module, and then runs programs, one after another. */
import { Engine } from './engine.js';

/**
 * @typedef {import('./engine.js').Answer} Answer
 * @typedef {{number: number, words: string[], input: string | Uint8Array, memory?: number}} Asked
 * @typedef {{number: number, answer?: Answer, failed?: string}} Answered
 * @typedef {{
 *   listen: (act: (data: any) => void) => void,
 *   post: (answered: Answered, transfer?: ArrayBuffer[]) => void,
 * }} Port
 */

/** @type {Port} The page, as a worker of a browser sees it. */
const page = {
    listen: (act) => addEventListener('message', ({ data }) => act(data)),
    post: (answered, transfer) => postMessage(answered, { transfer }),
};

/**
 * Listens to whoever made the worker.
 * @param {Port} port
 */
export function work(port = page) {
    /** @type {Engine | null} */
    let engine = null;
    port.listen((data) => {
        if (data.module) {
            engine = new Engine(data.module);
            return;
        }
        const { number, words, input, memory } = /** @type {Asked} */ (data);
        try {
            const answer = /** @type {Engine} */ (engine).run(words, input, memory);
            port.post({ number, answer }, [/** @type {ArrayBuffer} */ (answer.report.buffer)]);
        } catch (error) {
            if (engine) engine = new Engine(engine.module);
            port.post({ number, failed: String(error) });
        }
    });
}
