/** The module: both programs as one call over bytes. */

/**
 * What a program answered.
 * @typedef {{status: number, reason: number, report: Uint8Array, message: string}} Answer
 */

/**
 * What the module exports.
 * @typedef {{
 *   memory: WebAssembly.Memory,
 *   web_begin: (bytes: bigint, refused: bigint) => void,
 *   web_alloc: (bytes: bigint) => bigint,
 *   web_used: () => bigint,
 *   dw_web_run: (...places: bigint[]) => void,
 * }} Exports
 */

/** Why a program ended, beside its status. */
export const REASON = { ended: 0, arguments: 1, full: 2, memory: 3, other: 4 };

/** How many bytes of memory a program may take, if the page says nothing else. */
export const MEMORY = 1_000_000_000;

/** How many bytes a message may have: the longest of the programs has some 1,000. */
const MESSAGE = 65_536;

/** How many bytes of report there is room for at first; each further try has eight times as many. */
const REPORT = 1_048_576;

/** A memory that has grown beyond this is not kept for the next call. */
const KEPT = 100_000_000;

/** The places in `Ended`: status and reason, how many bytes were written of report and message, and its size. */
const STATUS = 0, CAUSE = 1, WRITTEN = 8, SAID = 16, ENDED = 24;

/** Runs the programs, one after another. */
export class Engine {
    /** @param {WebAssembly.Module} module */
    constructor(module) {
        this.module = module;
        /** @type {Exports | null} */
        this.exports = null;
    }

    /** The module with an empty memory, or with one that an earlier call has left. */
    ready() {
        if (this.exports && this.exports.memory.buffer.byteLength > KEPT) this.exports = null;
        if (!this.exports) {
            const { exports } = new WebAssembly.Instance(this.module, {});
            this.exports = /** @type {Exports} */ (/** @type {unknown} */ (exports));
        }
        return this.exports;
    }

    /**
     * Runs a program. A report for which there was no room is asked for again, with more, up to an eighth of the
     * memory.
     * @param {string[]} words The arguments, the program's name first.
     * @param {string | Uint8Array} input Its standard input.
     * @param {number} [memory] How many bytes of memory it may take.
     * @returns {Answer}
     */
    run(words, input, memory = MEMORY) {
        const most = Math.max(REPORT, Math.floor(memory / 8));
        for (let room = REPORT; ; room = Math.min(room * 8, most)) {
            const answer = this.attempt(words, input, { memory, room });
            if (answer.reason !== REASON.full || room === most) return answer;
        }
    }

    /**
     * Runs a program once, with so much room for its report.
     * @param {string[] | Uint8Array} words The arguments, or their bytes.
     * @param {string | Uint8Array} input
     * @param {{memory?: number, room?: number, refused?: number}} bounds The allocation `refused` is refused, counted
     *     from 1.
     * @returns {Answer}
     */
    attempt(words, input, { memory = MEMORY, room = REPORT, refused = 0 }) {
        const exports = this.ready();
        exports.web_begin(BigInt(memory), BigInt(refused));
        const encoder = new TextEncoder();
        const pieces = [
            words instanceof Uint8Array ? words : encoder.encode(words.join('\n')),
            typeof input === 'string' ? encoder.encode(input) : input,
        ];
        const sizes = [...pieces.map((piece) => piece.length), room, MESSAGE, ENDED];
        const places = sizes.map((size) => Number(exports.web_alloc(BigInt(size))));
        if (places.includes(0)) {
            return {
                status: 3, reason: REASON.memory, report: new Uint8Array(0), message: 'no memory for the input\n',
            };
        }
        const [, , report, message, ended] = places;
        pieces.forEach((piece, i) => new Uint8Array(exports.memory.buffer).set(piece, places[i]));
        const slices = places.slice(0, 4).flatMap((place, i) => [BigInt(place), BigInt(sizes[i])]);
        exports.dw_web_run(...slices, BigInt(ended));
        const view = new DataView(exports.memory.buffer);
        const written = (/** @type {number} */ at, /** @type {number} */ count) =>
            new Uint8Array(exports.memory.buffer).slice(at, at + Number(view.getBigUint64(ended + count, true)));
        return {
            status: view.getUint8(ended + STATUS),
            reason: view.getUint8(ended + CAUSE),
            report: written(report, WRITTEN),
            message: textOf(written(message, SAID)),
        };
    }
}

/** What a program says if it fails. */
export class Failed extends Error {
    /**
     * @param {string} message
     * @param {number} [reason]
     */
    constructor(message, reason = REASON.other) {
        super(message);
        this.reason = reason;
    }
}

/**
 * The answer's bytes, if the program came to its end.
 * @param {Answer} answer
 */
export function bytesOf({ status, reason, report, message }) {
    if (reason !== REASON.ended || status > 1) throw new Failed(message.trim() || `status ${status}`, reason);
    return report;
}

/**
 * The answer's text, if the program came to its end.
 * @param {Answer} answer
 */
export const reportOf = (answer) => textOf(bytesOf(answer));

/**
 * The text of bytes that a program wrote or a file has. What is no UTF-8 is read as windows-1252.
 * @param {Uint8Array} bytes
 */
export function textOf(bytes) {
    try {
        return new TextDecoder('utf-8', { fatal: true }).decode(bytes);
    } catch {
        return new TextDecoder('windows-1252').decode(bytes);
    }
}
