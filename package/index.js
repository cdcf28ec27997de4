/** Calls of dw and dw-desk from JavaScript, in node and in a browser. */
import { Failed, MEMORY, REASON, textOf } from './engine.js';
import { compiled, makerOf, processors } from './module.js';
import { Stopped, Workers } from './workers.js';

/** The most bytes of input that a call takes. */
const LARGEST = 1_000_000_000;

/** How many lines `list` asks for at a time. */
const PORTION = 1000;

/** A call that a program refuses, or does not bring to its end. */
export class DeskError extends Error {
    /**
     * @param {string} message The program's own words.
     * @param {number} status Its exit status: 1 if an argument has a fault, 2 if they are no command, 3 if it was
     *     stopped.
     */
    constructor(message, status) {
        super(message);
        this.name = 'DeskError';
        this.status = status;
    }
}

/** Values of JSON, one a line. */
const rowsOf = (text) => text.split('\n').filter(Boolean).map((line) => JSON.parse(line));

/** The input that problems stand for: a FEN text, several, or the bytes of a file. */
function inputOf(problems) {
    if (problems instanceof Uint8Array) return problems;
    const texts = Array.isArray(problems) ? problems : [problems];
    return texts.map((text) => (String(text).endsWith('\n') ? text : `${text}\n`)).join('');
}

/** Options as words: a flag if the value is true, nothing if there is none. */
const wordsOf = (options) => Object.entries(options).flatMap(([name, value]) => {
    if (value === undefined || value === false) return [];
    const word = name.length === 1 ? `-${name}` : `--${name}`;
    return value === true ? [word] : [word, String(value)];
});

/**
 * The programs. Calls run side by side, as many as there are workers; the others wait. Nothing is kept between calls.
 */
export class Desk {
    #workers;

    constructor(workers) {
        this.#workers = workers;
    }

    /**
     * Opens the programs.
     * @param {{workers?: number, memory?: number}} [options] How many workers there are, by default one for each
     *     processor, and how many bytes of memory each call may take, by default 1,000,000,000.
     */
    static async open({ workers, memory = MEMORY } = {}) {
        const maker = await makerOf(await compiled());
        return new Desk(new Workers(Promise.resolve(maker), workers ?? await processors(), memory));
    }

    /** Ends the workers, once what they do has ended. */
    close() {
        this.#workers.close();
    }

    /** Runs a program: its arguments with its name first, and its standard input. */
    async run(words, input = '', { signal } = {}) {
        if (signal?.aborted) throw abortion(signal);
        if (input.length > LARGEST) throw new DeskError(`the input has more than ${LARGEST} bytes`, 3);
        const asked = words.find((word) => word.includes('\n'));
        if (asked !== undefined) throw new DeskError('an argument has a line feed', 2);
        try {
            const { status, reason, report, message } = await this.#workers.ask(words, input, signal);
            return { status, reason, report: textOf(report), message };
        } catch (error) {
            if (error instanceof Stopped) throw abortion(signal);
            if (error instanceof Failed) throw new DeskError(`the module failed: ${error.message}`, 3);
            throw error;
        }
    }

    /** The report of a call that came to its end. */
    async #report(words, problems, signal) {
        const { status, reason, report, message } = await this.run(words, inputOf(problems), { signal });
        if (reason === REASON.full) throw new DeskError('the report is too large: open with more memory', status);
        if (reason !== REASON.ended || message) throw new DeskError(message.trim(), status);
        return report;
    }

    async #rows(command, problems, { signal, ...options }) {
        return rowsOf(await this.#report(['dw-desk', command, '--json', ...wordsOf(options)], problems, signal));
    }

    /** Each problem as it is read: the position, or why it is refused. */
    async show(problems, { signal, ...options } = {}) {
        return rowsOf(await this.#report(['dw', 'show', '--json', ...wordsOf(options)], problems, signal));
    }

    /** The legal moves of each problem, each with the position after it. */
    async legal(problems, { signal, ...options } = {}) {
        return rowsOf(await this.#report(['dw', 'moves', '--json', ...wordsOf(options)], problems, signal));
    }

    /** The verdict of each problem at the least number of moves up to `most`. */
    find(problems, options = {}) {
        return this.#rows('find', problems, options);
    }

    /** The verdict of each problem within exactly `n` moves. */
    judge(problems, options) {
        return this.#rows('find', problems, options);
    }

    /** What an author's solution leaves out or gets wrong, for each game of a PDN text. */
    check(pdn, options = {}) {
        return this.#rows('check', pdn, options);
    }

    /** The solution of each problem, as moves with their depths. */
    solution(problems, options) {
        return this.#rows('solution', problems, options);
    }

    /** The sound problems that are one change away from one problem, and how many there are. */
    mend(problem, options) {
        return this.#rows('mend', problem, options);
    }

    /** The problems that repeat an earlier one, as it is or turned, and how many they are. */
    same(problems, options = {}) {
        return this.#rows('same', problems, options);
    }

    /** What each first move of one problem does, shared by all workers. */
    async moves(problem, options) {
        const count = this.#workers.most, parts = Array.from({ length: count }, (_, i) => `${i + 1}/${count}`);
        const each = await Promise.all(parts.map((part) => this.#rows('moves', problem, { ...options, part })));
        const rows = each.flat(), [first] = rows;
        if (!first || first.refused !== undefined) return first;
        // (the moves of part I are those whose place leaves the rest I)
        const total = rows.reduce((sum, { moves }) => sum + moves.length, 0);
        const moves = Array.from({ length: total }, (_, i) => rows[i % count].moves[Math.floor(i / count)]);
        return { ...first, winning: rows.reduce((sum, { winning }) => sum + winning, 0), moves };
    }

    /** The lines of the forced win of one problem, in order. They are asked for in portions. */
    async* list(problem, { n, after, signal, ...options }) {
        for (let token = after, isMore = true; isMore;) {
            const words = ['dw', 'list', ...wordsOf({ n, lines: PORTION, after: token, ...options })];
            const [first, ...lines] = (await this.#report(words, problem, signal)).split('\n').filter(Boolean);
            const last = lines.pop();
            if (last === undefined || last.startsWith('refused')) throw new DeskError(last ?? first ?? 'no problem', 1);
            yield* lines;
            isMore = last.startsWith('more after ');
            token = last.slice('more after '.length);
        }
    }

    /** A certificate of the answer for one problem. */
    certify(problem, { signal, ...options }) {
        return this.#report(['dw-desk', 'certify', ...wordsOf(options)], problem, signal);
    }

    /** A page with a diagram of each problem, to be printed. */
    page(problems, { signal, ...options }) {
        return this.#report(['dw-desk', 'page', ...wordsOf(options)], problems, signal);
    }
}

/** Why a call was ended: as the signal says, or else an `AbortError`. */
function abortion(signal) {
    const { reason } = signal ?? {};
    if (reason instanceof Error && reason.name === 'AbortError') return reason;
    return new DOMException(reason === undefined ? 'the call was ended' : String(reason), 'AbortError');
}
