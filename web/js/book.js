/** Questions and their answers. Each answer is kept with its question, and nowhere else. */
import { Failed } from '../../package/engine.js';
import { fenOf } from './position.js';
import { Stopped } from '../../package/workers.js';

/**
 * @typedef {import('./position.js').Position} Position
 * @typedef {import('./languages.js').Key} Key
 * @typedef {import('./answers.js').Found} Found
 * @typedef {import('./answers.js').First} First
 * @typedef {import('./answers.js').Checked} Checked
 * @typedef {import('./answers.js').Legal} Legal
 * @typedef {import('./answers.js').Neighbour} Neighbour
 * @typedef {import('./tree.js').Node} Node
 * @typedef {{most: number, isExact: boolean, later: number}} SolveQuestion
 * @typedef {{noWinIn: number, expanded: number}} SolveProgress
 * @typedef {{n: number}} MovesQuestion
 * @typedef {{text: string, isOwn: boolean, count: number, most: number}} CompareQuestion `isOwn` says that the game is
 *     that of a file; `count` is the number of games in the text; `most` is the greatest number of moves, 0 for that of
 *     the solution.
 * @typedef {{neighbours: Neighbour[], tried: number, parts: number}} MendProgress
 * @typedef {{first: string, played: Legal[], undone: Legal[]}} Line Moves that are played, and those taken back.
 * @typedef {{key: Key, values: (string | number)[]}} Note
 */

/** How many positions are remembered with their answers. */
const REMEMBERED = 60;

/**
 * Work on a question, and what came of it. Nothing comes of it after it has ended.
 * @template Question, Progress, Result
 */
export class Task {
    /**
     * @param {Question} question
     * @param {Progress} progress How far it is.
     */
    constructor(question, progress) {
        this.question = question;
        this.progress = progress;
        /** @type {'running' | 'done' | 'stopped' | 'failed'} */
        this.phase = 'running';
        /** @type {Result | null} */
        this.result = null;
        /** @type {Failed | null} Why it failed. */
        this.why = null;
        this.controller = new AbortController();
        this.begun = performance.now();
        this.took = 0;
    }

    get isRunning() {
        return this.phase === 'running';
    }

    /** What the page says of it in `data-state`. */
    get state() {
        return { running: 'searching', done: 'done', stopped: 'stopped', failed: 'stopped' }[this.phase];
    }

    /** Seconds since it began, or those that it took. */
    get seconds() {
        return ((this.isRunning ? performance.now() - this.begun : this.took) / 1000).toFixed(1);
    }

    /** Ends it at once. */
    stop() {
        if (!this.isRunning) return;
        this.end('stopped');
        this.controller.abort();
    }

    /** @param {'done' | 'stopped' | 'failed'} phase */
    end(phase) {
        this.phase = phase;
        this.took = performance.now() - this.begun;
    }

    /**
     * Does the work, unless it is stopped meanwhile.
     * @param {(signal: AbortSignal) => Promise<Result>} act
     */
    async work(act) {
        try {
            const result = await act(this.controller.signal);
            if (!this.isRunning) return;
            this.result = result;
            this.end('done');
        } catch (error) {
            if (!this.isRunning) return;
            this.end(error instanceof Stopped ? 'stopped' : 'failed');
            this.controller.abort();
            if (error instanceof Stopped) return;
            this.why = error instanceof Failed ? error : new Failed(String(error));
            if (!(error instanceof Failed)) throw error;
        }
    }
}

/** What is known of one position. */
export class Entry {
    /** @param {Position} position */
    constructor(position) {
        this.position = position;
        this.fen = fenOf(position);
        /** @type {Task<SolveQuestion, SolveProgress, {found: Found, tree: Node | null, isMore: boolean}> | null} */
        this.solve = null;
        /** @type {Task<MovesQuestion, null, First[]> | null} */
        this.firsts = null;
        /** @type {Task<MovesQuestion, null, string> | null} */
        this.certificate = null;
        /** @type {Task<CompareQuestion, null, Checked> | null} */
        this.compare = null;
        /** @type {Task<MovesQuestion, MendProgress, null> | null} */
        this.mend = null;
        /** @type {Note | null} What was done last with the answer. */
        this.note = null;
        /** @type {Line | null} The moves that were played from the position. */
        this.line = null;
        /** The problem and its solution as a game of PDN, once it was asked for, with the game without moves. */
        this.game = { asked: '', text: '' };
        /** The number of moves that was typed for improvements, if one was. */
        this.mendMoves = '';
    }

    /** Its questions. */
    get tasks() {
        return [this.solve, this.firsts, this.certificate, this.compare, this.mend].filter((task) => task !== null);
    }

    /** The number of moves that its verdict speaks of, or 0. */
    get moves() {
        return this.solve?.result?.found.n ?? 0;
    }
}

/** All that is known, by position. */
export class Book {
    constructor() {
        /** @type {Map<string, Entry>} */
        this.entries = new Map();
    }

    /**
     * What is known of a position, if anything.
     * @param {Position} position
     */
    find(position) {
        return this.entries.get(nameOf(position)) ?? null;
    }

    /**
     * What is known of a position, to which more may be added.
     * @param {Position} position
     */
    of(position) {
        const name = nameOf(position), entry = this.find(position) ?? new Entry(position);
        this.entries.delete(name);
        this.entries.set(name, entry);
        for (const [oldest] of this.entries) {
            if (this.entries.size <= REMEMBERED) break;
            this.entries.delete(oldest);
        }
        return entry;
    }

    /**
     * Stops what is searched of all positions but these.
     * @param {Position[]} kept
     */
    stopOthers(kept) {
        const names = kept.map(nameOf);
        for (const [name, { tasks }] of this.entries) {
            if (!names.includes(name)) tasks.forEach((task) => task?.stop());
        }
    }
}

/**
 * The name under which a position is known.
 * @param {Position} position
 */
export const nameOf = (position) => `${position.rows} ${fenOf(position)}`;
