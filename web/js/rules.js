/** What the page asks `dw` of positions: legal moves, faults. No rule of the game is known here. */
import { rowsOf } from './answers.js';
import { textOf } from '../../package/engine.js';
import { tagLine } from './pdn.js';

/**
 * @typedef {import('./answers.js').Legal} Legal
 * @typedef {import('./answers.js').Row} Row
 * @typedef {import('./squares.js').Rows} Rows
 * @typedef {(words: string[], input: string | Uint8Array) => Promise<import('../../package/engine.js').Answer>} Ask
 */

/** How many positions are remembered with their moves. */
const MOST_KNOWN = 10_000;

/**
 * The option for the board.
 * @param {Rows} rows
 */
export const boardOf = (rows) => ['--board', String(rows)];

/** Asks the rules, and remembers the answers. */
export class Rules {
    /** @param {Ask} ask */
    constructor(ask) {
        this.ask = ask;
        /** @type {Map<string, Legal[]>} */
        this.known = new Map();
    }

    /**
     * The rows that a command of `dw` writes of each problem.
     * @param {'show' | 'moves'} command
     * @param {string[]} options
     * @param {string} input
     */
    async rows(command, options, input) {
        const { report } = await this.ask(['dw', command, '--json', ...options], input);
        return rowsOf(textOf(report));
    }

    /**
     * What `dw` reads a FEN text as: its own text of the position, or why it refuses it.
     * @param {string} text
     * @param {Rows} rows
     */
    async read(text, rows) {
        const [row] = await this.rows('show', ['--pdn', ...boardOf(rows)], `${tagLine(['FEN', text])}\n`);
        const { fen = '', refused = '' } = /** @type {Row} */ (row);
        return { fen, refused };
    }

    /**
     * The problems of a PDN text.
     * @param {string} text
     * @param {Rows} rows
     * @returns {Promise<Row[]>}
     */
    problems(text, rows) {
        return this.rows('show', ['--pdn', ...boardOf(rows)], text);
    }

    /**
     * The legal moves of a position, each with the position after it.
     * @param {string} fen
     * @param {Rows} rows
     */
    async legal(fen, rows) {
        const name = `${rows} ${fen}`, known = this.known.get(name);
        if (known) return known;
        const [{ moves = [] }] = await this.rows('moves', boardOf(rows), `${fen}\n`);
        const legal = moves.map((/** @type {[string, string]} */ [move, after]) => ({ move, fen: after }));
        if (this.known.size > MOST_KNOWN) this.known.clear();
        this.known.set(name, legal);
        return /** @type {Legal[]} */ (legal);
    }

    /**
     * The positions after moves that are played one after another, as far as they are legal.
     * @param {string} fen
     * @param {string[]} moves
     * @param {Rows} rows
     */
    async follow(fen, moves, rows) {
        /** @type {Legal[]} */
        const played = [];
        for (const move of moves) {
            const legal = await this.legal(played[played.length - 1]?.fen ?? fen, rows);
            const next = legal.find((other) => other.move === move);
            if (!next) break;
            played.push(next);
        }
        return played;
    }
}
