/** What the programs write, read into values: rows of JSON. */
import { textOf } from '../../package/engine.js';

/**
 * @typedef {'sound' | 'dual' | 'cooked' | 'unsolvable' | 'undecided'} Verdict
 * @typedef {{problem: number, fen?: string, refused?: string}} Row What every row says: the position, or why it is
 *     refused.
 * @typedef {Row & {verdict: Verdict, n?: number, no_win_in?: number, shortest?: number, keys?: string[], at?: string,
 *   choices?: string[], tries?: [string, string][], more?: boolean, moves?: import('./tree.js').Step[],
 *   later?: [string, number][]}} FoundRow What `find` says.
 * @typedef {{
 *   line: string,
 *   verdict: Verdict,
 *   n: number,
 *   shortest: number,
 *   keys: string[],
 *   at: string[],
 *   choices: string[],
 *   tries: [string, string][],
 *   later: [string, number][] | null,
 * }} Found `line` is what `dw judge` writes; `later` are the first moves that win later, if they were asked for; `n` is
 *     the number of moves, of an undecided problem the greatest for which there is no win.
 * @typedef {{move: string, fen: string, wins_in?: number, refuted_by?: string[]}} First
 * @typedef {{kind: 'fails' | 'also' | 'open' | 'ends', line: string, moves: string[], refutation?: string,
 *   wins_in?: number}} Remark
 * @typedef {{fen?: string, refused?: string, solution_refused?: string, n: number, win: boolean, holds: boolean,
 *   fail: number, end: number, open: number, also: number, remarks?: Remark[]}} Checked What `check` says.
 * @typedef {{move: string, fen: string}} Legal
 * @typedef {{change: string, fen: string, n: number, key: string}} Neighbour
 */

/** How many bytes of a long text are decoded at a stroke. */
const CHUNK = 65_536;

/**
 * The lines of a long text, one after another, so that it is never there as one string.
 * @param {Uint8Array} bytes
 */
export function* eachLine(bytes) {
    for (let at = 0; at < bytes.length;) {
        const end = bytes.indexOf(10, Math.min(at + CHUNK, bytes.length - 1)), next = end < 0 ? bytes.length : end + 1;
        yield* textOf(bytes.subarray(at, next)).replace(/\n$/, '').split('\n');
        at = next;
    }
}

/**
 * Values of JSON, one a line.
 * @param {string} text
 */
export const rowsOf = (text) => text.split('\n').filter(Boolean).map((line) => JSON.parse(line));

/**
 * The moves of a line of play, without the numbers of its turns.
 * @param {string} line
 */
export const movesOf = (line) => line.split(' ').filter((word) => word !== '' && !/^\d+\.+$/.test(word));

/**
 * The fault of a text that a program refuses: its number, name and place.
 * @param {string} refused
 */
export function faultOf(refused) {
    const said = /^(?:1 fen: )?(\d+) (.*) at (\d+)$/.exec(refused);
    return said && { number: Number(said[1]), name: said[2], place: Number(said[3]) };
}

/**
 * The line of a verdict, as `dw judge` writes it.
 * @param {FoundRow} row
 */
export function lineOf({ verdict, n = 0, no_win_in: noWinIn = 0, shortest = 0, keys = [], at = '', choices = [] }) {
    if (verdict === 'undecided') return `undecided, no win in ${noWinIn}`;
    if (verdict === 'unsolvable') return `unsolvable in ${n}`;
    if (verdict === 'cooked') return `cooked in ${n}, shortest ${shortest}: ${keys.join(', ')}`;
    if (verdict === 'sound') return `sound in ${n}: ${keys[0]}`;
    const turn = movesOf(at).length / 2 + 1;
    return `dual in ${n}: ${at} ${turn}. ${choices.join(' / ')}`;
}

/**
 * What `find` says of a problem.
 * @param {FoundRow} row
 * @returns {Found}
 */
export const foundOf = (row) => ({
    line: lineOf(row),
    verdict: row.verdict,
    n: row.n ?? row.no_win_in ?? 0,
    shortest: row.shortest ?? row.n ?? 0,
    keys: row.keys ?? [],
    at: movesOf(row.at ?? ''),
    choices: row.choices ?? [],
    tries: row.tries ?? [],
    later: row.later ?? null,
});

/**
 * What `check` says of a solution, as it writes it in words.
 * @param {Checked} checked
 */
export function summaryOf({ refused, solution_refused: unread, n, holds, fail, end, open, also }) {
    if (refused) return `refused: ${refused}`;
    if (unread) return `solution refused: ${unread}`;
    return `${holds ? 'holds' : 'fails'} in ${n}: ${fail} fail, ${end} end, ${open} open, ${also} also`;
}

/**
 * The sound neighbours that `mend` writes, and how many there are of all.
 * @param {string} text
 */
export function mendedIn(text) {
    const rows = rowsOf(text), last = rows.pop() ?? {};
    const neighbours = /** @type {Neighbour[]} */ (rows);
    return { neighbours, all: Number(last.of ?? 0), refused: String(last.refused ?? '') };
}
