/** Searches that show how far they are. */
import { foundOf, rowsOf } from './answers.js';
import { Failed, reportOf } from '../../package/engine.js';
import { boardOf } from './rules.js';
import { treeOf } from './tree.js';

/**
 * @typedef {import('./squares.js').Rows} Rows
 * @typedef {import('./answers.js').FoundRow} FoundRow
 * @typedef {(words: string[], input: string | Uint8Array, signal?: AbortSignal) =>
 *     Promise<import('../../package/engine.js').Answer>} Ask
 * @typedef {{noWinIn: number, expanded: number}} Progress
 * @typedef {{fen: string, rows: Rows, most: number, isExact: boolean, later: number}} Question `later` is how many
 *     moves more a later win may take, or 0 if none is asked for.
 */

/** How many positions the first slice expands, and how much larger each next one is. */
const FIRST = 200_000, LARGER = 4, MOST = 1_000_000_000_000;

/**
 * Judges a position at its least number of moves, or within just so many, and writes its solution. The search goes on
 * in slices of growing size, each of which begins anew.
 * @param {Ask} ask
 * @param {Question} question
 * @param {(progress: Progress) => void} show
 * @param {AbortSignal} signal
 * @param {Progress} before What is known already, if the search goes on after a stop: smaller slices are left out.
 */
export async function find(ask, question, show, signal, before = { noWinIn: 0, expanded: 0 }) {
    const { fen, rows, most, isExact, later } = question;
    const number = [isExact ? '-n' : '--most', String(most)];
    const further = later ? ['--later', String(later)] : [];
    const words = ['dw-desk', 'find', '--json', '--solution', ...boardOf(rows), ...number, ...further];
    for (let each = before.expanded * LARGER || FIRST; ; each *= LARGER) {
        const bound = Math.min(each, MOST), more = bound < MOST ? ['--each', String(bound)] : [];
        const [row] = /** @type {FoundRow[]} */ (rowsOf(reportOf(await ask([...words, ...more], `${fen}\n`, signal))));
        if (row.refused) throw new Failed(row.refused);
        const found = foundOf(row);
        if (found.verdict !== 'undecided') {
            const tree = row.moves?.length ? treeOf(fen, row.moves) : null;
            return { found, tree, isMore: row.more ?? false };
        }
        show({ noWinIn: Math.max(before.noWinIn, found.n), expanded: bound });
    }
}
