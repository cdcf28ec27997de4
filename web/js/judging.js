/** Judging the problems of the list, in the background, over all processors. */
import { rowsOf } from './answers.js';
import { isOpen } from './collection.js';
import { reportOf } from '../../package/engine.js';
import { boardOf } from './rules.js';

/**
 * @typedef {import('./app.js').App} App
 * @typedef {import('./collection.js').Item} Item
 */

/** How many positions a problem may take: first few, then more for those that stay open. */
const EACH = [300_000, 10_000_000];

/**
 * Judges a problem within so many moves and positions.
 * @param {App} app
 * @param {Item} item
 * @param {{most: number, each: number}} bounds
 * @param {AbortSignal} signal
 * @returns {Promise<NonNullable<Item['row']>>}
 */
async function judge(app, { rows, fen }, { most, each }, signal) {
    const words = ['dw-desk', 'find', '--json', ...boardOf(rows), '--most', String(most), '--each', String(each)];
    const [{ problem: _, fen: __, ...row }] = rowsOf(reportOf(await app.searches.ask(words, `${fen}\n`, signal)));
    return row;
}

/**
 * Judges all problems of which more may be told; those that take long come again at the end.
 * @param {App} app
 * @param {Item[]} items
 * @param {{most: number, signal: AbortSignal, told: (item: Item, row: NonNullable<Item['row']>) => void}} how
 */
export async function judgeAll(app, items, { most, signal, told }) {
    for (const each of EACH) {
        const open = items.filter((item) => !item.refused && (each === EACH[0] ? isOpen(item, most)
            : item.row?.verdict === 'undecided'));
        await Promise.all(open.map(async (item) => {
            const row = await judge(app, item, { most, each }, signal);
            if (!signal.aborted) told(item, row);
        }));
    }
}
