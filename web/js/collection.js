/** A list of problems: what is in it, and in which order it is shown. */
import { lineOfName, namingOf } from './naming.js';

/**
 * @typedef {import('./pdn.js').Tag} Tag
 * @typedef {import('./squares.js').Rows} Rows
 * @typedef {import('./answers.js').Verdict} Verdict
 * @typedef {{verdict: Verdict, n?: number, shortest?: number, keys?: string[], at?: string, choices?: string[],
 *   tries?: [string, string][], no_win_in?: number}} Judged What `find` says.
 * @typedef {{id: string, rows: Rows, fen: string, tags: Tag[], movetext: string, refused: string, row: Judged | null}}
 *     Item A problem. If it is refused, `fen` is empty, and `movetext` has its whole section as it stands.
 */

/** The verdicts in their order. */
const ORDER = ['sound', 'dual', 'cooked', 'unsolvable', 'undecided', 'open', 'refused'];

/**
 * What an item counts as: its verdict, `refused`, or `open` if it was not judged.
 * @param {Item} item
 */
export const stateOf = (item) => (item.refused ? 'refused' : item.row?.verdict ?? 'open');

/**
 * The title of an item: what its tags say of its name.
 * @param {Item} item
 */
export const titleOf = ({ tags }) => lineOfName(namingOf(tags));

/**
 * The items that are shown, in order.
 * @param {Item[]} items
 * @param {string} filter What they count as, or an empty text for all.
 * @param {string} sort `number`, `verdict` or `moves`.
 */
export function chosen(items, filter, sort) {
    const found = filter ? items.filter((item) => stateOf(item) === filter) : items;
    if (sort === 'number') return found;
    const rank = (/** @type {Item} */ item) => (sort === 'verdict' ? ORDER.indexOf(stateOf(item)) : item.row?.n ?? 99);
    /** @type {Item[][]} */
    const ranks = [];
    for (const item of found) (ranks[rank(item)] ??= []).push(item);
    return ranks.flatMap((row) => row ?? []);
}

/**
 * The items that were judged, and not left undecided.
 * @param {Item[]} items
 */
export const decided = (items) => items.filter(({ row }) => row && row.verdict !== 'undecided');

/**
 * Whether a search for a win in up to so many moves may tell more of an item than is known.
 * @param {Item} item
 * @param {number} most
 */
export function isOpen(item, most) {
    const state = stateOf(item);
    return state === 'open' || state === 'undecided' || (state === 'unsolvable' && (item.row?.n ?? 0) < most);
}

/**
 * The boards of the items, each with its items.
 * @param {Item[]} items
 */
export function byBoard(items) {
    const boards = /** @type {Rows[]} */ ([10, 8]);
    return boards.map((rows) => ({ rows, items: items.filter((item) => item.rows === rows) }))
        .filter((board) => board.items.length > 0);
}
