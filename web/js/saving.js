/** The list as a file: games of PDN, a page to print, rows of JSON. */
import { byBoard, decided } from './collection.js';
import { reportOf } from '../../package/engine.js';
import { closed, commentsOf, gameOf, hasMoves, valueOf } from './pdn.js';
import { boardOf } from './rules.js';

/**
 * @typedef {import('./app.js').App} App
 * @typedef {import('./collection.js').Item} Item
 * @typedef {import('./pdn.js').Tag} Tag
 * @typedef {import('./squares.js').Rows} Rows
 * @typedef {{name: string, content: string, type: string}} SavedFile
 */

/** The tag of a game on 8 rows in one's own file. */
const EIGHT = ['GameType', '26'];

/**
 * The tags of a game that is written: those of the item, and those that say its board and its position.
 * @param {Item} item
 */
function tagsOf({ rows, fen, tags }) {
    const isNamed = rows === 8 || valueOf(tags, 'GameType') !== '';
    return /** @type {Tag[]} */ ([...tags, ...(isNamed ? [] : [['GameType', '20']]), ['FEN', fen]]);
}

/**
 * The game of an item as it stands in its file, or without moves.
 * @param {Item} item
 */
export const ownGame = (item) => (item.refused ? `${closed(item.movetext)}\n\n` : gameOf(tagsOf(item), item.movetext));

/**
 * The whole list as one file, each problem as it stands. The tag of a game says that its board has 8 rows.
 * @param {Item[]} items
 */
export const ownFile = (items) => items.map((item) => {
    const isMarked = item.rows === 8 && !item.refused && valueOf(item.tags, 'GameType') === '';
    const tags = isMarked ? [...item.tags, /** @type {Tag} */ (EIGHT)] : item.tags;
    return ownGame({ ...item, tags });
}).join('');

/**
 * The game of an item with its solution. The comments of its file stay, in front.
 * @param {App} app
 * @param {Item} item
 * @param {AbortSignal} signal
 */
async function solvedGame(app, item, signal) {
    const words = ['dw-desk', 'solution', ...boardOf(item.rows), '-n', String(item.row?.n)];
    const text = reportOf(await app.searches.ask(words, `${item.fen}\n`, signal));
    const solution = text.slice(text.indexOf('\n\n') + 2).trim();
    return gameOf(tagsOf(item), [commentsOf(item.movetext), solution].filter(Boolean).join('\n'));
}

/**
 * All problems as games, a file for each board. A game of a file keeps what is not replaced: with `keepsMoves` the
 * moves of its author too. A problem without a verdict has no solution.
 * @param {App} app
 * @param {Item[]} items
 * @param {{keepsMoves: boolean, signal: AbortSignal}} how
 * @returns {Promise<SavedFile[]>}
 */
export function gameFiles(app, items, { keepsMoves, signal }) {
    return Promise.all(byBoard(items).map(async ({ rows, items: own }, i) => {
        const games = await Promise.all(own.map((item) => {
            const isKept = keepsMoves && hasMoves(item.movetext);
            return item.refused || isKept || !item.row?.n ? ownGame(item) : solvedGame(app, item, signal);
        }));
        return { name: fileName('pdn', i, rows), content: games.join(''), type: 'text/plain' };
    }));
}

/**
 * A page to be printed, as the program writes it, for each board that there are decided problems of.
 * @param {App} app
 * @param {Item[]} items
 * @param {AbortSignal} signal
 * @returns {Promise<SavedFile[]>}
 */
export function pageFiles(app, items, signal) {
    return Promise.all(byBoard(decided(items)).map(async ({ rows, items: own }, i) => {
        const most = Math.max(...own.map((item) => item.row?.n ?? 1));
        const words = ['dw-desk', 'page', '--pdn', ...boardOf(rows), '--most', String(most), '--lang', app.language,
            '--title', app.heading() || app.say('title'), '--numbers'];
        const games = own.map((item) => gameOf(tagsOf(item), '*')).join('');
        const content = reportOf(await app.searches.ask(words, games, signal));
        return { name: fileName('html', i, rows), content, type: 'text/html' };
    }));
}

/**
 * What is known of each problem, one line of JSON each.
 * @param {Item[]} items
 * @returns {SavedFile[]}
 */
export function rowFiles(items) {
    const lines = items.map(({ fen, refused, row, tags }, i) => {
        const known = refused ? { problem: i + 1, refused } : { problem: i + 1, fen, ...row };
        const title = valueOf(tags, 'Event'), author = valueOf(tags, 'White');
        return JSON.stringify({ ...known, ...(title ? { title } : {}), ...(author ? { author } : {}) });
    });
    return [{ name: 'problems.json', content: lines.map((line) => `${line}\n`).join(''), type: 'application/json' }];
}

/**
 * @param {string} kind
 * @param {number} place
 * @param {Rows} rows
 */
const fileName = (kind, place, rows) => `problems${place ? `-${rows}` : ''}.${kind}`;

