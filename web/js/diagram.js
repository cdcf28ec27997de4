/** Small diagrams, of few elements each, so that many of them are drawn at once. */
import { draw } from './dom.js';
import { placeOf, squareCount } from './squares.js';

/**
 * @typedef {import('./position.js').Position} Position
 * @typedef {import('./position.js').Piece} Piece
 * @typedef {import('./squares.js').Rows} Rows
 */

/** The outlines of a square, of a piece and of a king's crown, each from its upper left. */
const SQUARE = 'h1v1h-1z', DISC = 'm.1.5a.4.4 0 1 0 .8 0a.4.4 0 1 0-.8 0z';

/** The outline of a king's crown. */
const CROWN = 'm.28.64v-.26l.11.1.11-.17.11.17.11-.1v.26z';

/**
 * The same outline on several squares.
 * @param {Rows} rows
 * @param {number[]} squares
 * @param {string} outline
 */
const pathOf = (rows, squares, outline) => squares.map((square) => {
    const { row, column } = placeOf(rows, square);
    return `M${column} ${row}${outline}`;
}).join('');

/**
 * The outlines of a diagram, each with its class.
 * @param {Position} position
 */
export function pathsOf({ rows, pieces }) {
    const on = (/** @type {string} */ kinds) => [...pieces].filter(([, piece]) => kinds.includes(piece))
        .map(([square]) => square);
    const all = Array.from({ length: squareCount(rows) }, (_, i) => i + 1);
    const paths = [
        ['dark-squares', pathOf(rows, all, SQUARE)],
        ['edge white', pathOf(rows, on('wW'), DISC)], ['edge black', pathOf(rows, on('bB'), DISC)],
        ['crown white', pathOf(rows, on('W'), CROWN)], ['crown black', pathOf(rows, on('B'), CROWN)],
    ];
    return paths.filter(([, d]) => d);
}

/**
 * A diagram of a position, with its FEN text for those who cannot see it.
 * @param {Position} position
 * @param {string} fen
 */
export function diagramOf(position, fen) {
    const size = String(position.rows), marks = pathsOf(position).map(([name, d]) => draw('path', { class: name, d }));
    return draw('svg', { viewBox: `0 0 ${size} ${size}`, class: 'diagram', role: 'img', 'aria-label': fen }, ...marks);
}
