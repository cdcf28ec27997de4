/** Positions: which piece stands on which square, and who is to move. */
import { squareCount } from './squares.js';

/**
 * @typedef {import('./squares.js').Rows} Rows
 * @typedef {'w' | 'W' | 'b' | 'B'} Piece A man is a small letter, a king a capital.
 * @typedef {'W' | 'B'} Side
 * @typedef {{rows: Rows, turn: Side, pieces: ReadonlyMap<number, Piece>}} Position
 */

/** @type {Readonly<Record<Piece, Piece>>} */
const OTHER = { w: 'b', W: 'B', b: 'w', B: 'W' };

/**
 * A board without pieces.
 * @param {Rows} rows
 * @returns {Position}
 */
export const emptyBoard = (rows) => ({ rows, turn: 'W', pieces: new Map() });

/**
 * The position in which a game begins.
 * @param {Rows} rows
 * @returns {Position}
 */
export function opening(rows) {
    const count = squareCount(rows), men = count / 2 - rows / 2;
    /** @type {Map<number, Piece>} */
    const pieces = new Map();
    for (let square = 1; square <= men; square++) pieces.set(square, 'b');
    for (let square = count - men + 1; square <= count; square++) pieces.set(square, 'w');
    return { rows, turn: 'W', pieces };
}

/**
 * The FEN text of a position: squares ascend, K stands before each king. It is written also if it is no position, as
 * one with a man on his own last row; the program then says so.
 * @param {Position} position
 */
export function fenOf({ turn, pieces }) {
    const squares = [...pieces.keys()].sort((a, b) => a - b);
    const listed = (/** @type {Piece} */ man, /** @type {Piece} */ king) =>
        squares.filter((square) => pieces.get(square) === man || pieces.get(square) === king)
            .map((square) => (pieces.get(square) === king ? `K${square}` : `${square}`)).join(',');
    return `${turn}:W${listed('w', 'W')}:B${listed('b', 'B')}`;
}

/**
 * The position of a FEN text as the program writes it. What other texts say is for the program to tell.
 * @param {string} fen
 * @param {Rows} rows
 * @returns {Position}
 */
export function positionOf(fen, rows) {
    const [turn, ...lists] = fen.trim().split(':');
    /** @type {Map<number, Piece>} */
    const pieces = new Map();
    for (const list of lists) {
        const man = list[0] === 'W' ? 'w' : 'b', king = list[0] === 'W' ? 'W' : 'B';
        for (const item of list.slice(1).split(',').filter(Boolean)) {
            if (item[0] === 'K') pieces.set(Number(item.slice(1)), king);
            else pieces.set(Number(item), man);
        }
    }
    return { rows, turn: turn === 'B' ? 'B' : 'W', pieces };
}

/**
 * A position with another piece on a square, or with none there.
 * @param {Position} position
 * @param {number} square
 * @param {Piece | null} piece
 * @returns {Position}
 */
export function withPiece(position, square, piece) {
    const pieces = new Map(position.pieces);
    if (piece) pieces.set(square, piece);
    else pieces.delete(square);
    return { ...position, pieces };
}

/**
 * A position with a piece of it moved to a square, whatever stood there.
 * @param {Position} position
 * @param {number} from
 * @param {number} to
 */
export function withMoved(position, from, to) {
    const piece = position.pieces.get(from);
    return piece && from !== to ? withPiece(withPiece(position, from, null), to, piece) : position;
}

/**
 * A position with each piece on the opposite square, as seen from the other side.
 * @param {Position} position
 * @returns {Position}
 */
export function mirrored(position) {
    const last = squareCount(position.rows) + 1;
    return { ...position, pieces: new Map([...position.pieces].map(([square, piece]) => [last - square, piece])) };
}

/**
 * The same position with the sides exchanged: opposite squares, the other colours, the other side to move.
 * @param {Position} position
 * @returns {Position}
 */
export function exchanged(position) {
    const turned = mirrored(position);
    return {
        rows: position.rows,
        turn: position.turn === 'W' ? 'B' : 'W',
        pieces: new Map([...turned.pieces].map(([square, piece]) => [square, OTHER[piece]])),
    };
}

/**
 * A position on a board with other rows: without the squares that are not there.
 * @param {Position} position
 * @param {Rows} rows
 * @returns {Position}
 */
export function onBoard(position, rows) {
    const pieces = new Map([...position.pieces].filter(([square]) => square <= squareCount(rows)));
    return { rows, turn: position.turn, pieces };
}

/**
 * Whether two positions are the same.
 * @param {Position} a
 * @param {Position} b
 */
export const isSame = (a, b) => a.rows === b.rows && fenOf(a) === fenOf(b);
