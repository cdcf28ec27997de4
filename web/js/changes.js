/** The changes that `mend` makes: found by comparing positions, in their order, with their texts. */

/**
 * @typedef {import('./position.js').Position} Position
 * @typedef {import('./position.js').Piece} Piece
 * @typedef {import('./languages.js').Key} Key
 * @typedef {(key: Key, ...values: (string | number)[]) => string} Say
 * @typedef {{kind: number, square: number, to: number, piece: Piece}} Change The kind is its place in `KINDS`. `to` is
 *     the new square of a piece, or 0; `piece` is the piece that is taken away, put, set or made.
 */

/** The kinds of changes in the order in which they are made. */
const KINDS = { without: 0, with: 1, to: 2, as: 3 };

/** The order of the pieces that are put on one square, and how each is written. */
const PUT_ORDER = /** @type {Piece[]} */ (['w', 'W', 'b', 'B']), LETTERS = { w: 'W', W: 'WK', b: 'B', B: 'BK' };

/**
 * The change that makes one position of another.
 * @param {Position} before
 * @param {Position} after
 * @returns {Change}
 */
export function changeOf(before, after) {
    const gone = [...before.pieces].filter(([square]) => !after.pieces.has(square));
    const come = [...after.pieces].filter(([square]) => !before.pieces.has(square));
    const [[left, taken] = [0, null]] = gone, [[reached, put] = [0, null]] = come;
    if (taken && put) return { kind: KINDS.to, square: left, to: reached, piece: put };
    if (taken) return { kind: KINDS.without, square: left, to: 0, piece: taken };
    if (put) return { kind: KINDS.with, square: reached, to: 0, piece: put };
    const made = [...after.pieces].find(([square, piece]) => before.pieces.get(square) !== piece);
    const [square, piece] = made ?? [0, /** @type {Piece} */ ('w')];
    return { kind: KINDS.as, square, to: 0, piece };
}

/**
 * Compares two changes: below 0 if the first comes before the second.
 * @param {Change} a
 * @param {Change} b
 */
export const inOrder = (a, b) => a.kind - b.kind || a.square - b.square || a.to - b.to
    || PUT_ORDER.indexOf(a.piece) - PUT_ORDER.indexOf(b.piece);

/**
 * A change in the language of the page.
 * @param {Change} change
 * @param {Say} say
 */
export function changeText({ kind, square, to, piece }, say) {
    if (kind === KINDS.without) return say('changeWithout', square);
    if (kind === KINDS.with) return say('changeWith', `${LETTERS[piece]}${square}`);
    if (kind === KINDS.to) return say('changeTo', square, to);
    return say(piece === 'W' || piece === 'B' ? 'changeKing' : 'changeMan', square);
}
