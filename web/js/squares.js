/** The dark squares of a board of 10 or 8 rows: their numbers and their places. */

/** @typedef {10 | 8} Rows */

/**
 * How many dark squares a board has.
 * @param {Rows} rows
 */
export const squareCount = (rows) => (rows * rows) / 2;

/**
 * The row and the column of a square, counted from 0 at White's upper left.
 * @param {Rows} rows
 * @param {number} square
 */
export function placeOf(rows, square) {
    const half = rows / 2, row = Math.floor((square - 1) / half);
    return { row, column: ((square - 1) % half) * 2 + (row % 2 === 0 ? 1 : 0) };
}

/**
 * The dark square at a place, or 0 if it is light or there is none.
 * @param {Rows} rows
 * @param {number} row
 * @param {number} column
 */
export function squareAt(rows, row, column) {
    if (row < 0 || column < 0 || row >= rows || column >= rows || (row + column) % 2 === 0) return 0;
    return row * (rows / 2) + Math.floor(column / 2) + 1;
}

/**
 * The square that an arrow key leads to, or the same at the edge. Up and down keep the column as near as they can.
 * @param {Rows} rows
 * @param {number} square
 * @param {string} key
 * @param {boolean} isTurned Whether Black stands below.
 */
export function squareBeside(rows, square, key, isTurned) {
    const sign = isTurned ? -1 : 1;
    const step = { ArrowLeft: [0, -2], ArrowRight: [0, 2], ArrowUp: [-1, 0], ArrowDown: [1, 0] }[key];
    if (!step) return square;
    const { row, column } = placeOf(rows, square);
    const below = row + step[0] * sign, beside = column + step[1] * sign;
    if (step[0] === 0) return squareAt(rows, row, beside) || square;
    const near = row % 2 === 0 ? beside - 1 : beside + 1;
    return squareAt(rows, below, near) || square;
}
