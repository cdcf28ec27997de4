/** A diagram as a picture of its own, for other programs: a text of SVG, which a browser makes a PNG of. */
import { placeOf, squareCount } from './squares.js';

/**
 * @typedef {import('./position.js').Position} Position
 * @typedef {{isTurned: boolean, hasNumbers: boolean, above: string, below: string[]}} Look `above` is a line of bold
 *     text, each of `below` a paragraph.
 */

/** The side of a square, the frame around the board, the space around text. */
const CELL = 40, RIM = 4, MARGIN = 8;

/** The radius of a piece, which leaves the number of its square free, and those of the rings on it. */
const RADIUS = 15, RINGS = [11, 7];

/** The sizes of texts, the height of a line, and how wide a letter is at most on average, in parts of the size. */
const TITLE_SIZE = 19, TEXT_SIZE = 17, SMALL_SIZE = 8, LINE_HEIGHT = 1.35, LETTER_WIDTH = 0.56, BOLD_WIDTH = 0.66;

/** The outline of a king's crown around the middle of its square. */
const CROWN_LINE = 'm-8 5v-10l4 4 4-7 4 7 4-4v10z';

const PALETTE = {
    light: '#f0dfc3', dark: '#b07d4f', frame: '#6d4a2b', ink: '#000', ground: '#fff',
    white: ['#fdfaf2', '#5d5648', '#2b2620'], black: ['#26221f', '#a59c8f', '#f3ede1'],
};

/**
 * A text as it stands in XML, which has no signs of control and no half of a pair.
 * @param {string} text
 */
const escapedText = (text) => text.replace(/[\p{Cc}\p{Cs}]/gu, ' ')
    .replace(/[&<>"]/g, (sign) => `&#${sign.charCodeAt(0)};`);

/**
 * The lines of a text that fit into a width. A word that is longer has a line of its own.
 * @param {string} text
 * @param {number} letter How wide a letter is.
 * @param {number} width
 */
function wrapped(text, letter, width) {
    const room = Math.floor(width / letter);
    /** @type {string[]} */
    const lines = [];
    // (a number stays with its move)
    for (const word of text.split(/(?<!\d\.{1,3})\s+/).filter(Boolean)) {
        const last = lines.length - 1;
        if (last >= 0 && lines[last].length + 1 + word.length <= room) lines[last] += ` ${word}`;
        else lines.push(word);
    }
    return lines;
}

/**
 * Lines of text from a height on, and the height after them.
 * @param {string[]} lines
 * @param {{size: number, top: number, middle: number, weight: string}} how
 */
function written(lines, { size, top, middle, weight }) {
    const step = size * LINE_HEIGHT;
    const text = lines.map((line, i) => `<text x="${middle}" y="${(top + (i + 0.8) * step).toFixed(1)}" `
        + `font-size="${size}" font-weight="${weight}" text-anchor="middle">${escapedText(line)}</text>`).join('');
    return { text, bottom: top + lines.length * step };
}

/**
 * The board with its pieces.
 * @param {Position} position
 * @param {Look} look
 */
function boardText({ rows, pieces }, { isTurned, hasNumbers }) {
    const last = rows - 1, edge = rows * CELL;
    const corner = (/** @type {number} */ square) => {
        const { row, column } = placeOf(rows, square);
        return isTurned ? [(last - column) * CELL, (last - row) * CELL] : [column * CELL, row * CELL];
    };
    const squares = Array.from({ length: squareCount(rows) }, (_, i) => i + 1);
    const path = squares.map((square) => `M${corner(square).join(' ')}h${CELL}v${CELL}h-${CELL}z`).join('');
    const parts = [
        `<rect x="-${RIM}" y="-${RIM}" width="${edge + 2 * RIM}" height="${edge + 2 * RIM}" `
            + `fill="${PALETTE.frame}"/>`,
        `<rect width="${edge}" height="${edge}" fill="${PALETTE.light}"/>`,
        `<path d="${path}" fill="${PALETTE.dark}" shape-rendering="crispEdges"/>`,
    ];
    for (const [square, piece] of pieces) {
        const [x, y] = corner(square).map((side) => side + CELL / 2), man = piece.toLowerCase();
        const [fill, line, crown] = man === 'w' ? PALETTE.white : PALETTE.black;
        const ring = (/** @type {number} */ radius, /** @type {number} */ width) =>
            `<circle cx="${x}" cy="${y}" r="${radius}" fill="${fill}" stroke="${line}" stroke-width="${width}"/>`;
        const inside = piece === man ? RINGS.map((radius) => ring(radius, 1)).join('')
            : `<path d="M${x} ${y}${CROWN_LINE}" fill="${crown}"/>`;
        parts.push(ring(RADIUS, 1.5) + inside);
    }
    if (hasNumbers) {
        parts.push(...squares.map((square) => {
            const [x, y] = corner(square);
            return `<text x="${x + 1.5}" y="${y + SMALL_SIZE - 1}" font-size="${SMALL_SIZE}">${square}</text>`;
        }));
    }
    return parts.join('');
}

/**
 * A diagram with its texts, as SVG, and its size.
 * @param {Position} position
 * @param {Look} look
 */
export function pictureOf(position, look) {
    const edge = position.rows * CELL + 2 * RIM, width = edge + 2 * MARGIN, middle = width / 2;
    const title = wrapped(look.above, TITLE_SIZE * BOLD_WIDTH, edge);
    const above = written(title, { size: TITLE_SIZE, top: MARGIN, middle, weight: 'bold' });
    const top = above.bottom + (look.above ? MARGIN / 2 : 0) + RIM;
    let bottom = top + position.rows * CELL + RIM;
    const texts = look.below.map((text) => {
        const lines = wrapped(text, TEXT_SIZE * LETTER_WIDTH, edge), under = bottom + MARGIN / 2;
        const part = written(lines, { size: TEXT_SIZE, top: under, middle, weight: 'normal' });
        bottom = part.bottom;
        return part.text;
    });
    const height = Math.ceil(bottom + MARGIN), board = boardText(position, look);
    const svg = `<svg xmlns="http://www.w3.org/2000/svg" width="${width}" height="${height}" `
        + `viewBox="0 0 ${width} ${height}" font-family="Helvetica, Arial, sans-serif" fill="${PALETTE.ink}">`
        + `<rect width="${width}" height="${height}" fill="${PALETTE.ground}"/>${above.text}`
        + `<g transform="translate(${MARGIN + RIM} ${top.toFixed(1)})">${board}</g>${texts.join('')}</svg>\n`;
    return { svg, width, height };
}

/** How many points of a PNG there are for one of the SVG. */
const PNG_SCALE = 3;

/**
 * The address of a picture that the page can show.
 * @param {string} svg
 */
export const addressOfPicture = (svg) => `data:image/svg+xml;charset=utf-8,${encodeURIComponent(svg)}`;

/**
 * A picture as a PNG.
 * @param {{svg: string, width: number, height: number}} picture
 * @returns {Promise<Blob>}
 */
export async function pngOf({ svg, width, height }) {
    const image = new Image(width, height), canvas = document.createElement('canvas');
    image.src = addressOfPicture(svg);
    await image.decode();
    [canvas.width, canvas.height] = [width * PNG_SCALE, height * PNG_SCALE];
    canvas.getContext('2d')?.drawImage(image, 0, 0, canvas.width, canvas.height);
    return new Promise((resolve, reject) => {
        canvas.toBlob((blob) => (blob ? resolve(blob) : reject(new Error('no picture'))), 'image/png');
    });
}
