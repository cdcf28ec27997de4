/** Files of problems: read by the program, with what the page keeps of their texts. */
import { eachLine } from './answers.js';
import { piecewise } from './dom.js';
import { bytesOf, textOf } from '../../package/engine.js';
import { sectionsOf, tagLine } from './pdn.js';
import { boardOf } from './rules.js';

/**
 * @typedef {import('./app.js').App} App
 * @typedef {import('./collection.js').Item} Item
 * @typedef {import('./pdn.js').Section} Section
 * @typedef {import('./squares.js').Rows} Rows
 */

/** How many bytes of a file tell its form. */
const FRONT = 4096;

/**
 * Whether a file is one of PDN.
 * @param {string} name
 * @param {Uint8Array} bytes
 */
export const isPdn = (name, bytes) =>
    /\.pdn$/i.test(name) || textOf(bytes.slice(0, FRONT)).trimStart().startsWith('[');

/**
 * The lines of a text that have more than blanks, each as a section.
 * @param {string} text
 * @returns {Generator<Section>}
 */
function* linesOf(text) {
    for (const line of text.split('\n')) {
        if (!/[^ \t\r]/.test(line)) continue;
        /** @type {import('./pdn.js').Tag} */
        const tag = ['FEN', line.replace(/\r$/, '')];
        yield { tags: [tag], movetext: '', whole: tagLine(tag) };
    }
}

/** The tag of a game on a board of 8 rows, as one's own file has it. */
const EIGHT_TAG = /\[GameType "26[^"\]]*"\]/gi;

/**
 * What `dw` says of each problem of a file.
 * @param {App} app
 * @param {string | Uint8Array} input
 * @param {{isGames: boolean, rows: Rows}} how
 */
async function shown(app, input, { isGames, rows }) {
    const form = isGames ? ['--pdn'] : [];
    const answer = await app.searches.ask(['dw', 'show', '--json', ...form, ...boardOf(rows)], input);
    /** @type {{fen?: string, refused?: string, rows: Rows}[]} */
    const found = [];
    await piecewise(eachLine(bytesOf(answer)), (line) => { if (line) found.push({ ...JSON.parse(line), rows }); });
    return found;
}

/**
 * The same, where games whose tag says so are those of a board of 8 rows. The program reads such a game without its
 * tag.
 * @param {App} app
 * @param {string} text
 * @param {Section[]} sections
 */
async function shownOnBoth(app, text, sections) {
    const plain = text.replace(EIGHT_TAG, (tag) => ' '.repeat(tag.length));
    const ten = await shown(app, text, { isGames: true, rows: 10 });
    const eight = await shown(app, plain, { isGames: true, rows: 8 });
    return ten.map((one, i) => (sections[i]?.whole.search(EIGHT_TAG) >= 0 ? eight[i] ?? one : one));
}

/**
 * The problems of a file, each with its tags and its movetext. The program reads them; what it refuses has its place.
 * @param {App} app
 * @param {{bytes: Uint8Array, isGames: boolean}} file
 * @param {() => string} name Names each problem.
 * @returns {Promise<Item[]>}
 */
export async function problemsIn(app, { bytes, isGames }, name) {
    const content = textOf(bytes), { rows } = app.position;
    /** @type {Section[]} */
    const sections = [];
    await piecewise(isGames ? sectionsOf(content) : linesOf(content), (section) => { sections.push(section); });
    const isMixed = isGames && content.search(EIGHT_TAG) >= 0;
    const found = await (isMixed ? shownOnBoth(app, content, sections) : shown(app, bytes, { isGames, rows }));
    // (if the two should ever differ, no text goes with the wrong problem)
    const isSame = sections.length === found.length;
    /** @type {Item[]} */
    const items = [];
    await piecewise(found, ({ fen = '', refused = '', rows: own }) => {
        const { tags, movetext, whole } = isSame ? sections[items.length] : { tags: [], movetext: '', whole: '' };
        const isEight = own === 8 && isMixed;
        const kept = tags.filter(([tag]) => !['FEN', isEight ? 'GAMETYPE' : 'FEN'].includes(tag.toUpperCase()));
        const text = refused ? whole : movetext;
        items.push({ id: name(), rows: own, fen, tags: kept, movetext: text, refused, row: null });
    });
    return items;
}
