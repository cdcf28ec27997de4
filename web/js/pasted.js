/** The position in a text that is pasted: a FEN text, a PDN game, a link of this page, an address of another site. */
import { addressIn } from './keep.js';
import { namedTags, NO_NAME, NAME_PARTS } from './naming.js';
import { hasMoves, sectionsOf } from './pdn.js';

/** What other programs write behind the pieces: the halfmoves since a capture, and the number of the move. */
const COUNTERS = /(:H\d+)?(:F\d+)?$/;

const ADDRESS = /^[a-z]+:\/\//i;

/** A FEN text, where an address has one: with its slashes and signs as they are, or encoded. */
const IN_ADDRESS = /[/=]([WB]:[WB][^/&?#]*)/i;

/**
 * The FEN text in an address.
 * @param {string} address
 */
function fenInAddress(address) {
    const mark = address.indexOf('#'), own = mark < 0 ? undefined : addressIn(address.slice(mark)).fen;
    if (own !== undefined) return own;
    try {
        return IN_ADDRESS.exec(decodeURIComponent(address))?.[1].replaceAll('_', ' ');
    } catch {
        return undefined;
    }
}

/**
 * The name that an address of this page gives, as tags.
 * @param {string} address
 */
function tagsInAddress(address) {
    const said = addressIn(address.slice(address.indexOf('#'))), naming = { ...NO_NAME };
    for (const [part] of NAME_PARTS) naming[part] = said[part] ?? '';
    return namedTags([], naming);
}

/**
 * The FEN text that a text stands for, and the moves and the tags beside it, if there are any.
 * @param {string} text
 * @returns {{fen: string, movetext: string, tags: import('./pdn.js').Tag[]}}
 */
export function pasted(text) {
    const said = text.trim();
    if (ADDRESS.test(said)) {
        const fen = (fenInAddress(said) ?? said).replace(COUNTERS, '');
        return { fen, movetext: '', tags: tagsInAddress(said) };
    }
    for (const { tags, movetext } of said.startsWith('[') ? sectionsOf(said) : []) {
        const fen = tags.find(([name]) => name.toUpperCase() === 'FEN')?.[1];
        if (fen !== undefined) {
            return { fen: fen.trim().replace(COUNTERS, ''), movetext: hasMoves(movetext) ? movetext : '', tags };
        }
    }
    return { fen: /^[WB]:/i.test(said) ? said.replace(COUNTERS, '') : text, movetext: '', tags: [] };
}
