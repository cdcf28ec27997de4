/** What is kept: the position and its name in the address, the settings in the browser. */
import { movesIn } from './number.js';

/**
 * @typedef {import('./squares.js').Rows} Rows
 * @typedef {{fen: string, n: number, rows: Rows, title?: string, author?: string, source?: string, date?: string}}
 *     Address
 */

/** The parts of a name that an address may have. */
const NAMED = /** @type {const} */ (['title', 'author', 'source', 'date']);

/**
 * What an address says after its `#`.
 * @param {string} hash
 * @returns {Partial<Address>}
 */
export function addressIn(hash) {
    /** @type {Partial<Address>} */
    const said = {};
    for (const part of hash.replace(/^#/, '').split('&')) {
        const at = part.indexOf('='), value = decoded(part.slice(at + 1));
        if (part.startsWith('fen=')) said.fen = value;
        if (part.startsWith('n=')) said.n = movesIn(value) || undefined;
        if (part.startsWith('rows=')) said.rows = value === '8' ? 8 : 10;
        for (const name of NAMED) if (part.startsWith(`${name}=`)) said[name] = value;
    }
    return said;
}

/** @param {string} text */
function decoded(text) {
    try {
        return decodeURIComponent(text.replaceAll('+', ' '));
    } catch {
        return text;
    }
}

/**
 * The part of an address after its `#`.
 * @param {Address} address
 */
export function addressOf(address) {
    const { fen, n, rows } = address;
    const named = NAMED.filter((name) => address[name]).map((name) =>
        `&${name}=${encodeURIComponent(address[name] ?? '').replaceAll('%20', '+')}`);
    return `#fen=${fen}&n=${n}${rows === 8 ? '&rows=8' : ''}${named.join('')}`;
}

/** What a browser lets the page keep. */
export class Store {
    /** @param {() => Storage} storage */
    constructor(storage) {
        this.storage = storage;
        this.isKept = true;
    }

    /**
     * What was kept under a name.
     * @param {string} name
     */
    get(name) {
        try {
            const text = this.storage().getItem(`dw-board ${name}`);
            return text === null ? null : JSON.parse(text);
        } catch {
            this.isKept = false;
            return null;
        }
    }

    /**
     * Keeps a value under a name, if the browser allows it.
     * @param {string} name
     * @param {unknown} value
     */
    put(name, value) {
        try {
            this.storage().setItem(`dw-board ${name}`, JSON.stringify(value));
            this.isKept = true;
        } catch {
            this.isKept = false;
        }
        return this.isKept;
    }

    /**
     * Keeps more under a name, beside what is there.
     * @param {string} name
     * @param {object} more
     */
    change(name, more) {
        return this.put(name, { ...this.get(name), ...more });
    }
}
