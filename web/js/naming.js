/** Names of problems: title, author, source and date. Each belongs to one position, and is kept in the browser. */
import { nameOf } from './book.js';
import { valueOf } from './pdn.js';

/**
 * @typedef {import('./position.js').Position} Position
 * @typedef {import('./pdn.js').Tag} Tag
 * @typedef {import('./keep.js').Store} Store
 * @typedef {{title: string, author: string, source: string, date: string}} Naming
 */

/** The parts of a name, each with its tag in PDN. */
export const NAME_PARTS = /** @type {const} */ ([
    ['title', 'Event'], ['author', 'White'], ['source', 'Site'], ['date', 'Date'],
]);

/** How many names are kept. */
const MOST_NAMES = 500;

/** @type {Readonly<Naming>} */
export const NO_NAME = { title: '', author: '', source: '', date: '' };

/** A value of a tag, which has question marks where nothing is known: `1999.??.??` is `1999`. */
const known = (/** @type {string} */ value) => value.replace(/(^|[.])\?+(?=[.]|$)/g, '').trim();

/**
 * The name that tags give.
 * @param {Tag[]} tags
 * @returns {Naming}
 */
export function namingOf(tags) {
    const naming = { ...NO_NAME };
    for (const [part, tag] of NAME_PARTS) naming[part] = known(valueOf(tags, tag));
    return naming;
}

/**
 * Tags with a name in place of the one that was there. Those that say the same stay as they are.
 * @param {Tag[]} tags
 * @param {Naming} naming
 */
export function namedTags(tags, naming) {
    const before = namingOf(tags);
    const changed = NAME_PARTS.filter(([part]) => before[part] !== naming[part]);
    const kept = tags.filter(([name]) => !changed.some(([, tag]) => tag.toLowerCase() === name.toLowerCase()));
    const put = changed.filter(([part]) => naming[part]).map(([part, tag]) => /** @type {Tag} */ ([tag, naming[part]]));
    const order = (/** @type {Tag} */ [name]) =>
        NAME_PARTS.findIndex(([, tag]) => tag.toLowerCase() === name.toLowerCase());
    const [own, others] = [[...kept, ...put].filter((tag) => order(tag) >= 0), kept.filter((tag) => order(tag) < 0)];
    return [...own.sort((a, b) => order(a) - order(b)), ...others];
}

/**
 * A name in one line.
 * @param {Naming} naming
 */
export const lineOfName = (naming) => NAME_PARTS.map(([part]) => naming[part]).filter(Boolean).join(', ');

/**
 * Whether two names are the same.
 * @param {Naming} a
 * @param {Naming} b
 */
export const isSameName = (a, b) => NAME_PARTS.every(([part]) => a[part] === b[part]);

/** The names of positions. */
export class Names {
    /** @param {Store} store */
    constructor(store) {
        this.store = store;
        /** @type {Map<string, Naming> | null} */
        this.known = null;
    }

    /** All names, the newest last. Other windows may have added some. */
    read() {
        const kept = this.store.get('names');
        if (!Array.isArray(kept)) return this.known ??= new Map();
        const names = /** @type {[string, Naming][]} */ (kept.filter(Array.isArray));
        this.known = new Map(names);
        return this.known;
    }

    /**
     * The name of a position.
     * @param {Position} position
     * @returns {Naming}
     */
    of(position) {
        return (this.known ?? this.read()).get(nameOf(position)) ?? NO_NAME;
    }

    /**
     * Gives a position a name, or takes it away.
     * @param {Position} position
     * @param {Naming} naming
     */
    put(position, naming) {
        if (isSameName(this.of(position), naming)) return;
        const names = this.read(), name = nameOf(position);
        names.delete(name);
        if (lineOfName(naming)) names.set(name, { ...naming });
        for (const [oldest] of names) {
            if (names.size <= MOST_NAMES) break;
            names.delete(oldest);
        }
        this.store.put('names', [...names]);
    }
}
