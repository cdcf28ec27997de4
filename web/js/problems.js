/**
 * The list in the browser's store. Each problem is kept under a name of its own, so that windows that are open side by
 * side share one list, and a verdict is kept as soon as it is known.
 */

import { piecewise } from './dom.js';

/**
 * @typedef {import('./collection.js').Item} Item
 * @typedef {Item & {aside?: number, isWhole?: boolean}} Aside A problem that was put aside: when, and whether with the
 *     whole list.
 */

/** What the names begin with: of problems in the list, of those of the list that was emptied last. */
const LISTED = 'dw-board problem ', EMPTIED = 'dw-board emptied ';

/** The name of the order of the list. */
const LIST_ORDER = 'dw-board order';

/** A name under which nothing stays. */
const PROBE = 'dw-board probe';

/** The name of the list in earlier versions of the page. */
const OLD = 'dw-board list';

/** How many problems are kept at most: browsers keep some megabytes for a page. */
const MOST_KEPT = 5000;

/** The list that is kept. */
export class Problems {
    /** @param {() => Storage} storage */
    constructor(storage) {
        this.storage = storage;
        /** The names of the problems that are kept. */
        this.kept = new Set();
        /** @type {Aside[]} Those deleted one by one that the browser did not keep. */
        this.loose = [];
        /** How many problems can be brought back, and whether they are a whole list. */
        this.countEmptied = 0;
        this.isListAside = false;
        /** Whether the browser let the page keep what it tried to keep last. */
        this.isAllowed = true;
        /** What is being kept. */
        this.last = Promise.resolve();
        this.adopt();
    }

    /**
     * Does something with the store, if the browser allows it. Answers whether it did.
     * @param {(storage: Storage) => void} act
     */
    attempt(act) {
        try {
            act(this.storage());
            return true;
        } catch {
            return false;
        }
    }

    /** Takes the list of an earlier version of the page over. */
    adopt() {
        this.attempt((storage) => {
            const text = storage.getItem(OLD);
            if (text === null) return;
            const items = /** @type {Item[]} */ (JSON.parse(text));
            const name = this.namer();
            storage.removeItem(OLD);
            for (const item of items) this.put({ ...item, movetext: '', id: name() });
        });
    }

    /** Makes names that stand after all names made before, in order. */
    namer() {
        const time = Date.now().toString(36).padStart(9, '0'), mark = Math.random().toString(36).slice(2, 6);
        let count = 0;
        return () => `${time}-${mark}-${(count++).toString(36).padStart(4, '0')}`;
    }

    /**
     * The items under names that begin so, in order.
     * @param {string} front
     */
    read(front) {
        /** @type {Item[]} */
        const items = [];
        this.attempt((storage) => {
            for (const name of Object.keys(storage).filter((key) => key.startsWith(front)).sort()) {
                try {
                    items.push(JSON.parse(storage.getItem(name) ?? ''));
                } catch {
                    storage.removeItem(name);
                }
            }
        });
        return items;
    }

    /** The list. */
    load() {
        const items = this.sorted(this.read(LISTED));
        this.kept = new Set(items.map(({ id }) => id));
        this.countAside();
        this.probe();
        return items;
    }

    /** The order in which the problems were put by hand: their names. Those that came later are not in it. */
    order() {
        /** @type {string[]} */
        let order = [];
        this.attempt((storage) => { order = JSON.parse(storage.getItem(LIST_ORDER) ?? '[]'); });
        return order;
    }

    /**
     * Keeps the order of the list. The names of problems that were put aside stay where they were.
     * @param {string[]} names
     */
    arrange(names) {
        const inList = new Set(names), before = this.order(), put = [...names];
        before.forEach((name, i) => {
            if (!inList.has(name)) put.splice(put.indexOf(before[i - 1]) + 1, 0, name);
        });
        this.attempt((storage) => storage.setItem(LIST_ORDER, JSON.stringify(put)));
    }

    /**
     * Problems in the order of the list.
     * @param {Item[]} items
     */
    sorted(items) {
        const places = new Map(this.order().map((name, i) => [name, i]));
        const place = (/** @type {Item} */ { id }) => places.get(id) ?? places.size;
        return [...items].sort((a, b) => place(a) - place(b) || (a.id < b.id ? -1 : 1));
    }

    /** Tries whether the browser lets the page keep something. */
    probe() {
        this.isAllowed = this.attempt((storage) => {
            storage.setItem(PROBE, '');
            storage.removeItem(PROBE);
        });
    }

    /** The problems that were put aside last, and can be brought back. */
    aside() {
        const items = [.../** @type {Aside[]} */ (this.read(EMPTIED)), ...this.loose];
        const last = Math.max(...items.map(({ aside = 0 }) => aside));
        return items.filter(({ aside = 0 }) => aside === last);
    }

    countAside() {
        const items = this.aside();
        this.countEmptied = items.length;
        this.isListAside = items.some(({ isWhole = true }) => isWhole);
    }

    /**
     * Keeps an item, or what has become of it. Answers whether the browser did.
     * @param {Item} item
     */
    put(item) {
        if (!this.kept.has(item.id) && this.kept.size >= MOST_KEPT) return false;
        const isKept = this.attempt((storage) => storage.setItem(LISTED + item.id, JSON.stringify(item)));
        if (isKept) this.kept.add(item.id);
        return isKept;
    }

    /**
     * Keeps more items, up to the first for which there is no room.
     * @param {Item[]} items
     */
    add(items) {
        let isFull = false;
        return this.follow(() => piecewise(items, (item) => { isFull ||= !this.put(item); }));
    }

    /**
     * Does one thing after another.
     * @param {() => Promise<void>} act
     */
    follow(act) {
        this.last = this.last.then(act);
        return this.last;
    }

    /**
     * Puts problems aside, so that they can be brought back. The whole list takes the place of all that was put aside.
     * @param {Item[]} items
     * @param {boolean} isWhole Whether they are the whole list.
     */
    putAside(items, isWhole) {
        return this.follow(async () => {
            const kept = items.filter(({ id }) => this.kept.has(id)), aside = Date.now();
            const loose = isWhole ? [] : items.filter(({ id }) => !this.kept.has(id));
            this.loose = isWhole ? [] : [...this.loose, ...loose.map((item) => ({ ...item, aside, isWhole }))];
            for (const { id } of items) this.kept.delete(id);
            this.probe();
            if (isWhole) await this.forget(EMPTIED);
            await piecewise(kept, (item) => {
                this.attempt((storage) => {
                    storage.removeItem(LISTED + item.id);
                    storage.setItem(EMPTIED + item.id, JSON.stringify({ ...item, aside, isWhole }));
                });
            });
            this.countAside();
        });
    }

    /** Puts the problems back that were put aside last, and answers them. */
    async restore() {
        await this.last;
        const items = this.aside();
        this.loose = this.loose.filter((item) => !items.includes(item));
        await this.follow(() => piecewise(items, ({ id }) => {
            this.attempt((storage) => storage.removeItem(EMPTIED + id));
        }));
        const back = items.map(({ aside: _, isWhole: __, ...item }) => item);
        await this.add(back);
        this.countAside();
        return back;
    }

    /** @param {string} front */
    async forget(front) {
        /** @type {string[]} */
        let names = [];
        this.attempt((storage) => { names = Object.keys(storage).filter((name) => name.startsWith(front)); });
        await piecewise(names, (name) => { this.attempt((storage) => storage.removeItem(name)); });
    }

    /**
     * Calls what is to follow when another window has changed the list.
     * @param {() => void} act
     */
    onChange(act) {
        addEventListener('storage', ({ key }) => {
            if (key === null || key === LIST_ORDER || key.startsWith(LISTED)) act();
        });
    }
}
