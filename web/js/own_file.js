/** A file of one's own: written and read again in one click where the browser lets the page keep hold of it. */
import { save } from './dom.js';

/**
 * @typedef {{name: string, getFile: () => Promise<File>, createWritable: () => Promise<Writable>,
 *   requestPermission?: (how: {mode: string}) => Promise<string>}} Handle The browser's hold on a file.
 * @typedef {{write: (text: string) => Promise<void>, close: () => Promise<void>}} Writable
 * @typedef {{showSaveFilePicker?: (how: object) => Promise<Handle>,
 *   showOpenFilePicker?: (how: object) => Promise<Handle[]>}} Pickers
 */

/** The name of the file at first, and what kind it is of. */
const NAME = 'my-problems.pdn', KIND = { types: [{ description: 'PDN', accept: { 'text/plain': ['.pdn'] } }] };

/** Where the browser keeps the hold on the file. */
const BASE = 'dw-board', SHELF = 'files', PLACE = 'own';

/**
 * Asks the browser's store.
 * @param {(shelf: IDBObjectStore) => IDBRequest} act
 * @returns {Promise<any>}
 */
const ask = (act) => new Promise((resolve, reject) => {
    const opening = indexedDB.open(BASE);
    opening.onupgradeneeded = () => opening.result.createObjectStore(SHELF);
    opening.onerror = () => reject(opening.error);
    opening.onsuccess = () => {
        try {
            const asked = act(opening.result.transaction(SHELF, 'readwrite').objectStore(SHELF));
            asked.onsuccess = () => resolve(asked.result);
            asked.onerror = () => reject(asked.error);
        } catch (error) {
            reject(error);
        }
    };
});

/** The file. */
export class OwnFile {
    constructor() {
        this.pickers = /** @type {Pickers} */ (/** @type {unknown} */ (globalThis));
        /** @type {Handle | null} */
        this.handle = null;
    }

    /** Whether the browser can keep hold of a file. */
    get isOffered() {
        return Boolean(this.pickers.showSaveFilePicker && this.pickers.showOpenFilePicker);
    }

    /** The name of the file, if there is one. */
    get name() {
        return this.handle?.name ?? '';
    }

    /** Takes the file up again that was used last. */
    async begin() {
        if (!this.isOffered) return;
        this.handle = await ask((shelf) => shelf.get(PLACE)).catch(() => null) ?? null;
    }

    /** @param {Handle | null} handle */
    async take(handle) {
        this.handle = handle;
        await ask((shelf) => shelf.put(handle, PLACE)).catch(() => null);
    }

    /** Uses another file from now on. */
    leave() {
        return this.take(null);
    }

    /**
     * Writes the file. Answers its name.
     * @param {string} text
     */
    async save(text) {
        const { showSaveFilePicker } = this.pickers;
        if (!showSaveFilePicker || !this.isOffered) {
            save(NAME, text, 'text/plain');
            return NAME;
        }
        const handle = this.handle ?? await showSaveFilePicker.call(globalThis, { suggestedName: NAME, ...KIND });
        await handle.requestPermission?.({ mode: 'readwrite' });
        const writable = await handle.createWritable();
        await writable.write(text);
        await writable.close();
        await this.take(handle);
        return handle.name;
    }

    /** Reads the file, where the browser can keep hold of it. */
    async open() {
        const { showOpenFilePicker } = this.pickers;
        if (!showOpenFilePicker || !this.isOffered) return null;
        const handle = this.handle ?? (await showOpenFilePicker.call(globalThis, KIND))[0];
        await handle.requestPermission?.({ mode: 'readwrite' });
        const file = await handle.getFile();
        await this.take(handle);
        return file;
    }
}
