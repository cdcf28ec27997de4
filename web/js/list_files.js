/** The files of the list: saved as it is shown, and kept in a file of one's own. */
import { decided, stateOf } from './collection.js';
import { byId, control, reveal, save } from './dom.js';
import { OwnFile } from './own_file.js';
import { gameFiles, ownFile, pageFiles, rowFiles } from './saving.js';

/**
 * @typedef {import('./app.js').App} App
 * @typedef {import('./collection.js').Item} Item
 * @typedef {import('./list.js').ListView} ListView
 * @typedef {import('./saving.js').SavedFile} SavedFile
 */

/** Saves the list. */
export class ListFiles {
    /**
     * @param {App} app
     * @param {ListView} list
     */
    constructor(app, list) {
        this.app = app;
        this.list = list;
        this.own = new OwnFile();
        const on = (/** @type {string} */ id, /** @type {() => void} */ act) => byId(id).addEventListener('click', act);
        on('save-pdn', () => void this.save((items, signal) =>
            gameFiles(app, items, { keepsMoves: control('keep-moves', HTMLInputElement).checked, signal })));
        on('save-page', () => void this.save((items, signal) => pageFiles(app, items, signal), true));
        on('save-json', () => void this.save(async (items) => rowFiles(items)));
        on('own-save', () => void this.keep());
        on('own-open', () => void this.open());
        on('own-other', () => void this.own.leave().then(() => this.draw()));
        void this.own.begin().then(() => this.draw());
    }

    /**
     * Saves what is shown of the list as files, once all of it is judged.
     * @param {(items: Item[], signal: AbortSignal) => Promise<SavedFile[]>} write
     * @param {boolean} isTold Whether those that are left out are told.
     */
    async save(write, isTold = false) {
        const { app, list } = this, { work } = list, items = list.cards.chosen;
        if (items.some((item) => stateOf(item) === 'open') && !await list.judge(items)) return;
        /** @type {SavedFile[]} */
        let files = [];
        if (!await work.run('saving', async (signal) => { files = await write(items, signal); })) return;
        for (const { name, content, type } of files) save(name, content, type);
        const names = files.map(({ name }) => name).join(', ');
        const left = isTold ? items.length - decided(items).length : 0;
        byId('list').dataset.saved = files[0]?.name ?? '';
        work.say(() => [names ? app.say('saved', names) : '', left ? app.say('leftOut', left) : '']
            .filter(Boolean).join('. '));
    }

    /** Writes the whole list to one's own file. */
    keep() {
        const { app, list } = this;
        return this.attempt(async () => {
            const name = await this.own.save(ownFile(list.items));
            byId('list').dataset.saved = name;
            list.work.say(() => app.say('saved', name));
        });
    }

    /** Reads one's own file; its problems are then the list. */
    open() {
        return this.attempt(async () => {
            const file = await this.own.open();
            if (file) await this.list.open(file, true);
            else byId('own-file').click();
        });
    }

    /** @param {() => Promise<void>} act */
    async attempt(act) {
        try {
            await act();
        } catch (error) {
            // (whoever closes the browser's own form wants nothing)
            if (/** @type {Error} */ (error).name !== 'AbortError') this.list.work.tellFailure(error);
        }
        this.draw();
    }

    /** Names one's own file, and says how much of the list would be saved. */
    draw() {
        const { app, list, own } = this, all = list.items.length, shown = list.cards.chosen.length;
        const named = own.name ? ` (${own.name})` : '';
        byId('own-save').textContent = app.say('ownSave') + named;
        byId('own-open').textContent = app.say('ownOpen') + named;
        reveal('own-other', own.name !== '');
        byId('saves').textContent = app.say('savesShown', shown, all);
        reveal('saves', shown !== all);
        control('own-save', HTMLButtonElement).disabled = all === 0;
    }
}
