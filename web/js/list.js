/** The collection on the page: what is in it, opened, added to, judged. */
import { Cards } from './cards.js';
import { byId, control, reveal } from './dom.js';
import { judgeAll } from './judging.js';
import { CardForm } from './list_edit.js';
import { ListFiles } from './list_files.js';
import { lineOfName, namedTags, namingOf } from './naming.js';
import { isPdn, problemsIn } from './open.js';
import { hasMoves } from './pdn.js';
import { fenOf, positionOf } from './position.js';
import { ownGame } from './saving.js';
import { Work } from './work.js';

/**
 * @typedef {import('./app.js').App} App
 * @typedef {import('./collection.js').Item} Item
 * @typedef {import('./number.js').MovesField} MovesField
 * @typedef {import('./problems.js').Problems} Problems
 */

/** The largest file, in bytes. */
const LARGEST = 10_000_000;

/** How long the page waits for more changes of another window, in milliseconds. */
const SETTLING = 200;

/** What asks for the list to have a problem. */
const NEEDY = ['judge-all', 'save-pdn', 'save-page', 'save-json', 'forget'];

/** The list. */
export class ListView {
    /**
     * @param {App} app
     * @param {Problems} problems
     * @param {MovesField} most
     */
    constructor(app, problems, most) {
        this.app = app;
        this.problems = problems;
        this.most = most;
        this.items = problems.load();
        this.work = new Work(app, () => this.showState());
        /** @type {string} The name of the card that was clicked last. */
        this.chosen = '';
        this.form = new CardForm(app, this);
        this.cards = new Cards(app, {
            choose: (item) => this.choose(item), edit: (item) => this.form.open(item),
            key: (item, event) => this.form.onKey(item, event),
        });
        this.cards.items = this.items;
        this.files = new ListFiles(app, this);
        app.gameOf = (position) => {
            const fen = fenOf(position);
            const fits = this.items.filter((item) => item.fen === fen && hasMoves(item.movetext));
            const found = fits.find(({ id }) => id === this.chosen) ?? fits[0];
            return found ? ownGame(found) : null;
        };
        this.listen();
        this.listenToOthers();
        app.on(['spoken'], () => this.showState());
        app.on(['edited', 'looked', 'named'], () => this.fillForm());
        void this.show();
    }

    listen() {
        const on = (/** @type {string} */ id, /** @type {() => void} */ act) => byId(id).addEventListener('click', act);
        for (const id of ['file', 'own-file']) {
            const file = control(id, HTMLInputElement);
            file.addEventListener('change', () => {
                if (file.files?.[0]) void this.open(file.files[0], id === 'own-file');
                file.value = '';
            });
        }
        document.addEventListener('dragenter', (event) => event.preventDefault());
        document.addEventListener('dragover', (event) => event.preventDefault());
        document.addEventListener('drop', (event) => {
            event.preventDefault();
            const dropped = event.dataTransfer?.files[0];
            if (dropped) void this.open(dropped);
        });
        byId('add-form').addEventListener('submit', (event) => {
            event.preventDefault();
            void this.add();
        });
        on('judge-all', () => void this.judge());
        on('judge-stop', () => this.work.stop());
        on('forget', () => void this.forget());
        on('bring-back', () => void this.bringBack());
        for (const id of ['filter', 'sort']) byId(id).addEventListener('change', () => this.files.draw());
    }

    /** Takes over what other windows do to the list. */
    listenToOthers() {
        let timer = 0;
        this.problems.onChange(() => {
            clearTimeout(timer);
            timer = window.setTimeout(() => {
                const unkept = this.items.filter(({ id }) => !this.problems.kept.has(id));
                const known = new Map(this.items.map((item) => [item.id, item]));
                const kept = this.problems.load().map((item) => {
                    const own = known.get(item.id);
                    return own ? Object.assign(own, { row: item.row ?? own.row }) : item;
                });
                this.items = [...kept, ...unkept];
                void this.show();
            }, SETTLING);
        });
    }

    /**
     * A problem of the list becomes the one on the board.
     * @param {Item} item
     */
    choose(item) {
        const { app } = this, position = positionOf(item.fen, item.rows), entry = app.book.of(position);
        this.chosen = item.id;
        if (item.row?.n && !entry.moves) entry.mendMoves = String(item.row.n);
        const naming = namingOf(item.tags);
        if (lineOfName(naming)) app.names.put(position, naming);
        app.edit(position);
        byId('board').scrollIntoView({ block: 'nearest' });
    }

    /** The form by which the position on the board is added has its name. */
    fillForm() {
        const naming = this.app.names.of(this.app.position);
        for (const part of /** @type {const} */ (['title', 'author'])) {
            const field = control(`add-${part}`, HTMLInputElement);
            if (document.activeElement !== field) field.value = naming[part];
        }
    }

    /**
     * Takes the problems of a file to the list. The program reads them; what it refuses is shown at its place.
     * @param {File} file
     * @param {boolean} [isOwn] Whether it is one's own file, whose problems are the list.
     */
    async open(file, isOwn = false) {
        const isAll = isOwn || control('file-way', HTMLSelectElement).value === 'replace';
        byId('tab-collection').click();
        if (file.size > LARGEST) {
            this.work.tell('tooLarge');
            return;
        }
        this.work.tell('searching');
        byId('list').dataset.state = 'reading';
        try {
            const bytes = new Uint8Array(await file.arrayBuffer());
            const content = { bytes, isGames: isPdn(file.name, bytes) };
            const found = await problemsIn(this.app, content, this.problems.namer());
            if (isAll && this.items.length) await this.forget();
            this.work.tell();
            await this.put(found);
        } catch (error) {
            this.work.tellFailure(error);
        }
    }

    /** Adds the position on the board, with its name. */
    async add() {
        const { app } = this;
        const value = (/** @type {string} */ id) => control(id, HTMLInputElement).value.trim();
        if (await app.fault()) {
            this.work.tell('faultFirst');
            return;
        }
        const naming = { ...app.names.of(app.position), title: value('add-title'), author: value('add-author') };
        app.name(app.position, naming);
        this.work.tell();
        const { rows } = app.position, id = this.problems.namer()(), tags = namedTags([], naming);
        await this.put([{ id, rows, fen: app.fen, tags, movetext: '', refused: '', row: null }]);
    }

    /**
     * Adds problems to the list.
     * @param {Item[]} more
     */
    async put(more) {
        this.items = this.items.concat(more);
        const shown = this.show();
        await this.problems.add(more);
        this.showState();
        await shown;
    }

    /** Empties the list. It can be brought back until another is emptied. */
    async forget() {
        const { items } = this;
        this.work.stop();
        this.items = [];
        const emptied = this.problems.putAside(items, true);
        this.work.tell();
        await Promise.all([emptied, this.show()]);
        this.showState();
    }

    /** Brings back what was deleted last: a problem, or the whole list. */
    async bringBack() {
        const back = await this.problems.restore();
        this.items = this.problems.sorted([...back, ...this.items]);
        await this.show();
    }

    /** Judges problems of which more may be told. Answers whether that was not stopped. */
    async judge(items = this.items) {
        const most = this.most.ask();
        if (!most) return false;
        const told = (/** @type {Item} */ item, /** @type {NonNullable<Item['row']>} */ row) => {
            if (!this.items.includes(item)) return;
            item.row = row;
            this.problems.put(item);
            this.cards.showState(item);
            this.showState();
        };
        byId('list').dataset.state = 'judging';
        const isDone = await this.work.run('searching', (signal) =>
            judgeAll(this.app, items, { most, signal, told }));
        await this.show();
        return isDone;
    }

    /** Shows the list anew. */
    async show() {
        this.showState();
        this.app.tell('answered');
        await this.cards.show(this.items);
    }

    showState() {
        const { app, items, problems, work } = this, count = items.length;
        const judged = items.filter((item) => item.row || item.refused).length;
        control('list-progress', HTMLProgressElement).value = count ? judged / count : 0;
        reveal('list-progress', work.isRunning);
        const said = work.said(), empty = said ? '' : app.say('emptyList');
        const counts = count ? app.say('listState', count, judged) : empty;
        byId('list-state').textContent = [said, counts].filter(Boolean).join('; ');
        for (const id of NEEDY) control(id, HTMLButtonElement).disabled = count === 0;
        if (work.isRunning) control('judge-all', HTMLButtonElement).disabled = true;
        control('judge-stop', HTMLButtonElement).disabled = !work.isRunning;
        const kept = items.filter(({ id }) => problems.kept.has(id)).length;
        byId('kept').textContent = kept === count && (count || problems.isAllowed) ? app.say('kept')
            : kept ? app.say('fullStore', kept, count) : app.say('notKept');
        const { countEmptied, isListAside } = problems;
        reveal('bring-back', countEmptied > 0);
        byId('bring-back').textContent = isListAside ? app.say('bringBack') : app.say('bringOneBack', countEmptied);
        this.files.draw();
    }
}
