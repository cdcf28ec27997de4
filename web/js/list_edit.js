/** Problems of the list are named anew, moved and deleted, each by a form that its card opens, or by keys. */
import { byId, control } from './dom.js';
import { namedTags, namingOf, NO_NAME, NAME_PARTS } from './naming.js';
import { commentsOf } from './pdn.js';
import { fenOf, isSame, positionOf } from './position.js';

/**
 * @typedef {import('./app.js').App} App
 * @typedef {import('./collection.js').Item} Item
 * @typedef {import('./list.js').ListView} ListView
 */

/** The form. */
export class CardForm {
    /**
     * @param {App} app
     * @param {ListView} list
     */
    constructor(app, list) {
        this.app = app;
        this.list = list;
        /** @type {Item | null} The problem in the form. */
        this.item = null;
        this.dialog = control('card-dialog', HTMLDialogElement);
        this.fields = NAME_PARTS.map(([part]) => control(`card-${part}`, HTMLInputElement));
        this.number = control('card-number', HTMLInputElement);
        byId('card-form').addEventListener('submit', (event) => {
            event.preventDefault();
            void this.keep();
        });
        byId('card-cancel').addEventListener('click', () => this.dialog.close());
        byId('card-delete').addEventListener('click', () => {
            this.dialog.close();
            if (this.item) void this.take(this.item);
        });
        app.on(['spoken', 'edited', 'looked'], () => this.draw());
        app.on(['named'], () => this.follow());
    }

    /**
     * Opens the form for a problem.
     * @param {Item} item
     */
    open(item) {
        this.item = item;
        const naming = namingOf(item.tags);
        NAME_PARTS.forEach(([part], i) => { this.fields[i].value = naming[part]; });
        this.number.value = String(this.list.items.indexOf(item) + 1);
        this.number.max = String(this.list.items.length);
        control('card-position', HTMLInputElement).checked = false;
        this.draw();
        this.dialog.showModal();
    }

    draw() {
        const { app, item } = this;
        byId('card-heading').textContent = item ? app.say('editCard', this.list.items.indexOf(item) + 1) : '';
        byId('card-fen').textContent = app.fen;
    }

    /** The problem becomes what the form says. */
    async keep() {
        const { app, item } = this, naming = { ...NO_NAME };
        this.dialog.close();
        if (!item) return;
        NAME_PARTS.forEach(([part], i) => { naming[part] = this.fields[i].value.trim(); });
        if (control('card-position', HTMLInputElement).checked && !await app.fault()) putPosition(item, app.position);
        this.rename(item, naming);
        void this.moveTo(item, Number(this.number.value) - 1);
    }

    /**
     * Keys on a card: they move it among those that are shown, or delete it.
     * @param {Item} item
     * @param {KeyboardEvent} event
     */
    onKey(item, event) {
        const { list } = this, step = { ArrowUp: -1, ArrowDown: 1 }[event.key];
        if (event.key === 'Delete') {
            event.preventDefault();
            void this.take(item);
        } else if (event.altKey && step && control('sort', HTMLSelectElement).value === 'number') {
            event.preventDefault();
            const beside = list.cards.chosen, next = beside[beside.indexOf(item) + step];
            if (next) void this.moveTo(item, list.items.indexOf(next));
        }
    }

    /** The card that was clicked last takes the name that its problem on the board gets. */
    follow() {
        const { app, list } = this, item = list.items.find(({ id }) => id === list.chosen), { now } = app.history;
        const isThere = item && !item.refused && isSame(positionOf(item.fen, item.rows), now);
        if (isThere) this.rename(item, app.names.of(now));
    }

    /**
     * Takes a problem out of the list. It can be brought back.
     * @param {Item} item
     */
    async take(item) {
        const { list } = this, { cards } = list, place = cards.chosen.indexOf(item);
        list.items = list.items.filter((other) => other !== item);
        list.work.tell();
        await Promise.all([list.problems.putAside([item], false), list.show()]);
        list.showState();
        cards.focus(cards.chosen[place] ?? cards.chosen[place - 1]);
    }

    /**
     * Gives a problem of the list another name.
     * @param {Item} item
     * @param {import('./naming.js').Naming} naming
     */
    rename(item, naming) {
        item.tags = namedTags(item.tags, naming);
        this.list.problems.put(item);
        this.list.cards.showTitle(item);
        this.app.tell('answered');
    }

    /**
     * Moves a problem to another place of the list.
     * @param {Item} item
     * @param {number} place
     */
    async moveTo(item, place) {
        const { list } = this, others = list.items.filter((other) => other !== item);
        const isPlace = place >= 0 && place <= others.length;
        if (isPlace && list.items[place] !== item) {
            others.splice(place, 0, item);
            list.items = others;
            list.problems.arrange(others.map(({ id }) => id));
        }
        await list.show();
        list.cards.focus(item);
    }
}

/**
 * Gives an item another position: what is known of the one before, and its moves, are not those of this one.
 * @param {Item} item
 * @param {import('./position.js').Position} position
 */
function putPosition(item, position) {
    const fen = fenOf(position);
    if (fen === item.fen && position.rows === item.rows) return;
    Object.assign(item, {
        fen, rows: position.rows, row: null, refused: '', movetext: item.refused ? '' : commentsOf(item.movetext),
    });
}
