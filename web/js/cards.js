/** The list of problems as cards, each with a small diagram. */
import { chosen, stateOf, titleOf } from './collection.js';
import { diagramOf } from './diagram.js';
import { breathe, byId, control, make, markCards } from './dom.js';
import { positionOf } from './position.js';

/**
 * @typedef {import('./app.js').App} App
 * @typedef {import('./collection.js').Item} Item
 * @typedef {{choose: (item: Item) => void, edit: (item: Item) => void,
 *     key: (item: Item, event: KeyboardEvent) => void}} Acts What is done with a card.
 */

/** How many problems are shown at first and with each further call, and how many at a stroke. */
const PAGE = 200, STROKE = 10;

/** The word for what a problem counts as. */
const STATES = /** @type {const} */ ({
    sound: 'sound', dual: 'dualWord', cooked: 'cooked', unsolvable: 'unsolvable', undecided: 'undecided',
    refused: 'refused', open: 'notJudged',
});

/** The cards. */
export class Cards {
    /**
     * @param {App} app
     * @param {Acts} acts
     */
    constructor(app, acts) {
        this.app = app;
        this.acts = acts;
        this.host = byId('list');
        /** @type {Item[]} */
        this.items = [];
        /** @type {Map<string, number>} The number of each problem, by its name. */
        this.numbers = new Map();
        /** @type {Map<string, HTMLElement>} */
        this.cards = new Map();
        this.shown = PAGE;
        this.drawing = 0;
        for (const id of ['filter', 'sort']) byId(id).addEventListener('change', () => this.show(this.items));
        app.on(['spoken'], () => this.show(this.items));
        app.on(['edited'], () => markCards(this.host, app.fen));
    }

    /** The items that are shown, in order. */
    get chosen() {
        const filter = control('filter', HTMLSelectElement).value, sort = control('sort', HTMLSelectElement).value;
        return chosen(this.items, filter, sort);
    }

    /**
     * Shows a list anew.
     * @param {Item[]} items
     */
    async show(items) {
        this.items = items;
        this.numbers = new Map(items.map(({ id }, i) => [id, i + 1]));
        this.cards.clear();
        this.host.replaceChildren();
        this.host.dataset.count = String(items.length);
        await this.draw(0);
    }

    /**
     * Shows more of the list.
     * @param {HTMLElement} more The button that asks for it.
     */
    async showMore(more) {
        const from = this.shown;
        this.shown += PAGE;
        more.remove();
        await this.draw(from);
    }

    /**
     * Draws the cards from one on, some at a stroke.
     * @param {number} from
     */
    async draw(from) {
        const drawing = ++this.drawing;
        const items = this.chosen, shown = items.slice(0, this.shown);
        for (let at = from; at < shown.length; at += STROKE) {
            this.host.append(...shown.slice(at, at + STROKE).map((item) => this.card(item)));
            await breathe();
            if (drawing !== this.drawing) return;
        }
        if (items.length > shown.length) this.host.append(this.moreButton(shown.length, items.length));
        this.host.dataset.state = 'done';
        markCards(this.host, this.app.fen);
    }

    /**
     * @param {number} shown
     * @param {number} all
     */
    moreButton(shown, all) {
        const { app } = this;
        const text = `${app.say('showMore')} (${app.say('shownOf', shown, all)})`;
        const more = make('button', { type: 'button', class: 'more' }, text);
        more.addEventListener('click', () => void this.showMore(more));
        // Who scrolls to the end sees more without a click.
        new IntersectionObserver((entries, observer) => {
            if (!entries.some(({ isIntersecting }) => isIntersecting)) return;
            observer.disconnect();
            if (more.isConnected) void this.showMore(more);
        }, { rootMargin: '400px' }).observe(more);
        return more;
    }

    /** @param {Item} item */
    card(item) {
        const number = this.numbers.get(item.id) ?? 0;
        const data = { 'data-number': String(number), 'data-fen': item.fen };
        const body = make('button', { type: 'button', class: 'card', ...data });
        if (item.refused) body.disabled = true;
        else body.append(diagramOf(positionOf(item.fen, item.rows), item.fen));
        body.append(make('span', { class: 'card-title' }, `${number}. ${titleOf(item)}`),
            make('span', { class: 'card-state' }));
        body.addEventListener('click', () => this.acts.choose(item));
        body.addEventListener('keydown', (event) => this.acts.key(item, event));
        this.cards.set(item.id, body);
        this.showState(item);
        const label = this.app.say('editCard', number);
        const edit = make('button', { type: 'button', class: 'edit', title: label, 'aria-label': label }, '…');
        edit.addEventListener('click', () => this.acts.edit(item));
        return make('div', { class: 'item' }, body, edit);
    }

    /**
     * The keys go to the card of a problem, if there is one.
     * @param {Item | undefined} item
     */
    focus(item) {
        const card = item && this.cards.get(item.id);
        if (card instanceof HTMLButtonElement && !card.disabled) card.focus();
    }

    /**
     * Shows the name of a problem.
     * @param {Item} item
     */
    showTitle(item) {
        const place = this.cards.get(item.id)?.querySelector('.card-title');
        if (place) place.textContent = `${this.numbers.get(item.id) ?? 0}. ${titleOf(item)}`;
    }

    /**
     * Shows what is known of a problem.
     * @param {Item} item
     */
    showState(item) {
        const { app } = this, card = this.cards.get(item.id), place = card?.querySelector('.card-state');
        if (!card || !place) return;
        const state = stateOf(item), n = item.row?.n;
        card.dataset.state = state;
        const word = app.say(STATES[state]);
        const turn = app.say(item.fen.startsWith('B') ? 'blackToMove' : 'whiteToMove');
        // (the reason is in the words of `dw`)
        const why = item.refused ? [`${word}: `, make('span', { lang: 'en' }, item.refused)] : null;
        place.replaceChildren(...why ?? [`${turn}. ${word}${n ? ` (${n})` : ''}`]);
    }
}
