/** The problem in the address and in the browser, and the link that shares it. */
import { byId, control, copyText } from './dom.js';
import { addressIn, addressOf } from './keep.js';
import { lineOfName, NO_NAME, NAME_PARTS } from './naming.js';
import { fenOf, positionOf } from './position.js';

/**
 * @typedef {import('./app.js').App} App
 * @typedef {import('./keep.js').Store} Store
 * @typedef {import('./number.js').MovesField} MovesField
 */

/** The position and the number of moves that a new reader sees. */
const EXAMPLE = 'W:W27,32,38:B18', EXAMPLE_MOVES = 8;

/** The link. */
export class Link {
    /**
     * @param {App} app
     * @param {Store} store
     * @param {MovesField} most
     */
    constructor(app, store, most) {
        this.app = app;
        this.store = store;
        this.most = most;
        this.isBegun = false;
        /** The address that was kept last, and as the browser writes it. */
        this.kept = this.written = '';
        addEventListener('hashchange', () => {
            if (addressIn(location.hash).fen !== undefined) void this.begin();
        });
        byId('share').addEventListener('click', () => void this.share());
        app.on(['edited', 'looked', 'spoken'], () => { byId('shared').hidden = true; });
        app.on(['edited', 'looked', 'answered', 'named'], () => this.keep());
        byId('most').addEventListener('change', () => this.keep());
    }

    /** The address of the problem. */
    get address() {
        const { subject, names } = this.app;
        return { fen: fenOf(subject), n: this.most.value || EXAMPLE_MOVES, rows: subject.rows, ...names.of(subject) };
    }

    /** Takes the position, the number of moves and the board of the address, before those that were kept. */
    async begin() {
        const { app, store } = this, said = addressIn(location.hash), kept = store.get('position') ?? {};
        const asked = said.fen === undefined ? { ...kept, ...said } : said, rows = asked.rows === 8 ? 8 : 10;
        if (asked.n) this.most.set(asked.n);
        const text = asked.fen ?? EXAMPLE, { fen, refused } = await app.rules.read(text, rows);
        const position = positionOf(refused ? 'W:W:B' : fen, rows), naming = { ...NO_NAME };
        for (const [part] of NAME_PARTS) naming[part] = said[part] ?? '';
        if (!refused && lineOfName(naming)) app.names.put(position, naming);
        if (!this.isBegun) app.history.now = position;
        this.isBegun = true;
        app.edit(position);
        if (!refused) return;
        control('fen', HTMLInputElement).value = text;
        byId('fen').dispatchEvent(new Event('input'));
    }

    /** Keeps the problem in the address and in the browser. */
    keep() {
        if (!this.isBegun) return;
        const { address } = this, hash = addressOf(address);
        if (hash === this.kept && location.hash === this.written) return;
        history.replaceState(null, '', hash);
        this.store.put('position', address);
        [this.kept, this.written] = [hash, location.hash];
    }

    async share() {
        this.keep();
        const isCopied = await copyText(location.href);
        byId('shared').textContent = isCopied ? this.app.say('linkCopied') : location.href;
        byId('shared').hidden = false;
    }
}
