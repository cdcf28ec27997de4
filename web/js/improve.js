/** Sound problems that are one change away. */
import { failureText, namePosition } from './answer_view.js';
import { mendedIn } from './answers.js';
import { Task } from './book.js';
import { changeOf, changeText, inOrder } from './changes.js';
import { diagramOf } from './diagram.js';
import { byId, control, make, markCards, reveal } from './dom.js';
import { Failed, reportOf } from '../../package/engine.js';
import { positionOf } from './position.js';
import { boardOf } from './rules.js';

/**
 * @typedef {import('./app.js').App} App
 * @typedef {import('./book.js').Entry} Entry
 * @typedef {import('./answers.js').Neighbour} Neighbour
 * @typedef {import('./number.js').MovesField} MovesField
 */

/** In how many parts the work is cut, so that its progress shows. */
const PARTS = 32;

/** The improvements. */
export class Improving {
    /**
     * @param {App} app
     * @param {MovesField} moves
     */
    constructor(app, moves) {
        this.app = app;
        this.moves = moves;
        this.isBlocked = false;
        /** @type {Entry | null} The entry that was asked last: a click on one of its cards leaves its cards there. */
        this.last = null;
        /** @type {Map<string, HTMLElement>} The cards that are drawn, by change. */
        this.cards = new Map();
        /** @type {Entry['mend']} The task whose cards are drawn. */
        this.drawn = null;
        byId('mend-form').addEventListener('submit', (event) => {
            event.preventDefault();
            void this.improve();
        });
        byId('mend-stop').addEventListener('click', () => {
            this.entry?.mend?.stop();
            this.draw();
        });
        moves.field.addEventListener('input', () => { app.book.of(app.subject).mendMoves = moves.field.value; });
        app.on(['edited', 'looked', 'read'], () => { this.isBlocked = false; });
        app.on(['edited', 'looked', 'spoken', 'answered', 'read'], () => this.draw());
        this.draw();
    }

    /** The entry whose improvements are shown. */
    get entry() {
        const shown = this.app.shown((entry) => entry.mend);
        return shown.mend ? shown : this.last;
    }

    /** Asks for all neighbours, part by part, over all processors. */
    async improve() {
        const { app } = this, n = this.moves.ask();
        if (!n) return;
        app.returnToSubject();
        if (await app.fault()) {
            this.isBlocked = true;
            this.draw();
            return;
        }
        const entry = app.book.of(app.subject);
        entry.mend?.stop();
        /** @type {NonNullable<Entry['mend']>} */
        const task = new Task({ n }, { neighbours: [], tried: 0, parts: 0 });
        entry.mend = task;
        this.last = entry;
        app.tell('answered');
        await task.work(async (signal) => {
            await Promise.all(Array.from({ length: PARTS }, (_, i) => this.askPart(entry, task, i + 1, signal)));
            return null;
        }).finally(() => app.tell('answered'));
    }

    /**
     * Asks for one part of the neighbours.
     * @param {Entry} entry
     * @param {NonNullable<Entry['mend']>} task
     * @param {number} number
     * @param {AbortSignal} signal
     */
    async askPart({ fen, position }, task, number, signal) {
        const { app } = this, board = boardOf(position.rows), part = `${number}/${PARTS}`;
        const words = ['dw-desk', 'mend', '--json', ...board, '-n', String(task.question.n), '--part', part];
        const found = mendedIn(reportOf(await app.searches.ask(words, `${fen}\n`, signal)));
        if (found.refused) throw new Failed(found.refused);
        if (!task.isRunning) return;
        const { progress } = task;
        progress.tried += found.all;
        progress.parts += 1;
        const place = (/** @type {Neighbour} */ { fen: after }) => changeOf(position, positionOf(after, position.rows));
        progress.neighbours = [...progress.neighbours, ...found.neighbours].map((one) => ({ one, at: place(one) }))
            .sort((a, b) => inOrder(a.at, b.at)).map(({ one }) => one);
        app.tell('answered');
    }

    draw() {
        const { app, entry } = this, mend = entry?.mend ?? null, isRunning = Boolean(mend?.isRunning);
        const subject = app.book.of(app.subject), known = subject.mendMoves || String(subject.moves || '');
        if (document.activeElement !== this.moves.field && this.moves.field.value !== known) this.moves.set(known);
        control('mend-go', HTMLButtonElement).disabled = Boolean(subject.mend?.isRunning);
        control('mend-stop', HTMLButtonElement).disabled = !isRunning;
        control('mend-progress', HTMLProgressElement).value = (mend?.progress.parts ?? 0) / PARTS;
        reveal('mend-progress', isRunning);
        byId('mend').dataset.state = mend?.state ?? '';
        byId('mend-state').textContent = this.isBlocked && app.refused ? app.say('faultFirst') : this.stateText(mend);
        namePosition(app, 'mend-of', mend ? entry : null);
        this.drawCards(mend);
        markCards(byId('mend'), app.fen);
    }

    /** @param {Entry['mend']} mend */
    stateText(mend) {
        const { app } = this;
        if (!mend) return '';
        const { neighbours, tried } = mend.progress;
        const ended = mend.phase === 'stopped' ? app.say('stoppedEarly') : failureText(app, mend.why);
        return [ended, app.say('mendFound', mend.question.n, neighbours.length, tried)].filter(Boolean).join(' ');
    }

    /**
     * The cards of the neighbours in their order; those that are there stay.
     * @param {Entry['mend']} mend
     */
    drawCards(mend) {
        const { app, entry } = this, host = byId('mend'), neighbours = mend?.progress.neighbours ?? [];
        if (this.drawn !== mend) {
            this.cards.clear();
            host.replaceChildren();
        }
        this.drawn = mend;
        neighbours.forEach((neighbour, i) => {
            const card = this.cards.get(neighbour.change) ?? this.card(neighbour);
            this.cards.set(neighbour.change, card);
            if (host.children[i] !== card) host.insertBefore(card, host.children[i] ?? null);
            const title = card.querySelector('.card-title'), before = entry?.position;
            if (!title || !before) return;
            const change = changeOf(before, positionOf(neighbour.fen, before.rows));
            const text = changeText(change, app.say.bind(app));
            if (title.textContent !== text) title.textContent = text;
        });
    }

    /** @param {Neighbour} neighbour */
    card({ fen, change, key, n }) {
        const { app } = this, rows = this.entry?.position.rows ?? 10, data = { 'data-fen': fen, 'data-change': change };
        const card = make('button', { type: 'button', class: 'card', ...data },
            diagramOf(positionOf(fen, rows), fen), make('span', { class: 'card-title' }), make('span', {}, key));
        card.addEventListener('click', () => {
            const position = positionOf(fen, rows), entry = app.book.of(position);
            if (!entry.moves) entry.mendMoves = String(n);
            app.edit(position);
            byId('board').scrollIntoView({ block: 'nearest' });
        });
        return card;
    }
}
