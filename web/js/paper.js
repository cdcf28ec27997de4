/** The sheet that is printed: one's own heading, and the solution with the replies that hold out longest. */
import { byId, control, fill, make, reveal } from './dom.js';
import { numberAt, Reading } from './tree.js';

/**
 * @typedef {import('./app.js').App} App
 * @typedef {import('./solve.js').Solving} Solving
 * @typedef {import('./tree.js').Node} Node
 */

/** How many lines of a solution stand on a sheet at most. */
const SHEET_LINES = 15;

/**
 * The lines of a solution: the main line, and each variation after it, farther in.
 * @param {Reading} reading
 * @returns {{level: number, moves: Node[]}[]}
 */
function sheetLines(reading) {
    const { tree } = reading;
    /** @type {(first: Node, level: number) => {level: number, moves: Node[]}[]} */
    const from = (first, level) => {
        const moves = reading.line(first), others = moves.flatMap((node) => reading.next(node).slice(1));
        return [{ level, moves }, ...others.flatMap((other) => from(other, level + 1))];
    };
    const [first] = reading.next(tree);
    return first ? from(first, 0) : [];
}

/** The sheet. */
export class Paper {
    /**
     * @param {App} app
     * @param {Solving} solving
     * @param {import('./keep.js').Store} store
     */
    constructor(app, solving, store) {
        this.app = app;
        this.solving = solving;
        this.field = control('heading', HTMLInputElement);
        this.field.value = String(store.get('settings')?.heading ?? '');
        this.field.addEventListener('input', () => {
            store.change('settings', { heading: this.heading });
            this.showHeading();
        });
        byId('print').addEventListener('click', () => print());
        // (after the board shows the problem again)
        addEventListener('beforeprint', () => this.draw());
        app.heading = () => this.heading;
        this.showHeading();
    }

    get heading() {
        return this.field.value.trim();
    }

    showHeading() {
        byId('paper-heading').textContent = this.heading;
        document.body.classList.toggle('headed', this.heading !== '');
    }

    /** Writes the solution that is shown, as it is printed. */
    draw() {
        const { app } = this, result = this.solving.entry.solve?.result, tree = result?.tree ?? null;
        reveal('paper-solution', tree !== null);
        if (!tree || !result) return;
        const lines = sheetLines(new Reading(tree, 'longest')), shown = lines.slice(0, SHEET_LINES);
        const bound = lines.length > shown.length ? app.say('paperBound', shown.length, lines.length)
            : app.say('paperAll', lines.length);
        fill('paper-solution', [tree, result, app.language], () => [
            make('p', { class: 'paper-bound' }, [bound, result.isMore ? app.say('moreLines') : ''].join(' ').trim()),
            ...shown.map(({ level, moves }) => this.row(level, moves, tree.fen.startsWith('B'))),
        ]);
    }

    /**
     * @param {number} level
     * @param {Node[]} moves
     * @param {boolean} isBlack
     */
    row(level, moves, isBlack) {
        const parts = moves.flatMap(({ move, depth }, i) => {
            const text = `${numberAt(isBlack, depth - 1, i === 0)}${move}`;
            return [i ? ' ' : '', make(depth % 2 ? 'b' : 'span', { class: 'whole' }, text)];
        });
        return make('p', { class: 'line', 'data-level': String(Math.min(level, 6)) }, ...parts);
    }
}
