/** Fields for a number of moves. */
import { byId, control, reveal } from './dom.js';

/** The fewest moves that a field takes. */
const FEWEST_MOVES = 1;

/** The most moves that a field takes. */
export const MOST_MOVES = 20;

/**
 * The number of moves that a text says, or 0 if it says none.
 * @param {string} text
 */
export function movesIn(text) {
    const number = Number(text);
    return /^\s*\d+\s*$/.test(text) && number >= FEWEST_MOVES && number <= MOST_MOVES ? number : 0;
}

/** A field for a number of moves, with the place where its fault is told. */
export class MovesField {
    /**
     * @param {import('./app.js').App} app
     * @param {string} id
     */
    constructor(app, id) {
        this.app = app;
        this.id = id;
        this.field = control(id, HTMLInputElement);
        this.isTold = false;
        this.field.addEventListener('input', () => this.show());
        this.field.addEventListener('change', () => {
            this.isTold = true;
            this.show();
        });
        app.on(['spoken'], () => this.show());
    }

    /** The number, or 0 if there is none. */
    get value() {
        return movesIn(this.field.value);
    }

    /** Whether what stands in the field is a fault. */
    get isWrong() {
        return !this.value;
    }

    /** @param {number | string} moves */
    set(moves) {
        this.field.value = String(moves);
        this.isTold = false;
        this.show();
    }

    /** The number; if there is none, its fault is told. */
    ask() {
        this.isTold = true;
        this.show();
        if (this.isWrong) this.field.focus();
        return this.value;
    }

    show() {
        const isWrong = this.isTold && this.isWrong;
        this.field.setAttribute('aria-invalid', String(isWrong));
        byId(`${this.id}-fault`).textContent = isWrong ? this.app.say('numberFault') : '';
        reveal(`${this.id}-fault`, isWrong);
    }
}

/** A field for a number of moves that may stay empty. */
export class OptionalMovesField extends MovesField {
    /** @override */
    get isWrong() {
        return !this.value && this.field.value.trim() !== '';
    }
}
