/** What all parts of the page share: the problem, the position on the board, the answers, the words, the workers. */
import { Book } from './book.js';
import { History } from './history.js';
import { textIn } from './languages.js';
import { Names } from './naming.js';
import { emptyBoard, fenOf, isSame, positionOf } from './position.js';
import { Rules } from './rules.js';

/**
 * @typedef {import('./book.js').Entry} Entry
 * @typedef {import('./position.js').Position} Position
 * @typedef {import('./languages.js').Language} Language
 * @typedef {import('./languages.js').Key} Key
 * @typedef {import('../../package/workers.js').Workers} Workers
 * @typedef {import('./naming.js').Naming} Naming
 * @typedef {'edited' | 'looked' | 'spoken' | 'answered' | 'read' | 'named'} Change The problem is another; the position
 *     on the board is; the language is; an answer is; a FEN text was read; the name of a position is another.
 */

/** The state of the page. Whoever wants to know of a change listens to it. */
export class App extends EventTarget {
    /**
     * @param {Workers} searches Workers for much that may take long, as many as there are processors.
     * @param {Workers} solver Workers for the questions that the reader waits for.
     * @param {Workers} quick A worker for what is answered at once.
     * @param {import('./keep.js').Store} store What the browser keeps.
     */
    constructor(searches, solver, quick, store) {
        super();
        this.searches = searches;
        this.solver = solver;
        this.rules = new Rules((words, input) => quick.ask(words, input));
        this.book = new Book();
        this.names = new Names(store);
        /** @type {Language} */
        this.language = 'en';
        /** @type {History<Position>} The problem, and those before. */
        this.history = new History(emptyBoard(10), isSame);
        /** @type {Position | null} A later position on the board: one of a solution or of a play. */
        this.looked = null;
        /** The move that led to it, if one did. */
        this.lastMove = '';
        /** Whether moves are played on the board. */
        this.isPlaying = false;
        /** Why `dw` refuses what stands in the field of the FEN text, or an empty text. */
        this.refused = '';
        /** @type {() => Promise<string>} The same, once `dw` has read what stands there now. */
        this.fault = () => Promise.resolve('');
        /** The heading of what is printed, or an empty text. */
        this.heading = () => '';
        /** @type {(position: Position) => string | null} The collection's game of this position, if any. */
        this.gameOf = () => null;
    }

    /** The position on the board. */
    get position() {
        return this.looked ?? this.history.now;
    }

    /** Its FEN text. */
    get fen() {
        return fenOf(this.position);
    }

    /** Whether the board shows a later position of a solution, on which nothing can be changed. */
    get isReplay() {
        return this.looked !== null && !this.isPlaying;
    }

    /** The position that questions are about: what is played, or else the problem. */
    get subject() {
        return this.isPlaying ? this.position : this.history.now;
    }

    /**
     * The entry whose answer is shown: of the position that is played, if it was asked of that; else of the problem.
     * @param {(entry: Entry) => unknown} has
     */
    shown(has) {
        const played = this.isPlaying && this.looked ? this.book.find(this.looked) : null;
        return played && has(played) ? played : this.book.of(this.history.now);
    }

    /**
     * Whether an entry is that of the position on the board.
     * @param {Entry} entry
     */
    isOnBoard(entry) {
        return isSame(entry.position, this.position);
    }

    /**
     * A text in the language of the page.
     * @param {Key} key
     * @param {(string | number)[]} values
     */
    say(key, ...values) {
        return textIn(this.language, key, ...values);
    }

    /**
     * Changes the problem; it can be undone.
     * @param {Position} position
     */
    edit(position) {
        this.leave();
        this.history.put(position);
        this.tell('edited');
    }

    /**
     * Gives a position a name.
     * @param {Position} position
     * @param {Naming} naming
     */
    name(position, naming) {
        this.names.put(position, naming);
        this.tell('named');
    }

    /** The board shows the problem. */
    leave() {
        this.looked = null;
        this.lastMove = '';
    }

    /** Takes back the last change of the problem, or does it again. */
    undo() {
        this.leave();
        this.history.undo();
        this.tell('edited');
    }

    redo() {
        this.leave();
        this.history.redo();
        this.tell('edited');
    }

    /**
     * Shows a position of a solution or of a play on the board, or the problem again.
     * @param {string | null} fen
     * @param {string} move The move that led to it, if one did.
     */
    look(fen, move = '') {
        const position = fen === null ? null : positionOf(fen, this.history.now.rows);
        this.looked = position && !isSame(position, this.history.now) ? position : null;
        this.lastMove = this.looked ? move : '';
        this.tell('looked');
    }

    /** A later position of a solution becomes the problem, so that one may ask of it. */
    take() {
        if (this.looked && this.isReplay) this.edit(this.looked);
    }

    /** The board shows the position again that questions are about. */
    returnToSubject() {
        if (this.isReplay) this.look(null);
    }

    /** @param {Change} what */
    tell(what) {
        if (what === 'edited' || what === 'looked') this.book.stopOthers([this.history.now, this.position]);
        this.dispatchEvent(new Event(what));
    }

    /**
     * Listens to changes.
     * @param {Change[]} kinds
     * @param {() => void} act
     */
    on(kinds, act) {
        for (const kind of kinds) this.addEventListener(kind, act);
    }
}
