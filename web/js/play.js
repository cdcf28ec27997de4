/** Playing from the position on the board: legal moves are those that `dw` lists. */
import { byId, control, make, reveal } from './dom.js';
import { fenOf } from './position.js';
import { numbered } from './tree.js';

/**
 * @typedef {import('./app.js').App} App
 * @typedef {import('./book.js').Line} Line
 * @typedef {import('./answers.js').Legal} Legal
 */

/**
 * The squares that a move's text names: where it begins, perhaps those of its captures, where it ends.
 * @param {string} move
 */
export const squaresIn = (move) => move.split(/[-x]/).map(Number);

/** @param {Legal} legal */
const startOf = ({ move }) => squaresIn(move)[0];

/** @param {Legal} legal */
const endOf = ({ move }) => squaresIn(move)[squaresIn(move).length - 1];

/** @param {Line} line */
const endOfLine = ({ first, played }) => played[played.length - 1]?.fen ?? first;

/** @param {Line} line */
const lastOfLine = ({ played }) => played[played.length - 1]?.move ?? '';

/** A play, move by move. The moves are kept with the problem. */
export class Play {
    /** @param {App} app */
    constructor(app) {
        this.app = app;
        /** @type {Legal[] | null} The legal moves on the board, once they are known. */
        this.legal = null;
        /** The position of which they are. */
        this.legalIn = '';
        this.chosen = 0;
        byId('take-back').addEventListener('click', () => this.takeBack());
        byId('play-start').addEventListener('click', () => this.goBack(this.line.played.length));
        app.on(['edited', 'looked', 'read'], () => this.follow());
        app.on(['spoken'], () => this.show());
    }

    get isOn() {
        return this.app.isPlaying;
    }

    /** The moves that were played from the problem. */
    get line() {
        const { app } = this, entry = app.book.of(app.history.now);
        entry.line ??= { first: fenOf(app.history.now), played: [], undone: [] };
        return entry.line;
    }

    /**
     * Begins to play, or ends it. A play goes on from where it was, if the board does not show another position.
     * @param {boolean} isOn
     */
    turn(isOn) {
        const { app } = this;
        app.isPlaying = isOn;
        if (isOn && !app.looked) app.look(endOfLine(this.line), lastOfLine(this.line));
        else app.tell('looked');
    }

    /** The board shows another position. The start takes all moves back; any other begins a play anew. */
    follow() {
        const { app } = this;
        if (this.legalIn !== app.fen || !this.isOn) {
            this.chosen = 0;
            reveal('choice', false);
        }
        if (this.isOn && app.fen !== endOfLine(this.line)) {
            if (app.fen === this.line.first) this.takeMovesBack(this.line.played.length);
            else app.book.of(app.history.now).line = { first: app.fen, played: [], undone: [] };
        }
        this.show();
        void this.learn();
    }

    /** Asks for the legal moves on the board. Until they are known no square can be clicked. */
    async learn() {
        const { app } = this, { fen } = app, { rows } = app.position;
        if (!this.isOn || (this.legal && this.legalIn === fen)) return;
        this.legal = null;
        this.legalIn = fen;
        if (await app.fault()) return;
        const legal = await app.rules.legal(fen, rows);
        if (this.legalIn !== fen || app.fen !== fen || !this.isOn) return;
        this.legal = legal;
        app.tell('answered');
        this.show();
    }

    /**
     * Plays a move.
     * @param {Legal} legal
     */
    play(legal) {
        const { line } = this, again = line.undone[line.undone.length - 1];
        line.undone = again?.fen === legal.fen ? line.undone.slice(0, -1) : [];
        line.played = [...line.played, legal];
        this.app.look(legal.fen, legal.move);
    }

    /** Whether a move can be taken back, or played again. */
    get canTakeBack() {
        return this.isOn && this.line.played.length > 0;
    }

    get canReplay() {
        return this.isOn && this.line.undone.length > 0;
    }

    takeBack() {
        this.goBack(1);
    }

    /**
     * Takes moves back, and shows the position before them.
     * @param {number} count
     */
    goBack(count) {
        this.takeMovesBack(count);
        this.app.look(endOfLine(this.line), lastOfLine(this.line));
    }

    /** @param {number} count */
    takeMovesBack(count) {
        const { line } = this, kept = Math.max(line.played.length - count, 0);
        line.undone = [...line.undone, ...line.played.slice(kept).reverse()];
        line.played = line.played.slice(0, kept);
    }

    /**
     * Goes some moves on, or back if they are fewer than none. Answers whether there was one.
     * @param {number} count
     */
    step(count) {
        const { line } = this;
        if (count < 0 ? !this.canTakeBack : !this.canReplay) return false;
        if (count < 0) {
            this.goBack(-count);
            return true;
        }
        const again = line.undone.slice(-count).reverse();
        line.undone = line.undone.slice(0, line.undone.length - again.length);
        line.played = [...line.played, ...again];
        this.app.look(endOfLine(line), lastOfLine(line));
        return true;
    }

    /** Leaves the piece alone that was chosen. Answers whether there was one. */
    cancel() {
        if (!this.isOn || !this.chosen) return false;
        this.chosen = 0;
        reveal('choice', false);
        this.app.tell('answered');
        return true;
    }

    /** Plays the move again that was taken back last. */
    replay() {
        const { undone } = this.line, move = undone[undone.length - 1];
        if (move) this.play(move);
    }

    /** What is marked on the board: pieces that can move, and where the chosen one can go. */
    marks() {
        const legal = this.isOn && this.legalIn === this.app.fen ? this.legal ?? [] : [];
        const targets = new Set(this.fromChosen().map(endOf));
        return { sources: new Set(legal.map(startOf)), targets, chosen: this.isOn ? this.chosen : 0 };
    }

    fromChosen() {
        return this.isOn && this.chosen ? (this.legal ?? []).filter((legal) => startOf(legal) === this.chosen) : [];
    }

    /**
     * A piece is dragged: it is chosen, as by a click.
     * @param {number} square
     */
    lift(square) {
        if (!this.legal?.some((legal) => startOf(legal) === square)) return;
        this.chosen = square;
        reveal('choice', false);
        this.app.tell('answered');
    }

    /**
     * A piece that was dragged is put down: a move is played if it is one.
     * @param {number} from
     * @param {number} to
     */
    drop(from, to) {
        if (this.chosen !== from) return;
        if (this.fromChosen().some((legal) => endOf(legal) === to)) this.click(to);
        else this.cancel();
    }

    /** @param {number} square */
    click(square) {
        if (!this.legal || this.legalIn !== this.app.fen) return;
        const moves = this.fromChosen().filter((legal) => endOf(legal) === square);
        reveal('choice', false);
        if (moves.length === 1) this.play(moves[0]);
        else if (moves.length > 1) this.offer(moves);
        else {
            this.chosen = this.legal.some((legal) => startOf(legal) === square) && square !== this.chosen ? square : 0;
            this.app.tell('answered');
        }
    }

    /**
     * Lets one of several captures be chosen that begin and end alike.
     * @param {Legal[]} moves
     */
    offer(moves) {
        const buttons = moves.map((legal) => {
            const button = make('button', { type: 'button', 'data-move': legal.move }, legal.move);
            button.addEventListener('click', () => this.play(legal));
            return button;
        });
        byId('choice').replaceChildren(make('span', {}, this.app.say('choice')), ...buttons);
        reveal('choice', true);
        buttons[0].focus();
    }

    /** Shows what was played. */
    show() {
        reveal('played', this.isOn);
        if (!this.isOn) return;
        const { app } = this, { first, played } = this.line, side = app.position.turn === 'W' ? 'white' : 'black';
        const isOver = this.legalIn === app.fen && this.legal?.length === 0;
        const text = numbered(first, played.map(({ move }) => move));
        byId('played').textContent = [text, isOver ? app.say('noMoves', app.say(side)) : ''].filter(Boolean).join(' ');
        control('take-back', HTMLButtonElement).disabled = played.length === 0;
        control('play-start', HTMLButtonElement).disabled = played.length === 0;
    }
}
