/** Setting up a position: the board, the palette and the tools. */
import { faultOf } from './answers.js';
import { BoardView, pieceOf } from './board.js';
import { byId, chooseOne, control, reveal } from './dom.js';
import {
    emptyBoard, exchanged, mirrored, onBoard, opening, withMoved, withPiece,
} from './position.js';
import { keyOf } from './languages.js';
import { squaresIn } from './play.js';
import { squareCount } from './squares.js';

/**
 * @typedef {import('./app.js').App} App
 * @typedef {import('./play.js').Play} Play
 * @typedef {import('./position.js').Piece} Piece
 */

/** @type {Readonly<Record<Piece, import('./languages.js').Key>>} */
const NAMES = { w: 'whiteMan', W: 'whiteKing', b: 'blackMan', B: 'blackKing' };

/** How long a key may be down that follows the link to the board, in milliseconds. */
const SETTLED = 150;

/** What changes the position on the board, and so rests while a later one is shown. */
const EDITORS = ['turn', 'rows', 'mirror', 'exchange'];

/** The board and what belongs to it. */
export class SetUp {
    /**
     * @param {App} app
     * @param {Play} play
     */
    constructor(app, play) {
        this.app = app;
        this.play = play;
        /** @type {Piece | ''} */
        this.chosen = 'w';
        this.isTurned = false;
        this.view = new BoardView(byId('board'), {
            click: (square) => (play.isOn ? play.click(square) : this.put(square)),
            lift: (square) => { if (play.isOn) play.lift(square); },
            move: (from, to) => (play.isOn ? play.drop(from, to) : app.edit(withMoved(app.position, from, to))),
            erase: (square) => app.edit(withPiece(app.position, square, null)),
            place: (square, piece) => app.edit(withPiece(app.position, square, piece)),
            name: (square, piece) => `${app.say('square', square)}, ${app.say(piece ? NAMES[piece] : 'emptySquare')}`,
        });
        this.listenToPalette();
        this.listenToTools();
        this.listenToKeys();
        app.on(['edited', 'looked', 'spoken', 'answered', 'read'], () => this.draw());
        // (a sheet has the problem that its answer belongs to, and not a later position)
        addEventListener('beforeprint', () => app.returnToSubject());
    }

    /**
     * A click puts the chosen piece, and takes away one of the same kind. On a later position of a solution it does
     * nothing.
     * @param {number} square
     */
    put(square) {
        const { app, chosen } = this, isThere = app.position.pieces.get(square) === chosen;
        if (!app.isReplay) app.edit(withPiece(app.position, square, chosen && !isThere ? chosen : null));
    }

    listenToPalette() {
        const choices = /** @type {HTMLElement[]} */ ([...document.querySelectorAll('[data-piece-choice]')]);
        for (const button of choices) {
            const piece = /** @type {Piece | ''} */ (button.dataset.pieceChoice);
            if (piece) button.append(pieceOf(piece));
        }
        chooseOne(choices, (button) => { this.chosen = /** @type {Piece | ''} */ (button.dataset.pieceChoice); });
        chooseOne([byId('mode-setup'), byId('mode-play')], (button) => this.play.turn(button.id === 'mode-play'));
    }

    listenToTools() {
        const { app } = this;
        const on = (/** @type {string} */ id, /** @type {() => void} */ act) => byId(id).addEventListener('click', act);
        on('clear', () => app.edit({ ...emptyBoard(app.position.rows), turn: app.position.turn }));
        on('opening', () => app.edit(opening(app.position.rows)));
        on('mirror', () => app.edit(mirrored(app.position)));
        on('exchange', () => app.edit(exchanged(app.position)));
        on('undo', () => this.undo());
        on('redo', () => this.redo());
        on('look-back', () => app.look(null));
        on('flip', () => {
            this.isTurned = !this.isTurned;
            app.tell('answered');
        });
        byId('skip').addEventListener('click', (event) => {
            event.preventDefault();
            // (Firefox takes no further Enter for a click if the focus moves before the key goes up)
            setTimeout(() => this.view.focus(), SETTLED);
        });
        byId('turn').addEventListener('change', () => {
            const turn = control('turn', HTMLSelectElement).value === 'B' ? 'B' : 'W';
            app.edit({ ...app.position, turn });
        });
        byId('rows').addEventListener('change', () => {
            const rows = control('rows', HTMLSelectElement).value === '8' ? 8 : 10;
            app.edit(onBoard(app.position, rows));
        });
        const number = () => byId('board').classList.toggle('numbered', control('numbers', HTMLInputElement).checked);
        byId('numbers').addEventListener('change', number);
        number();
    }

    /** While moves are played, they are taken back and played again; else changes of the problem are. */
    undo() {
        if (this.play.canTakeBack) this.play.takeBack();
        else this.app.undo();
    }

    redo() {
        if (this.play.canReplay) this.play.replay();
        else this.app.redo();
    }

    listenToKeys() {
        addEventListener('keydown', (event) => {
            const isText = event.target instanceof HTMLInputElement || event.target instanceof HTMLTextAreaElement;
            if (isText || !(event.ctrlKey || event.metaKey)) return;
            if (event.key === 'z' && !event.shiftKey) this.undo();
            else if (event.key === 'y' || event.key === 'Z' || event.key === 'z') this.redo();
            else return;
            event.preventDefault();
        });
    }

    /** The squares on the board that the program refuses. */
    faulty() {
        const { app } = this, fault = faultOf(app.refused), text = app.fen;
        if (!fault || byId('fen').dataset.read !== text) return [];
        return [Number(/^K?(\d+)/.exec(text.slice(fault.place - 1))?.[1] ?? 0)];
    }

    draw() {
        const { app, play } = this, { position } = app, isEdited = !play.isOn && !app.isReplay;
        const faulty = new Set(this.faulty());
        const { isTurned } = this, { isReplay } = app;
        const path = app.lastMove ? squaresIn(app.lastMove) : [];
        this.view.show(position, { isTurned, isEdited, isReplay, faulty, path, ...play.marks() });
        control('turn', HTMLSelectElement).value = position.turn;
        control('rows', HTMLSelectElement).value = String(position.rows);
        for (const id of EDITORS) byId(id).toggleAttribute('disabled', app.isReplay);
        byId('drop-rows').textContent = app.say(position.rows === 8 ? 'rows8' : 'rows10');
        reveal('palette', !play.isOn);
        reveal('play-tools', play.isOn);
        reveal('looked', app.looked !== null);
        reveal('turn-field', app.looked === null);
        const hint = matchMedia('(hover: none)').matches ? 'holdHint' : 'boardHint';
        byId('board-hint').textContent = app.say(play.isOn ? 'playHint' : app.isReplay ? 'replayHint' : hint);
        const fault = faulty.size ? faultOf(app.refused) : null, why = keyOf(`fault${fault?.number}`);
        byId('board-fault').textContent = why ? app.say(why, squareCount(position.rows)) : '';
        reveal('board-fault', faulty.size > 0);
        reveal('named', faulty.size === 0);
        control('undo', HTMLButtonElement).disabled = !play.canTakeBack && app.history.before.length === 0;
        control('redo', HTMLButtonElement).disabled = !play.canReplay && app.history.after.length === 0;
    }
}
