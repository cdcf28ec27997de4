/** The board on the page: squares that are clicked, pieces that are dragged, a cursor that keys move. */
import { draw, make } from './dom.js';
import { Dragging } from './drag.js';
import { squareAt, squareBeside, squareCount } from './squares.js';

/**
 * @typedef {import('./position.js').Position} Position
 * @typedef {import('./position.js').Piece} Piece
 * @typedef {import('./squares.js').Rows} Rows
 * @typedef {{
 *   click: (square: number) => void,
 *   lift: (square: number) => void,
 *   move: (from: number, to: number) => void,
 *   erase: (square: number) => void,
 *   place: (square: number, piece: Piece) => void,
 *   name: (square: number, piece: Piece | undefined) => string,
 * }} Actions
 * @typedef {{isTurned: boolean, isEdited: boolean, isReplay: boolean, sources: Set<number>, targets: Set<number>,
 *   chosen: number, faulty: Set<number>, path: number[]}} Look `path` has the squares of the last move.
 */

/** For how long a piece glides from square to square, and at most, in milliseconds. */
const GLIDE = 160, LONGEST_GLIDE = 480;

/** The picture of a piece. */
export function pieceOf(/** @type {Piece} */ piece) {
    const name = piece === 'W' || piece === 'B' ? 'king' : 'man';
    return draw('svg', { viewBox: '0 0 100 100', class: 'piece', 'aria-hidden': 'true' },
        draw('use', { href: `#${name}`, class: piece === 'w' || piece === 'W' ? 'white' : 'black' }));
}

/** A board. */
export class BoardView {
    /**
     * @param {HTMLElement} host
     * @param {Actions} actions
     */
    constructor(host, actions) {
        this.host = host;
        this.actions = actions;
        /** @type {Map<number, HTMLElement>} */
        this.squares = new Map();
        /** @type {Position | null} */
        this.position = null;
        /** @type {Look} */
        this.look = {
            isTurned: false, isEdited: true, isReplay: false, sources: new Set(), targets: new Set(), chosen: 0,
            faulty: new Set(), path: [],
        };
        this.cursor = 1;
        this.isPointed = false;
        this.dragging = new Dragging(host, {
            pieceAt: (target) => this.pieceAt(target),
            lift: (square) => this.lift(square),
            drop: (from, at) => this.drop(from, at),
        });
        host.addEventListener('click', (event) => this.onClick(event));
        host.addEventListener('contextmenu', (event) => this.onErase(event));
        host.addEventListener('keydown', (event) => this.onKey(event));
        host.addEventListener('focusin', ({ target }) => this.moveCursor(this.squareOf(target)));
        // (whoever plays by pointer has the arrow keys for the moves, and not for the cursor)
        host.addEventListener('pointerdown', () => { this.isPointed = true; });
        document.addEventListener('keydown', ({ key }) => { this.isPointed &&= key !== 'Tab'; });
    }

    /** The keys go to the square of the cursor. */
    focus() {
        this.squares.get(this.cursor)?.focus();
    }

    /** @param {EventTarget | null} target */
    squareOf(target) {
        const element = target instanceof Element ? target.closest('[data-square]') : null;
        return element && this.host.contains(element) ? Number(element.getAttribute('data-square')) : 0;
    }

    /**
     * Shows a position.
     * @param {Position} position
     * @param {Look} look
     */
    show(position, look) {
        if (this.position?.rows !== position.rows || this.look.isTurned !== look.isTurned) {
            this.build(position.rows, look.isTurned);
        }
        const before = this.position, [from] = look.path, to = look.path[look.path.length - 1];
        this.position = position;
        this.look = look;
        for (const [square, element] of this.squares) this.showSquare(square, element);
        const isMoved = before !== position && before?.pieces.has(from) && !before.pieces.has(to);
        if (isMoved && position.pieces.has(to)) this.glide(look.path);
    }

    /**
     * The piece that has moved glides to where it stands, over the squares of its move.
     * @param {number[]} path
     */
    glide(path) {
        const end = this.squares.get(path[path.length - 1]), piece = end?.querySelector('.piece');
        if (!end || !piece?.animate || matchMedia('(prefers-reduced-motion: reduce)').matches) return;
        const there = end.getBoundingClientRect();
        const frames = path.flatMap((square) => {
            const place = this.squares.get(square)?.getBoundingClientRect();
            return place ? { transform: `translate(${place.left - there.left}px, ${place.top - there.top}px)` } : [];
        });
        const duration = Math.min(GLIDE * (path.length - 1), LONGEST_GLIDE);
        piece.animate(frames, { duration, easing: 'ease-in-out' });
    }

    /**
     * @param {number} square
     * @param {HTMLElement} element
     */
    showSquare(square, element) {
        const piece = this.position?.pieces.get(square);
        const { sources, targets, chosen, isEdited, faulty, path } = this.look;
        if (element.dataset.piece !== piece) {
            element.querySelector('.piece')?.remove();
            if (piece) {
                element.dataset.piece = piece;
                element.prepend(pieceOf(piece));
            } else {
                delete element.dataset.piece;
            }
        }
        element.classList.toggle('held', isEdited && Boolean(piece));
        element.classList.toggle('source', sources.has(square));
        element.classList.toggle('target', targets.has(square));
        element.classList.toggle('chosen', chosen === square);
        element.classList.toggle('faulty', faulty.has(square));
        element.classList.toggle('last', path.length > 0 && (path[0] === square || path[path.length - 1] === square));
        if (faulty.has(square)) element.setAttribute('aria-invalid', 'true');
        else element.removeAttribute('aria-invalid');
        element.setAttribute('aria-label', this.actions.name(square, piece));
    }

    /**
     * Makes the squares anew.
     * @param {Rows} rows
     * @param {boolean} isTurned
     */
    build(rows, isTurned) {
        this.squares.clear();
        this.host.dataset.rows = String(rows);
        const cells = [];
        for (let i = 0; i < rows * rows; i++) {
            const at = isTurned ? rows * rows - 1 - i : i;
            const square = squareAt(rows, Math.floor(at / rows), at % rows);
            cells.push(square ? this.buildSquare(square) : make('span', { class: 'light', 'aria-hidden': 'true' }));
        }
        this.host.replaceChildren(...cells);
        this.cursor = Math.min(this.cursor, squareCount(rows));
        this.moveCursor(this.cursor);
    }

    /** @param {number} square */
    buildSquare(square) {
        const element = make('button', { type: 'button', class: 'dark', 'data-square': String(square), tabindex: '-1' },
            make('span', { class: 'number', 'aria-hidden': 'true' }, String(square)));
        this.squares.set(square, element);
        return element;
    }

    /** @param {number} square */
    moveCursor(square) {
        if (!square) return;
        this.squares.get(this.cursor)?.setAttribute('tabindex', '-1');
        this.cursor = square;
        this.squares.get(square)?.setAttribute('tabindex', '0');
    }

    /** @param {MouseEvent} event */
    onClick(event) {
        const square = this.squareOf(event.target);
        if (square && !this.dragging.hasDragged()) this.actions.click(square);
    }

    /** @param {MouseEvent} event */
    onErase(event) {
        const square = this.squareOf(event.target);
        if (!square || !this.look.isEdited) return;
        event.preventDefault();
        // (a finger that holds a piece calls for no menu)
        if (!this.dragging.isHeld) this.actions.erase(square);
    }

    /** @param {KeyboardEvent} event */
    onKey(event) {
        const square = this.squareOf(event.target);
        if (!square || !this.position || event.ctrlKey || event.metaKey || event.altKey) return;
        const { key } = event;
        if (key.startsWith('Arrow') && !this.look.isEdited && (this.look.isReplay || this.isPointed)) {
            return;
        } else if (key.startsWith('Arrow')) {
            this.squares.get(squareBeside(this.position.rows, square, key, this.look.isTurned))?.focus();
        } else if (!this.look.isEdited) {
            return;
        } else if (key === 'w' || key === 'W' || key === 'b' || key === 'B') {
            this.actions.place(square, key);
        } else if (key === 'Delete' || key === 'Backspace') {
            this.actions.erase(square);
        } else {
            return;
        }
        event.preventDefault();
    }

    /**
     * The square of a piece that can be dragged.
     * @param {EventTarget | null} target
     */
    pieceAt(target) {
        const square = this.squareOf(target);
        const { isEdited, sources } = this.look;
        return sources.has(square) || (isEdited && this.position?.pieces.has(square)) ? square : 0;
    }

    /**
     * A picture of a piece that follows the pointer.
     * @param {number} from
     */
    lift(from) {
        const square = /** @type {HTMLElement} */ (this.squares.get(from));
        this.actions.lift(from);
        square.classList.add('lifted');
        const shadow = pieceOf(/** @type {Piece} */ (square.dataset.piece));
        shadow.classList.add('shadow');
        shadow.style.width = `${square.clientWidth}px`;
        document.body.append(shadow);
        return shadow;
    }

    /**
     * Puts a piece down where the pointer goes up: on a square, or off the board.
     * @param {number} from
     * @param {PointerEvent | null} at
     */
    drop(from, at) {
        this.squares.get(from)?.classList.remove('lifted');
        if (!at) return;
        const to = this.squareOf(document.elementFromPoint(at.clientX, at.clientY));
        if (!this.look.isEdited) {
            this.actions.move(from, to);
            return;
        }
        const box = this.host.getBoundingClientRect();
        const isBeside = at.clientX < box.left || at.clientX > box.right;
        const isOff = isBeside || at.clientY < box.top || at.clientY > box.bottom;
        if (to) this.actions.move(from, to);
        else if (isOff) this.actions.erase(from);
    }
}
