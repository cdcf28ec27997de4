/** Dragging: by a mouse at once, by a finger once it has rested on a piece, so that a swipe scrolls the page. */

/**
 * @typedef {{
 *   pieceAt: (target: EventTarget | null) => number,
 *   lift: (square: number) => SVGElement,
 *   drop: (square: number, at: PointerEvent | null) => void,
 * }} Actions `pieceAt` answers the square of a piece that can be dragged, or 0.
 */

/** How many points the pointer moves before it drags. */
const DRAGS = 6;

/** How long a finger rests before it drags, in milliseconds. */
const HOLD = 250;

/** For how long a click after a drag is no click, in milliseconds. */
const CLICK = 50;

const POINTER_EVENTS = /** @type {const} */ (['pointermove', 'pointerup', 'pointercancel']);

/** Drags pieces over a board. */
export class Dragging {
    /**
     * @param {HTMLElement} host
     * @param {Actions} actions
     */
    constructor(host, actions) {
        this.actions = actions;
        /** Whether a finger holds a piece. */
        this.isHeld = false;
        this.isDragged = false;
        host.addEventListener('pointerdown', (event) => this.onPress(event));
        host.addEventListener('touchmove', (event) => {
            if (this.isHeld && event.cancelable) event.preventDefault();
        }, { passive: false });
    }

    /** Whether a click ends a drag, and so is none. */
    hasDragged() {
        const { isDragged } = this;
        this.isDragged = false;
        return isDragged;
    }

    /** @param {PointerEvent} event */
    onPress(event) {
        const from = this.actions.pieceAt(event.target);
        this.isDragged = this.isHeld = false;
        if (!from || event.button !== 0) return;
        if (event.pointerType === 'touch') this.hold(event, from);
        else this.drag(event, from);
    }

    /**
     * Calls what follows of one pointer, until that answers that it has ended.
     * @param {PointerEvent} event
     * @param {(at: PointerEvent) => boolean} act
     */
    follow(event, act) {
        const listen = (/** @type {PointerEvent} */ at) => {
            if (at.pointerId === event.pointerId && act(at)) end();
        };
        const end = () => POINTER_EVENTS.forEach((kind) => removeEventListener(kind, listen));
        POINTER_EVENTS.forEach((kind) => addEventListener(kind, listen));
        return end;
    }

    /**
     * Waits whether a finger rests where it came down.
     * @param {PointerEvent} event
     * @param {number} from
     */
    hold(event, from) {
        const timer = window.setTimeout(() => {
            end();
            if (this.actions.pieceAt(event.target) !== from) return;
            this.isHeld = true;
            this.drag(event, from);
        }, HOLD);
        const end = this.follow(event, (at) => {
            const isOver = at.type !== 'pointermove' || distance(event, at) >= DRAGS;
            if (isOver) clearTimeout(timer);
            return isOver;
        });
    }

    /**
     * Lets a piece follow the pointer until that goes up.
     * @param {PointerEvent} event
     * @param {number} from
     */
    drag(event, from) {
        /** @type {SVGElement | null} */
        let shadow = null;
        const move = (/** @type {PointerEvent} */ at) => {
            shadow ??= this.actions.lift(from);
            shadow.style.transform = `translate(${at.clientX}px, ${at.clientY}px) translate(-50%, -50%)`;
        };
        if (this.isHeld) move(event);
        this.follow(event, (at) => {
            if (at.type === 'pointermove') {
                if (shadow || distance(event, at) >= DRAGS) move(at);
                return false;
            }
            this.isHeld = false;
            if (!shadow) return true;
            shadow.remove();
            this.isDragged = true;
            setTimeout(() => { this.isDragged = false; }, CLICK);
            this.actions.drop(from, at.type === 'pointerup' ? at : null);
            return true;
        });
    }
}

/**
 * How far two events are from each other, in points.
 * @param {PointerEvent} a
 * @param {PointerEvent} b
 */
const distance = (a, b) => Math.hypot(b.clientX - a.clientX, b.clientY - a.clientY);
