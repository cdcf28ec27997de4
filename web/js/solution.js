/** A solution as a tree of moves: the main line first, then each variation on a line of its own, farther in. */
import { make } from './dom.js';
import { nodesOf, numberOf, Reading } from './tree.js';

/**
 * @typedef {import('./tree.js').Node} Node
 * @typedef {import('./tree.js').Depth} Depth
 * @typedef {'back' | 'on' | 'before' | 'after' | 'start' | 'end'} Step
 */

/** How many moves are shown before variations are folded, and how many each fold shows. */
const SHOWN = 400, FOLD = 200;

/** How far in a line stands at most. */
const DEEPEST = 6;

/** The tree on the page. */
export class SolutionView {
    /**
     * @param {HTMLElement} host
     * @param {(node: Node) => void} choose
     * @param {(count: number) => string} nameFold
     */
    constructor(host, choose, nameFold) {
        this.host = host;
        this.choose = choose;
        this.nameFold = nameFold;
        /** @type {Map<Node, HTMLElement>} */
        this.shown = new Map();
        /** @type {WeakMap<Element, Node>} */
        this.nodes = new WeakMap();
        /** @type {Node | null} */
        this.tree = null;
        /** @type {Reading | null} */
        this.reading = null;
        /** @type {Node | null} */
        this.here = null;
        host.addEventListener('click', ({ target }) => this.onClick(target));
    }

    /**
     * Shows a tree, or none, as deep as is asked for. The move whose position is on the board stays, if it is shown.
     * @param {Node | null} tree
     * @param {Depth} depth
     */
    show(tree, depth) {
        if (this.tree !== tree) this.here = tree;
        this.tree = tree;
        this.reading = tree && new Reading(tree, depth);
        this.shown.clear();
        const first = tree && this.reading?.next(tree)[0];
        this.host.replaceChildren(...(first ? this.lines(first, 0, { left: SHOWN }, true) : []));
        this.mark();
    }

    /**
     * The line of a move, and those of its variations.
     * @param {Node} first
     * @param {number} level How far in they stand.
     * @param {{left: number}} budget
     * @param {boolean} isMain Whether other first moves belong to it.
     * @returns {HTMLElement[]}
     */
    lines(first, level, budget, isMain = false) {
        const reading = /** @type {Reading} */ (this.reading), line = reading.line(first);
        const host = this.row(level);
        line.forEach((node, i) => host.append(...(i ? [' '] : []), this.button(node, i === 0, level)));
        budget.left -= line.length;
        const starts = isMain && first.parent ? [first.parent, ...line] : line;
        const others = starts.flatMap((node) => reading.next(node).slice(1));
        return [host, ...others.flatMap((other) => this.branch(other, level + 1, budget))];
    }

    /** @param {number} level */
    row(level) {
        const shown = String(Math.min(level, DEEPEST));
        return make('div', { class: level ? 'line variation' : 'line', role: 'group', 'data-level': shown });
    }

    /**
     * The lines of a variation, or the button that unfolds them.
     * @param {Node} node
     * @param {number} level
     * @param {{left: number}} budget
     */
    branch(node, level, budget) {
        const rest = nodesOf(node).length;
        if (budget.left > 0 || rest === 0) return this.lines(node, level, budget);
        const host = this.row(level);
        const data = { role: 'treeitem', 'aria-expanded': 'false', 'aria-level': String(level + 1) };
        const fold = make('button', { type: 'button', class: 'fold', ...data }, this.nameFold(rest));
        fold.addEventListener('click', () => {
            for (const line of this.lines(node, level, { left: FOLD })) this.host.insertBefore(line, host);
            host.remove();
            this.go(node);
        });
        host.append(this.button(node, true, level), ' ', fold);
        return [host];
    }

    /**
     * @param {Node} node
     * @param {boolean} isBegun
     * @param {number} level
     */
    button(node, isBegun, level) {
        const data = { 'data-fen': node.fen, 'data-move': node.move, 'aria-level': String(level + 1) };
        const name = node.depth % 2 ? 'move attacker' : 'move';
        const text = `${numberOf(node, isBegun)}${node.move}`;
        const made = make('button', { type: 'button', class: name, role: 'treeitem', tabindex: '-1', ...data }, text);
        this.shown.set(node, made);
        this.nodes.set(made, node);
        return made;
    }

    /** @param {EventTarget | null} target */
    onClick(target) {
        const node = target instanceof Element ? this.nodes.get(target) : undefined;
        if (node) this.go(node);
    }

    /**
     * Goes to the move before or after, to the start or the end, or to another move in place of this one. Answers
     * whether there is one.
     * @param {Step} where
     */
    step(where) {
        const { tree, reading } = this, here = this.here ?? tree;
        if (!here || !tree || !reading) return false;
        const line = reading.line(here), beside = here.parent ? reading.next(here.parent) : [here];
        const at = beside.indexOf(here);
        const to = {
            start: tree, back: here.parent, on: line[1], end: line[line.length - 1],
            before: beside[at - 1], after: beside[at + 1],
        }[where];
        // (the board may show what is in no line, as a try)
        if (!to || (to === here && where !== 'start')) return false;
        this.go(to);
        return true;
    }

    /** Goes to the start, without a word to others. */
    leave() {
        this.here = this.tree;
        this.mark();
    }

    /** @param {Node} node */
    go(node) {
        this.here = node;
        this.mark();
        const button = this.shown.get(node);
        if (this.host.contains(document.activeElement)) button?.focus({ preventScroll: true });
        if (button) this.bringIntoView(button);
        this.choose(node);
    }

    /**
     * Scrolls the tree, and nothing else, so that a move is seen.
     * @param {HTMLElement} button
     */
    bringIntoView(button) {
        const place = button.getBoundingClientRect(), frame = this.host.getBoundingClientRect();
        if (place.top < frame.top) this.host.scrollTop -= frame.top - place.top;
        else if (place.bottom > frame.bottom) this.host.scrollTop += place.bottom - frame.bottom;
    }

    /** Marks the move whose position is on the board; it alone takes the focus by the tabulator. */
    mark() {
        for (const [node, button] of this.shown) {
            const isHere = node === this.here;
            button.classList.toggle('here', isHere);
            if (isHere) button.setAttribute('aria-current', 'true');
            else button.removeAttribute('aria-current');
            button.tabIndex = isHere ? 0 : -1;
        }
        const first = this.tree && this.reading?.next(this.tree)[0];
        const isAtStart = !this.here?.parent || !this.shown.has(this.here);
        if (first && isAtStart) /** @type {HTMLElement} */ (this.shown.get(first)).tabIndex = 0;
    }
}
