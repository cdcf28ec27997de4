/** Solutions as trees of moves. */

/**
 * A move with the position after it, and the moves that follow.
 * @typedef {{move: string, fen: string, depth: number, parent: Node | null, next: Node[]}} Node
 * @typedef {{depth: number, move: string, fen: string}} Step
 */

/**
 * The beginning of a tree: no move.
 * @param {string} fen
 * @returns {Node}
 */
export const root = (fen) => ({ move: '', fen, depth: 0, parent: null, next: [] });

/**
 * A move more after a node.
 * @param {Node} parent
 * @param {string} move
 * @param {string} fen
 * @returns {Node}
 */
export function grow(parent, move, fen) {
    const node = { move, fen, depth: parent.depth + 1, parent, next: [] };
    parent.next.push(node);
    return node;
}

/**
 * The tree of moves with their depths, as `solution --json` writes them: each stands before what follows it.
 * @param {string} fen
 * @param {Step[]} steps
 */
export function treeOf(fen, steps) {
    const tree = root(fen);
    /** @type {Node[]} */
    const path = [tree];
    for (const { depth, move, fen: after } of steps) {
        path.length = depth;
        path.push(grow(path[depth - 1], move, after));
    }
    return tree;
}

/**
 * All moves of a tree, each before what follows it.
 * @param {Node} tree
 * @returns {Node[]}
 */
export const nodesOf = (tree) => tree.next.flatMap((node) => [node, ...nodesOf(node)]);

/**
 * The moves that lead to a node.
 * @param {Node} node
 * @returns {Node[]}
 */
export const pathTo = (node) => (node.parent ? [...pathTo(node.parent), node] : []);

/**
 * The number that stands before a move, as in PDN: before each of White's, and before Black's where one begins a row.
 * @param {boolean} isBlack Whether Black makes the first move of all.
 * @param {number} place The place of the move, counted from 0.
 * @param {boolean} isBegun Whether the move begins a row of moves.
 */
export function numberAt(isBlack, place, isBegun) {
    const ply = place + (isBlack ? 1 : 0), turn = Math.floor(ply / 2) + 1;
    if (ply % 2 === 0) return `${turn}. `;
    return isBegun ? `${turn}... ` : '';
}

/**
 * Moves that are played from a position, with their numbers.
 * @param {string} fen
 * @param {string[]} moves
 */
export const numbered = (fen, moves) =>
    moves.map((move, i) => `${numberAt(fen.startsWith('B'), i, i === 0)}${move}`).join(' ');

/**
 * The number that stands before a move of a tree.
 * @param {Node} node
 * @param {boolean} isBegun Whether the move begins a row of moves.
 */
export const numberOf = (node, isBegun) =>
    numberAt(Boolean(pathTo(node)[0]?.parent?.fen.startsWith('B')), node.depth - 1, isBegun);

/**
 * How many moves of the attacker follow each node, if he plays the quickest and the defender holds out longest.
 * @param {Node} tree
 */
export function lengthsOf(tree) {
    /** @type {Map<Node, number>} */
    const lengths = new Map();
    /** @type {(node: Node) => number} */
    const measure = (node) => {
        const after = node.next.map(measure), isAttacker = node.depth % 2 === 0;
        const length = after.length === 0 ? 0 : isAttacker ? 1 + Math.min(...after) : Math.max(...after);
        lengths.set(node, length);
        return length;
    };
    measure(tree);
    return lengths;
}

/**
 * How much of a tree is shown: its main line, the replies that hold out longest, or all.
 * @typedef {'main' | 'longest' | 'all'} Depth
 */

/** A tree as it is read: the main line first, with as much beside it as is asked for. */
export class Reading {
    /**
     * @param {Node} tree
     * @param {Depth} depth
     */
    constructor(tree, depth) {
        this.tree = tree;
        this.depth = depth;
        this.lengths = lengthsOf(tree);
    }

    /**
     * The moves after a node that are read: first the quickest of the attacker, or the reply that holds out longest.
     * @param {Node} node
     */
    next(node) {
        const isAttacker = node.depth % 2 === 0, length = (/** @type {Node} */ one) => this.lengths.get(one) ?? 0;
        const sorted = [...node.next].sort((a, b) => (isAttacker ? length(a) - length(b) : length(b) - length(a)));
        if (this.depth === 'all') return sorted;
        if (this.depth === 'main' || isAttacker) return sorted.slice(0, 1);
        return sorted.filter((one) => length(one) === length(sorted[0]));
    }

    /**
     * A node, and what follows it as its line goes on.
     * @param {Node} node
     */
    line(node) {
        const line = [node];
        for (let next = this.next(node)[0]; next; next = this.next(next)[0]) line.push(next);
        return line;
    }
}

/**
 * The main line of a tree as a text.
 * @param {Node} tree
 */
export const mainLine = (tree) =>
    numbered(tree.fen, new Reading(tree, 'main').line(tree).slice(1).map(({ move }) => move));
