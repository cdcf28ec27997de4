import assert from 'node:assert/strict';
import test from 'node:test';
import { pictureOf } from '../js/picture.js';
import { positionOf } from '../js/position.js';
import { lengthsOf, mainLine, numbered, Reading, treeOf } from '../js/tree.js';

const LOOK = { isTurned: false, hasNumbers: false, above: '', below: /** @type {string[]} */ ([]) };

/** Where the pieces of a picture stand. */
const middles = (/** @type {string} */ svg) =>
    [...svg.matchAll(/<circle cx="([\d.]+)" cy="([\d.]+)" r="15"/g)].map(([, x, y]) => [Number(x), Number(y)]);

test('a picture has the pieces on their squares, seen from either side', () => {
    const position = positionOf('W:W1,K50:B28', 10), { svg, width, height } = pictureOf(position, LOOK);
    assert.deepEqual(middles(svg), [[60, 20], [340, 380], [180, 220]]);
    assert.deepEqual(middles(pictureOf(position, { ...LOOK, isTurned: true }).svg), [[340, 380], [60, 20], [220, 180]]);
    assert.ok(width === 424 && height >= width && !svg.includes('<text'));
    assert.equal(pictureOf(positionOf('W:W1:B2', 8), LOOK).width, 344);
});

test('numbers stand in the corners of all squares, outside the pieces', () => {
    const { svg } = pictureOf(positionOf('W:W28:B1', 10), { ...LOOK, hasNumbers: true });
    const texts = [...svg.matchAll(/<text x="([\d.]+)" y="([\d.]+)" font-size="8">(\d+)</g)];
    assert.equal(texts.length, 50);
    for (const [, x, y, number] of texts) {
        const right = (Number(x) % 40) + number.length * 4.6, below = Number(y) % 40;
        assert.ok(Math.hypot(20 - right, 20 - below) > 15.75, number);
    }
});

test('the texts of a picture are escaped, and broken between words', () => {
    const { svg, height } = pictureOf(positionOf('W:W1:B2', 10), {
        ...LOOK, above: 'A <b> & "c"', below: ['White to play', '1. 32-28 18-22 '.repeat(12)],
    });
    assert.match(svg, />A &#60;b&#62; &#38; &#34;c&#34;</);
    const odd = pictureOf(positionOf('W:W1:B2', 10), { ...LOOK, above: 'a\u0001b\ud800c' });
    assert.match(decodeURIComponent(encodeURIComponent(odd.svg)), />a b c</);
    assert.equal((svg.match(/1\. 32-28/g) ?? []).length, 12);
    assert.ok((svg.match(/<text/g) ?? []).length >= 6 && height > 500);
});

test('the main line is the one that holds out longest, and the quickest of the attacker', () => {
    const steps = [[1, 'a'], [2, 'b'], [3, 'c'], [2, 'd'], [3, 'e'], [4, 'f'], [5, 'g'], [3, 'h'], [4, 'i'], [5, 'j'],
        [4, 'k'], [5, 'l'], [6, 'm'], [7, 'n'], [2, 'o'], [3, 'p'], [4, 'q'], [5, 'r']];
    const made = steps.map(([depth, move]) => ({ depth: Number(depth), move: String(move), fen: '' }));
    const tree = treeOf('W:W1:B2', made);
    assert.equal(lengthsOf(tree).get(tree), 3);
    assert.equal(mainLine(tree), '1. a d 2. e f 3. g');
    const moves = (/** @type {import('../js/tree.js').Depth} */ depth) => {
        const reading = new Reading(tree, depth);
        return reading.next(tree.next[0]).map(({ move }) => move).join();
    };
    assert.deepEqual([moves('main'), moves('longest'), moves('all')], ['d', 'd,o', 'd,o,b']);
    assert.equal(numbered('B:W1:B2', ['a', 'b', 'c']), '1... a 2. b c');
});
