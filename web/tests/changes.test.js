import assert from 'node:assert/strict';
import test from 'node:test';
import { changeOf, changeText, inOrder } from '../js/changes.js';
import { textIn } from '../js/languages.js';
import { positionOf } from '../js/position.js';

const BEFORE = positionOf('W:W27,32:B18', 10);
/** Positions after changes, in the order in which the changes are made, and the texts of these. */
const CHANGES = [
    ['W:W32:B18', 'without 27'], ['W:W27:B18', 'without 32'], ['W:W17,27,32:B18', 'with W17'],
    ['W:WK17,27,32:B18', 'with WK17'], ['W:W27,32:B17,18', 'with B17'], ['W:W27,32:BK17,18', 'with BK17'],
    ['W:W19,27,32:B18', 'with W19'], ['W:W27,32:B11', '18 to 11'], ['W:W27,32:B12', '18 to 12'],
    ['W:W6,32:B18', '27 to 6'], ['W:WK27,32:B18', '27 as king'], ['W:W27,K32:B18', '32 as king'],
];

test('changes are found by comparing positions, and have the order in which they are made', () => {
    const found = CHANGES.map(([fen]) => changeOf(BEFORE, positionOf(fen, 10)));
    /** @type {import('../js/changes.js').Say} */
    const english = (key, ...values) => textIn('en', key, ...values);
    assert.deepEqual(found.map((change) => changeText(change, english)), CHANGES.map(([, text]) => text));
    assert.deepEqual([...found].reverse().sort(inOrder), found);
    assert.equal(inOrder(found[2], found[2]), 0);
});

test('changes are told in each language', () => {
    /** @type {import('../js/changes.js').Say} */
    const dutch = (key, ...values) => textIn('nl', key, ...values);
    const told = (/** @type {string} */ before, /** @type {string} */ after) =>
        changeText(changeOf(positionOf(before, 10), positionOf(after, 10)), dutch);
    assert.equal(told('W:W27,32:B18', 'W:W32:B18'), 'zonder 27');
    assert.equal(told('W:W27,32:B18', 'W:W6,32:B18'), '27 naar 6');
    assert.equal(told('W:WK27,32:B18', 'W:W27,32:B18'), '27 als schijf');
});
