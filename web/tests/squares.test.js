import assert from 'node:assert/strict';
import test from 'node:test';
import { pathsOf } from '../js/diagram.js';
import { positionOf } from '../js/position.js';
import { placeOf, squareAt, squareBeside, squareCount } from '../js/squares.js';

test('squares and places are inverse, on both boards', () => {
    for (const rows of /** @type {const} */ ([10, 8])) {
        const seen = new Set();
        for (let square = 1; square <= squareCount(rows); square++) {
            const { row, column } = placeOf(rows, square);
            assert.equal((row + column) % 2, 1);
            assert.equal(squareAt(rows, row, column), square);
            seen.add(`${row} ${column}`);
        }
        assert.equal(seen.size, (rows * rows) / 2);
        assert.equal(squareAt(rows, 0, 0), 0);
        assert.equal(squareAt(rows, -1, 0), 0);
        assert.equal(squareAt(rows, rows, 1), 0);
    }
});

test('corners have the numbers of the game', () => {
    assert.deepEqual(placeOf(10, 1), { row: 0, column: 1 });
    assert.deepEqual(placeOf(10, 46), { row: 9, column: 0 });
    assert.deepEqual(placeOf(8, 32), { row: 7, column: 6 });
});

test('arrow keys come to every square, and stay on the board', () => {
    for (const rows of /** @type {const} */ ([10, 8])) {
        for (const isTurned of [false, true]) {
            const seen = new Set([1]), next = [1];
            for (let square = next.pop(); square !== undefined; square = next.pop()) {
                for (const key of ['ArrowLeft', 'ArrowRight', 'ArrowUp', 'ArrowDown']) {
                    const to = squareBeside(rows, square, key, isTurned);
                    assert.ok(to >= 1 && to <= squareCount(rows));
                    if (!seen.has(to)) next.push(to);
                    seen.add(to);
                }
            }
            assert.equal(seen.size, squareCount(rows));
        }
    }
    assert.equal(squareBeside(10, 32, 'ArrowUp', false), 27);
    assert.equal(squareBeside(10, 27, 'ArrowDown', false), 32);
    assert.equal(squareBeside(10, 28, 'ArrowRight', false), 29);
    assert.equal(squareBeside(10, 28, 'ArrowRight', true), 27);
    assert.equal(squareBeside(10, 28, 'x', false), 28);
});

test('a diagram has the outlines of its squares and pieces', () => {
    const paths = pathsOf(positionOf('W:W27,K32:B18', 10));
    assert.deepEqual(paths.map(([name]) => name), ['dark-squares', 'edge white', 'edge black', 'crown white']);
    const counts = paths.map(([, d]) => d.split('M').length - 1);
    assert.deepEqual(counts, [50, 2, 1, 1]);
    assert.ok(paths[2][1].startsWith('M4 3m'));
    assert.deepEqual(pathsOf(positionOf('W:W:B', 8)).map(([, d]) => d.split('M').length - 1), [32]);
});
