import assert from 'node:assert/strict';
import test from 'node:test';
import { History } from '../js/history.js';
import {
    emptyBoard, exchanged, fenOf, isSame, mirrored, onBoard, opening, positionOf, withMoved, withPiece,
} from '../js/position.js';

const FENS = ['W:W27,32:B18', 'B:WK7,31:BK12,13', 'W:W:B', 'B:W50:B1'];

test('a text of a position is read and written as it stands', () => {
    for (const fen of FENS) assert.equal(fenOf(positionOf(fen, 10)), fen);
    assert.equal(fenOf(emptyBoard(8)), 'W:W:B');
});

test('the opening has all men', () => {
    assert.equal(opening(10).pieces.size, 40);
    assert.equal(opening(8).pieces.size, 24);
    assert.match(fenOf(opening(10)), /^W:W31,32.*,50:B1,2.*,20$/);
    assert.match(fenOf(opening(8)), /^W:W21,22.*,32:B1,2.*,12$/);
});

test('pieces are put, moved and taken away', () => {
    const position = withPiece(positionOf('W:W27:B18', 10), 5, 'W');
    assert.equal(fenOf(position), 'W:WK5,27:B18');
    assert.equal(fenOf(withMoved(position, 5, 18)), 'W:WK18,27:B');
    assert.equal(fenOf(withMoved(position, 6, 18)), fenOf(position));
    assert.equal(fenOf(withPiece(position, 5, null)), 'W:W27:B18');
});

test('mirroring and exchanging twice give the position again', () => {
    for (const fen of FENS) {
        const position = positionOf(fen, 10);
        assert.ok(isSame(mirrored(mirrored(position)), position));
        assert.ok(isSame(exchanged(exchanged(position)), position));
    }
    assert.equal(fenOf(exchanged(positionOf('W:W27,32:BK18', 10))), 'B:WK33:B19,24');
    assert.equal(fenOf(mirrored(positionOf('W:W27:B18', 10))), 'W:W24:B33');
});

test('a smaller board loses the squares that it has not', () => {
    assert.equal(fenOf(onBoard(positionOf('W:W27,45:B16', 10), 8)), 'W:W27:B16');
});

test('changes are undone and done again', () => {
    const history = new History(1, (a, b) => a === b);
    history.put(2);
    history.put(2);
    history.put(3);
    history.undo();
    assert.equal(history.now, 2);
    history.undo();
    history.undo();
    assert.equal(history.now, 1);
    history.redo();
    history.redo();
    history.redo();
    assert.equal(history.now, 3);
    history.undo();
    history.put(4);
    history.redo();
    assert.equal(history.now, 4);
});
