import assert from 'node:assert/strict';
import test from 'node:test';
import { eachLine, faultOf, foundOf, mendedIn, movesOf, rowsOf, summaryOf } from '../js/answers.js';

/** @param {object} row */
const found = (row) => foundOf(/** @type {import('../js/answers.js').FoundRow} */ ({ problem: 1, fen: 'x', ...row }));

test('verdicts', () => {
    assert.deepEqual(found({
        n: 3, verdict: 'dual', keys: ['10-5'], at: '1. 10-5 13-18 2. 5-28 18-22', choices: ['28x6', '28x11', '28x17'],
        tries: [['10-4', '13-19']],
    }), {
        line: 'dual in 3: 1. 10-5 13-18 2. 5-28 18-22 3. 28x6 / 28x11 / 28x17', verdict: 'dual', n: 3, shortest: 3,
        keys: ['10-5'], at: ['10-5', '13-18', '5-28', '18-22'], choices: ['28x6', '28x11', '28x17'],
        tries: [['10-4', '13-19']], later: null,
    });
    assert.deepEqual(found({ n: 2, verdict: 'sound', keys: ['31-27'], tries: [], later: [['39-34', 3]] }).later,
        [['39-34', 3]]);
    const cooked = found({ n: 2, verdict: 'cooked', shortest: 1, keys: ['41-37', '45-40'], tries: [] });
    assert.deepEqual([cooked.line, cooked.shortest], ['cooked in 2, shortest 1: 41-37, 45-40', 1]);
    assert.equal(found({ n: 2, verdict: 'sound', keys: ['45-40'], tries: [] }).line, 'sound in 2: 45-40');
    assert.equal(found({ n: 2, verdict: 'unsolvable', keys: [], tries: [] }).line, 'unsolvable in 2');
    const open = found({ verdict: 'undecided', no_win_in: 7 });
    assert.deepEqual([open.n, open.line], [7, 'undecided, no win in 7']);
});

test('faults', () => {
    assert.deepEqual(faultOf('1 fen: 5 twice at 8'), { number: 5, name: 'twice', place: 8 });
    assert.deepEqual(faultOf('1 fen: 7 last row at 4'), { number: 7, name: 'last row', place: 4 });
    assert.deepEqual(faultOf('2 no such move at 5'), { number: 2, name: 'no such move', place: 5 });
    assert.equal(faultOf('5 line too long'), null);
});

test('what is said of a solution', () => {
    const [row] = rowsOf('{"problem":1,"fen":"W:W27,32:B18","n":2,"win":true,"holds":true,"fail":0,"end":0,"open":1,'
        + '"also":1,"remarks":[]}\n');
    assert.equal(summaryOf(row), 'holds in 2: 0 fail, 0 end, 1 open, 1 also');
    assert.equal(summaryOf({ ...row, holds: false, fail: 1 }), 'fails in 2: 1 fail, 0 end, 1 open, 1 also');
    assert.equal(summaryOf({ ...row, refused: '2 no fen' }), 'refused: 2 no fen');
    assert.equal(summaryOf({ ...row, solution_refused: '2 no such move at 5' }),
        'solution refused: 2 no such move at 5');
});

test('neighbours', () => {
    const line = '{"change":"without 27","fen":"W:W32:B18","n":2,"key":"32-28"}\n';
    const { neighbours, all, refused } = mendedIn(`${line}{"sound":1,"of":310,"undecided":0}\n`);
    assert.deepEqual(neighbours, [{ change: 'without 27', fen: 'W:W32:B18', n: 2, key: '32-28' }]);
    assert.deepEqual([all, refused], [310, '']);
    assert.equal(mendedIn('{"problem":1,"refused":"1 fen: 7 last row at 4"}\n').refused, '1 fen: 7 last row at 4');
    assert.deepEqual(mendedIn(''), { neighbours: [], all: 0, refused: '' });
});

test('lines of play, rows of JSON and lines of a text', () => {
    assert.deepEqual(movesOf('1... 29-33 2. 43-38 33x42'), ['29-33', '43-38', '33x42']);
    assert.deepEqual(rowsOf('{"a":1}\n{"a":2}\n'), [{ a: 1 }, { a: 2 }]);
    const lines = (/** @type {string} */ text) => [...eachLine(new TextEncoder().encode(text))];
    assert.deepEqual(lines('a\n\nb\n'), ['a', '', 'b']);
    assert.deepEqual(lines('a'), ['a']);
    assert.deepEqual(lines(''), []);
    const long = Array.from({ length: 30_000 }, (_, i) => `é${i}`);
    assert.deepEqual(lines(`${long.join('\n')}\n`), long);
    assert.deepEqual(lines(long.join('\n')), long);
});
