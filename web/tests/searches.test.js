import assert from 'node:assert/strict';
import test from 'node:test';
import { Failed, REASON, reportOf } from '../../package/engine.js';
import { Rules } from '../js/rules.js';
import { find } from '../js/search.js';
import { nodesOf, numberOf, pathTo, treeOf } from '../js/tree.js';
import { Stopped, Workers } from '../../package/workers.js';

/**
 * @param {string} text
 * @param {number} [status]
 * @param {string} [message]
 * @param {number} [reason]
 */
const answer = (text, status = 0, message = '', reason = REASON.ended) =>
    ({ status, reason, report: new TextEncoder().encode(text), message });

const STEPS = [[1, '32-28'], [2, '18-22'], [3, '27x18'], [3, '28x17'], [2, '18-23'], [3, '28x19']];
const MOVES = STEPS.map(([depth, move]) => ({ depth: Number(depth), move: String(move), fen: 'x' }));
const FEN = 'W:W27:B18';
const QUESTION = /** @type {const} */ ({ fen: FEN, rows: 10, most: 8, isExact: false, later: 0 });

test('a search goes on in slices until it is decided, and has the solution', async () => {
    /** @type {string[][]} */
    const asked = [];
    const rows = [
        { verdict: 'undecided', no_win_in: 3 }, { verdict: 'undecided', no_win_in: 4 },
        { n: 5, verdict: 'sound', keys: ['32-28'], tries: [], more: true, moves: MOVES },
    ];
    const shown = /** @type {number[]} */ ([]);
    const { found, tree, isMore } = await find(async (words) => {
        asked.push(words);
        return answer(`${JSON.stringify({ problem: 1, fen: FEN, ...rows.shift() })}\n`, rows.length ? 1 : 0);
    }, QUESTION, ({ noWinIn }) => shown.push(noWinIn), new AbortController().signal);
    assert.equal(found.line, 'sound in 5: 32-28');
    assert.equal(tree && nodesOf(tree).length, 6);
    assert.equal(isMore, true);
    assert.deepEqual(shown, [3, 4]);
    const slices = asked.map((words) => Number(words[words.indexOf('--each') + 1]));
    assert.ok(slices[1] >= slices[0] && slices[2] >= slices[0] + slices[1]);
    assert.ok(asked.every((words) => words.includes('--solution') && words[words.indexOf('--most') + 1] === '8'));
});

test('a search within just so many moves names them', async () => {
    const { found, tree } = await find(async (words) => {
        assert.equal(words[words.indexOf('-n') + 1], '8');
        return answer('{"problem":1,"fen":"W:W27:B18","n":8,"verdict":"unsolvable","keys":[],"tries":[],"more":false,'
            + '"moves":[]}\n');
    }, { ...QUESTION, isExact: true }, () => {}, new AbortController().signal);
    assert.deepEqual([found.line, tree], ['unsolvable in 8', null]);
});

test('a search for later wins asks for them', async () => {
    const { found } = await find(async (words) => {
        assert.equal(words[words.indexOf('--later') + 1], '2');
        return answer('{"problem":1,"fen":"W:W27:B18","n":2,"verdict":"sound","keys":["32-28"],"tries":[],"more":false,'
            + '"moves":[],"later":[["27-21",4]]}\n');
    }, { ...QUESTION, later: 2 }, () => {}, new AbortController().signal);
    assert.deepEqual(found.later, [['27-21', 4]]);
});

test('what the program refuses or cannot do is told', async () => {
    const { signal } = new AbortController();
    const refuse = async () => answer('{"problem":1,"refused":"1 fen: 1 turn at 1"}\n', 1);
    await assert.rejects(find(refuse, QUESTION, () => {}, signal), Failed);
    assert.throws(() => reportOf(answer('', 3, 'dw: stopped: 1 memory, 0 expanded\n', REASON.memory)), /memory/);
});

test('the moves of JSON give a tree', () => {
    const tree = treeOf('W:W27,32:B18', MOVES);
    assert.deepEqual(nodesOf(tree).map(({ depth, move }) => [depth, move]), STEPS);
    const last = nodesOf(tree)[5];
    assert.deepEqual(pathTo(last).map(({ move }) => move), ['32-28', '18-23', '28x19']);
    assert.equal(numberOf(last, false), '2. ');
    assert.equal(numberOf(nodesOf(tree)[1], false), '');
    assert.equal(numberOf(nodesOf(tree)[4], true), '1... ');
    assert.equal(numberOf(treeOf('B:W43:B24,29', MOVES).next[0], true), '1... ');
});

test('positions are asked of the program, and remembered', async () => {
    let count = 0;
    const rules = new Rules(async (words, input) => {
        count += 1;
        const said = words[1] === 'moves' ? { taking: 0, moves: [['32-28', 'B:W27,28:B18']] } : {};
        const fen = String(input).includes('x') ? { refused: '1 fen: 1 turn at 1' } : { fen: 'W:W27,32:B18' };
        return answer(`${JSON.stringify({ problem: 1, ...fen, ...said })}\n`);
    });
    assert.deepEqual(await rules.legal('W:W27,32:B18', 10), [{ move: '32-28', fen: 'B:W27,28:B18' }]);
    await rules.legal('W:W27,32:B18', 10);
    assert.equal(count, 1);
    assert.equal((await rules.follow('W:W27,32:B18', ['32-28', '1-2'], 10)).length, 1);
    assert.deepEqual(await rules.read('x', 10), { fen: '', refused: '1 fen: 1 turn at 1' });
});

/** A worker that answers after a while, or never. */
class FakeWorker {
    constructor() {
        this.isEnded = false;
        /** @type {((event: {data: unknown}) => void) | null} */
        this.onmessage = null;
    }

    /** @param {{number: number, words: string[]}} asked */
    postMessage({ number, words }) {
        if (words[0] === 'never') return;
        const data = words[0] === 'bad' ? { number, failed: 'x' } : { number, answer: answer(words[0]) };
        setTimeout(() => this.onmessage?.({ data }));
    }

    terminate() {
        this.isEnded = true;
    }
}

test('workers answer in order, are shared, and end when stopped', async () => {
    /** @type {FakeWorker[]} */
    const made = [];
    const workers = new Workers(Promise.resolve(() => {
        made.push(new FakeWorker());
        return /** @type {Worker} */ (/** @type {unknown} */ (made[made.length - 1]));
    }), 2);
    const answers = await Promise.all(['a', 'b', 'c', 'd', 'e'].map((word) => workers.ask([word], '')));
    assert.deepEqual(answers.map(({ report }) => new TextDecoder().decode(report)), ['a', 'b', 'c', 'd', 'e']);
    assert.equal(made.length, 2);
    const stop = new AbortController();
    const never = [1, 2, 3].map(() => workers.ask(['never'], '', stop.signal));
    const after = workers.ask(['f'], '');
    stop.abort();
    for (const asked of never) await assert.rejects(asked, Stopped);
    assert.ok(made.slice(0, 2).every(({ isEnded }) => isEnded));
    assert.equal((await after).status, 0);
    await assert.rejects(workers.ask(['bad'], ''), /x/);
    await assert.rejects(workers.ask(['a'], '', stop.signal), Stopped);
});
