import assert from 'node:assert/strict';
import test from 'node:test';
import { byBoard, chosen, decided, isOpen, stateOf, titleOf } from '../js/collection.js';
import { addressIn, addressOf, Store } from '../js/keep.js';
import { KEYS, keyOf, languageOf, LANGUAGES, textIn } from '../js/languages.js';
import { pasted } from '../js/pasted.js';
import { closed, commentsOf, gameOf, hasMoves, resultOf, sectionsOf, tagLine, valueOf } from '../js/pdn.js';

test('each text is there in each language, with the same marks', () => {
    for (const key of KEYS) {
        const texts = LANGUAGES.map((language) => textIn(language, key, ...Array(9).fill('\u0001')));
        const marks = texts.map((text) => text.split('\u0001').length);
        assert.ok(texts.every((text) => text.length > 0), key);
        assert.equal(new Set(marks).size, 1, key);
    }
    assert.equal(textIn('nl', 'winsIn', 3), 'wint in 3 zetten');
    assert.equal(textIn('en', 'listState', 1, 0), '1 problem, 0 judged');
    assert.equal(textIn('fr', 'listState', 2, 1), '2 problèmes, 1 jugé');
    for (const [count, word] of [['1', 'позиция'], ['22', 'позиции'], ['1 011', 'позиций'], ['1 021', 'позиция']]) {
        assert.equal(textIn('ru', 'expanded', count), `${count} ${word}`);
    }
    assert.equal(keyOf('nothing'), null);
    assert.equal(keyOf('stop'), 'stop');
});

test('a position is found in what is pasted', () => {
    const fen = 'W:W27,32:B18', game = `[Event "x"]\n\n1. 2-0\n\n[fen "${fen}:H3:F10"]\n1. 32-28 18-22 *`;
    for (const text of [fen, ` ${fen}\n`, `${fen}:H0:F1`, `file:///home/board.html#fen=${encodeURIComponent(fen)}&n=2`,
        `https://lidraughts.org/editor/${fen}:H0:F1`, `https://x.org/?fen=${encodeURIComponent(fen)}&a=b`]) {
        assert.deepEqual(pasted(text), { fen, movetext: '', tags: [] }, text);
    }
    assert.deepEqual(pasted(game), { fen, movetext: '1. 32-28 18-22 *', tags: [['fen', `${fen}:H3:F10`]] });
    assert.deepEqual(pasted(`[White "A"] [FEN "${fen}"] *`).tags, [['White', 'A'], ['FEN', fen]]);
    assert.deepEqual(pasted(`https://x.org/board.html#fen=${fen}&n=2&title=A+%26+b`).tags, [['Event', 'A & b']]);
    for (const text of ['', ',33', ' 33', ':F1', 'https://x.org/', 'https://x.org/%', '[Event "x"] 1. 32-28']) {
        assert.equal(pasted(text).fen.trim(), text.trim(), text);
    }
});

test('the language of the browser comes first', () => {
    assert.equal(languageOf(['', 'de-DE', 'fr-CA', 'nl']), 'fr');
    assert.equal(languageOf(['de']), 'en');
});

test('games are written, and cut out of a text again', () => {
    /** @type {import('../js/pdn.js').Tag[]} */
    const tags = [['Event', 'A "b" \\ c\nd'], ['Result', '*'], ['FEN', 'x']];
    const game = gameOf(tags, '1. 32-28 {why [not]} 2-0');
    assert.equal(game, '[Event "A \\"b\\" \\\\ c d"]\n[Result "2-0"]\n[FEN "x"]\n\n1. 32-28 {why [not]} 2-0\n\n');
    const [first, second, ...others] = [...sectionsOf(`; {[} ${game}[FEN "y" [Site "z"]\n{a`)];
    assert.equal(first.movetext, '1. 32-28 {why [not]} 2-0');
    assert.deepEqual(first.tags, [['Event', 'A "b" \\ c d'], ['Result', '2-0'], ['FEN', 'x']]);
    assert.deepEqual([second.tags, second.movetext, second.whole], [[], '{a', '[FEN "y" [Site "z"]\n{a']);
    assert.equal(others.length, 1);
    assert.equal(closed(second.whole), `${second.whole} }`);
    assert.equal(closed('1. 32-28'), '1. 32-28');
    assert.equal(valueOf(first.tags, 'event'), 'A "b" \\ c d');
    assert.equal(tagLine(['FEN', 'x']), '[FEN "x"]');
    assert.deepEqual([...sectionsOf('nothing')], []);
});

test('a movetext has moves, comments and a result', () => {
    assert.deepEqual(['', '*', '{1. 32-28} *', '1. 32-28', '(x)'].map(hasMoves), [false, false, false, true, true]);
    assert.equal(resultOf('1. 32-28 2-0 {end}'), '2-0');
    assert.equal(resultOf('1. 32-28'), '');
    assert.equal(commentsOf('{a} 1. 32-28 {b c} *'), '{a} {b c}');
});

test('addresses', () => {
    assert.deepEqual(addressIn('#fen=W:W27,32:B18&n=3'), { fen: 'W:W27,32:B18', n: 3 });
    for (const n of ['99', '-3', '0', '2.5', '']) assert.equal(addressIn(`#fen=x&n=${n}`).n, undefined);
    assert.deepEqual(addressIn('#fen=W%3AW27%3AB18&rows=8&x'), { fen: 'W:W27:B18', rows: 8 });
    assert.deepEqual(addressIn('#fen=%'), { fen: '%' });
    assert.equal(addressOf({ fen: 'W:W27:B18', n: 4, rows: 8 }), '#fen=W:W27:B18&n=4&rows=8');
    assert.deepEqual(addressIn(addressOf({ fen: 'W:W27:B18', n: 4, rows: 10 })), { fen: 'W:W27:B18', n: 4 });
});

test('what cannot be kept is not kept, and the page goes on', () => {
    const denied = new Store(() => { throw new Error('denied'); });
    assert.equal(denied.get('list'), null);
    assert.equal(denied.put('list', []), false);
    /** @type {Map<string, string>} */
    const kept = new Map();
    const storage = /** @type {Storage} */ (/** @type {unknown} */ ({
        getItem: (/** @type {string} */ name) => kept.get(name) ?? null,
        setItem: (/** @type {string} */ name, /** @type {string} */ value) => void kept.set(name, value),
    }));
    const store = new Store(() => storage);
    assert.equal(store.put('list', [1]), true);
    assert.deepEqual(store.get('list'), [1]);
    store.change('settings', { a: 1 });
    store.change('settings', { b: 2 });
    assert.deepEqual(store.get('settings'), { a: 1, b: 2 });
});

test('lists are filtered and sorted', () => {
    const rows = /** @type {const} */ (10);
    const items = /** @type {import('../js/collection.js').Item[]} */ ([
        { rows, fen: 'a', tags: [['Event', 'e'], ['White', 'w']], refused: '', row: { verdict: 'cooked', n: 2 } },
        { rows, fen: '', tags: [], refused: '2 no fen', row: null },
        { rows: 8, fen: 'c', tags: [], refused: '', row: { verdict: 'sound', n: 5 } },
        { rows, fen: 'd', tags: [], refused: '', row: null },
        { rows, fen: 'e', tags: [], refused: '', row: { verdict: 'unsolvable', n: 4 } },
    ].map((item, i) => ({ ...item, id: String(i + 1), movetext: '' })));
    const ids = (/** @type {import('../js/collection.js').Item[]} */ some) => some.map(({ id }) => id).join('');
    assert.equal(ids(decided(items)), '135');
    assert.deepEqual(items.map(stateOf), ['cooked', 'refused', 'sound', 'open', 'unsolvable']);
    assert.equal(titleOf(items[0]), 'e, w');
    assert.equal(ids(chosen(items, '', 'verdict')), '31542');
    assert.equal(ids(chosen(items, '', 'moves')), '15324');
    assert.equal(ids(chosen(items, 'sound', 'number')), '3');
    assert.equal(ids(items.filter((item) => isOpen(item, 4))), '4');
    assert.equal(ids(items.filter((item) => isOpen(item, 5))), '45');
    assert.deepEqual(byBoard(items).map(({ rows: board, items: own }) => [board, own.length]), [[10, 4], [8, 1]]);
});
