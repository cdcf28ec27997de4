/* Random sequences of what a reader may do, with programs that answer late. After each step every sentence on the page
   is true of the position that it names, and a position that is not on the board is named. */
import assert from 'node:assert/strict';
import test from 'node:test';
import { deflateSync } from 'node:zlib';
import { lineOf } from '../js/answers.js';
import { openPage, Storage } from './dom.mjs';
import { answerOf, checkedOf, firstsOf, foundOf, laterOf, leastOf, legalOf, neighbourOf } from './fakes.mjs';

const NO_WIN = /(?:no win in|geen winst in|pas de gain en|нет выигрыша в) (\d+)/;
const NO_MOVES = /no move left|geen zet meer|plus de coup|не имеют ходов/;
const STEPS = 2000, SEED = Number(process.env.SEED ?? 1);

let state = SEED;
/** A random number below another. */
function below(most) {
    state = (Math.imul(state, 1664525) + 1013904223) >>> 0;
    return Math.floor((state / 2 ** 32) * most);
}
const oneOf = (list) => list[below(list.length)];

const { document, window } = openPage();
const at = (id) => document.getElementById(id);
const all = (selector) => document.querySelectorAll(selector);

/** A worker that answers after a while. */
class Worker {
    postMessage({ number, words, input }) {
        if (words) setTimeout(() => this.onmessage?.({ data: { number, answer: answerOf(words, input) } }), below(12));
    }

    terminate() {
        this.onmessage = null;
    }
}

Object.assign(globalThis, { Worker, localStorage: new Storage() });
Object.defineProperty(globalThis, 'navigator', { configurable: true, value: {
    languages: ['en'], hardwareConcurrency: 2, clipboard: { writeText: async () => {} },
} });
URL.createObjectURL = () => 'blob:x';
URL.revokeObjectURL = () => {};
at('module').textContent = deflateSync(Buffer.from([0, 0x61, 0x73, 0x6d, 1, 0, 0, 0])).toString('base64');
location.hash = '#fen=W:W27,32:B18&n=4';
await (await import('../js/main.js')).start();

/** The FEN text of what the board shows. */
function board() {
    const pieces = all('[data-square]').filter((element) => element.dataset.piece)
        .sort((a, b) => a.dataset.square - b.dataset.square);
    const list = (man, king) => pieces.filter(({ dataset: { piece } }) => piece === man || piece === king)
        .map(({ dataset: { square, piece } }) => (piece === king ? `K${square}` : square)).join(',');
    return `${at('turn').value}:W${list('w', 'W')}:B${list('b', 'B')}`;
}

/** The position that an answer names, which is marked if it is not the one on the board. */
function named(id) {
    const place = at(id), { fen } = place.dataset;
    if (place.hidden) return board();
    const isMarked = place.classList.contains('elsewhere');
    assert.equal(isMarked, fen !== board(), `${id} names ${fen}, the board has ${board()}`);
    assert.ok(place.textContent.includes(fen));
    return fen;
}

const isShown = (id) => {
    for (let element = at(id); element; element = element.parentElement) if (element.hidden) return false;
    return true;
};
const movesIn = (id) => at(id).querySelectorAll('.move').map(({ dataset }) => dataset.move);

/** What the panel of answers says is true. */
function checkAnswer() {
    const fen = named('answer-of'), { state: word } = at('state').dataset;
    const said = NO_WIN.exec(at('state').textContent);
    if (said) assert.equal(Number(said[1]), leastOf(fen) - 1, `${at('state').textContent} of ${fen}`);
    if (word === 'idle') assert.ok(at('answer').hidden && at('state').textContent === '');
    if (at('answer').hidden) return;
    const { line } = at('verdict').dataset, n = Number(/in (\d+)/.exec(line)[1]);
    const expected = [true, false].map((isExact) => foundOf(fen, n, isExact));
    const found = expected.find((one) => lineOf(one) === line);
    assert.ok(found, `${line} of ${fen}, not ${expected.map(lineOf)}`);
    for (const key of found.keys) assert.ok(at('verdict').textContent.includes(key));
    assert.deepEqual(movesIn('tries'), found.tries.flat());
    if (!at('later-part').hidden) assert.deepEqual(movesIn('later-wins'), laterOf(fen).map(([move]) => move));
    if (!at('solution-part').hidden) assert.deepEqual(movesIn('solution'), found.keys);
    if (!at('firsts-part').hidden) {
        assert.deepEqual(movesIn('firsts'), firstsOf(fen).flatMap((first) => [first.move, ...first.refuted_by]));
    }
}

/** What is said of a solution is true of the text in the field. */
function checkCompared() {
    const fen = named('compared-of'), { line } = at('compared').dataset;
    if (!line) return;
    const text = at('movetext').value, { n, open } = checkedOf(fen, text.slice(text.lastIndexOf(']') + 1));
    assert.equal(line, `holds in ${n}: 0 fail, 0 end, ${open} open, 0 also`, fen);
}

/** The improvements belong to the position that they name. */
function checkMended() {
    const fen = named('mend-of');
    for (const card of at('mend').querySelectorAll('.card')) {
        const { change, fen: after } = neighbourOf(fen, 1);
        assert.deepEqual([card.dataset.change, card.dataset.fen], [change, after], fen);
    }
}

function check() {
    checkAnswer();
    checkCompared();
    checkMended();
    const fen = board();
    if (NO_MOVES.test(at('played').textContent) && isShown('played')) {
        assert.deepEqual(legalOf(fen), [], fen);
    }
    if (at('shared').hidden) return;
    assert.ok(location.hash.startsWith('#fen='));
}

const set = (id, value, kind) => {
    at(id).value = value;
    at(id).fire(kind);
};
const fens = ['W:W27,32:B18', 'W:W27,32,38:B18', 'B:W43:B24,29', 'W:W45:B16', 'W:WK46:B28', 'x', 'W:W33:B'];
const click = (...ids) => at(oneOf(ids)).click();
const clickOne = (selector) => {
    const found = all(selector);
    if (found.length) oneOf(found).click();
};

/** What a reader may do, each as often as it stands here. */
const ACTS = {
    solve: () => click('solve'), solveAgain: () => click('solve'), stop: () => click('stop'),
    firsts: () => click('ask-firsts'), certificate: () => click('certificate'), copy: () => click('copy'),
    square: () => clickOne('[data-square]'), erase: () => oneOf(all('[data-square]')).fire('contextmenu'),
    key: () => oneOf(all('[data-square]')).fire('keydown', { key: oneOf(['w', 'B', 'Delete']) }),
    tool: () => click('clear', 'opening', 'mirror', 'exchange', 'undo', 'undo', 'undo', 'redo', 'flip'),
    undo: () => window.fire('keydown', { key: oneOf(['z', 'y']), ctrlKey: true, target: document.body }),
    turn: () => (at('turn').disabled ? null : set('turn', oneOf(['W', 'B']), 'change')),
    text: () => {
        at('fen').focus();
        set('fen', oneOf(fens), 'input');
        if (below(2)) at('fen').fire('keydown', { key: 'Enter' });
        if (below(2)) at('fen').blur();
    },
    address: () => {
        location.hash = `#fen=${oneOf(fens)}&n=${oneOf([1, 3, 6, -3, 99])}`;
        window.fire('hashchange');
    },
    mode: () => click('mode-play', 'mode-setup'), play: () => clickOne('.source'), target: () => clickOne('.target'),
    back: () => click('take-back', 'play-start', 'look-back'),
    move: () => clickOne('.move'), step: () => click('to-start', 'previous-move', 'next-move'),
    moves: () => set('most', oneOf(['2', '4', '7', '', '0', '2.5']), 'change'),
    exact: () => { at('exact').checked = !at('exact').checked; },
    later: () => set('later', oneOf(['0', '1', '5']), 'change'),
    movetext: () => set('movetext', oneOf(['1. 32-28', '1. 27-21 *', '[FEN "B:W43:B24,29"] 1. 24-30']), 'input'),
    compare: () => click('compare'), stopCompare: () => click('stop-compare'),
    compareMost: () => set('compare-most', oneOf(['', '3', '0']), 'input'),
    mendMoves: () => set('mend-n', oneOf(['1', '2', '']), 'input'), mend: () => click('mend-go'),
    stopMend: () => click('mend-stop'), card: () => clickOne('.card'), add: () => click('add-go'),
    language: () => set('language', oneOf(['en', 'nl', 'fr', 'ru']), 'change'),
    tab: () => click('tab-solve', 'tab-compare', 'tab-improve', 'tab-collection'), share: () => click('share'),
};

test(`${STEPS} random steps leave no false sentence`, async () => {
    const last = [];
    for (let i = 0; i < STEPS; i++) {
        const name = oneOf(Object.keys(ACTS));
        last.push(name);
        try {
            ACTS[name]();
            check();
            if (below(3) === 0) await new Promise((resolve) => setTimeout(resolve, below(8)));
            check();
        } catch (error) {
            error.message += `\nafter step ${i}, seed ${SEED}: ${last.slice(-12).join(' ')}`;
            throw error;
        }
    }
});
