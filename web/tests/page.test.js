import assert from 'node:assert/strict';
import test from 'node:test';
import { deflateSync } from 'node:zlib';
import { openPage, Storage } from './dom.mjs';
import { answerOf, DUAL } from './programs.mjs';

const { document, window } = openPage();
const at = (id) => document.getElementById(id);
const saved = [];
let isHeld = false;

/** A worker that answers as the programs do, a little later, unless it is held. */
class Worker {
    postMessage({ number, words, input }) {
        if (!words || isHeld) return;
        setTimeout(() => this.onmessage?.({ data: { number, answer: answerOf(words, input) } }));
    }

    terminate() {}
}

Object.assign(globalThis, { Worker, localStorage: new Storage() });
Object.defineProperty(globalThis, 'navigator', { configurable: true, value: {
    languages: ['en-US'], hardwareConcurrency: 4, clipboard: { writeText: async (text) => void saved.push(text) },
} });
URL.createObjectURL = (blob) => (saved.push(blob), 'blob:x');
URL.revokeObjectURL = () => {};
at('module').textContent = deflateSync(Buffer.from([0, 0x61, 0x73, 0x6d, 1, 0, 0, 0])).toString('base64');
const { start } = await import('../js/main.js');
location.hash = `#fen=${DUAL}&n=4`;
await start();

async function until(test) {
    for (let i = 0; i < 500; i++) {
        if (test()) return;
        await new Promise((resolve) => setTimeout(resolve, 5));
    }
    assert.fail(`not in time: ${test}`);
}

const fenIs = (fen) => until(() => at('fen').value === fen);
const square = (number) => document.querySelector(`[data-square="${number}"]`);
const set = (id, value, kind = 'change') => {
    at(id).value = value;
    at(id).fire(kind);
};

test('the page begins with the position and the number of moves of its address', async () => {
    await fenIs(DUAL);
    assert.equal(at('most').value, '4');
    assert.equal(square(27).dataset.piece, 'w');
    assert.equal(square(18).getAttribute('aria-label'), 'Square 18, Black man');
    assert.equal(document.documentElement.lang ?? document.documentElement.dataset.ready, 'en');
});

test('pieces are placed, erased, moved by keys, and all of it is undone', async () => {
    document.querySelector('[data-piece-choice="B"]').click();
    square(5).click();
    await fenIs('W:W27,32:BK5,18');
    square(5).fire('contextmenu');
    await fenIs(DUAL);
    square(27).focus();
    square(27).fire('keydown', { key: 'ArrowDown' });
    assert.equal(document.activeElement.dataset.square, '32');
    document.activeElement.fire('keydown', { key: 'W' });
    await fenIs('W:W27,K32:B18');
    at('undo').click();
    await fenIs(DUAL);
    for (const tool of ['mirror', 'exchange', 'opening', 'clear', 'flip', 'flip']) at(tool).click();
    for (let i = 0; i < 4; i++) at('undo').click();
    at('redo').click();
    at('undo').click();
    await fenIs(DUAL);
    set('rows', '8');
    assert.equal(document.querySelectorAll('[data-square]').length, 32);
    set('rows', '10');
    set('turn', 'B');
    await fenIs('B:W27,32:B18');
    window.fire('keydown', { key: 'z', ctrlKey: true, target: document.body });
    for (let i = 0; i < 2; i++) at('undo').click();
    await fenIs(DUAL);
});

test('a piece is dragged to a square, and off the board', async () => {
    const press = square(27).fire('pointerdown', { button: 0, pointerId: 1, clientX: 0, clientY: 0 });
    assert.equal(press.type, 'pointerdown');
    document.elementFromPoint = () => square(22);
    window.fire('pointermove', { pointerId: 1, clientX: 40, clientY: 0 });
    window.fire('pointerup', { pointerId: 1, clientX: 40, clientY: 0 });
    await fenIs('W:W22,32:B18');
    document.elementFromPoint = () => null;
    square(22).fire('pointerdown', { button: 0, pointerId: 2, clientX: 0, clientY: 0 });
    window.fire('pointermove', { pointerId: 2, clientX: 99, clientY: 99 });
    window.fire('pointerup', { pointerId: 2, clientX: 99, clientY: 99 });
    await fenIs('W:W32:B18');
    at('undo').click();
    at('undo').click();
    await fenIs(DUAL);
});

test('a text with a fault is told, and no answer is given on the position before', async () => {
    at('fen').focus();
    set('fen', 'x', 'input');
    await until(() => !at('fault').hidden && at('fault').querySelector('mark'));
    assert.match(at('fault').textContent, /^1 turn at 1x.*side to move\.$/);
    at('solve').click();
    await until(() => at('state').dataset.state === 'stopped');
    assert.equal(at('state').textContent, 'Mend the fault of the position first.');
    set('fen', DUAL, 'input');
    at('fen').fire('keydown', { key: 'Enter' });
    await until(() => at('fault').hidden);
    at('fen').blur();
});

test('a problem is solved; its solution is gone through; each first move is told', async () => {
    at('solve').click();
    await until(() => at('state').dataset.state === 'done');
    assert.equal(at('verdict').dataset.line, 'dual in 2: 1. 32-28 18-22 2. 27x18 / 28x17');
    const moves = at('solution').querySelectorAll('.move');
    assert.deepEqual(moves.map(({ dataset }) => dataset.move), ['32-28', '18-22', '27x18', '18-23', '28x19', '28x17']);
    moves[1].click();
    await fenIs('W:W27,28:B22');
    assert.equal(at('looked').hidden, false);
    assert.equal(location.hash, `#fen=${DUAL}&n=4`);
    at('solution').fire('keydown', { key: 'ArrowDown' });
    await fenIs('W:W27,28:B23');
    at('look-back').click();
    await fenIs(DUAL);
    at('dual').querySelectorAll('.move')[1].click();
    await fenIs('B:W17,27:B');
    at('tries').querySelectorAll('.move')[1].click();
    await fenIs('W:W:B38');
    at('to-start').click();
    at('ask-firsts').click();
    await until(() => at('firsts').children.length === 3);
    assert.equal(at('firsts-title').textContent, 'What each first move does in 2 moves');
    assert.match(at('firsts').textContent, /27-21 refuted by 18x38.*32-28 wins in 2/);
    at('copy').click();
    await until(() => saved.some((one) => typeof one === 'string' && one.startsWith('[GameType')));
    at('certificate').click();
    await until(() => at('state').textContent === 'Written: certificate.txt');
    at('exact').checked = true;
    at('solve').click();
    await until(() => at('state').dataset.state === 'done');
    assert.equal(at('verdict').dataset.line, 'cooked in 3, shortest 2: 27-22, 32-28');
    at('exact').checked = false;
});

test('a search is stopped', async () => {
    isHeld = true;
    at('solve').click();
    await until(() => !at('stop').disabled);
    await new Promise((resolve) => setTimeout(resolve, 20));
    at('stop').click();
    await until(() => at('state').dataset.state === 'stopped');
    isHeld = false;
});

test('moves are played and taken back', async () => {
    at('mode-play').click();
    await until(() => square(32).classList.contains('source'));
    square(32).click();
    assert.ok(square(28).classList.contains('target'));
    square(28).click();
    await fenIs('B:W27,28:B18');
    assert.equal(at('played').textContent, '1. 32-28');
    at('take-back').click();
    await fenIs(DUAL);
    at('mode-setup').click();
});

test('a printed solution is compared', async () => {
    at('movetext').value = '1. 32-28';
    at('compare').click();
    await until(() => at('remarks').children.length === 1);
    assert.equal(at('compared').dataset.line, 'holds in 2: 0 fail, 0 end, 1 open, 0 also');
    assert.equal(at('remarks').textContent, '! After 1. 32-28 no answer is given to 18-23');
    at('remarks').querySelector('.remark').click();
    await fenIs('B:W27,28:B18');
    at('movetext').value = '1. 27-18 x';
    at('compare').click();
    await until(() => !at('compared-fault').hidden);
    assert.equal(at('compared-fault').querySelector('mark').textContent, '27-18');
    assert.match(at('compared-fault').textContent, /This move is not legal here\.$/);
});

test('of a solution that stops it is said how much is missing', async () => {
    set('movetext', '1. 32-28 18-22 *', 'input');
    set('compare-most', '40', 'change');
    at('compare').click();
    assert.ok(!at('compare-most-fault').hidden);
    assert.equal(at('compared').textContent, '');
    set('compare-most', '6', 'input');
    at('compare').click();
    await until(() => at('remarks').children.length === 1);
    assert.equal(at('compared').dataset.line, 'fails in 2: 0 fail, 1 end, 0 open, 0 also');
    assert.match(at('compared').textContent, /^The solution is right as far as it goes, but ends too soon/);
    assert.equal(at('remarks').textContent,
        '✗ The solution ends after 1. 32-28 18-22: a win in 1 move is left to show');
    set('compare-most', '', 'input');
    assert.equal(at('compared').textContent, '');
    at('compare').click();
    await until(() => at('compared').dataset.line.startsWith('fails in 1: '));
});

test('a problem is improved', async () => {
    set('mend-n', '2', 'input');
    at('mend-go').click();
    await until(() => at('mend').dataset.state === 'done');
    assert.equal(at('mend-state').textContent, 'Win in 2: 1 sound of 64 tried');
    assert.equal(at('mend').textContent, 'without 2732-28');
    set('language', 'nl');
    assert.equal(at('mend').textContent, 'zonder 2732-28');
    set('language', 'en');
    at('mend').querySelector('.card').click();
    await fenIs('W:W32:B18');
    assert.equal(at('mend').querySelector('.card').getAttribute('aria-current'), 'true');
    at('undo').click();
    await fenIs(DUAL);
});

test('a file of problems is listed, judged, saved, emptied and brought back', async () => {
    const bytes = new TextEncoder().encode(`[Event "<b>"]\n[FEN "${DUAL}"]\n\n1. 32-28 *\n\n[FEN "x"]\n\n*\n\n`);
    at('file').files = [{ name: 'a.pdn', size: bytes.length, arrayBuffer: async () => bytes.buffer }];
    at('file').fire('change');
    await until(() => at('list').dataset.count === '2' && at('list').dataset.state === 'done');
    const cards = () => at('list').querySelectorAll('.card');
    assert.match(at('list').textContent, /^1\. <b>White to play. Not judged…2\. Refused: 1 fen: 1 turn at 1…$/);
    for (const [kind, name] of [['pdn', 'problems.pdn'], ['page', 'problems.html'], ['json', 'problems.json']]) {
        at(`save-${kind}`).click();
        await until(() => at('list').dataset.saved === name);
    }
    assert.deepEqual(cards().map((card) => card.dataset.state), ['dual', 'refused']);
    assert.match(at('list-state').textContent, /2 problems, 2 judged$/);
    at('add-title').value = 'Mine';
    at('add-go').click();
    await until(() => at('list').dataset.count === '3');
    at('judge-all').click();
    await until(() => cards()[2]?.dataset.state === 'dual' && !at('judge-all').disabled);
    set('filter', 'refused');
    await until(() => at('list').children.length === 1);
    set('filter', '');
    at('forget').click();
    await until(() => at('list').dataset.count === '0' && !at('bring-back').hidden);
    at('bring-back').click();
    await until(() => at('list').children.length === 3);
    at('list').querySelector('.card').click();
    await until(() => !at('compare-own').hidden);
    at('file').files = [{ name: 'large.pdn', size: 10_000_001 }];
    at('file').fire('change');
    await until(() => /10 MB/.test(at('list-state').textContent));
});

test('the problem has a name, and its card takes it', async () => {
    const named = () => [at('named-name').textContent, at('named-task').textContent];
    assert.deepEqual(named(), ['<b>', 'White to play']);
    set('name-author', ' A. Composer ', 'input');
    assert.deepEqual(named(), ['<b>, A. Composer', 'White to play']);
    assert.match(at('list').textContent, /^1\. <b>, A\. Composer/);
    assert.equal(location.hash, `#fen=${DUAL}&n=4&title=%3Cb%3E&author=A.+Composer`);
    square(50).click();
    await fenIs('W:W27,32:B18,K50');
    assert.deepEqual(named(), ['', 'White to play']);
    assert.match(at('name-before').textContent, /<b>, A\. Composer$/);
    at('undo').click();
    await fenIs(DUAL);
    assert.equal(at('name-author').value, 'A. Composer');
});

test('cards are edited, moved and deleted', async () => {
    const titles = () => at('list').querySelectorAll('.card-title').map(({ textContent }) => textContent);
    const edits = () => at('list').querySelectorAll('.edit');
    await until(() => edits().length === 3);
    edits()[2].click();
    assert.ok(at('card-dialog').hasAttribute('open'));
    assert.equal(at('card-title').value, 'Mine');
    at('card-title').value = 'Spring';
    at('card-number').value = '1';
    at('card-keep').click();
    await until(() => titles()[0] === '1. Spring');
    assert.equal(titles()[1], '2. <b>, A. Composer');
    const card = at('list').querySelectorAll('.card')[0];
    card.fire('keydown', { key: 'ArrowDown', altKey: true });
    await until(() => titles()[1] === '2. Spring');
    at('list').querySelectorAll('.card')[1].fire('keydown', { key: 'Delete' });
    await until(() => titles().length === 2 && /bring 1 problem back/.test(at('bring-back').textContent));
    at('bring-back').click();
    await until(() => titles()[1] === '2. Spring');
    set('filter', 'refused');
    await until(() => at('saves').textContent === 'Saves what is shown: 1 of 3 problems.');
    set('filter', '');
    at('own-save').click();
    await until(() => at('list').dataset.saved === 'my-problems.pdn');
    assert.match(await saved.at(-1).text(), /^\[Event "<b>"\]\n\[White "A\. Composer"\]\n.*\[Event "Spring"\]/s);
});

test('the link is copied, and another address is followed', async () => {
    at('share').click();
    await until(() => !at('shared').hidden);
    assert.equal(saved.at(-1), location.href);
    location.hash = '#fen=W:W45:B16&n=2';
    window.fire('hashchange');
    await fenIs('W:W45:B16');
});
