import assert from 'node:assert/strict';
import test from 'node:test';
import { bytesOf, Engine, Failed, REASON, reportOf, textOf } from '../../package/engine.js';
import { work } from '../../package/worker.js';

/** An engine whose program writes its input in capitals, as far as there is room. */
function engine() {
    const made = new Engine(/** @type {WebAssembly.Module} */ (/** @type {unknown} */ ({})));
    const memory = { buffer: new ArrayBuffer(40_000_000) };
    let used = 8, most = 0;
    made.exports = {
        memory,
        web_begin: (bytes) => { [used, most] = [8, Number(bytes)]; },
        web_alloc: (bytes) => {
            const place = used;
            used += Number(bytes);
            return used > most ? 0n : BigInt(place);
        },
        web_used: () => BigInt(used),
        dw_web_run: (words, length, input, size, report, room, message, _, ended) => {
            const bytes = new Uint8Array(memory.buffer), view = new DataView(memory.buffer), end = Number(ended);
            const text = textOf(bytes.slice(Number(input), Number(input + size))).toUpperCase();
            const whole = new TextEncoder().encode(text), isFull = BigInt(whole.length) > room;
            const said = new TextEncoder().encode(isFull ? 'dw: write failed\n' : '');
            const written = whole.subarray(0, Number(room));
            bytes.set(written, Number(report));
            bytes.set(said, Number(message));
            view.setUint8(end, isFull ? 3 : 0);
            view.setUint8(end + 1, isFull ? REASON.full : REASON.ended);
            view.setBigUint64(end + 8, BigInt(written.length), true);
            view.setBigUint64(end + 16, BigInt(said.length), true);
        },
    };
    return made;
}

test('a program gets its input, and its report is taken', () => {
    const answer = engine().run(['dw', 'show'], 'abc');
    assert.deepEqual([answer.status, answer.reason, reportOf(answer), answer.message], [0, REASON.ended, 'ABC', '']);
});

test('a report without room is asked for again, with more', () => {
    const input = 'a'.repeat(2_000_000);
    assert.equal(engine().run(['dw'], input).report.length, input.length);
    const answer = engine().attempt(['dw'], 'abcdef', { room: 2 });
    assert.deepEqual([answer.status, answer.reason, textOf(answer.report)], [3, REASON.full, 'AB']);
    assert.throws(() => bytesOf(answer), Failed);
});

test('want of memory is told', () => {
    const answer = engine().run(['dw'], 'abc', 10);
    assert.deepEqual([answer.status, answer.reason], [3, REASON.memory]);
});

test('what is no UTF-8 is read as windows-1252', () => {
    assert.equal(textOf(new Uint8Array([0xe9, 0x41])), 'éA');
    assert.equal(textOf(new TextEncoder().encode('éA')), 'éA');
});

test('a worker takes the module, and tells what fails', async () => {
    /** @type {((event: {data: unknown}) => Promise<void>)[]} */
    const listeners = [];
    /** @type {{number: number, failed?: string}[]} */
    const told = [];
    Object.assign(globalThis, {
        addEventListener: (/** @type {string} */ _, /** @type {never} */ act) => listeners.push(act),
        postMessage: (/** @type {never} */ answer) => told.push(answer),
    });
    work();
    const module = await WebAssembly.compile(new Uint8Array([0, 0x61, 0x73, 0x6d, 1, 0, 0, 0]));
    await listeners[0]({ data: { module } });
    await listeners[0]({ data: { number: 7, words: ['dw'], input: '' } });
    assert.equal(told[0].number, 7);
    assert.match(String(told[0].failed), /Error/);
});
