/** A program under node: arguments, a file or standard input, standard output and error, the exit status. */
import { closeSync, fstatSync, openSync, readFileSync } from 'node:fs';
import { setFlagsFromString } from 'node:v8';
import { REASON } from '../engine.js';
import { compiled, makerOf } from '../module.js';
import { Workers } from '../workers.js';

/** How many bytes go out at a time, and how soon and how often the time is shown, in milliseconds. */
const PIECE = 65_536, SOON = 500, TICK = 100;

/** The most bytes of input, and of memory: a module has addresses for no more. */
const LARGEST = 1_000_000_000, MOST = 4_000_000_000;

/**
 * Has node compile well only what runs for long, which otherwise takes longer than a short search. Its versions are
 * known to have this option up to one.
 */
const PATIENT = '--wasm-tiering-budget=20000000', LAST_PATIENT = 24;

/** What `--help` says at its end. */
const NOTE = '\nThis is the program as WebAssembly. It writes its output when it is done, not line by line. Its progress\n'
    + 'line shows the time alone. Its input has at most 1 GB.\n';

/** Whether words ask for help, and not for an answer. */
const asksForHelp = (words) => words[0] === 'help' || words.some((word) => word === '--help' || word === '-h');

const isVersion = (word) => word === '--version' || word === '-V';

/** Ends with a message and an exit status. */
class Ended extends Error {
    constructor(message, status) {
        super(message);
        this.status = status;
    }
}

/** Writes to a stream, piece by piece. Answers whether the stream took it all. */
async function write(stream, bytes) {
    for (let at = 0; at < bytes.length; at += PIECE) {
        const failed = await new Promise((resolve) => {
            stream.once('error', resolve);
            stream.write(bytes.subarray(at, at + PIECE), (error) => {
                stream.removeListener('error', resolve);
                resolve(error ?? null);
            });
        });
        if (failed) return false;
    }
    return true;
}

const tooLarge = () => new Ended(`the input has more than ${LARGEST} bytes`, 3);

/** All bytes of standard input. */
async function standardInput() {
    const pieces = [];
    let size = 0;
    for await (const piece of process.stdin) {
        size += piece.length;
        if (size > LARGEST) throw tooLarge();
        pieces.push(piece);
    }
    return Buffer.concat(pieces, size);
}

/** All bytes of a file. */
function contentOf(name) {
    let file;
    try {
        file = openSync(name);
    } catch {
        throw new Ended(`cannot open ${name}`, 3);
    }
    try {
        if (fstatSync(file).size > LARGEST) throw tooLarge();
        return readFileSync(file);
    } catch (error) {
        throw error instanceof Ended ? error : new Ended('read failed', 3);
    } finally {
        closeSync(file);
    }
}

/** Shows the time on a terminal while something is done. */
function showTime(program) {
    if (!process.stderr.isTTY) return () => {};
    const begun = Date.now();
    let isShown = false;
    const timer = setInterval(() => {
        const passed = Date.now() - begun;
        if (passed < SOON) return;
        isShown = true;
        process.stderr.write(`\r${program}: ${(passed / 1000).toFixed(1)} s `);
    }, TICK);
    return () => {
        clearInterval(timer);
        if (isShown) process.stderr.write('\r\u001b[K');
    };
}

/**
 * Runs the words. A program that is to open a file ends there, and is run again with what the file holds.
 * @param {(words: string[], input: string | Uint8Array) => Promise<import('../engine.js').Answer>} ask
 * @param {string} program
 * @param {string[]} words
 */
async function answerOf(ask, program, words) {
    const front = `${program}: cannot open `, first = await ask([program, ...words], '');
    const isFile = first.reason === REASON.other && first.message.startsWith(front);
    if (isFile) {
        const name = first.message.slice(front.length, -1), at = words.lastIndexOf(name);
        const rest = words.filter((_, i) => i !== at && !(words[i] === '--' && i === at - 1));
        return ask([program, ...rest], contentOf(name));
    }
    // (the first call has told whether the arguments are in order, without a look at the input)
    const isUnread = first.reason !== REASON.ended || asksForHelp(words) || words.some(isVersion);
    return isUnread ? first : ask([program, ...words], await standardInput());
}

/**
 * What goes to standard output. A report without room for its end stops after a line.
 * @param {import('../engine.js').Answer} answer
 * @param {string[]} words
 */
function reportOf({ reason, report }, words) {
    if (reason === REASON.full) return report.subarray(0, report.lastIndexOf(10) + 1);
    return reason === REASON.ended && asksForHelp(words) ? Buffer.concat([report, Buffer.from(NOTE)]) : report;
}

/**
 * Runs a program, and ends the process.
 * @param {'dw' | 'dw-desk'} program
 */
export async function run(program) {
    const words = process.argv.slice(2), hide = showTime(program);
    let status = 3;
    // (a write that fails is told by its own call)
    for (const stream of [process.stdout, process.stderr]) stream.on('error', () => {});
    try {
        const broken = words.find((word) => word.includes('\n'));
        if (broken !== undefined) throw new Ended('an argument has a line feed', 2);
        if (parseInt(process.versions.node, 10) <= LAST_PATIENT) setFlagsFromString(PATIENT);
        const maker = await makerOf(await compiled());
        const workers = new Workers(Promise.resolve(maker), 1, MOST);
        const answer = await answerOf(workers.ask.bind(workers), program, words);
        hide();
        status = answer.status;
        if (!await write(process.stdout, reportOf(answer, words))) throw new Ended('write failed', 3);
        if (answer.reason === REASON.full) throw new Ended('the report is too large for the module', 3);
        await write(process.stderr, Buffer.from(answer.message));
    } catch (error) {
        hide();
        status = error instanceof Ended ? error.status : 3;
        const message = error instanceof Ended ? error.message : `the module failed: ${error.message ?? error}`;
        await write(process.stderr, Buffer.from(`${program}: ${message}\n`));
    }
    process.exit(status);
}
