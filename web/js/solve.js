/** What is asked of a problem: its verdict and solution, what each first move does, its certificate. */
import { Task } from './book.js';
import { byId, control, copyText, save } from './dom.js';
import { reportOf } from '../../package/engine.js';
import { rowsOf } from './answers.js';
import { namedTags } from './naming.js';
import { gameOf } from './pdn.js';
import { boardOf } from './rules.js';
import { find } from './search.js';

/**
 * @typedef {import('./app.js').App} App
 * @typedef {import('./book.js').Entry} Entry
 * @typedef {import('./answers.js').First} First
 * @typedef {import('./number.js').MovesField} MovesField
 */

/** How many lines of play a solution has at most. */
const LINES = 1000;

/** How often the time of a search is shown, in milliseconds. */
const TICK = 200;

/** How many positions a certificate may have. */
const CERTIFIED = 4_000_000;

/** Asks, and puts the answers into the book. */
export class Solving {
    /**
     * @param {App} app
     * @param {MovesField} most
     */
    constructor(app, most) {
        this.app = app;
        this.most = most;
        /** Whether a search waits for the text of the position to be read. */
        this.isAsking = false;
        /** Whether the last call of `solve` was refused, since the text of the position is. */
        this.isBlocked = false;
        byId('ask').addEventListener('submit', (event) => {
            event.preventDefault();
            void this.solve();
        });
        const on = (/** @type {string} */ id, /** @type {() => void} */ act) => byId(id).addEventListener('click', act);
        on('solve-here', () => void this.solve());
        on('stop', () => this.stop());
        on('go-on', () => void this.goOn());
        on('copy', () => void this.copy());
        on('certificate', () => void this.certify());
        on('ask-firsts', () => void this.askFirsts());
        app.on(['edited', 'looked', 'read'], () => { this.isBlocked = false; });
        this.timer = 0;
    }

    /** Shows the time while something is searched. */
    tick() {
        const isRunning = this.entry.tasks.some((task) => task?.isRunning);
        clearTimeout(this.timer);
        if (isRunning) this.timer = window.setTimeout(() => this.tick(), TICK);
        this.app.tell('answered');
    }

    /** The entry whose verdict is shown. */
    get entry() {
        return this.app.shown((entry) => entry.solve);
    }

    /** Stops all that is searched of what is shown. */
    stop() {
        const { solve, firsts, certificate } = this.entry;
        for (const task of [solve, firsts, certificate]) task?.stop();
        this.app.tell('answered');
    }

    /** Asks for the position on the board. */
    async solve() {
        const { app } = this, most = this.most.ask(), isExact = control('exact', HTMLInputElement).checked;
        const later = Number(control('later', HTMLSelectElement).value);
        if (!most) return;
        app.take();
        this.isAsking = true;
        app.tell('answered');
        const isRefused = Boolean(await app.fault());
        [this.isAsking, this.isBlocked] = [false, isRefused];
        if (isRefused) {
            app.tell('answered');
            return;
        }
        const entry = app.book.of(app.subject);
        this.forget(entry);
        await this.search(entry, { most, isExact, later }, { noWinIn: 0, expanded: 0 }, 0);
    }

    /** Goes on with the search that was stopped, from what it has found. */
    async goOn() {
        const { app, entry } = this, { solve } = entry;
        if (solve?.phase !== 'stopped' || await app.fault()) return;
        const { question, progress, took } = solve;
        this.forget(entry);
        await this.search(entry, question, progress, took);
    }

    /**
     * Searches for the answer to a question.
     * @param {Entry} entry
     * @param {import('./book.js').SolveQuestion} asked
     * @param {import('./book.js').SolveProgress} before What is known already.
     * @param {number} took How long it has taken to find that, in milliseconds.
     */
    async search(entry, asked, before, took) {
        const { app } = this;
        /** @type {NonNullable<Entry['solve']>} */
        const task = new Task(asked, before);
        task.begun -= took;
        entry.solve = task;
        this.tick();
        const question = { fen: entry.fen, rows: entry.position.rows, ...asked };
        const show = (/** @type {import('./book.js').SolveProgress} */ progress) => {
            if (task.isRunning) task.progress = progress;
        };
        await task.work((signal) => find(app.solver.ask.bind(app.solver), question, show, signal, before))
            .finally(() => app.tell('answered'));
    }

    /**
     * Ends what was asked of a position before.
     * @param {Entry} entry
     */
    forget(entry) {
        const { solve, firsts, certificate } = entry;
        for (const task of [solve, firsts, certificate]) task?.stop();
        entry.solve = entry.firsts = entry.certificate = entry.note = null;
        entry.game = { asked: '', text: '' };
    }

    /** Asks what each first move does, shared by all processors. */
    async askFirsts() {
        const { app, entry } = this, n = entry.moves, parts = app.searches.most, { rows } = entry.position;
        if (!n || entry.firsts?.isRunning) return;
        const words = ['dw-desk', 'moves', ...boardOf(rows), '-n', String(n), '--json'];
        /** @type {NonNullable<Entry['firsts']>} */
        const task = new Task({ n }, null);
        entry.firsts = task;
        entry.note = null;
        this.tick();
        await task.work(async (signal) => {
            const shares = await Promise.all(Array.from({ length: parts }, async (_, i) => {
                const asking = [...words, '--part', `${i + 1}/${parts}`];
                const [row] = rowsOf(reportOf(await app.searches.ask(asking, `${entry.fen}\n`, signal)));
                return /** @type {First[]} */ (row.moves);
            }));
            const known = new Map(shares.flat().map((first) => [first.move, first]));
            return (await app.rules.legal(entry.fen, rows)).flatMap(({ move }) => known.get(move) ?? []);
        }).finally(() => app.tell('answered'));
    }

    /** Saves the certificate of the answer. */
    async certify() {
        const { app, entry } = this, n = entry.moves;
        if (!n || entry.certificate?.isRunning) return;
        const board = boardOf(entry.position.rows);
        const words = ['dw-desk', 'certify', ...board, '-n', String(n), '--cache', String(CERTIFIED)];
        /** @type {NonNullable<Entry['certificate']>} */
        const task = new Task({ n }, null);
        entry.certificate = task;
        entry.note = null;
        this.tick();
        await task.work(async (signal) => reportOf(await app.solver.ask(words, `${entry.fen}\n`, signal)))
            .finally(() => app.tell('answered'));
        if (task.result === null) return;
        save('certificate.txt', task.result, 'text/plain');
        entry.certificate = null;
        entry.note = { key: 'saved', values: ['certificate.txt'] };
        app.tell('answered');
    }

    /** Copies the problem with its solution as a PDN game. */
    async copy() {
        const { app, entry } = this, n = entry.moves;
        if (!n) return;
        const board = boardOf(entry.position.rows), lines = ['--lines', String(LINES)];
        const words = ['dw-desk', 'solution', '--pdn', ...board, '-n', String(n), ...lines];
        const asked = gameOf([...namedTags([], app.names.of(entry.position)), ['FEN', entry.fen]], '*');
        if (entry.game.asked !== asked) {
            entry.game = { asked, text: reportOf(await app.solver.ask(words, asked)) };
        }
        const { text } = entry.game, isCopied = await copyText(text);
        if (!isCopied) save('problem.pdn', text, 'text/plain');
        entry.note = isCopied ? { key: 'copied', values: [] } : { key: 'saved', values: ['problem.pdn'] };
        app.tell('answered');
    }
}
