/** Comparing an author's solution with the truth. */
import { failureText, namePosition } from './answer_view.js';
import { faultOf, movesOf, rowsOf, summaryOf } from './answers.js';
import { Task } from './book.js';
import { byId, control, fill, make, reveal, unbroken } from './dom.js';
import { reportOf, textOf } from '../../package/engine.js';
import { keyOf } from './languages.js';
import { lineOfName, namingOf } from './naming.js';
import { pasted } from './pasted.js';
import { positionOf } from './position.js';
import { boardOf } from './rules.js';
import { numbered } from './tree.js';

/**
 * @typedef {import('./app.js').App} App
 * @typedef {import('./book.js').Entry} Entry
 * @typedef {import('./answers.js').Remark} Remark
 * @typedef {import('./answers.js').Checked} Checked
 */

/** The longest movetext, in bytes, and how much of it is shown around a fault. */
const LARGEST_GAME = 1_048_576, AROUND = 60;

/** Whether a text is a whole game, with tags. */
const isGame = (/** @type {string} */ text) => /^\s*\[/.test(text);

/** The comparison. */
export class Comparing {
    /**
     * @param {App} app
     * @param {import('./number.js').OptionalMovesField} most
     */
    constructor(app, most) {
        this.app = app;
        this.most = most;
        this.field = control('movetext', HTMLTextAreaElement);
        /** @type {import('./languages.js').Key | null} Why nothing was compared. */
        this.blocked = null;
        byId('compare').addEventListener('click', () => void this.compareField());
        byId('compare-own').addEventListener('click', () => this.compareOwn());
        byId('stop-compare').addEventListener('click', () => {
            this.entry.compare?.stop();
            this.draw();
        });
        byId('movetext-file').addEventListener('change', () => void this.open());
        for (const field of [this.field, most.field]) field.addEventListener('input', () => this.unblock());
        app.on(['edited', 'looked', 'read'], () => { this.blocked = null; });
        app.on(['edited', 'looked', 'spoken', 'answered', 'read'], () => this.draw());
        this.draw();
    }

    /** The entry whose comparison is shown, if it is one of the text in the field, or of the file's game. */
    get entry() {
        return this.app.shown((entry) => this.isOfText(entry));
    }

    /**
     * Whether an entry has a comparison of what is asked now.
     * @param {Entry} entry
     */
    isOfText({ compare }) {
        if (compare === null) return false;
        const { text, isOwn, most } = compare.question;
        return (isOwn || text === this.field.value) && !this.most.isWrong && most === this.most.value;
    }

    /** The text or the number is another: what is searched of the one before has no use. */
    unblock() {
        const entry = this.app.book.of(this.app.subject);
        if (!this.isOfText(entry)) entry.compare?.stop();
        this.blocked = null;
        this.draw();
    }

    /** @param {import('./languages.js').Key} why */
    block(why) {
        this.blocked = why;
        this.draw();
    }

    /** Compares what stands in the field; a whole game brings its own position, and is the first of its text. */
    async compareField() {
        const { app } = this, text = this.field.value, most = this.most.ask(), { rows } = app.position;
        if (this.most.isWrong) return;
        app.returnToSubject();
        if (!isGame(text)) {
            if (await app.fault()) {
                this.block('faultFirst');
                return;
            }
            const entry = app.book.of(app.subject);
            await this.compare(entry, `[FEN "${entry.fen}"]${text}`, { text, isOwn: false, count: 1, most });
            return;
        }
        const problems = await app.rules.problems(text, rows);
        if (this.field.value !== text) return;
        const fen = problems[0]?.fen, naming = namingOf(pasted(text).tags);
        if (fen) app.edit(positionOf(fen, rows));
        if (fen && lineOfName(naming)) app.name(app.history.now, naming);
        await this.compare(app.book.of(app.subject), text, { text, isOwn: false, count: problems.length, most });
    }

    /** Compares the solution of the file with which the problem came. */
    compareOwn() {
        const { app } = this, text = app.gameOf(app.history.now), most = this.most.ask();
        if (text === null || this.most.isWrong) return;
        app.returnToSubject();
        void this.compare(app.book.of(app.history.now), text, { text, isOwn: true, count: 1, most });
    }

    /**
     * Compares the first game of a text with the truth.
     * @param {Entry} entry The entry of its position.
     * @param {string} games
     * @param {import('./book.js').CompareQuestion} question
     */
    async compare(entry, games, question) {
        const { app } = this, words = ['dw-desk', 'check', '--json', '--problem', '1'];
        entry.compare?.stop();
        /** @type {NonNullable<Entry['compare']>} */
        const task = new Task(question, null);
        entry.compare = task;
        app.tell('answered');
        await task.work(async (signal) => {
            const most = question.most ? ['--most', String(question.most)] : [];
            const asking = [...words, ...most, ...boardOf(entry.position.rows)];
            return /** @type {Checked} */ (rowsOf(reportOf(await app.solver.ask(asking, games, signal)))[0]);
        }).finally(() => app.tell('answered'));
    }

    /** Opens a file with a solution, and compares it. */
    async open() {
        const input = control('movetext-file', HTMLInputElement), file = input.files?.[0];
        input.value = '';
        if (!file) return;
        if (file.size > LARGEST_GAME) {
            this.block('tooLargeGame');
            return;
        }
        this.field.value = textOf(new Uint8Array(await file.arrayBuffer()));
        void this.compareField();
    }

    draw() {
        const { app, entry } = this, compare = this.isOfText(entry) ? entry.compare : null;
        const checked = compare?.result ?? null, [kind, text] = checked ? this.verdict(checked) : ['', ''];
        control('stop-compare', HTMLButtonElement).disabled = !compare?.isRunning;
        control('compare', HTMLButtonElement).disabled = Boolean(compare?.isRunning);
        reveal('compare-own', app.gameOf(app.history.now) !== null);
        const place = byId('compared'), said = compare?.isRunning ? app.say('searching')
            : compare?.phase === 'stopped' ? app.say('stoppedEarly') : failureText(app, compare?.why ?? null);
        place.textContent = this.blocked ? app.say(this.blocked) : text || said;
        place.dataset.kind = this.blocked ? '' : kind;
        place.dataset.line = checked && !this.blocked ? summaryOf(checked) : '';
        byId('compared-lines').textContent = place.dataset.line;
        namePosition(app, 'compared-of', compare && !this.blocked && !checked?.refused ? entry : null);
        const shown = this.blocked ? null : checked, count = compare?.question.count ?? 1;
        const fault = this.fault(shown?.solution_refused ?? '', compare?.question.text ?? '');
        fill('compared-fault', [shown, app.language], () => fault);
        reveal('compared-fault', fault.length > 0);
        byId('compared-first').textContent = compare?.question.isOwn ? app.say('comparedFile')
            : app.say('firstOnly', count);
        reveal('compared-first', shown !== null && (count > 1 || Boolean(compare?.question.isOwn)));
        fill('remarks', [entry, shown, app.language], () =>
            (shown?.remarks ?? []).map((remark) => this.item(entry, remark)));
    }

    /**
     * What is said of the whole solution, and of which kind that is.
     * @param {Checked} checked
     */
    verdict({ refused, solution_refused: unread, holds, win, fail, n, remarks = [] }) {
        const { app } = this;
        if (refused || unread) return ['refused', app.say('sayRefused')];
        if (!holds && win && !fail) return ['but', app.say('sayStops', n)];
        if (!holds) return ['fails', app.say(win ? 'sayFails' : 'sayNoWin', n)];
        return remarks.length ? ['but', app.say('sayHoldsBut', n)] : ['holds', app.say('sayHolds', n)];
    }

    /**
     * Where a typed solution cannot be read, and why.
     * @param {string} unread
     * @param {string} text
     */
    fault(unread, text) {
        const fault = faultOf(unread);
        if (!fault || isGame(text)) return [];
        const why = keyOf(`movetext${fault.number}`), bytes = new TextEncoder().encode(text);
        const before = new TextDecoder().decode(bytes.subarray(0, fault.place - 1));
        const rest = text.slice(before.length, before.length + AROUND), [word] = /^\S*/.exec(rest) ?? [''];
        const shown = [before.slice(-AROUND), make('mark', {}, word || '␣'), rest.slice(word.length)];
        return [make('code', {}, ...shown), make('span', {}, why ? this.app.say(why) : '')];
    }

    /** A remark as a sentence. */
    sentence(/** @type {Entry} */ { fen }, /** @type {Remark} */ remark) {
        const { kind, line, moves, refutation = '', wins_in: winsIn = 0 } = remark;
        const { app } = this, played = movesOf(line), where = numbered(fen, played) || app.say('start');
        if (kind === 'fails') return app.say('remarkFails', numbered(fen, [...played, ...moves]), refutation);
        if (kind === 'also') return app.say('remarkAlso', where, moves.join(', '));
        if (kind === 'open') return app.say('remarkOpen', where, moves.join(', '));
        return app.say('remarkEnds', where, winsIn);
    }

    /** A remark; its button shows the position that it speaks of. */
    item(/** @type {Entry} */ entry, /** @type {Remark} */ remark) {
        const { moves, kind, line } = remark, isBad = kind === 'fails' || kind === 'ends';
        const path = kind === 'fails' ? [...movesOf(line), ...moves] : movesOf(line);
        const data = { 'data-kind': kind, 'data-line': line, 'data-moves': moves.join(', ') };
        const button = make('button', { type: 'button', class: `remark ${kind}`, ...data },
            make('span', { class: 'sign', 'aria-hidden': 'true' }, isBad ? '✗' : '!'), ' ',
            make('span', {}, ...unbroken(this.sentence(entry, remark))));
        button.addEventListener('click', () => void this.playOut(entry, path));
        return make('li', {}, button);
    }

    /** @param {Entry} entry @param {string[]} moves */
    async playOut(entry, moves) {
        const { app } = this, played = await app.rules.follow(entry.fen, moves, entry.position.rows);
        const last = played[played.length - 1];
        if (this.entry === entry) app.look(last?.fen ?? null, last?.move);
    }
}
