/** The answer to what was asked of a problem, as it stands in the book. */
import { byId, control, fill, make, reveal, unbroken } from './dom.js';
import { REASON } from '../../package/engine.js';
import { MOST_MOVES } from './number.js';
import { SolutionView } from './solution.js';
import { numbered } from './tree.js';

/**
 * @typedef {import('./app.js').App} App
 * @typedef {import('./book.js').Entry} Entry
 * @typedef {import('./answers.js').Found} Found
 * @typedef {import('./solve.js').Solving} Solving
 */

/** A sign for each verdict, beside its colour. */
const SIGNS = { sound: '✓', dual: '≈', cooked: '✗', unsolvable: '∅', undecided: '?' };

/**
 * Why a task failed, in the language of the page.
 * @param {App} app
 * @param {import('../../package/engine.js').Failed | null} why
 */
export function failureText(app, why) {
    if (!why) return '';
    return why.reason === REASON.memory ? app.say('noMemory') : app.say('failed', why.message);
}

/**
 * Names the position that an answer belongs to, and says whether it is another than that on the board.
 * @param {App} app
 * @param {string} id
 * @param {Entry | null} entry
 * @param {import('./languages.js').Key} elsewhere How it is said if the board shows another.
 */
export function namePosition(app, id, entry, elsewhere = 'answerElsewhere') {
    const place = byId(id), isElsewhere = entry !== null && !app.isOnBoard(entry);
    place.hidden = entry === null;
    place.dataset.fen = entry?.fen ?? '';
    place.classList.toggle('elsewhere', isElsewhere);
    // (the two lines stand apart, so that nothing moves when the board shows another position)
    const says = app.say(isElsewhere ? elsewhere : 'answerOf', '').trim();
    fill(id, [entry, says], () => (entry ? [make('span', {}, says), ' ', make('code', {}, entry.fen)] : []));
}

/**
 * Within how many moves no first move wins but the key, as far as it is known.
 * @param {number} n The number of moves of the key.
 * @param {Found['later']} later
 * @param {number} more How many moves more were asked for.
 */
const aloneWithin = (n, later, more) => (later === null ? n
    : Math.min(MOST_MOVES, n + more, ...later.map(([, moves]) => moves - 1)));

/** Draws the panel of answers. It keeps no answer: what it draws depends on the board and on the book alone. */
export class AnswerView {
    /**
     * @param {App} app
     * @param {Solving} solving
     */
    constructor(app, solving) {
        this.app = app;
        this.solving = solving;
        this.view = new SolutionView(byId('solution'), (node) => app.look(node.parent ? node.fen : null, node.move),
            (count) => app.say('unfold', count));
        for (const [id, step] of /** @type {const} */ ([
            ['to-start', 'start'], ['previous-move', 'back'], ['next-move', 'on'], ['to-end', 'end'],
        ])) byId(id).addEventListener('click', () => this.view.step(step));
        byId('depth').addEventListener('change', () => this.draw());
        app.on(['edited', 'looked', 'spoken', 'answered', 'read'], () => this.draw());
        this.draw();
    }

    /** How much of the solution is shown. */
    get depth() {
        return /** @type {import('./tree.js').Depth} */ (control('depth', HTMLSelectElement).value);
    }

    /**
     * Goes through the solution, if it is in sight. Answers whether there was such a step.
     * @param {import('./solution.js').Step} where
     */
    step(where) {
        const isShown = !byId('panel-solve').hidden && !byId('answer').hidden && !byId('solution-part').hidden;
        return isShown && (where !== 'start' || this.app.looked !== null) && this.view.step(where);
    }

    draw() {
        const { app } = this, { entry } = this.solving, found = entry.solve?.result?.found ?? null;
        this.drawState(entry);
        namePosition(app, 'answer-of', entry.solve ? entry : null, 'answerOfStart');
        reveal('solve-here', entry.solve !== null && !app.isOnBoard(entry));
        reveal('answer', Boolean(found));
        const tree = entry.solve?.result?.tree ?? null;
        const isOther = this.view.tree !== tree || (tree && this.view.reading?.depth !== this.depth);
        if (isOther) this.view.show(tree, this.depth);
        if (!app.looked) this.view.leave();
        if (!found) return;
        this.drawVerdict(entry, found);
        this.drawDual(entry, found);
        this.drawTries(entry, found);
        this.drawLater(entry, found);
        reveal('solution-part', Boolean(tree));
        byId('solution-more').textContent = app.say('moreLines');
        reveal('solution-more', entry.solve?.result?.isMore ?? false);
        this.drawFirsts(entry);
    }

    /**
     * How far the questions are, or how they ended.
     * @param {Entry} entry
     */
    drawState(entry) {
        const { app } = this, { solve, firsts, certificate, note } = entry, place = byId('state');
        // (until the page is ready it says that it is loading)
        if (!document.documentElement.dataset.ready && !solve) return;
        const running = [solve, firsts, certificate].filter((task) => task?.isRunning);
        const { isAsking, isBlocked } = this.solving, isSearching = running.length > 0 || isAsking;
        control('solve', HTMLButtonElement).disabled = Boolean(solve?.isRunning) || isAsking;
        control('stop', HTMLButtonElement).disabled = running.length === 0;
        reveal('go-on', solve?.phase === 'stopped' && !isSearching);
        if (isBlocked && app.refused) {
            place.dataset.state = 'stopped';
            place.textContent = app.say('faultFirst');
            return;
        }
        place.dataset.state = isSearching ? 'searching' : solve?.state ?? 'idle';
        const timed = (/** @type {'searchingFirsts' | 'writingCertificate'} */ key, /** @type {string} */ seconds) =>
            `${app.say(key)}, ${app.say('seconds', seconds)}`;
        const parts = isSearching ? [
            solve?.isRunning ? this.searchText(solve) : isAsking ? app.say('searching') : '',
            firsts?.isRunning ? timed('searchingFirsts', firsts.seconds) : '',
            certificate?.isRunning ? timed('writingCertificate', certificate.seconds) : '',
        ] : [
            note ? app.say(note.key, ...note.values) : solve ? this.endText(solve) : '',
            ...[firsts, certificate].map((task) => (task?.phase === 'stopped' ? app.say('stoppedEarly')
                : failureText(app, task?.why ?? null))),
        ];
        place.textContent = [...new Set(parts)].filter(Boolean).join(' ');
    }

    /** @param {NonNullable<Entry['solve']>} solve */
    searchText({ progress: { noWinIn, expanded }, seconds }) {
        const { app } = this;
        return [
            app.say('searching'), noWinIn ? app.say('noWinYet', noWinIn) : '',
            expanded ? app.say('expanded', expanded.toLocaleString(app.language)) : '', app.say('seconds', seconds),
        ].filter(Boolean).join(', ');
    }

    /** @param {NonNullable<Entry['solve']>} solve */
    endText({ phase, progress: { noWinIn }, seconds, why }) {
        const { app } = this;
        if (phase === 'done') return app.say('done', seconds);
        if (phase === 'failed') return failureText(app, why);
        return noWinIn ? app.say('stopped', noWinIn) : app.say('stoppedEarly');
    }

    /**
     * The verdict as a sentence.
     * @param {Entry} entry
     * @param {Found} found
     */
    sentence({ position, solve }, { verdict, n, keys, shortest, later }) {
        const { app } = this, moves = keys.join(', ');
        const side = app.say(position.turn === 'W' ? 'whiteWithin' : 'blackWithin');
        if (verdict === 'sound') {
            const alone = aloneWithin(n, later, solve?.question.later ?? 0);
            return app.say('saySound', side, n, moves) + (alone > n ? ` ${app.say('sayAlone', alone)}` : '');
        }
        if (verdict === 'dual') return app.say('sayDual', side, n, moves);
        if (verdict === 'unsolvable') return app.say('sayUnsolvable', side, n);
        return shortest < n ? app.say('sayShorter', side, n, shortest, moves) : app.say('sayCooked', side, n, moves);
    }

    /**
     * @param {Entry} entry
     * @param {Found} found
     */
    drawVerdict(entry, found) {
        const verdict = byId('verdict'), text = this.sentence(entry, found);
        byId('about').textContent = verdict.dataset.line = found.line;
        verdict.dataset.verdict = found.verdict;
        const sign = make('span', { class: 'sign', 'aria-hidden': 'true' }, SIGNS[found.verdict]);
        fill('verdict', [text], () => [sign, ' ', ...unbroken(text)]);
    }

    /**
     * Where a dual stands, with its choices.
     * @param {Entry} entry
     * @param {Found} found
     */
    drawDual(entry, found) {
        const isDual = found.verdict === 'dual';
        reveal('dual', isDual);
        if (!isDual) return;
        fill('dual', [entry, found, this.app.language], () => [
            ...unbroken(this.app.say('sayChoice', numbered(entry.fen, found.at))), ' ',
            ...found.choices.flatMap((move, i) => [i ? ' / ' : '', this.jump(entry, [...found.at, move])]),
        ]);
    }

    /**
     * @param {Entry} entry
     * @param {Found} found
     */
    drawTries(entry, found) {
        const word = ` ${this.app.say('refutedBy')} `;
        reveal('tries-part', found.tries.length > 0);
        fill('tries', [entry, found, this.app.language], () => found.tries.map(([move, reply]) =>
            make('li', {}, this.jump(entry, [move]), word, this.jump(entry, [move, reply]))));
    }

    /**
     * The first moves that win later than the keys.
     * @param {Entry} entry
     * @param {Found} found
     */
    drawLater(entry, found) {
        const later = found.later ?? [];
        reveal('later-part', later.length > 0);
        fill('later-wins', [entry, found, this.app.language], () => later.map(([move, n]) =>
            make('li', {}, this.jump(entry, [move]), ` ${this.app.say('winsIn', n)}`)));
    }

    /**
     * What each first move does.
     * @param {Entry} entry
     */
    drawFirsts(entry) {
        const { app } = this, { firsts } = entry, rows = firsts?.result ?? null;
        control('ask-firsts', HTMLButtonElement).hidden = Boolean(rows);
        control('ask-firsts', HTMLButtonElement).disabled = Boolean(firsts?.isRunning);
        control('certificate', HTMLButtonElement).disabled = Boolean(entry.certificate?.isRunning);
        reveal('firsts-part', Boolean(rows));
        byId('firsts-title').textContent = firsts ? app.say('firstsIn', firsts.question.n) : '';
        fill('firsts', [entry, rows, app.language], () => (rows ?? []).map((first) => {
            const replies = (first.refuted_by ?? [])
                .flatMap((reply, i) => [i ? ', ' : ' ', this.jump(entry, [first.move, reply])]);
            const says = first.wins_in ? ` ${app.say('winsIn', first.wins_in)}` : ` ${app.say('refutedBy')}`;
            return make('li', first.wins_in ? { class: 'wins' } : {}, this.jump(entry, [first.move]), says, ...replies);
        }));
    }

    /**
     * A button that plays moves from a position, and names the last of them.
     * @param {Entry} entry
     * @param {string[]} moves
     */
    jump(entry, moves) {
        const move = moves[moves.length - 1];
        const button = make('button', { type: 'button', class: 'move', 'data-move': move }, move);
        button.addEventListener('click', () => void this.playOut(entry, moves));
        return button;
    }

    /**
     * @param {Entry} entry
     * @param {string[]} moves
     */
    async playOut(entry, moves) {
        const { app } = this, played = await app.rules.follow(entry.fen, moves, entry.position.rows);
        const isStill = app.shown((one) => one.solve) === entry;
        const last = played[played.length - 1];
        if (isStill) app.look(last?.fen ?? null, last?.move);
    }
}
