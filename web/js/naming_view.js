/** The name of the problem on the page: the line above the board, and the fields in which it is typed. */
import { byId, control, reveal } from './dom.js';
import { isSameName, lineOfName, NO_NAME, NAME_PARTS } from './naming.js';

/**
 * @typedef {import('./app.js').App} App
 * @typedef {import('./naming.js').Naming} Naming
 * @typedef {import('./position.js').Position} Position
 */

/**
 * What is asked of the side to move: in how many moves it wins, once that is known.
 * @param {App} app
 * @param {Position} position
 */
export function taskOf(app, position) {
    const found = app.book.find(position)?.solve?.result?.found, isWhite = position.turn === 'W';
    if (!found || found.verdict === 'unsolvable') return app.say(isWhite ? 'whiteToMove' : 'blackToMove');
    return app.say('taskWin', app.say(isWhite ? 'white' : 'black'), found.n);
}

/** Shows and changes the name of the problem. */
export class NamingView {
    /** @param {App} app */
    constructor(app) {
        this.app = app;
        this.fields = NAME_PARTS.map(([part]) => control(`name-${part}`, HTMLInputElement));
        /** The name of the problem that was there last and had one. @type {Readonly<Naming>} */
        this.before = NO_NAME;
        for (const field of this.fields) field.addEventListener('input', () => this.take());
        byId('name-before').addEventListener('click', () => app.name(app.history.now, this.before));
        app.on(['edited', 'looked', 'spoken', 'answered', 'named'], () => this.draw());
    }

    /** The name is what stands in the fields. */
    take() {
        const naming = { ...NO_NAME };
        NAME_PARTS.forEach(([part], i) => { naming[part] = this.fields[i].value.trim(); });
        this.app.name(this.app.history.now, naming);
    }

    draw() {
        const { app } = this, { now } = app.history, naming = app.names.of(now), line = lineOfName(naming);
        if (line) this.before = naming;
        const { position, looked } = app;
        const task = !looked ? taskOf(app, now)
            : app.say('laterPosition', app.say(position.turn === 'W' ? 'whiteToMove' : 'blackToMove'));
        byId('named').dataset.name = line;
        byId('named').title = line;
        byId('named-name').textContent = line;
        byId('named-task').textContent = task;
        NAME_PARTS.forEach(([part], i) => {
            const field = this.fields[i];
            if (field.value.trim() !== naming[part]) field.value = naming[part];
        });
        const isOffered = !line && now.pieces.size > 0 && !isSameName(this.before, NO_NAME);
        reveal('name-before', isOffered);
        byId('name-before').textContent = app.say('nameBefore', lineOfName(this.before));
    }
}
