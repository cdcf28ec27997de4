/** Keys that go through a solution or a play, wherever the focus is not in a field. */

/**
 * @typedef {import('./app.js').App} App
 * @typedef {import('./answer_view.js').AnswerView} AnswerView
 * @typedef {import('./play.js').Play} Play
 */

/** What the keys do in a solution. */
const STEPS = /** @type {const} */ ({
    ArrowLeft: 'back', ArrowRight: 'on', ArrowUp: 'before', ArrowDown: 'after', Home: 'start', End: 'end',
});

/** Where keys have another meaning. */
const FIELDS = ['input', 'textarea', 'select', 'dialog'];

/**
 * Listens to the keys.
 * @param {App} app
 * @param {AnswerView} answers
 * @param {Play} play
 */
export function listenToKeys(app, answers, play) {
    const inPlay = (/** @type {string} */ key) => {
        if (key === 'ArrowLeft') return play.step(-1);
        if (key === 'ArrowRight') return play.step(1);
        if (key === 'Home') return play.step(-Infinity);
        return key === 'End' && play.step(Infinity);
    };
    const escape = () => {
        if (play.cancel()) return true;
        if (!app.looked) return false;
        app.look(null);
        return true;
    };
    document.addEventListener('keydown', (event) => {
        const { key, target } = event, isField = target instanceof Element && FIELDS.some((tag) => target.closest(tag));
        if (event.defaultPrevented || isField || event.ctrlKey || event.metaKey || event.altKey) return;
        const step = key in STEPS ? STEPS[/** @type {keyof typeof STEPS} */ (key)] : null;
        const isDone = key === 'Escape' ? escape() : app.isPlaying ? inPlay(key) : step && answers.step(step);
        if (isDone) event.preventDefault();
    });
}
