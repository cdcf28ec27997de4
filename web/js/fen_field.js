/** The field of the FEN text: it follows the board, and the board follows it. */
import { faultOf } from './answers.js';
import { byId, control, make } from './dom.js';
import { keyOf } from './languages.js';
import { lineOfName, namingOf } from './naming.js';
import { pasted } from './pasted.js';
import { isSame, positionOf } from './position.js';
import { squareCount } from './squares.js';

/** @typedef {import('./app.js').App} App */

/** How long the page waits for more of a FEN text, in milliseconds. */
const PATIENCE = 120;

/**
 * Puts a text into a field, as if it had been typed.
 * @param {HTMLInputElement | HTMLTextAreaElement} field
 * @param {string} text
 */
function put(field, text) {
    field.value = text;
    field.dispatchEvent(new Event('input'));
}

/**
 * Brings the field to life.
 * @param {App} app
 */
export function followText(app) {
    const field = control('fen', HTMLInputElement);
    let asked = 0, timer = 0, isTyping = false, isPending = false, isOwn = false, fault = Promise.resolve('');
    /** @type {{fen: string, tags: import('./pdn.js').Tag[]}} The text of a game that was pasted, and its tags. */
    let game = { fen: '', tags: [] };

    /** Writes the text of the position as the program does, once nobody types. */
    function tidy() {
        if (!isPending && !app.refused && document.activeElement !== field) field.value = app.fen;
    }

    /**
     * Asks what `dw` reads a text as, and shows the fault, or the position. The field says in `data-read` which text
     * was read last. Answers why it is refused, if it is.
     */
    async function read(/** @type {string} */ text) {
        const number = ++asked, { rows } = app.position;
        const { fen, refused } = await app.rules.read(text, rows);
        if (number !== asked) return fault;
        if (text === field.value) isPending = false;
        app.refused = refused;
        showFault(app, text, refused);
        const position = refused || !isTyping ? app.position : positionOf(fen, rows);
        field.dataset.read = text;
        isOwn = true;
        if (!isSame(position, app.position)) app.edit(position);
        isOwn = false;
        const naming = namingOf(game.fen === text && !refused ? game.tags : []);
        if (lineOfName(naming)) app.name(position, naming);
        tidy();
        app.tell('read');
        return refused;
    }

    /** Reads a text, at once. */
    function readNow(/** @type {string} */ text) {
        clearTimeout(timer);
        timer = 0;
        fault = read(text);
    }

    field.addEventListener('input', () => {
        isTyping = isPending = true;
        clearTimeout(timer);
        timer = window.setTimeout(() => readNow(field.value), PATIENCE);
    });
    field.addEventListener('paste', (event) => {
        const text = event.clipboardData?.getData('text') ?? '', { fen, movetext, tags } = pasted(text);
        if (fen === text) return;
        event.preventDefault();
        game = { fen, tags };
        put(field, fen);
        if (movetext) put(control('movetext', HTMLTextAreaElement), movetext);
    });
    field.addEventListener('keydown', ({ key }) => {
        if (key === 'Enter' && isPending) readNow(field.value);
    });
    app.fault = () => {
        if (timer) readNow(field.value);
        return fault;
    };
    field.addEventListener('blur', tidy);
    app.on(['edited', 'looked'], () => {
        if (isOwn) return;
        isTyping = isPending = false;
        field.value = app.fen;
        readNow(app.fen);
    });
    app.on(['spoken'], () => {
        if (asked) showFault(app, field.dataset.read ?? '', app.refused);
    });
}

/**
 * Shows why `dw` refuses a text, in its words, with the byte marked.
 * @param {App} app
 * @param {string} text
 * @param {string} refused
 */
function showFault(app, text, refused) {
    const place = byId('fault'), fault = faultOf(refused);
    place.hidden = !refused;
    place.replaceChildren();
    byId('fen').setAttribute('aria-invalid', String(Boolean(refused)));
    delete place.dataset.place;
    if (!refused) return;
    if (!fault) {
        place.append(refused);
        return;
    }
    place.dataset.place = String(fault.place);
    const bytes = new TextEncoder().encode(text), decoder = new TextDecoder();
    const cut = (/** @type {number} */ from, /** @type {number} */ to) => decoder.decode(bytes.subarray(from, to));
    let end = fault.place;
    while (end < bytes.length && (bytes[end] & 0xc0) === 0x80) end += 1;
    const why = keyOf(`fault${fault.number}`);
    place.append(
        make('strong', { lang: 'en' }, `${fault.number} ${fault.name} at ${fault.place}`),
        make('code', {}, cut(0, fault.place - 1), make('mark', {}, cut(fault.place - 1, end) || '␣'),
            cut(end, bytes.length)),
        make('span', {}, why ? app.say(why, squareCount(app.position.rows)) : ''),
    );
}
