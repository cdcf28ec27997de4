/** The page: makes its parts, and brings them together. */
import { AnswerView } from './answer_view.js';
import { App } from './app.js';
import { Comparing } from './compare.js';
import { breathe, byId, chooseOne, control } from './dom.js';
import { followText } from './fen_field.js';
import { Improving } from './improve.js';
import { Store } from './keep.js';
import { listenToKeys } from './keys.js';
import { keyOf, languageOf } from './languages.js';
import { followWindow } from './layout.js';
import { Link } from './link.js';
import { ListView } from './list.js';
import { NamingView } from './naming_view.js';
import { MovesField, OptionalMovesField, movesIn } from './number.js';
import { Paper } from './paper.js';
import { PictureView } from './picture_view.js';
import { Play } from './play.js';
import { Problems } from './problems.js';
import { SetUp } from './setup.js';
import { Solving } from './solve.js';
import { Workers } from '../../package/workers.js';

/** How many moves are asked for at first. */
const USUAL_MOVES = 8;

/** How many letters of the packed module are read at a time. Four of them are three bytes. */
const PIECE = 262_144;

/**
 * Writes the bytes of a text in base64, and lets the page draw itself in between.
 * @param {string} text
 * @param {WritableStream<BufferSource>} stream
 */
async function writeBase64(text, stream) {
    const writer = stream.getWriter();
    for (let at = 0; at < text.length; at += PIECE) {
        await breathe();
        const letters = atob(text.slice(at, at + PIECE)), bytes = new Uint8Array(letters.length);
        for (let i = 0; i < letters.length; i++) bytes[i] = letters.charCodeAt(i);
        await writer.write(bytes);
    }
    await writer.close();
}

/** Compiles the module, once for all workers, and answers what makes a worker that has it. */
async function makerOfWorkers() {
    const text = (/** @type {string} */ id) => document.getElementById(id)?.textContent?.trim() ?? '';
    const { readable, writable } = new DecompressionStream('deflate');
    const [bytes] = await Promise.all([new Response(readable).arrayBuffer(), writeBase64(text('module'), writable)]);
    const module = await WebAssembly.compile(bytes);
    const address = URL.createObjectURL(new Blob([text('worker')], { type: 'text/javascript' }));
    return () => {
        const worker = new Worker(address);
        worker.postMessage({ module });
        return worker;
    };
}

/**
 * Puts the words of the language into the page.
 * @param {App} app
 */
function speak(app) {
    document.documentElement.lang = app.language;
    document.title = app.say('title');
    for (const element of document.querySelectorAll('[data-text]')) {
        const key = keyOf(/** @type {HTMLElement} */ (element).dataset.text);
        if (key) element.textContent = app.say(key);
    }
    for (const element of document.querySelectorAll('[data-label]')) {
        const key = keyOf(/** @type {HTMLElement} */ (element).dataset.label);
        if (!key) continue;
        element.setAttribute('aria-label', app.say(key));
        if (element instanceof HTMLButtonElement) element.title = app.say(key);
    }
    app.tell('spoken');
}

/**
 * The language of the page: the one that was chosen last, or that of the browser.
 * @param {App} app
 * @param {Store} store
 */
function chooseLanguage(app, store) {
    const languages = control('language', HTMLSelectElement);
    app.language = languageOf([store.get('settings')?.language ?? '', ...navigator.languages]);
    languages.value = app.language;
    languages.addEventListener('change', () => {
        app.language = languageOf([languages.value]);
        store.change('settings', { language: app.language });
        speak(app);
    });
}

/** One of the panels is shown. */
function chooseTab() {
    const tabs = /** @type {HTMLElement[]} */ ([...document.querySelectorAll('[role=tab]')]);
    chooseOne(tabs, (tab) => {
        for (const other of tabs) byId(other.getAttribute('aria-controls') ?? '').hidden = other !== tab;
    }, 'aria-selected');
}

/**
 * How much of a solution is shown, which is kept.
 * @param {Store} store
 */
function keepDepth(store) {
    const field = control('depth', HTMLSelectElement), kept = store.get('settings')?.depth;
    if (['main', 'longest'].includes(kept)) field.value = kept;
    field.addEventListener('change', () => store.change('settings', { depth: field.value }));
}

/**
 * The number of moves of the collection, which is kept.
 * @param {App} app
 * @param {Store} store
 */
function movesOfList(app, store) {
    const most = new MovesField(app, 'judge-most');
    most.set(movesIn(String(store.get('settings')?.most ?? '')) || USUAL_MOVES);
    most.field.addEventListener('change', () => {
        if (most.value) store.change('settings', { most: most.value });
    });
    return most;
}

/** Starts the page. */
export async function start() {
    const maker = makerOfWorkers(), store = new Store(() => localStorage);
    const processors = Math.max(1, navigator.hardwareConcurrency || 2);
    const app = new App(new Workers(maker, processors), new Workers(maker, 2), new Workers(maker, 1),
        store);
    followWindow();
    chooseLanguage(app, store);
    await breathe();
    const most = new MovesField(app, 'most'), play = new Play(app), link = new Link(app, store, most);
    const setUp = new SetUp(app, play);
    followText(app);
    new NamingView(app);
    new PictureView(app, () => setUp.isTurned);
    await breathe();
    const solving = new Solving(app, most);
    keepDepth(store);
    listenToKeys(app, new AnswerView(app, solving), play);
    new Paper(app, solving, store);
    new Comparing(app, new OptionalMovesField(app, 'compare-most'));
    new Improving(app, new MovesField(app, 'mend-n'));
    new ListView(app, new Problems(() => localStorage), movesOfList(app, store));
    chooseTab();
    await breathe();
    speak(app);
    await maker.catch((error) => {
        byId('state').textContent = app.say('failed', String(error));
        throw error;
    });
    await link.begin();
    document.documentElement.dataset.ready = 'true';
    app.tell('answered');
    // (the page's first script holds what was asked before)
    dispatchEvent(new Event('ready'));
}
