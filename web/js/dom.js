/** Making elements. Text from outside comes into the page as text nodes alone. */

const SVG = 'http://www.w3.org/2000/svg';

/**
 * The element of this id and kind, which has to be there.
 * @template {HTMLElement} T
 * @param {string} id
 * @param {new () => T} kind
 * @returns {T}
 */
export function control(id, kind) {
    const found = document.getElementById(id);
    if (!(found instanceof kind)) throw new Error(`no element ${id}`);
    return found;
}

/**
 * The element of this id, which has to be there.
 * @param {string} id
 */
export const byId = (id) => control(id, HTMLElement);

/**
 * An element with attributes and children.
 * @template {keyof HTMLElementTagNameMap} T
 * @param {T} tag
 * @param {Record<string, string>} attributes
 * @param {(Node | string)[]} children
 */
export function make(tag, attributes = {}, ...children) {
    const made = document.createElement(tag);
    for (const [name, value] of Object.entries(attributes)) made.setAttribute(name, value);
    made.append(...children);
    return made;
}

/**
 * An element of a picture.
 * @template {keyof SVGElementTagNameMap} T
 * @param {T} tag
 * @param {Record<string, string>} attributes
 * @param {Node[]} children
 */
export function draw(tag, attributes = {}, ...children) {
    const made = document.createElementNS(SVG, tag);
    for (const [name, value] of Object.entries(attributes)) made.setAttribute(name, value);
    made.append(...children);
    return made;
}

/**
 * Shows an element or hides it.
 * @param {string} id
 * @param {boolean} isShown
 */
export function reveal(id, isShown) {
    byId(id).hidden = !isShown;
}

/** @type {WeakMap<Element, unknown[]>} What elements were filled for. */
const filled = new WeakMap();

/**
 * Fills an element for some values, unless it is filled for them already: so the focus in it stays.
 * @param {string} id
 * @param {unknown[]} values
 * @param {() => (Node | string)[]} parts
 */
export function fill(id, values, parts) {
    const host = byId(id), before = filled.get(host);
    if (before?.length === values.length && values.every((value, i) => value === before[i])) return;
    filled.set(host, values);
    host.replaceChildren(...parts());
}

/**
 * Marks the cards of a position, and no others.
 * @param {ParentNode} host
 * @param {string} fen
 */
export function markCards(host, fen) {
    for (const card of host.querySelectorAll('.card[aria-current]')) card.removeAttribute('aria-current');
    for (const card of host.querySelectorAll(`.card[data-fen="${CSS.escape(fen)}"]`)) {
        card.setAttribute('aria-current', 'true');
    }
}

/** How long the page may work on at a stretch, in milliseconds, and when it drew itself last. */
const STRETCH = 6;
let breathed = 0;

/** Lets the page draw itself. */
export const breathe = () => new Promise((resolve) => {
    setTimeout(() => {
        breathed = performance.now();
        resolve(null);
    }, 0);
});

/**
 * Does something with each item, and lets the page draw itself in between.
 * @template T
 * @param {Iterable<T>} items
 * @param {(item: T) => void} act
 */
export async function piecewise(items, act) {
    for (const item of items) {
        act(item);
        if (performance.now() - breathed > STRETCH) await breathe();
    }
}

/**
 * Lets the browser save a file.
 * @param {string} name
 * @param {string | Uint8Array | Blob} content
 * @param {string} type
 */
export function save(name, content, type) {
    const link = make('a', { download: name, href: URL.createObjectURL(new Blob([content], { type })) });
    link.click();
    setTimeout(() => URL.revokeObjectURL(link.href), 60_000);
}

/**
 * The parts of a sentence, in which no move is broken over two lines.
 * @param {string} text
 */
export const unbroken = (text) => text.split(/(\d+(?:[-x]\d+)+)/)
    .map((part, i) => (i % 2 ? make('span', { class: 'whole' }, part) : part));

/**
 * Copies a text to the clipboard; answers whether the browser let it.
 * @param {string} text
 */
export async function copyText(text) {
    try {
        await navigator.clipboard.writeText(text);
        return true;
    } catch {
        const field = make('textarea', { class: 'hidden', readonly: '' });
        field.value = text;
        document.body.append(field);
        field.select();
        const isCopied = document.execCommand('copy');
        field.remove();
        return isCopied;
    }
}

/**
 * Lets one of several buttons be chosen, as radio buttons are.
 * @param {HTMLElement[]} buttons
 * @param {(button: HTMLElement) => void} choose
 * @param {string} mark The attribute that says which one is chosen.
 */
export function chooseOne(buttons, choose, mark = 'aria-checked') {
    const show = (/** @type {HTMLElement} */ chosen) => buttons.forEach((button) => {
        button.setAttribute(mark, String(button === chosen));
        button.tabIndex = button === chosen ? 0 : -1;
    });
    const pick = (/** @type {HTMLElement} */ button) => {
        show(button);
        choose(button);
    };
    buttons.forEach((button, i) => {
        button.addEventListener('click', () => pick(button));
        button.addEventListener('keydown', (event) => {
            const step = { ArrowRight: 1, ArrowDown: 1, ArrowLeft: -1, ArrowUp: -1 }[event.key];
            if (!step) return;
            event.preventDefault();
            const next = buttons[(i + step + buttons.length) % buttons.length];
            next.focus();
            pick(next);
        });
    });
    show(buttons.find((button) => button.getAttribute(mark) === 'true') ?? buttons[0]);
    return pick;
}
