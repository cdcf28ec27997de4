/* A small stand-in for a browser's document, so that node can run the modules of the page: elements with attributes,
   text, events that rise, and selectors of one element. The page's own elements are those of index.html. */
import { readFileSync } from 'node:fs';

class Text {
    constructor(text) {
        this.textContent = text;
        this.parentElement = null;
    }

    remove() {
        this.parentElement.childNodes.splice(this.parentElement.childNodes.indexOf(this), 1);
    }
}

/** One part of a selector: a name, an id, classes, attributes. */
const PART = /^([a-z]+)|#([\w-]+)|\.([\w-]+)|\[([\w-]+)(?:="?([^"\]]*)"?)?\]/gi;

/** The parts of selectors that were taken apart. */
const taken = new Map();

function partsOf(selector) {
    const known = taken.get(selector);
    if (known) return known;
    const parts = [...selector.trim().matchAll(PART)];
    if (parts.map(([part]) => part).join('') !== selector.trim()) throw new Error(`another selector: ${selector}`);
    taken.set(selector, parts);
    return parts;
}

function isOne(element, selector) {
    return partsOf(selector).every(([, tag, id, name, attribute, value]) => {
        if (tag) return element.tagName.toLowerCase() === tag;
        if (id) return element.id === id;
        if (name) return element.classList.contains(name);
        return element.hasAttribute(attribute) && (value === undefined || element.getAttribute(attribute) === value);
    });
}

export class Element {
    constructor(tag) {
        this.tagName = tag.toUpperCase();
        this.attributes = new Map();
        this.childNodes = [];
        this.parentElement = null;
        this.listeners = new Map();
        this.style = {};
        this.scrollTop = this.clientWidth = 0;
        this.dataset = new Proxy({}, {
            get: (_, name) => this.attributes.get(dashed(name)),
            set: (_, name, value) => Boolean(this.setAttribute(dashed(name), value)),
            deleteProperty: (_, name) => (this.attributes.delete(dashed(name)), true),
            has: (_, name) => this.attributes.has(dashed(name)),
        });
        const names = () => (this.attributes.get('class') ?? '').split(/\s+/).filter(Boolean);
        this.classList = {
            contains: (name) => names().includes(name),
            add: (name) => this.classList.toggle(name, true),
            remove: (name) => this.classList.toggle(name, false),
            toggle: (name, isOn = !names().includes(name)) => {
                const others = names().filter((other) => other !== name);
                this.attributes.set('class', (isOn ? [...others, name] : others).join(' '));
            },
        };
    }

    get id() { return this.attributes.get('id') ?? ''; }
    get hidden() { return this.attributes.has('hidden'); }
    set hidden(isHidden) { this.flag('hidden', isHidden); }
    get disabled() { return this.attributes.has('disabled'); }
    set disabled(isOff) { this.flag('disabled', isOff); }
    get checked() { return this.attributes.has('checked'); }
    set checked(isOn) { this.flag('checked', isOn); }
    get tabIndex() { return Number(this.attributes.get('tabindex') ?? 0); }
    set tabIndex(index) { this.setAttribute('tabindex', index); }
    get value() { return this.attributes.get('value') ?? this.querySelector('option')?.attributes.get('value') ?? ''; }
    set value(value) { this.setAttribute('value', value); }
    get children() { return this.childNodes.filter((node) => node instanceof Element); }
    get lastChild() { return this.childNodes[this.childNodes.length - 1] ?? null; }
    get isConnected() { return this === document.documentElement || Boolean(this.parentElement?.isConnected); }
    get textContent() { return this.childNodes.map((node) => node.textContent).join(''); }
    set textContent(text) { this.replaceChildren(...(text === '' ? [] : [text])); }

    flag(name, isOn) {
        if (isOn) this.attributes.set(name, '');
        else this.attributes.delete(name);
    }

    setAttribute(name, value) { return this.attributes.set(name, String(value)); }
    getAttribute(name) { return this.attributes.get(name) ?? null; }
    hasAttribute(name) { return this.attributes.has(name); }
    removeAttribute(name) { this.attributes.delete(name); }
    toggleAttribute(name, isOn) { this.flag(name, isOn); }

    put(at, nodes) {
        const made = nodes.map((node) => (typeof node === 'string' ? new Text(node) : node));
        for (const node of made) {
            if (node instanceof Element) node.remove();
            node.parentElement = this;
        }
        this.childNodes.splice(at, 0, ...made);
    }

    append(...nodes) { this.put(this.childNodes.length, nodes); }
    prepend(...nodes) { this.put(0, nodes); }
    insertBefore(node, other) { this.put(other ? this.childNodes.indexOf(other) : this.childNodes.length, [node]); }

    replaceChildren(...nodes) {
        for (const node of this.childNodes) node.parentElement = null;
        this.childNodes = [];
        this.append(...nodes);
    }

    remove() {
        const siblings = this.parentElement?.childNodes ?? [], at = siblings.indexOf(this);
        if (at >= 0) siblings.splice(at, 1);
        this.parentElement = null;
    }

    contains(other) { return other === this || Boolean(other && this.contains2(other)); }
    contains2(other) { return Boolean(other.parentElement) && this.contains(other.parentElement); }
    matches(selector) { return isOne(this, selector); }
    closest(selector) { return this.matches(selector) ? this : this.parentElement?.closest(selector) ?? null; }
    all(found = []) {
        for (const child of this.childNodes) {
            if (!(child instanceof Element)) continue;
            found.push(child);
            child.all(found);
        }
        return found;
    }

    querySelectorAll(selector) { return this.all().filter((element) => element.matches(selector)); }
    querySelector(selector) { return this.querySelectorAll(selector)[0] ?? null; }

    addEventListener(kind, act) {
        if (!this.listeners.has(kind)) this.listeners.set(kind, new Set());
        this.listeners.get(kind).add(act);
    }

    removeEventListener(kind, act) { this.listeners.get(kind)?.delete(act); }

    /** An event; it rises to the elements around. */
    fire(kind, more = {}) {
        const event = { type: kind, target: this, preventDefault: () => { event.isPrevented = true; }, ...more };
        for (let at = this; at; at = at.parentElement ?? (at === document ? null : document)) {
            for (const act of [...at.listeners.get(kind) ?? []]) act(event);
        }
        return event;
    }

    dispatchEvent(event) { return this.fire(event.type); }

    click() {
        if (this.disabled) return;
        this.fire('click');
        if (this.getAttribute('type') === 'submit') this.closest('form')?.fire('submit');
    }

    focus() {
        document.activeElement?.fire('blur');
        document.activeElement = this;
        this.fire('focusin');
    }

    blur() {
        document.activeElement = document.body;
        this.fire('blur');
    }

    select() {}
    scrollIntoView() {}
    getBoundingClientRect() { return { left: 0, top: 0, right: 0, bottom: 0, width: 0, height: 0 }; }
}

const dashed = (name) => `data-${name.replace(/[A-Z]/g, (letter) => `-${letter.toLowerCase()}`)}`;

/** The classes that the page asks for. */
const KINDS = {
    button: class HTMLButtonElement extends Element {}, input: class HTMLInputElement extends Element {},
    select: class HTMLSelectElement extends Element {}, textarea: class HTMLTextAreaElement extends Element {},
    progress: class HTMLProgressElement extends Element {}, form: class HTMLFormElement extends Element {},
    details: class HTMLDetailsElement extends Element { get open() { return this.hasAttribute('open'); } },
    img: class HTMLImageElement extends Element {},
    dialog: class HTMLDialogElement extends Element {
        showModal() { this.flag('open', true); }
        close() { this.flag('open', false); }
    },
};
const EMPTY = new Set(['meta', 'link', 'input', 'path', 'circle', 'br', 'img']);

const made = (tag) => new (KINDS[tag] ?? Element)(tag);

/** The elements of a page's text. */
function parsed(html) {
    const root = made('html');
    let here = root;
    for (const [, text, end, tag, rest] of html.matchAll(/([^<]*)<(\/?)([a-z0-9]+)([^>]*)>/gi)) {
        if (text.trim()) here.append(text.trim());
        if (end) {
            here = here.parentElement ?? root;
        } else if (tag !== 'html') {
            const element = made(tag);
            for (const [, name, , value = ''] of rest.matchAll(/([\w-]+)(="([^"]*)")?/g)) {
                element.setAttribute(name, value);
            }
            here.append(element);
            if (!EMPTY.has(tag) && !rest.endsWith('/')) here = element;
        }
    }
    return root;
}

/** Makes the document of the page, and what of a window its modules ask for. */
export function openPage() {
    const html = readFileSync(new URL('../index.html', import.meta.url), 'utf8').replace(/<!DOCTYPE[^>]*>/, '');
    const document = made('document');
    globalThis.document = document;
    document.documentElement = parsed(html);
    document.documentElement.parentElement = null;
    document.body = document.documentElement.querySelector('body');
    document.activeElement = document.body;
    document.createElement = made;
    document.createElementNS = (_, tag) => made(tag);
    const known = new Map();
    document.getElementById = (id) => {
        const before = known.get(id);
        if (before?.id === id && before.isConnected) return before;
        const found = document.documentElement.querySelector(`#${id}`);
        known.set(id, found);
        return found;
    };
    document.querySelector = (selector) => document.documentElement.querySelector(selector);
    document.querySelectorAll = (selector) => document.documentElement.querySelectorAll(selector);
    document.elementFromPoint = () => null;
    document.execCommand = () => true;
    for (const kind of Object.values(KINDS)) globalThis[kind.name] = kind;
    globalThis.HTMLElement = globalThis.Element = globalThis.SVGElement = Element;
    const windowEvents = made('window');
    globalThis.addEventListener = windowEvents.addEventListener.bind(windowEvents);
    globalThis.removeEventListener = windowEvents.removeEventListener.bind(windowEvents);
    // (what the page does after a long while keeps no test waiting)
    const later = globalThis.setTimeout;
    globalThis.setTimeout = (act, after, ...more) => {
        const timer = later(act, after, ...more);
        if (after > 1000) timer.unref();
        return timer;
    };
    globalThis.dispatchEvent = (event) => windowEvents.fire(event.type);
    globalThis.window = globalThis;
    globalThis.CSS = { escape: (text) => text };
    globalThis.matchMedia = () => ({ matches: false });
    globalThis.IntersectionObserver = class { observe() {} };
    globalThis.location = { hash: '', href: 'file:///board.html' };
    globalThis.history = { replaceState: (_, __, hash) => { location.hash = hash; } };
    return { document, window: windowEvents };
}

/** What a browser keeps for a page, up to so many letters. */
export class Storage {
    constructor(room = 5_000_000) {
        Object.defineProperty(this, 'room', { value: room, writable: true });
    }

    getItem(name) { return Object.hasOwn(this, name) ? this[name] : null; }
    removeItem(name) { delete this[name]; }
    setItem(name, value) {
        const others = Object.entries(this).filter(([key]) => key !== name).flat().join('');
        if (others.length + name.length + value.length > this.room) throw new Error('full');
        this[name] = String(value);
    }
}
