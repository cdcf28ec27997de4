/** Games of PDN: what the page keeps of those that it reads, and how it writes them again. */

/**
 * @typedef {[name: string, value: string]} Tag
 * @typedef {{tags: Tag[], movetext: string, whole: string}} Section `whole` has tags and movetext as they stand.
 */

/** A tag in one line, and the name and the value in it. */
const TAG = /\[[ \t]*(\w+)[ \t]*"((?:[^"\\\r\n]|\\[^\r\n])*)"[ \t]*\]/y;

/** Words that end a movetext. */
const RESULTS = new Set(['2-0', '0-2', '1-1', '0-0', '1-0', '0-1', '1/2-1/2', '*']);

/**
 * A tag in a line of its own.
 * @param {Tag} tag
 */
export const tagLine = ([name, value]) =>
    `[${name} "${value.replace(/[\r\n]+/g, ' ').replace(/["\\]/g, '\\$&')}"]`;

/**
 * The place where the next section begins: a bracket outside braces; else the end of the text. Says too whether a
 * comment is open there.
 * @param {string} text
 * @param {number} from
 */
function nextSection(text, from) {
    const mark = /[[{]/g;
    mark.lastIndex = from;
    for (let found = mark.exec(text); found; found = mark.exec(text)) {
        if (found[0] === '[') return { next: found.index, isOpen: false };
        mark.lastIndex = text.indexOf('}', found.index) + 1;
        if (mark.lastIndex === 0) return { next: text.length, isOpen: true };
    }
    return { next: text.length, isOpen: false };
}

/**
 * The tags from a place on, and the place after the last of them. A tag that is not closed reaches to the end of its
 * line, and is none.
 * @param {string} text
 * @param {number} from
 */
function tagsAt(text, from) {
    /** @type {Tag[]} */
    const tags = [], lineEnd = /[\r\n]|$/g, space = /[ \t\r\n]*/y;
    let at = from, end = from;
    while (text[at] === '[') {
        TAG.lastIndex = lineEnd.lastIndex = at;
        const found = TAG.exec(text);
        if (found) tags.push([found[1], found[2].replace(/\\(["\\])/g, '$1')]);
        end = found ? TAG.lastIndex : lineEnd.exec(text)?.index ?? text.length;
        space.lastIndex = end;
        at = end + (space.exec(text)?.[0].length ?? 0);
    }
    return { tags, end };
}

/**
 * Cuts a PDN text into its sections, as the programs do: a comment that is not closed counts as one more.
 * @param {string} text
 * @returns {Generator<Section>}
 */
export function* sectionsOf(text) {
    let { next, isOpen } = nextSection(text, 0);
    while (next < text.length) {
        const { tags, end } = tagsAt(text, next), after = nextSection(text, end);
        yield { tags, movetext: text.slice(end, after.next).trim(), whole: text.slice(next, after.next).trim() };
        ({ next, isOpen } = after);
    }
    if (isOpen) yield { tags: [], movetext: '', whole: '' };
}

/**
 * A section as it stands, or its movetext, with the comment closed that is open at its end.
 * @param {string} text
 */
export const closed = (text) => (nextSection(text, tagsAt(text, 0).end).isOpen ? `${text} }` : text);

/** What stands in a movetext outside its comments. */
const withoutComments = (/** @type {string} */ movetext) => movetext.replace(/\{[^}]*(\}|$)/g, ' ');

/**
 * The words of a movetext outside its comments.
 * @param {string} movetext
 */
const wordsOf = (movetext) => withoutComments(movetext).split(/\s+/).filter(Boolean);

/**
 * Whether a movetext has more than comments and a result.
 * @param {string} movetext
 */
export const hasMoves = (movetext) => wordsOf(movetext).some((word) => !RESULTS.has(word));

/**
 * The result with which a movetext ends, or an empty text.
 * @param {string} movetext
 */
export function resultOf(movetext) {
    const words = wordsOf(movetext), last = words[words.length - 1] ?? '';
    return RESULTS.has(last) ? last : '';
}

/**
 * The comments of a movetext, one after another.
 * @param {string} movetext
 */
export const commentsOf = (movetext) => (movetext.match(/\{[^}]*\}/g) ?? []).join(' ');

/**
 * The value of a tag, or an empty text.
 * @param {Tag[]} tags
 * @param {string} name
 */
export const valueOf = (tags, name) =>
    tags.find(([other]) => other.toLowerCase() === name.toLowerCase())?.[1] ?? '';

/**
 * A game. The tag of its result agrees with its movetext.
 * @param {Tag[]} tags
 * @param {string} movetext
 */
export function gameOf(tags, movetext) {
    const text = closed(movetext) || '*', result = resultOf(text);
    const lines = tags.map(([name, value]) => tagLine([name, name.toLowerCase() === 'result' && result || value]));
    return [...lines, '', text, '', ''].join('\n');
}
