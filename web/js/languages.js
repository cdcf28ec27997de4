/** The words of the page in four languages. */
import { ANSWER_WORDS } from './words_answer.js';
import { BOARD_WORDS } from './words_board.js';
import { LIST_WORDS } from './words_list.js';
import { NAME_WORDS } from './words_name.js';

/** @typedef {'en' | 'nl' | 'fr' | 'ru'} Language */

/** @type {readonly Language[]} */
export const LANGUAGES = ['en', 'nl', 'fr', 'ru'];

/** Each text in English, Dutch, French and Russian. A number or a text stands for `#`. */
const TEXTS = { ...BOARD_WORDS, ...ANSWER_WORDS, ...LIST_WORDS, ...NAME_WORDS };

/** @typedef {keyof typeof TEXTS} Key */

/**
 * The language of the browser, if it is one of the four, else English.
 * @param {readonly string[]} wanted
 * @returns {Language}
 */
export function languageOf(wanted) {
    for (const tag of wanted) {
        const found = LANGUAGES.find((language) => tag.toLowerCase().split('-')[0] === language);
        if (found) return found;
    }
    return 'en';
}

/**
 * The form of a word behind a number: of `zet|zetten` or `ход|хода|ходов`, from one to many.
 * @param {Language} language
 * @param {string | number} number
 * @param {string[]} forms
 */
function formOf(language, number, forms) {
    const kind = new Intl.PluralRules(language).select(Number(String(number).replace(/\D/g, '')));
    const place = kind === 'one' ? 0 : kind === 'few' ? 1 : 2;
    return forms[Math.min(place, forms.length - 1)];
}

/**
 * A text, with its marks `#` filled in order. Of the words in braces, which follow a number, one stays.
 * @param {Language} language
 * @param {Key} key
 * @param {(string | number)[]} values
 */
export function textIn(language, key, ...values) {
    let at = 0;
    return TEXTS[key][LANGUAGES.indexOf(language)].replace(/#|\{([^}]*)\}/g, (_, forms) =>
        (forms ? formOf(language, values[at - 1] ?? 0, forms.split('|')) : String(values[at++] ?? '')));
}

/**
 * The name of a text, if there is one with it.
 * @param {string | undefined} name
 * @returns {Key | null}
 */
export const keyOf = (name) => (name !== undefined && name in TEXTS ? /** @type {Key} */ (name) : null);

/** All names of texts. */
export const KEYS = /** @type {Key[]} */ (Object.keys(TEXTS));
