/** Pictures of the position on the board: shown as they will be, saved and copied. */
import { byId, control, copyText, save } from './dom.js';
import { lineOfName } from './naming.js';
import { taskOf } from './naming_view.js';
import { addressOfPicture, pictureOf, pngOf } from './picture.js';
import { mainLine } from './tree.js';

/** @typedef {import('./app.js').App} App */

/** The name of a file. */
const PICTURE_FILE = 'diagram';

/** The pictures. */
export class PictureView {
    /**
     * @param {App} app
     * @param {() => boolean} isTurned Whether Black stands below.
     */
    constructor(app, isTurned) {
        this.app = app;
        this.isTurned = isTurned;
        this.host = control('picture', HTMLDetailsElement);
        /** @type {() => string} What was done last, in the language of the page. */
        this.said = () => '';
        const on = (/** @type {string} */ id, /** @type {() => Promise<() => string>} */ act) =>
            byId(id).addEventListener('click', () => void this.tell(act));
        on('svg-save', async () => this.save('svg', this.picture.svg, 'image/svg+xml'));
        on('png-save', async () => this.save('png', await pngOf(this.picture), 'image/png'));
        on('svg-copy', () => this.copySvg());
        on('png-copy', () => this.copyPng());
        this.host.addEventListener('toggle', () => this.draw());
        for (const id of ['picture-numbers', 'picture-names', 'picture-solution']) {
            byId(id).addEventListener('change', () => this.draw());
        }
        app.on(['edited', 'looked', 'spoken', 'answered', 'named'], () => this.draw());
        app.on(['edited', 'looked'], () => { this.said = () => ''; });
    }

    /** @param {string} id */
    has(id) {
        return control(id, HTMLInputElement).checked;
    }

    /** The solution of the position on the board, if it was asked for: its main line. */
    get solution() {
        const tree = this.app.book.find(this.app.position)?.solve?.result?.tree;
        return tree ? mainLine(tree) : '';
    }

    /** The picture of the position on the board. What is written there belongs to that position alone. */
    get picture() {
        const { app } = this, { position } = app, isNamed = this.has('picture-names');
        const above = isNamed ? lineOfName(app.names.of(position)) : '';
        const below = [isNamed ? taskOf(app, position) : '', this.has('picture-solution') ? this.solution : ''];
        return pictureOf(position, {
            isTurned: this.isTurned(), hasNumbers: this.has('picture-numbers'), above, below: below.filter(Boolean),
        });
    }

    /** Shows the picture, if it is in sight. */
    draw() {
        control('picture-solution', HTMLInputElement).disabled = this.solution === '';
        byId('pictured').textContent = this.said();
        if (!this.host.open) return;
        const { svg, width, height } = this.picture, shown = control('picture-shown', HTMLImageElement);
        const address = addressOfPicture(svg);
        if (shown.src === address) return;
        shown.src = address;
        shown.alt = this.app.fen;
        shown.style.aspectRatio = `${width} / ${height}`;
    }

    /**
     * Does something, and says what was done.
     * @param {() => Promise<() => string>} act
     */
    async tell(act) {
        this.said = await act().catch((error) => () => this.app.say('failed', String(error)));
        this.draw();
    }

    /**
     * Saves a picture.
     * @param {string} kind
     * @param {string | Blob} content
     * @param {string} type
     */
    save(kind, content, type) {
        const name = `${PICTURE_FILE}.${kind}`;
        save(name, content, type);
        return () => this.app.say('saved', name);
    }

    /** Copies the SVG as a text, which programs for drawing and documents take. */
    async copySvg() {
        const { svg } = this.picture;
        return await copyText(svg) ? () => this.app.say('copied') : this.save('svg', svg, 'image/svg+xml');
    }

    /** Copies the PNG, or saves it where the browser does not let the page copy one. */
    async copyPng() {
        const made = pngOf(this.picture);
        try {
            await navigator.clipboard.write([new ClipboardItem({ 'image/png': made })]);
            return () => this.app.say('copied');
        } catch {
            return this.save('png', await made, 'image/png');
        }
    }
}
