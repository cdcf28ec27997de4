/** Work on the list that can be stopped, and what was said of it last. */
import { failureText } from './answer_view.js';
import { Failed } from '../../package/engine.js';
import { Stopped } from '../../package/workers.js';

/**
 * @typedef {import('./app.js').App} App
 * @typedef {import('./languages.js').Key} Key
 */

/** One piece of work at a time. */
export class Work {
    /**
     * @param {App} app
     * @param {() => void} show Shows how far it is.
     */
    constructor(app, show) {
        this.app = app;
        this.show = show;
        /** @type {AbortController | null} */
        this.running = null;
        /** @type {() => string} What happened last, in the language of the page. */
        this.said = () => '';
    }

    get isRunning() {
        return this.running !== null;
    }

    stop() {
        this.running?.abort();
    }

    /** @param {() => string} said */
    say(said) {
        this.said = said;
        this.show();
    }

    /**
     * Tells what happened.
     * @param {Key} [key]
     * @param {(string | number)[]} values
     */
    tell(key, ...values) {
        this.say(() => (key ? this.app.say(key, ...values) : ''));
    }

    /** @param {unknown} error */
    tellFailure(error) {
        const why = error instanceof Failed ? error : new Failed(String(error));
        this.say(() => (error instanceof Stopped ? this.app.say('stoppedEarly') : failureText(this.app, why)));
    }

    /**
     * Does something in place of what was done before. Answers whether it came to its end.
     * @param {'searching' | 'saving'} word
     * @param {(signal: AbortSignal) => Promise<void>} act
     */
    async run(word, act) {
        this.stop();
        const running = new AbortController();
        this.running = running;
        this.tell(word);
        /** @type {unknown} */
        let failed = null;
        try {
            await act(running.signal);
        } catch (error) {
            failed = error;
        }
        if (this.running !== running) return false;
        const isStopped = running.signal.aborted;
        running.abort();
        this.running = null;
        if (failed) this.tellFailure(failed);
        else if (isStopped) this.tell('stoppedEarly');
        else this.tell();
        return !failed && !isStopped;
    }
}
