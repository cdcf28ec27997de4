/** What was changed, so that it can be undone and done again. */

/** @template T */
export class History {
    /**
     * @param {T} first
     * @param {(a: T, b: T) => boolean} isSame
     */
    constructor(first, isSame) {
        this.now = first;
        this.isSame = isSame;
        /** @type {T[]} */
        this.before = [];
        /** @type {T[]} */
        this.after = [];
    }

    /** @param {T} value */
    put(value) {
        if (this.isSame(this.now, value)) return;
        this.before.push(this.now);
        this.now = value;
        this.after = [];
    }

    /** Goes one change back, if there is one. */
    undo() {
        const value = this.before.pop();
        if (value === undefined) return;
        this.after.push(this.now);
        this.now = value;
    }

    /** Does again what was undone last, if there is something. */
    redo() {
        const value = this.after.pop();
        if (value === undefined) return;
        this.before.push(this.now);
        this.now = value;
    }
}
