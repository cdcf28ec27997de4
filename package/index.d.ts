/** Calls of dw and dw-desk, which solve problems of international draughts. */

/** A FEN text, several, or the bytes of a file. */
export type Problems = string | readonly string[] | Uint8Array;

export interface CallOptions {
    /** 10 rows, if nothing is said. */
    board?: 10 | 8;
    /** The input is PDN. */
    pdn?: boolean;
    /** One problem of the input, from 1 on, or a range such as `3-5`. */
    problem?: number | string;
    /** Ends the call at once. It then rejects with an `AbortError`. */
    signal?: AbortSignal;
}

export interface Bounded {
    /** The most positions to expand for a problem; without it there is no bound. */
    each?: number;
}

export interface Refused {
    problem: number;
    refused: string;
}

export interface Shown {
    problem: number;
    fen: string;
}

export interface LegalMoves extends Shown {
    /** How many pieces each move takes. */
    taking: number;
    moves: [move: string, fen: string][];
}

export type Verdict = 'sound' | 'dual' | 'cooked' | 'unsolvable';

export interface Judged extends Shown {
    n: number;
    verdict: Verdict;
    /** Of a cooked problem: the least number of moves. */
    shortest?: number;
    keys: string[];
    /** Of a dual: the line up to it, and the moves that win there. */
    at?: string;
    choices?: string[];
    tries: [move: string, refutation: string][];
    /** Where it is asked for, and with a win: the first moves that win later. */
    later?: [move: string, moves: number][];
}

export interface Undecided extends Shown {
    verdict: 'undecided';
    no_win_in: number;
}

export interface PlacedMove {
    depth: number;
    move: string;
    fen: string;
}

export interface Solution extends Shown {
    n: number;
    verdict: Verdict;
    /** Whether lines were left out. */
    more: boolean;
    moves: PlacedMove[];
}

export interface FirstMove {
    move: string;
    fen: string;
    wins_in?: number;
    refuted_by?: string[];
}

export interface FirstMoves extends Shown {
    n: number;
    winning: number;
    moves: FirstMove[];
}

export interface Remark {
    kind: 'fails' | 'also' | 'open' | 'ends';
    line: string;
    moves: string[];
    refutation?: string;
    wins_in?: number;
}

export interface Checked extends Shown {
    n: number;
    win: boolean;
    holds: boolean;
    fail: number;
    end: number;
    open: number;
    also: number;
    remarks: Remark[];
}

export interface SolutionRefused extends Shown {
    solution_refused: string;
}

export interface Neighbour {
    change: string;
    fen: string;
    n: number;
    key: string;
}

export interface Mended {
    sound: number;
    of: number;
    undecided: number;
}

/** A problem that repeats an earlier one: the number of that one. */
export interface Repeated extends Shown {
    same_as?: number;
    /** Of a problem that is the earlier one turned by 180 degrees, with the colours and the side to move exchanged. */
    turned?: number;
}

export interface Repeats {
    repeated: number;
    of: number;
}

export interface PageOptions extends CallOptions {
    n?: number;
    most?: number;
    lines?: number;
    title?: string;
    lang?: 'en' | 'nl' | 'fr' | 'ru';
    solutions?: 'after' | 'end' | 'none';
    tries?: 'all' | 'none';
    numbers?: boolean;
}

/** A call that a program refuses, or does not bring to its end. `message` has the program's own words. */
export class DeskError extends Error {
    /** The exit status: 1 if an argument has a fault, 2 if they are no command, 3 if the program was stopped. */
    readonly status: number;
}

/** The programs. Calls run side by side, as many as there are workers; the others wait. */
export class Desk {
    private constructor();
    static open(options?: { workers?: number; memory?: number }): Promise<Desk>;
    close(): void;
    run(words: readonly string[], input?: string | Uint8Array, options?: { signal?: AbortSignal }):
        Promise<{ status: number; reason: number; report: string; message: string }>;
    show(problems: Problems, options?: CallOptions): Promise<(Shown | Refused)[]>;
    legal(problems: Problems, options?: CallOptions): Promise<(LegalMoves | Refused)[]>;
    find(problems: Problems, options?: CallOptions & Bounded & { most?: number; later?: number }):
        Promise<(Judged | Undecided | Refused)[]>;
    judge(problems: Problems, options: CallOptions & Bounded & { n: number; later?: number }):
        Promise<(Judged | Undecided | Refused)[]>;
    check(pdn: string | Uint8Array, options?: CallOptions & { n?: number; most?: number; faults?: boolean }):
        Promise<(Checked | SolutionRefused | Refused)[]>;
    solution(problems: Problems, options: CallOptions & { lines?: number } & ({ n: number } | { most: number })):
        Promise<(Solution | Refused)[]>;
    mend(problem: string | Uint8Array, options: CallOptions & Bounded & { n: number }):
        Promise<(Neighbour | Mended | Refused)[]>;
    same(problems: Problems, options?: CallOptions): Promise<(Repeated | Repeats | Refused)[]>;
    moves(problem: string | Uint8Array, options: CallOptions & { n: number }): Promise<FirstMoves | Refused>;
    list(problem: string | Uint8Array, options: CallOptions & { n: number; after?: string }): AsyncGenerator<string>;
    certify(problem: string | Uint8Array, options: CallOptions & { n: number; cache?: number }): Promise<string>;
    page(problems: Problems, options: PageOptions): Promise<string>;
}
