/* Programs whose answers follow from a checksum of the position, so that a test knows at once which answer belongs to
   which position. They obey no rule of the game. */

/** A number that follows from a text. */
export function sumOf(text) {
    let sum = 2166136261;
    for (const letter of text) sum = Math.imul(sum ^ letter.charCodeAt(0), 16777619) >>> 0;
    return sum;
}

/** The least number of moves of a position. */
export const leastOf = (fen) => 2 + (sumOf(fen) % 5);

/** Some legal moves of a position, each with the position after it. */
export function legalOf(fen) {
    const turn = fen[0] === 'W' ? 'B' : 'W';
    return Array.from({ length: sumOf(`legal ${fen}`) % 4 }, (_, i) => {
        const from = 1 + (sumOf(`${i} ${fen}`) % 40), to = from + 5 + i;
        return [`${from}-${to}`, `${turn}:W${to}:B${1 + (sumOf(fen) % 4) + i * 5 + 5}`];
    });
}

const moveOf = (fen) => `${1 + (sumOf(fen) % 45)}-${1 + (sumOf(`to ${fen}`) % 45)}`;

/** What is found of a position within so many moves, or within just so many. */
export function foundOf(fen, most, isExact) {
    const least = leastOf(fen), n = isExact ? most : Math.min(least, most);
    const tries = [[moveOf(`try ${fen}`), moveOf(fen)]];
    if (n < least) return { n, verdict: 'unsolvable', keys: [], tries };
    const keys = [moveOf(`key ${fen}`)];
    if (n > least) return { n, verdict: 'cooked', shortest: least, keys, tries };
    return { n, verdict: 'sound', keys, tries };
}

/** The first moves that win later. */
export const laterOf = (fen) => [[moveOf(`later ${fen}`), leastOf(fen) + 1]];

/** What is said of a solution. */
export const checkedOf = (fen, text) => ({
    n: 1 + (sumOf(text) % 9), win: true, holds: true, fail: 0, end: 0, open: sumOf(`${fen} ${text}`) % 1000, also: 0,
    remarks: [],
});

/** What each first move does. */
export const firstsOf = (fen) =>
    legalOf(fen).map(([move, after]) => ({ move, fen: after, refuted_by: [moveOf(after)] }));

/** A neighbour of a position. */
export const neighbourOf = (fen, n) => ({
    change: `without ${1 + (sumOf(fen) % 50)}`, fen: `W:W${1 + (sumOf(`n ${fen}`) % 40) + 5}:B6`, n, key: moveOf(fen),
});

const FEN = /^[WB]:W(K?\d+(,K?\d+)*)?:B(K?\d+(,K?\d+)*)?$/;

/** The problem of an input: a game, or a line. */
function problemOf(input) {
    const text = typeof input === 'string' ? input : new TextDecoder().decode(input);
    const fen = /\[FEN "(.*?)"\]/.exec(text)?.[1] ?? text.trim(), movetext = text.slice(text.lastIndexOf(']') + 1);
    return FEN.test(fen) ? { fen, movetext } : { refused: '1 fen: 1 turn at 1' };
}

/** The rows that a program writes of a problem. */
export function rowsFor(words, input) {
    const { fen, refused, movetext } = problemOf(input), [program, command] = words;
    const option = (name) => Number(words[words.indexOf(name) + 1]);
    const isFirst = !words.includes('--part') || words[words.indexOf('--part') + 1].startsWith('1/');
    if (refused) return [{ problem: 1, refused }];
    if (command === 'show') return [{ problem: 1, fen }];
    if (program === 'dw') return [{ problem: 1, fen, taking: 0, moves: legalOf(fen) }];
    if (command === 'find') {
        const isExact = words.includes('-n'), each = words.includes('--each') ? option('--each') : 1e12;
        // (three slices of growing size)
        if (each < 5_000_000 && sumOf(`hard ${fen}`) % 2) {
            return [{ problem: 1, fen, verdict: 'undecided', no_win_in: each < 500_000 ? 0 : leastOf(fen) - 1 }];
        }
        const found = foundOf(fen, option(isExact ? '-n' : '--most'), isExact);
        const moves = found.keys.length ? [{ depth: 1, move: found.keys[0], fen: `B:W1${sumOf(fen) % 9}:B6` }] : [];
        const later = words.includes('--later') && found.keys.length ? { later: laterOf(fen) } : {};
        return [{ problem: 1, fen, ...found, more: false, moves, ...later }];
    }
    const firsts = isFirst ? firstsOf(fen) : [];
    if (command === 'moves') return [{ problem: 1, fen, n: option('-n'), winning: 0, moves: firsts }];
    if (command === 'check') return [{ problem: 1, fen, ...checkedOf(fen, movetext) }];
    const last = { sound: isFirst ? 1 : 0, of: 2, undecided: 0 };
    return isFirst ? [neighbourOf(fen, option('-n')), last] : [last];
}

/** What a program answers. */
export function answerOf(words, input) {
    const text = words[1] === 'certify' || words[1] === 'solution' ? `[FEN "x"]\n\n{${words[1]}} *\n`
        : rowsFor(words, input).map((row) => `${JSON.stringify(row)}\n`).join('');
    return { status: 0, reason: 0, report: new TextEncoder().encode(text), message: '' };
}
