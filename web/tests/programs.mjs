/* What the programs answer to what the page asks in its tests: a few problems, as `dw` and `dw-desk` write them. */

export const DUAL = 'W:W27,32:B18';
const LEGAL = {
    [DUAL]: [['27-21', 'B:W21,32:B18'], ['27-22', 'B:W22,32:B18'], ['32-28', 'B:W27,28:B18']],
    'B:W27,28:B18': [['18-22', 'W:W27,28:B22'], ['18-23', 'W:W27,28:B23']],
    'W:W27,28:B22': [['27x18', 'B:W18,28:B'], ['28x17', 'B:W17,27:B']],
    'W:W27,28:B23': [['28x19', 'B:W19,27:B']],
    'B:W22,32:B18': [['18x38', 'W:W:B38']],
    'W:WK46:B28': [['46x32', 'B:WK32:B'], ['46x32', 'B:WK32:B']],
};
const ROW = {
    n: 2, verdict: 'dual', keys: ['32-28'], at: '1. 32-28 18-22', choices: ['27x18', '28x17'],
    tries: [['27-22', '18x38']],
};
const COOKED = { n: 3, verdict: 'cooked', shortest: 2, keys: ['27-22', '32-28'], tries: [] };
const MOVETEXT = '{dual in 2} 1. 32-28 18-22 (1... 18-23 2. 28x19) 2. 27x18 (2. 28x17) 2-0';
const STEPS = [
    [1, '32-28', 'B:W27,28:B18'], [2, '18-22', 'W:W27,28:B22'], [3, '27x18', 'B:W18,28:B'], [3, '28x17', 'B:W17,27:B'],
    [2, '18-23', 'W:W27,28:B23'], [3, '28x19', 'B:W19,27:B'],
].map(([depth, move, fen]) => ({ depth, move, fen }));

const line = (value) => `${JSON.stringify(value)}\n`;

/** The problems of an input: their texts, or why they are refused. */
function problems(input) {
    const text = typeof input === 'string' ? input : new TextDecoder().decode(input);
    const fens = text.includes('[FEN') ? [...text.matchAll(/\[FEN "(.*?)"\]/g)].map(([, fen]) => fen)
        : text.split('\n').filter(Boolean);
    return fens.map((fen) => (/^[WB]:WK?[\dK,]*:BK?[\dK,]*$/.test(fen) ? { fen } : { refused: '1 fen: 1 turn at 1' }));
}

const rows = (input, write) => problems(input).map(({ fen, refused }, i) =>
    line(refused ? { problem: i + 1, refused } : { problem: i + 1, fen, ...write(fen) })).join('');

function moves(input, part) {
    const does = (move) => (move === '32-28' ? { wins_in: 2 } : { refuted_by: ['18x38'] });
    return rows(input, (fen) => {
        const shared = (LEGAL[fen] ?? []).filter((_, i) => part === 0 || i % 4 === part % 4);
        return { n: 2, winning: 1, moves: shared.map(([move, after]) => ({ move, fen: after, ...does(move) })) };
    });
}

function report(words, input) {
    const [, command] = words, solved = words.includes('--solution') ? { more: false, moves: STEPS } : {};
    const part = Number((words[words.indexOf('--part') + 1] ?? '').split('/')[0]) || 0;
    if (command === 'show') return rows(input, () => ({}));
    if (command === 'moves' && words[0] === 'dw') {
        return rows(input, (fen) => ({ taking: 0, moves: LEGAL[fen] ?? [] }));
    }
    if (command === 'find') return rows(input, () => ({ ...(words.includes('-n') ? COOKED : ROW), ...solved }));
    if (command === 'solution') {
        return problems(input).map(({ fen }) => `[GameType "20"]\n[FEN "${fen}"]\n\n${MOVETEXT}\n\n`).join('');
    }
    if (command === 'check') {
        const open = { kind: 'open', line: '1. 32-28', moves: ['18-23'] };
        const ends = { kind: 'ends', line: '1. 32-28 18-22', moves: [], wins_in: 1 };
        if (String(input).includes('32-28 18-22 *')) {
            const n = words.includes('--most') ? 2 : 1, stops = { holds: false, fail: 0, end: 1, open: 0, also: 0 };
            return rows(input, () => ({ n, win: true, ...stops, remarks: [ends] }));
        }
        return rows(input, () => (String(input).includes('27-18') ? { solution_refused: '2 no such move at 4' }
            : { n: 2, win: true, holds: true, fail: 0, end: 0, open: 1, also: 0, remarks: [open] }));
    }
    if (command === 'mend') {
        const neighbour = { change: 'without 27', fen: 'W:W32:B18', n: 2, key: '32-28' };
        return (part === 1 ? line(neighbour) : '') + line({ sound: part === 1 ? 1 : 0, of: 2, undecided: 0 });
    }
    if (command === 'moves') return moves(input, part);
    if (command === 'page') return '<!DOCTYPE html>\n';
    return 'certificate\n';
}

/** What a program answers. */
export function answerOf(words, input) {
    return { status: 0, reason: 0, report: new TextEncoder().encode(report(words, input)), message: '' };
}
