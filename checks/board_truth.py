#!/usr/bin/env python3
"""board_truth.py: looks whether board.html ever says something false, or loses something.

    checks/board_truth.py [--page FILE] [--browser NAME] [--count SEQUENCES] [--random | --named]

Random sequences of what a reader may do: problems are set up, asked, stopped, compared, improved, played and undone, in
any order, while answers are late. After each step all sentences of the page are taken down with the position that they
name, and `dw` and `dw-desk` say afterwards whether they are true. So are the name and the task above the board, the
picture of the diagram, and the marks of the last move. An answer to another position than the one on the
board has to name it. Then the ways are gone in which a page has been wrong, or has lost something. Both in Chromium and
in Firefox. With --random or --named only one of the two is done.
"""
import argparse
import collections
import json
import pathlib
import random
import subprocess
import tempfile
import time

from board_named import WAYS
from board_page import DESK, TOP, browsers_asked, made_page, of_fen, open_page

SEED, STEPS = 7, 14
LONG = "W:W26,28,32,33,34,37,38,39,40,43,48:B8,9,12,13,14,16,18,19,20,24,25"
# Problems that are solved at once, and one that takes long.
FENS = ["W:W27,32,38:B18", "W:W27,32:B18", "W:W27,45:B16", "B:W43:B24,29", "W:W10,16,48:B13", "W:W27:B16",
        "W:WK46:B28", "W:W32:B28", "B:W27,28:B18", "W:W3:B20", "x", *[LONG] * 4]
TEXTS = ["1. 32-28 18-22 2. 27x18", "1. 45-40", "1... 29-33 2. 43-38 33x42", '[FEN "W:W27,45:B16"] 1. 45-40 16-21',
         "1. 27-22 {a try}", "x"]
NO_WIN = "no win in|geen winst in|pas de gain en|нет выигрыша в"
NO_MOVES = "no move left|geen zet meer|plus de coup|не имеют ходов"
# What a reader may do, and what the page says then. The page keeps what was said, each once.
DRIVER = """
(() => {
  const click = (selector) => {
    const found = t.all(selector);
    if (found.length) found[t.below(found.length)].click();
  };
  const key = (target, key, more = {}) =>
    target.dispatchEvent(new KeyboardEvent('keydown', { key, bubbles: true, cancelable: true, ...more }));
  t.below = (most) => {
    t.seed = (Math.imul(t.seed, 1664525) + 1013904223) >>> 0;
    return Math.floor(t.seed / 2 ** 32 * most);
  };
  const oneOf = (list) => list[t.below(list.length)];
  const fens = FENS, texts = TEXTS;
  t.acts = {
    solve: () => click('#solve'), again: () => click('#solve'), stop: () => click('#stop'),
    firsts: () => click('#ask-firsts'), square: () => click('[data-square]'),
    erase: () => oneOf(t.all('[data-square]')).dispatchEvent(new MouseEvent('contextmenu', { bubbles: true })),
    keys: () => key(oneOf(t.all('[data-square]')), oneOf(['w', 'B', 'Delete'])),
    tool: () => click('#clear, #mirror, #exchange, #undo, #redo, #flip'),
    undo: () => key(document.body, oneOf(['z', 'y']), { ctrlKey: true }),
    text: () => {
      t.at('#fen').focus();
      t.set('#fen', oneOf(fens));
      if (t.below(2)) key(t.at('#fen'), 'Enter');
      if (t.below(2)) t.leave();
    },
    paste: () => t.set('#fen', oneOf(fens)),
    address: () => { location.hash = `#fen=${oneOf(fens)}&n=${oneOf([2, 5, 20])}`; },
    mode: () => click('#mode-play, #mode-setup'), play: () => click('.dark.source'),
    target: () => click('.dark.target'),
    back: () => click('#take-back, #play-start, #look-back'), move: () => click('.move'),
    moves: () => t.set('#most', oneOf(['2', '3', '5', '20'])), exact: () => t.at('#exact').click(),
    movetext: () => t.set('#movetext', oneOf(texts)), compare: () => click('#compare'), card: () => click('.card'),
    mendMoves: () => t.set('#mend-n', oneOf(['1', '2'])), mend: () => click('#mend-go'),
    stopOthers: () => click('#stop-compare, #mend-stop'), add: () => click('#add-go'),
    language: () => t.set('#language', oneOf(['en', 'nl', 'fr', 'ru'])),
    tab: () => click('[role=tab]'), goOn: () => click('#go-on'), here: () => click('#solve-here'),
    walk: () => key(document.body, oneOf(['ArrowLeft', 'ArrowRight', 'ArrowUp', 'ArrowDown', 'Home', 'End', 'Escape'])),
    depth: () => t.set('#depth', oneOf(['main', 'longest', 'all'])),
    // (a name that says to which position it was given)
    name: () => { if (t.at('#looked').hidden) t.set('#name-title', oneOf([board(), ''])); },
    picture: () => { t.at('#picture').open = true; },
  };
  const board = () => {
    const pieces = t.all('[data-square][data-piece]').map((e) => [Number(e.dataset.square), e.dataset.piece]);
    const list = (man, king) => pieces.sort(([a], [b]) => a - b).filter(([, piece]) => piece === man || piece === king)
      .map(([square, piece]) => (piece === king ? `K${square}` : `${square}`)).join(',');
    return `${t.at('#turn').value}:W${list('w', 'W')}:B${list('b', 'B')}`;
  };
  const named = (id) => {
    const place = t.at(id);
    if (!place || place.hidden) return board();
    const { fen } = place.dataset;
    if (place.classList.contains('elsewhere') !== (fen !== board())) t.claim('unmarked', [id, fen, board()]);
    return fen;
  };
  t.claims = new Map();
  t.claim = (kind, ...said) => {
    const text = JSON.stringify([kind, ...said]);
    if (!t.claims.has(text)) t.claims.set(text, t.trace.slice(-14).join(' '));
  };
  const movesOf = (id) => t.all(`${id} li`).map((e) => [...e.querySelectorAll('.move')].map((m) => m.dataset.move));
  t.look = () => {
    const about = named('#answer-of'), state = t.at('#state'), rows = t.at('#rows').value;
    if (rows !== '10') return;
    const said = new RegExp(`(?:NO_WIN) (\\\\d+)`).exec(state.textContent);
    if (said) t.claim('no win', about, Number(said[1]));
    if (!t.at('#answer').hidden) {
      const { line } = t.at('#verdict').dataset;
      t.claim('verdict', about, line, t.at('#tries-part').hidden ? [] : movesOf('#tries'));
      const firsts = t.at('#firsts-part');
      if (!firsts.hidden) t.claim('firsts', about, movesOf('#firsts').map(([move]) => move));
      const first = t.at('#solution .move');
      if (!t.at('#solution-part').hidden && first) t.claim('solution', about, [first.dataset.move, first.dataset.fen]);
    }
    const compared = t.at('#compared').dataset.line;
    if (compared) t.claim('compared', named('#compared-of'), t.at('#movetext').value, compared);
    for (const card of t.all('#mend .card')) {
      t.claim('neighbour', named('#mend-of'), card.dataset.change, card.dataset.fen);
    }
    if (t.at('#looked').hidden) {
      const [moves] = /\\d+/.exec(t.at('#named-task').textContent) ?? [];
      if (moves) t.claim('task', board(), Number(moves));
      t.claim('name', board(), t.at('#named-name').textContent);
    }
    const { alt } = t.at('#picture-shown');
    if (alt) t.claim('picture', board(), alt);
    const marked = t.all('.dark.last').map((e) => Number(e.dataset.square));
    if (marked.length) t.claim('last move', board(), marked);
    if (!t.at('#play-tools').hidden && new RegExp(`NO_MOVES`).test(t.at('#played').textContent)) {
      t.claim('no moves', board());
    }
  };
  t.steps = async (seed, count) => {
    t.seed = seed;
    t.trace = [];
    for (let i = 0; i < count; i++) {
      const name = oneOf(Object.keys(t.acts)), before = board(), isReplay = !t.at('#looked').hidden
        && !t.at('#palette').hidden;
      t.trace.push(name);
      t.acts[name]();
      if (isReplay && ['square', 'erase', 'keys'].includes(name) && board() !== before) t.claim('edited', before);
      t.look();
      await new Promise((resolve) => setTimeout(resolve, t.below(4) ? t.below(12) : 150));
      t.look();
    }
    const said = [...t.claims];
    t.claims.clear();
    return said;
  };
})()
"""


def report_of(words, text):
    """What a program says of each problem of a text: its lines."""
    ran = subprocess.run([TOP / words[0], *words[1:]], input=text, capture_output=True, text=True, check=False)
    found = collections.OrderedDict()
    for line in ran.stdout.splitlines():
        if line.startswith("problem "):
            found[len(found)] = [line.split(": ", 1)[1]]
        elif found:
            found[len(found) - 1].append(line)
    return list(found.values())


class Truth:
    """What `dw` and `dw-desk` say, of each position once."""

    def __init__(self):
        self.known = {}

    def of(self, words, text):
        name = (*words, text)
        if name not in self.known:
            self.known[name] = report_of(words, text)
        return self.known[name]

    def judged(self, fen, moves):
        words = ["dw", "judge", "-n", str(moves)]
        (first, *lines), = self.of(words, f"{fen}\n")
        assert first == fen, (first, fen)
        return lines

    def legal(self, fen):
        (_, *lines), = self.of(["dw", "moves"], f"{fen}\n")
        return [line.split(" ") for line in lines if line[0].isdigit()]

    def is_true(self, kind, *said):
        return getattr(self, kind.replace(" ", "_"))(*said)

    def unmarked(self, names):
        return not names

    def edited(self, fen):
        return not fen

    def no_win(self, fen, moves):
        return self.judged(fen, moves)[0] == f"unsolvable in {moves}"

    def verdict(self, fen, line, tries):
        first, *others = self.judged(fen, int(line.split(" ")[2].rstrip(",:")))
        return first == line and [[text.split(" ")[1], text.split(" ")[-1]] for text in others] == tries

    def firsts(self, fen, moves):
        return [move for move, _ in self.legal(fen)] == moves

    def solution(self, fen, first):
        return first in self.legal(fen)

    def compared(self, fen, text, line):
        game = text if text.startswith("[") else f'[FEN "{fen}"]{text}'
        (*_, last), = self.of(["dw-desk", "check", "--problem", "1"], game)
        return last == line

    def neighbour(self, fen, change, after):
        words = change.split(" ")
        pieces = dict(of_fen(fen))
        if words[0] == "without":
            pieces.pop(int(words[1]))
        elif words[0] == "with":
            man = words[1][0].lower()
            pieces[int(words[1].lstrip("WBK"))] = man.upper() if "K" in words[1][1:] else man
        elif words[1] == "to":
            pieces[int(words[2])] = pieces.pop(int(words[0]))
        else:
            piece = pieces[int(words[0])]
            pieces[int(words[0])] = piece.upper() if words[2] == "king" else piece.lower()
        return pieces == dict(of_fen(after)) and fen[0] == after[0]

    def task(self, fen, moves):
        return not self.judged(fen, moves)[0].startswith("unsolvable")

    def name(self, fen, title):
        return title in ("", fen)

    def picture(self, fen, shown):
        return fen == shown

    def last_move(self, fen, squares):
        pieces = dict(of_fen(fen))
        stand = [pieces[square].upper() != fen[0] for square in squares if square in pieces]
        return stand == [True] and len(squares) <= 2

    def no_moves(self, fen):
        return self.legal(fen) == []


def check_random(browser, page, count, truth):
    """Random sequences."""
    driver = DRIVER.replace("FENS", json.dumps(FENS)).replace("TEXTS", json.dumps(TEXTS))
    driver = driver.replace("NO_WIN", NO_WIN).replace("NO_MOVES", NO_MOVES)
    source, kinds, wrong = random.Random(SEED), collections.Counter(), []
    open_page(browser, page, "#fen=W:W27,32:B18&n=4")
    browser.run(f"{driver}, 0")
    begun = time.monotonic()
    for number in range(count):
        seed = source.randrange(2 ** 32)
        for text, trace in browser.run(f"t.steps({seed}, {STEPS})"):
            kind, *said = json.loads(text)
            kinds[kind] += 1
            try:
                is_true = truth.is_true(kind, *said)
            except (KeyError, ValueError, AssertionError, IndexError):
                is_true = False
            if not is_true:
                wrong.append((kind, said, trace))
        if number % 10 == 9:
            browser.run("t.set('#language', 'en'); t.at('#mode-setup').click(); t.at('#forget').click()")
    print(f"{browser.name}: {count} random sequences of {STEPS} steps in {time.monotonic() - begun:.0f} s: "
          f"{len(wrong)} of {sum(kinds.values())} sentences are false; {dict(sorted(kinds.items()))}", flush=True)
    for kind, said, trace in wrong[:5]:
        print(f"    {kind}: {said}, after {trace}")
    return len(wrong)


def main():
    words = argparse.ArgumentParser()
    words.add_argument("--page", help="a page that is there; without it one is made")
    words.add_argument("--browser", choices=("chromium", "firefox"))
    words.add_argument("--count", type=int, default=150, help="sequences in Chromium; half as many in Firefox")
    words.add_argument("--random", action="store_true")
    words.add_argument("--named", action="store_true")
    given = words.parse_args()
    assert DESK.exists()
    failed, truth = [], Truth()
    with tempfile.TemporaryDirectory() as name:
        folder = pathlib.Path(name)
        page = made_page(given.page, folder)
        for kind in browsers_asked(given.browser):
            with kind() as browser:
                count = given.count if browser.name == "chromium" else given.count // 2
                if not given.named and check_random(browser, page, count, truth):
                    failed.append(f"{browser.name}: random")
                for way in [] if given.random else WAYS:
                    try:
                        way(browser, page, folder)
                        print(f"{browser.name}: {' '.join(way.__doc__.split())}", flush=True)
                    except Exception as error:  # pylint: disable=broad-except
                        failed.append(f"{browser.name}: {way.__name__}")
                        said = f"{type(error).__name__} {str(error)[:600]}"
                        print(f"{browser.name}: FAILED {way.__name__}: {said}", flush=True)
                if not failed:
                    assert not browser.fetched() and not browser.errors, (browser.fetched(), browser.errors)
    assert not failed, failed


if __name__ == "__main__":
    main()
