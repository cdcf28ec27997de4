#!/usr/bin/env python3
"""board_page.py: board.html in a browser, for the checks that use it: opened, asked, and read."""
import json
import pathlib
import subprocess
import time

import browsers

TOP = pathlib.Path(__file__).resolve().parent.parent
DESK = TOP / "dw-desk"
PHONE = 360  # pixels
# What stands in the page for the tests alone.
HELPERS = """
window.t = {
  at: (selector) => document.querySelector(selector),
  all: (selector) => [...document.querySelectorAll(selector)],
  set(selector, value) {
    const field = t.at(selector);
    field.value = value;
    field.dispatchEvent(new Event('input', { bubbles: true }));
    field.dispatchEvent(new Event('change', { bubbles: true }));
  },
  async until(test) {
    for (let i = 0; i < 20000; i++) {
      const value = test();
      if (value) return value;
      await new Promise((resolve) => setTimeout(resolve, 3));
    }
    throw new Error('not in time: ' + test);
  },
  place(rows, turn, pieces) {
    if (t.at('#rows').value !== String(rows)) t.set('#rows', String(rows));
    t.at('#clear').click();
    if (t.at('#turn').value !== turn) t.set('#turn', turn);
    for (const [square, piece] of pieces) {
      t.at(`[data-piece-choice="${piece}"]`).click();
      t.at(`[data-square="${square}"]`).click();
    }
  },
  async solve(most) {
    t.set('#most', String(most));
    t.at('#solve').click();
    await t.until(() => ['done', 'stopped'].includes(t.at('#state').dataset.state));
    return t.at('#state').dataset.state === 'done' ? t.at('#verdict').dataset.line : t.at('#state').textContent;
  },
  async read(fen) {
    t.at('#fen').focus();
    t.set('#fen', fen);
    await t.until(() => t.at('#fen').dataset.read === fen);
    t.leave();
  },
  leave() {
    t.at('#fen').blur();
    t.at('#fen').dispatchEvent(new Event('blur'));
  },
  listen() {
    let before = performance.now();
    t.longest = 0;
    t.isListening = true;
    const beat = () => {
      const now = performance.now();
      t.longest = Math.max(t.longest, now - before);
      before = now;
      if (t.isListening) setTimeout(beat);
    };
    beat();
  },
  heard() {
    t.isListening = false;
    return t.longest;
  },
  empty() {
    if (t.at('#list').dataset.count !== '0') t.at('#forget').click();
  },
  pieces: () => Object.fromEntries(t.all('[data-square][data-piece]').map((e) => [e.dataset.square, e.dataset.piece])),
};
0
"""


def of_fen(text):
    """The pieces of a FEN text as the program writes it: a list of squares and pieces."""
    pieces = []
    for part in text.split(":")[1:]:
        man = part[0].lower()
        for item in filter(None, part[1:].split(",")):
            pieces.append((int(item.lstrip("K")), man.upper() if item[0] == "K" else man))
    return pieces


def shown(pieces):
    return {str(square): piece for square, piece in pieces}


def call(name, *values):
    return f"t.{name}({', '.join(json.dumps(value) for value in values)})"


def becomes(browser, script, wanted, seconds=20):
    """Waits until a script has this value."""
    until = time.monotonic() + seconds
    while (said := browser.run(script)) != wanted:
        assert time.monotonic() < until, (browser.name, script, said, wanted)
        time.sleep(0.05)


def open_page(browser, page, more=""):
    browser.goto("about:blank")
    browser.goto(page.as_uri() + more)
    browser.wait("document.documentElement && document.documentElement.dataset.ready", 30)
    browser.run(HELPERS)


def middles(browser, *squares):
    """Where the middles of squares are, all seen at once."""
    browser.middle("#board")
    return [tuple(place) for place in browser.run(f"""{json.dumps(squares)}.map((square) => {{
        const box = document.querySelector(`[data-square="${{square}}"]`).getBoundingClientRect();
        return [Math.round(box.left + box.width / 2), Math.round(box.top + box.height / 2)];
    }})""")]


def made_page(given, folder):
    """The page that is there, or one of the present sources."""
    if given:
        return pathlib.Path(given).resolve()
    page = folder / "board.html"
    subprocess.run([TOP / "board", page], check=True, stderr=subprocess.DEVNULL)
    return page


def browsers_asked(name):
    """The browsers of this name, or all."""
    return [kind for kind in (browsers.Chromium, browsers.Firefox) if name in (None, kind.name)]
