#!/usr/bin/env python3
"""board_pictures.py: takes pictures of board.html in each of its states, to be looked at.

    checks/board_pictures.py FOLDER [--page FILE] [--language LANGUAGE ..] [--state STATE ..]

Each state is taken in each language, light and dark, 360, 800 and 1400 pixels wide, and as it would be printed. A
picture is named after these, as `answer-fr-dark-360.png`.
"""
import argparse
import base64
import pathlib
import subprocess
import tempfile
import time

import browsers
from board_page import PHONE, TOP, call, made_page, open_page

WIDTHS, SCHEMES, LANGUAGES = (PHONE, 800, 1400), ("light", "dark"), ("en", "nl", "fr", "ru")
LONG = "W:W26,28,32,33,34,37,38,39,40,43,48:B8,9,12,13,14,16,18,19,20,24,25"
GAMES = TOP / "examples" / "collection.pdn"


def show_empty(browser):
    browser.run("t.at('#tab-solve').click(); t.at('#clear').click()")


def show_position(browser):
    browser.run(call("read", "W:W26,28,32,33,K34,37,38,39:B8,9,12,13,14,K16,18,19"))


def show_fault(browser):
    browser.run(call("read", "W:W27,32,K51:B18,28,3"))
    browser.wait("!t.at('#fault').hidden")


def show_search(browser):
    browser.run(call("read", LONG))
    browser.run("t.set('#most', '20'); t.at('#solve').click()")
    browser.wait("t.at('#state').textContent.split(',').length > 2", 60)


def show_answer(browser):
    browser.run("t.at('#stop').click()")
    browser.run(call("read", "W:W27,32:B18"))
    browser.run(call("solve", 8))
    browser.run("t.at('#ask-firsts').click()")
    browser.wait("t.all('#firsts li').length === 3")
    browser.run("t.all('#solution .move')[1].click()")


def show_play(browser):
    browser.run("t.at('#look-back').click(); t.at('#mode-play').click()")
    browser.wait("t.all('.dark.source').length")
    browser.run("t.at('[data-square=\"32\"]').click()")


def show_mend(browser):
    browser.run("t.at('#mode-setup').click(); t.at('#tab-improve').click()")
    browser.run(call("read", "W:W27,32:B18"))
    browser.run("t.set('#mend-n', '2'); t.at('#mend-go').click()")
    browser.wait("t.at('#mend').dataset.state === 'done'", 60)


def show_collection(browser):
    browser.run("t.empty()")
    browser.upload("#file", GAMES)
    browser.wait("t.at('#list').dataset.count > 0")
    browser.run("t.at('#judge-all').click()")
    browser.wait("t.at('#list').dataset.state === 'done' && !t.at('#judge-all').disabled", 60)


def show_compare(browser):
    browser.run("t.at('#tab-compare').click()")
    browser.run(call("read", "W:W27,32:B18"))
    browser.run("t.set('#movetext', '1. 32-28 18-22 2. 27x18 2-0'); t.at('#compare').click()")
    browser.wait("t.all('#remarks .remark').length === 2")
    browser.run("t.all('#remarks .remark')[1].click()")


STATES = {name.removeprefix("show_"): show for name, show in list(globals().items()) if name.startswith("show_")}


def take(browser, folder, name):
    """A state in each width and scheme, and as it is printed."""
    for scheme in SCHEMES:
        browser.colours(scheme)
        for width in WIDTHS:
            browser.resize(width, 6000, width == PHONE)
            height = browser.run("Math.max(800, Math.ceil(document.querySelector('footer')"
                                 ".getBoundingClientRect().bottom + scrollY) + 12)")
            browser.resize(width, height, width == PHONE)
            time.sleep(0.1)
            browser.picture(folder / f"{name}-{scheme}-{width}.png")
    said = browser.ask("Page.printToPDF", browser.session, printBackground=False)
    (folder / "printed.pdf").write_bytes(base64.b64decode(said["data"]))
    subprocess.run(["pdftoppm", "-r", "60", "-png", folder / "printed.pdf", folder / f"{name}-printed"], check=True)
    (folder / "printed.pdf").unlink()
    browser.resize(1200, 900)


def main():
    words = argparse.ArgumentParser()
    words.add_argument("folder", type=pathlib.Path)
    words.add_argument("--page", help="a page that is there; without it one is made")
    words.add_argument("--language", nargs="*", choices=LANGUAGES, default=LANGUAGES)
    words.add_argument("--state", nargs="*", choices=STATES, default=STATES)
    given = words.parse_args()
    given.folder.mkdir(parents=True, exist_ok=True)
    with tempfile.TemporaryDirectory() as name, browsers.Chromium() as browser:
        open_page(browser, made_page(given.page, pathlib.Path(name)))
        for language in given.language:
            browser.run(f"t.set('#language', '{language}')")
            for state in given.state:
                STATES[state](browser)
                take(browser, given.folder, f"{state}-{language}")


if __name__ == "__main__":
    main()
