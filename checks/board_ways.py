#!/usr/bin/env python3
"""board_ways.py: goes the ways of a composer through board.html, with the mouse, a finger or the keyboard alone.

    checks/board_ways.py [--page FILE] [--browser NAME] [--printed docs/printed.png] [--way NAME ..]

Each way begins with the page as a new reader finds it, in Chromium and in Firefox, and takes nothing but what one sees:
pieces are placed by clicks, texts are typed, files are opened. A dual is mended; a FEN text has a fault; a telephone;
no mouse; a file of contributed problems becomes a printed page; a printed solution is compared; a long search is
stopped and asked for less; a link is shared; Black plays; the board has 8 rows. With --printed the first page of the
printed problems becomes a picture.

Then come the ways of who has used it for a week. A problem gets a name, which goes with it into the link and the game
that is copied; cards are edited, moved, deleted, and saved as they are shown; the list is kept in a file of one's own.
"""
import argparse
import base64
import json
import pathlib
import re
import subprocess
import tempfile
import time

from board_page import PHONE, browsers_asked, made_page, middles, open_page

LONG = "W:W26,28,32,33,34,37,38,39,40,43,48:B8,9,12,13,14,16,18,19,20,24,25"
HEIGHT = 740  # pixels of a telephone
SMALL = 150_000  # bytes of a picture in the documents
SOON = 20  # seconds within which a page shows what was asked for
# Problems that are contributed. One has a man on the last row.
CONTRIBUTED = """W:W27,45:B16 W:W27,32:B18 W:W27,32,38:B18 B:W43:B24,29 W:W10,16,48:B13 W:WK46:B28 W:W32:B28
W:W3:B20 W:W28,33:B23 W:W38,43:B32""".split()
# Where the page says how far a question is.
SOLVED = "document.querySelector('#state').dataset.state === 'done'"


# What is copied is kept for the check to read.
COPIES = """
window.copied = [];
Object.defineProperty(navigator, 'clipboard', { configurable: true, value: {
  writeText: async (text) => { window.copied.push(text); },
  write: async (items) => { window.copied.push(...items); },
} });
0
"""
# A browser's form for a file, and the file that one chooses there: it is in the page's memory alone.
FILE = """
(() => {
  window.disk = { text: '', asked: 0 };
  const handle = {
    name: 'archive.pdn',
    getFile: async () => new File([disk.text], 'archive.pdn'),
    createWritable: async () => ({ write: async (text) => { disk.text = text; }, close: async () => {} }),
    requestPermission: async () => 'granted',
  };
  window.showSaveFilePicker = async () => { disk.asked += 1; return handle; };
  window.showOpenFilePicker = async () => { disk.asked += 1; return [handle]; };
})();
0
"""
GAMES = """[Event "Spring"]
[White "A. Composer"]
[Site "Het Damspel"]
[Date "1999.05.??"]
[FEN "W:W27,32:B18"]

1. 32-28 *

[Event "Summer"]
[FEN "W:W27,45:B16"]

*

[Event "Autumn"]
[FEN "W:W27,32,38:B18"]

*
"""
CARDS = "#list .card-title"
TREE = "B:W43:B24,29"


def begin(browser, page, address=""):
    """The page as a new reader finds it."""
    browser.resize(1200, 900)
    open_page(browser, page)
    browser.run("localStorage.clear()")
    open_page(browser, page, address)


def text(browser, selector):
    """What one reads there."""
    return browser.run(f"document.querySelector({json.dumps(selector)}).innerText.trim()")


def value(browser, selector):
    return browser.run(f"document.querySelector({json.dumps(selector)}).value")


def texts(browser, selector):
    said = browser.run(f"[...document.querySelectorAll({json.dumps(selector)})].map((e) => e.innerText)")
    return [" ".join(one.split()) for one in said]


def reads(browser, selector, *wanted):
    """Waits until these are the texts that one reads there. The text of a card is empty until the card was drawn."""
    until = time.monotonic() + SOON
    while (said := texts(browser, selector)) != list(wanted):
        assert time.monotonic() < until, (browser.name, selector, said, wanted)
        browser.run(f"document.querySelector({json.dumps(selector)})?.scrollIntoView({{block: 'nearest'}})")
        time.sleep(0.05)


def is_seen(browser, selector):
    """Whether all of it is within the window."""
    return browser.run(f"""(() => {{
        const box = document.querySelector({json.dumps(selector)}).getBoundingClientRect();
        return box.height > 0 && box.top >= -1 && box.bottom <= innerHeight + 1 && box.left >= 0
            && box.right <= innerWidth + 1;
    }})()""")


def fen_is(browser, fen):
    browser.wait(f"document.querySelector('#fen').value === {json.dumps(fen)}", 20)


def place(browser, pieces, press="click"):
    """Places pieces: of each kind its squares."""
    for piece, squares in pieces.items():
        getattr(browser, press)(f'[data-piece-choice="{piece}"]')
        for square in squares:
            getattr(browser, press)(f'[data-square="{square}"]')


def solve(browser, most, press="click"):
    browser.replace("#most", str(most))
    getattr(browser, press)("#solve")
    browser.wait(SOLVED, 60)
    return text(browser, "#verdict")


def way_dual(browser, page):
    """A position with a dual is set up, and mended."""
    begin(browser, page)
    browser.click("#clear")
    place(browser, {"w": (27, 32), "b": (18,)})
    fen_is(browser, "W:W27,32:B18")
    assert solve(browser, 2) == "≈ Dual: White to play and win in 2 by 32-28, but later there is a choice."
    browser.click("#dual .move:last-child")
    fen_is(browser, "B:W17,27:B")
    reads(browser, "#named-task", "Later position: Black to play")
    browser.click("#tab-improve")
    assert value(browser, "#mend-n") == "2"
    browser.click("#mend-go")
    browser.wait("document.querySelector('#mend').dataset.state === 'done'", 60)
    # It is the problem that was mended, not the position that was looked at.
    fen_is(browser, "W:W27,32:B18")
    reads(browser, "#mend-state", "Win in 2: 44 sound of 310 tried")
    browser.click("#mend .card")
    fen_is(browser, "W:W32:B18")
    browser.click("#tab-solve")
    assert solve(browser, 2) == "✓ Sound: White to play and win in 2. The only key is 32-28."
    browser.click("#undo")
    fen_is(browser, "W:W27,32:B18")


def way_fault(browser, page):
    """A FEN text with a fault is typed, and mended where the page marks it."""
    begin(browser, page)
    browser.replace("#fen", "W:W27,K51:B18")
    reads(browser, "#fault > *", "4 number at 8", "W:W27,K51:B18", "A square from 1 to 50 has to stand here.")
    reads(browser, "#fault mark", "5")
    # No answer is given on the position that stood there before.
    browser.click("#solve")
    browser.wait("document.querySelector('#state').dataset.state === 'stopped'", 20)
    reads(browser, "#state", "Mend the fault of the position first.")
    assert browser.run("document.querySelector('#answer').hidden") and value(browser, "#fen") == "W:W27,K51:B18"
    browser.replace("#fen", "W:W27,45:B16")
    browser.click("#solve")
    browser.wait(SOLVED, 60)
    reads(browser, "#verdict", "✓ Sound: White to play and win in 2. The only key is 45-40.")
    browser.click('[data-piece-choice="w"]')
    browser.click('[data-square="3"]')
    browser.wait("!document.querySelector('#fault').hidden", 20)
    assert "A man cannot stand on the last row: make it a king." in text(browser, "#fault")


def way_phone(browser, page):
    """A telephone: one taps, drags by a finger, and the board stays in sight."""
    begin(browser, page)
    browser.resize(PHONE, HEIGHT, True)
    browser.tap("#clear")
    place(browser, {"w": (27, 31), "b": (18, 13)}, "tap")
    fen_is(browser, "W:W27,31:B13,18")
    browser.finger(*middles(browser, 31, 37, 32))
    fen_is(browser, "W:W27,32:B13,18")
    (x, y), = middles(browser, 13)
    below = browser.run("document.querySelector('#board').getBoundingClientRect().bottom + 20")
    browser.finger((x, y), (x, (y + below) // 2), (x, below))
    fen_is(browser, "W:W27,32:B18")
    browser.tap("#solve")
    browser.wait(SOLVED, 60)
    assert text(browser, "#verdict").startswith("≈ Dual")
    for number, fen in ((1, "B:W27,28:B18"), (2, "W:W27,28:B22")):
        browser.tap(f"#solution .move:nth-of-type({number})")
        fen_is(browser, fen)
        assert is_seen(browser, "#board") and is_seen(browser, "#solution .here"), number
    # Not one control is wider than the window, or too small for a finger.
    small = browser.run("""[...document.querySelectorAll('button, select, input')].map((e) => [e.id || e.className,
        e.getBoundingClientRect()]).filter(([, box]) => box.width > 1 && (box.height < 20 || box.right > innerWidth))
        .map(([name]) => name)""")
    assert not small, small
    browser.resize(1200, 900)


def way_keys(browser, page):
    """No mouse: a position is set up, solved, gone through, and taken to the collection."""
    begin(browser, page)

    def tab_to(test, step=lambda: browser.press("Tab")):
        for _ in range(60):
            step()
            if browser.run(f"document.activeElement.matches({json.dumps(test)})"):
                return
        raise AssertionError(test)

    def go_to(square):
        for _ in range(60):
            here = int(browser.run("document.activeElement.dataset.square"))
            if here == square:
                return
            (row, column), (below, beside) = divmod(here - 1, 5), divmod(square - 1, 5)
            browser.press("ArrowDown" if row < below else "ArrowUp" if row > below
                          else "ArrowRight" if column < beside else "ArrowLeft")
        raise AssertionError(square)
    tab_to(".skip")
    browser.press("Enter")
    tab_to("[data-square]")
    for square, key in ((38, "Delete"), (18, "B"), (45, "w"), (45, "Backspace"), (18, "b")):
        go_to(square)
        browser.press(key)
    fen_is(browser, "W:W27,32:B18")
    tab_to("[role=tab]")
    browser.press("ArrowRight", "ArrowRight", "ArrowRight")
    assert not browser.run("document.querySelector('#panel-collection').hidden")
    tab_to("summary")
    browser.press("Enter")
    browser.wait("document.querySelector('#add').open", 10)
    tab_to("#add-title")
    browser.type("No mouse")
    browser.press("Enter")
    browser.wait("document.querySelectorAll('#list .card').length === 1", 20)
    reads(browser, "#list .card-title", "1. No mouse")
    tab_to("#list .card")
    assert browser.run("document.activeElement.getAttribute('aria-current')") == "true"
    tab_to("[role=tab]", browser.tab_back)
    browser.press("ArrowLeft", "ArrowLeft", "ArrowLeft")
    tab_to("#solve")
    browser.press("Enter")
    browser.wait(SOLVED, 60)
    tab_to("#solution .move")
    browser.press("Enter", "ArrowRight")
    fen_is(browser, "W:W27,28:B22")
    browser.press("Home")
    fen_is(browser, "W:W27,32:B18")


def way_page(browser, page, folder, printed):
    """A file of 30 contributed problems becomes a page to be printed."""
    begin(browser, page)
    fens = [CONTRIBUTED[i % len(CONTRIBUTED)] for i in range(30)]
    file = folder / "contributed.pdn"
    file.write_text("".join(f'[Event "Contest, no. {i}"]\n[White "Composer {i % 7}"]\n[FEN "{fen}"]\n\n*\n\n'
                            for i, fen in enumerate(fens, 1)))
    browser.click("#tab-collection")
    browser.upload("#file", file)
    browser.wait("document.querySelectorAll('#list .card').length === 30", 30)
    # Nobody has to know that the problems have to be judged before they are printed.
    browser.click("#save-page")
    browser.wait("document.querySelector('#list').dataset.saved === 'problems.html'", 120)
    reads(browser, "#list-state", "Written: problems.html. Not decided and left out: 3; 30 problems, 30 judged")
    states = browser.run("[...document.querySelectorAll('#list .card')].map((e) => e.dataset.state)")
    assert states.count("refused") == 3 and "open" not in states, states
    saved = browser.saved("problems.html").read_text()
    assert saved.count("<svg") - saved.count("<symbol") >= 27 and "Contest, no. 30" in saved, saved[:400]
    plain = " ".join(re.sub(r"<[^>]*>", " ", saved).split())
    assert "White to play and win in 2 Sound: 45-40" in plain and "No win in" not in plain, plain[-3000:]
    browser.choose("#sort", "verdict")
    browser.wait("document.querySelector('#list .card').dataset.state === 'sound'", 20)
    if printed:
        take_printed(browser, browser.saved("problems.html"), folder, printed)


def take_printed(browser, file, folder, picture):
    """The first page of what is printed, as a small picture."""
    browser.goto(file.as_uri())
    browser.wait("document.readyState === 'complete'", 30)
    said = browser.ask("Page.printToPDF", browser.session, preferCSSPageSize=True, printBackground=True)
    (folder / "printed.pdf").write_bytes(base64.b64decode(said["data"]))
    subprocess.run(["pdftoppm", "-r", "96", "-gray", "-l", "1", "-singlefile", folder / "printed.pdf",
                    folder / "printed"], check=True)
    small = subprocess.run(["pnmquant", "16", folder / "printed.pgm"], capture_output=True, check=True).stdout
    png = subprocess.run(["pnmtopng", "-compression", "9"], input=small, capture_output=True, check=True).stdout
    picture.write_bytes(png)
    assert 5000 < len(png) < SMALL, len(png)


def way_compare(browser, page):
    """A printed solution is compared, also one with a slip."""
    begin(browser, page, "#fen=W:W27,32:B18&n=2")
    browser.click("#tab-compare")
    browser.click("#movetext")
    browser.type("1. 32-28 18-22 2. 27x18")
    browser.click("#compare")
    browser.wait("document.querySelectorAll('.remark').length === 2", 30)
    reads(browser, "#compared", "The solution holds, but leaves something out: win in 2.")
    reads(browser, ".remark", "! After 1. 32-28 no answer is given to 18-23",
          "! After 1. 32-28 18-22 this wins too: 28x17")
    browser.click("#remarks li:nth-child(2) .remark")
    fen_is(browser, "W:W27,28:B22")
    # The solution is that of the problem, whatever is looked at.
    browser.replace("#movetext", "1. 32-28 18-23 (1... 18-22 2. 28x17 (2. 27x18)) 2. 28x19")
    browser.click("#compare")
    browser.wait("document.querySelector('#compared').innerText.includes('nothing is left out')", 30)
    fen_is(browser, "W:W27,32:B18")
    browser.replace("#movetext", "1. 32-28 18-22 2. 27-18")
    browser.click("#compare")
    browser.wait("!document.querySelector('#compared-fault').hidden", 30)
    reads(browser, "#compared", "The solution cannot be read.")
    reads(browser, "#compared-fault mark", "27-18")
    reads(browser, "#compared-fault > :nth-child(2)", "This move is not legal here.")
    browser.click('[data-square="18"]', "right")
    fen_is(browser, "W:W27,32:B")
    assert not text(browser, "#compared"), "what is said of another position"


def way_stop(browser, page):
    """A long search is stopped, and asked again with fewer moves."""
    begin(browser, page)
    browser.replace("#fen", LONG)
    browser.replace("#most", "20")
    browser.click("#solve")
    browser.wait("/no win in 1\\d/.test(document.querySelector('#state').innerText)", 120)
    assert re.match(r"Searching, no win in 1\d, [\d,]+ positions, \d+\.\d s$", text(browser, "#state")), \
        text(browser, "#state")
    browser.click("#stop")
    browser.wait("document.querySelector('#state').dataset.state === 'stopped'", 10)
    assert re.match(r"Stopped: no win in 1\d\.$", text(browser, "#state")), text(browser, "#state")
    assert solve(browser, 10) == "∅ No win: White to play cannot win in 10."
    browser.click("#exact")
    browser.replace("#most", "20")
    browser.click("#solve")
    browser.wait("/[\\d,]+ positions/.test(document.querySelector('#state').innerText)", 120)
    browser.click("#stop")
    browser.wait("document.querySelector('#state').dataset.state === 'stopped'", 10)
    browser.click("#exact")
    browser.replace("#fen", "W:W27,45:B16")
    assert solve(browser, 5).startswith("✓ Sound")


def way_share(browser, page):
    """The link of a problem is copied, and opened in another tab."""
    begin(browser, page)
    browser.replace("#fen", "W:W27,32:B18")
    solve(browser, 3)
    browser.click("#solution .move")
    fen_is(browser, "B:W27,28:B18")
    browser.click("#share")
    browser.wait("!document.querySelector('#shared').hidden", 20)
    said, address = text(browser, "#shared"), browser.run("location.href")
    assert said in ("The link to this problem is copied.", address), said
    assert address.endswith("#fen=W:W27,32:B18&n=3"), address
    browser.tab()
    open_page(browser, page, address[address.index("#"):])
    assert (value(browser, "#fen"), value(browser, "#most")) == ("W:W27,32:B18", "3")
    browser.click("#solve")
    browser.wait(SOLVED, 60)
    assert text(browser, "#verdict").startswith("≈ Dual")


def way_black(browser, page):
    """Black is to play, and sits below."""
    begin(browser, page)
    browser.click("#clear")
    browser.click("#flip")
    browser.choose("#turn", "B")
    place(browser, {"w": (43,), "b": (24, 29)})
    fen_is(browser, "B:W43:B24,29")
    assert solve(browser, 8) == "✓ Sound: Black to play and win in 2. The only key is 29-33."
    assert texts(browser, "#solution .move")[0] == "1... 29-33", texts(browser, "#solution .move")
    browser.click("#mode-play")
    browser.wait("document.querySelectorAll('.dark.source').length", 20)
    for start, end in ((29, 33), (43, 39), (33, 44)):
        browser.wait(f"document.querySelector('[data-square=\"{start}\"]').matches('.source')", 20)
        browser.click(f'[data-square="{start}"]')
        browser.click(f'[data-square="{end}"]')
    browser.wait("document.querySelector('#played').innerText.includes('no move left')", 20)
    reads(browser, "#played", "1... 29-33 2. 43-39 33x44 White has no move left and has lost.")
    browser.click("#take-back")
    fen_is(browser, "B:W39:B24,33")
    assert solve(browser, 8) == "✓ Sound: Black to play and win in 1. The only key is 33x44."
    browser.click("#mode-setup")
    browser.click("#flip")


def way_eight(browser, page):
    """The board has 8 rows."""
    begin(browser, page)
    browser.choose("#rows", "8")
    browser.click("#opening")
    fen_is(browser, "W:W21,22,23,24,25,26,27,28,29,30,31,32:B1,2,3,4,5,6,7,8,9,10,11,12")
    browser.click("#clear")
    place(browser, {"w": (22, 30), "b": (14,)})
    fen_is(browser, "W:W22,30:B14")
    said = solve(browser, 8)
    assert "White to play" in said, said
    assert browser.run("location.hash") == "#fen=W:W22,30:B14&n=8&rows=8", browser.run("location.hash")
    browser.click("#tab-collection")
    reads(browser, "#drop-rows", "8 × 8")
    browser.click("#add summary")
    browser.click("#add-go")
    browser.wait("document.querySelector('#list').dataset.count === '1'", 20)
    browser.click("#save-page")
    browser.wait("document.querySelector('#list').dataset.saved === 'problems.html'", 60)
    browser.choose("#rows", "10")
    browser.click("#list .card")
    browser.wait("document.querySelector('#rows').value === '8'", 20)
    browser.replace("#fen", "W:W33:B1")
    reads(browser, "#fault > *", "4 number at 4", "W:W33:B1", "A square from 1 to 32 has to stand here.")


def opened(browser, page, folder):
    """The page with a list of three problems."""
    begin(browser, page)
    file = folder / "three.pdn"
    file.write_text(GAMES)
    browser.click("#tab-collection")
    browser.upload("#file", file)
    reads(browser, CARDS, "1. Spring, A. Composer, Het Damspel, 1999.05", "2. Summer", "3. Autumn")


def week_name(browser, page, folder):
    """A problem is named, and the name goes with it: above the board, in the link, in the game, after a reload."""
    opened(browser, page, folder)
    browser.click("#list .card")
    reads(browser, "#named-name", "Spring, A. Composer, Het Damspel, 1999.05")
    browser.click("#naming summary")
    assert value(browser, "#name-source") == "Het Damspel"
    browser.replace("#name-title", "Spring & May")
    reads(browser, "#named-name", "Spring & May, A. Composer, Het Damspel, 1999.05")
    reads(browser, CARDS, "1. Spring & May, A. Composer, Het Damspel, 1999.05", "2. Summer", "3. Autumn")
    browser.click("#tab-solve")
    solve(browser, 4)
    reads(browser, "#named-task", "White to play and win in 2")
    browser.run(COPIES)
    browser.click("#copy")
    browser.wait("window.copied.length === 1", 20)
    tags = ['[Event "Spring & May"]', '[White "A. Composer"]', '[Site "Het Damspel"]', '[Date "1999.05"]']
    assert browser.run("window.copied[0]").splitlines()[:4] == tags, browser.run("window.copied[0]")
    # Another position has no name, until it is given that of the one before.
    browser.click('[data-square="50"]')
    fen_is(browser, "W:W27,32,50:B18")
    assert text(browser, "#named-name") == "" and value(browser, "#name-title") == ""
    browser.click("#name-before")
    reads(browser, "#named-name", "Spring & May, A. Composer, Het Damspel, 1999.05")
    browser.click("#undo")
    address = browser.run("location.href")
    assert address.endswith("#fen=W:W27,32:B18&n=4&title=Spring+%26+May&author=A.+Composer&source=Het+Damspel"
                            "&date=1999.05"), address
    browser.run("localStorage.clear()")
    open_page(browser, page, address[address.index("#"):])
    reads(browser, "#named-name", "Spring & May, A. Composer, Het Damspel, 1999.05")
    open_page(browser, page)
    reads(browser, "#named-name", "Spring & May, A. Composer, Het Damspel, 1999.05")


def week_cards(browser, page, folder):
    """Cards are edited, put in another order, deleted and brought back, and the order stays."""
    opened(browser, page, folder)
    browser.click("#list .item:nth-child(2) .edit")
    browser.wait("document.querySelector('#card-dialog').open", 10)
    reads(browser, "#card-heading", "Edit problem 2")
    browser.replace("#card-author", "B. Composer")
    browser.replace("#card-number", "3")
    browser.click("#card-keep")
    first = "1. Spring, A. Composer, Het Damspel, 1999.05"
    reads(browser, CARDS, first, "2. Autumn", "3. Summer, B. Composer")
    browser.press("Delete")
    reads(browser, CARDS, first, "2. Autumn")
    browser.press("Delete")
    reads(browser, CARDS, first)
    reads(browser, "#bring-back", "Undo: bring 1 problem back")
    browser.click("#bring-back")
    reads(browser, CARDS, first, "2. Autumn")
    browser.click("#bring-back")
    reads(browser, CARDS, first, "2. Autumn", "3. Summer, B. Composer")
    open_page(browser, page)
    browser.click("#tab-collection")
    reads(browser, CARDS, first, "2. Autumn", "3. Summer, B. Composer")
    # The position on the board takes the place of that of a card.
    browser.replace("#fen", "W:W32:B18")
    browser.click("#list .item:nth-child(2) .edit")
    browser.click("#card-position")
    browser.click("#card-keep")
    browser.wait("document.querySelector('#list .item:nth-child(2) .card').dataset.fen === 'W:W32:B18'", 10)


def week_shown(browser, page, folder):
    """Saving takes what is shown, in its order."""
    opened(browser, page, folder)
    browser.click("#judge-all")
    browser.wait("document.querySelector('#list .card').dataset.state === 'dual' && "
                 "!document.querySelector('#judge-all').disabled", 60)
    browser.choose("#filter", "cooked")
    reads(browser, "#saves", "Saves what is shown: 1 of 3 problems.")
    browser.click("#save-pdn")
    browser.wait("document.querySelector('#list').dataset.saved === 'problems.pdn'", 60)
    saved = browser.saved("problems.pdn").read_text()
    assert re.findall(r'Event "(\w+)"', saved) == ["Autumn"], saved


def week_own(browser, page, folder):
    """The list is kept in a file of one's own, which takes its place again; a file may replace the list."""
    browser.preload(FILE)
    try:
        opened(browser, page, folder)
        browser.choose("#rows", "8")
        browser.replace("#fen", "W:W22,30:B14")
        browser.click("#add summary")
        browser.click("#add-go")
        reads(browser, CARDS, "1. Spring, A. Composer, Het Damspel, 1999.05", "2. Summer", "3. Autumn", "4.")
        before = browser.run("[...document.querySelectorAll('#list .card')].map((e) => e.dataset.fen)")
        browser.click("#own-save")
        browser.wait("document.querySelector('#list').dataset.saved === 'archive.pdn'", 20)
        reads(browser, "#own-save", "Save to my file (archive.pdn)")
        browser.click("#list .edit")
        browser.click("#card-delete")
        browser.wait("document.querySelector('#list').dataset.count === '3'", 20)
        browser.click("#own-open")
        browser.wait("document.querySelector('#list').dataset.count === '4'", 20)
        reads(browser, CARDS, "1. Spring, A. Composer, Het Damspel, 1999.05", "2. Summer", "3. Autumn", "4.")
        assert browser.run("[...document.querySelectorAll('#list .card')].map((e) => e.dataset.fen)") == before
        assert browser.run("disk.asked") == 1, "one click, once the file is known"
        browser.click("#list .item:nth-child(4) .card")
        browser.wait("document.querySelector('#rows').value === '8'", 20)
    finally:
        browser.preload(None)
    opened(browser, page, folder)
    browser.choose("#file-way", "replace")
    browser.upload("#file", folder / "three.pdn")
    browser.wait("!document.querySelector('#bring-back').hidden", 20)
    reads(browser, CARDS, "1. Spring, A. Composer, Het Damspel, 1999.05", "2. Summer", "3. Autumn")


def week_picture(browser, page, folder):
    """A diagram is saved and copied as a picture, with numbers, title, task and solution or without them."""
    opened(browser, page, folder)
    browser.click("#list .card")
    browser.click("#tab-solve")
    solve(browser, 4)
    browser.run(COPIES)
    browser.click("#picture summary")
    browser.click("#svg-save")
    reads(browser, "#pictured", "Written: diagram.svg")
    drawn = browser.saved("diagram.svg").read_text()
    said = re.findall(r">([^<>]+)</text>", drawn)
    assert drawn.count("<circle") == 9 and [str(square) for square in range(1, 51)] == said[2:52], said
    assert said[:2] + said[52:] == ["Spring, A. Composer, Het", "Damspel, 1999.05", "White to play and win in 2"], said
    for box in ("#picture-numbers", "#picture-names", "#picture-solution"):
        browser.click(box)
    browser.click("#svg-copy")
    reads(browser, "#pictured", "Copied.")
    drawn = browser.run("copied[0]")
    assert re.findall(r">([^<>]+)</text>", drawn) == ["1. 32-28 18-22 2. 27x18"], drawn
    browser.click("#png-save")
    reads(browser, "#pictured", "Written: diagram.png")
    head = browser.saved("diagram.png").read_bytes()[:24]
    width, height = (int.from_bytes(head[at : at + 4], "big") for at in (16, 20))
    assert head[:8] == b"\x89PNG\r\n\x1a\n" and width == 3 * 424 and height > width, head
    browser.click("#png-copy")
    browser.wait("copied.length === 2 || document.querySelector('#pictured').textContent.endsWith('.png')", 20)
    # What is written in a picture belongs to the position that it shows.
    browser.click("#picture-names")
    browser.click("#solution .move")
    browser.click("#svg-copy")
    browser.wait("typeof copied[copied.length - 1] === 'string' && copied.length > 1", 20)
    drawn = browser.run("copied[copied.length - 1]")
    assert re.findall(r">([^<>]+)</text>", drawn) == ["Black to play"], drawn


def week_solution(browser, page, folder):
    """A solution is read: the main line first, each variation on a line farther in, as deep as is chosen, by keys."""
    del folder
    begin(browser, page, f"#fen={TREE}&n=8")
    solve(browser, 8)
    lines = """[...document.querySelectorAll('#solution .line')].map((line) => [line.dataset.level,
        [...line.querySelectorAll('.move')].map((e) => e.textContent).join(' ')])"""
    every = browser.run(lines)
    assert every[0] == ["0", "1... 29-33 2. 43-38 33x42"] and every[1] == ["1", "2. 43-39 33x44"], every
    bold = browser.run("""[...document.querySelectorAll('#solution .move')].filter((e) =>
        getComputedStyle(e).fontWeight >= 700).map((e) => e.dataset.move).join()""")
    assert bold == "29-33,33x42,33x44", bold
    left = browser.run("""[...document.querySelectorAll('#solution .line')]
        .map((e) => e.getBoundingClientRect().left)""")
    assert left[0] < left[1], left
    # The keys work wherever the focus is not in a field.
    browser.click("h1")
    for key, fen in (("ArrowRight", "W:W43:B24,33"), ("ArrowRight", "B:W38:B24,33"), ("ArrowDown", "B:W39:B24,33"),
                     ("End", "W:W:B24,44"), ("ArrowLeft", "B:W39:B24,33"), ("Home", TREE), ("End", "W:W:B24,42"),
                     ("Escape", TREE)):
        browser.press(key)
        fen_is(browser, fen)
    browser.press("End")
    fen_is(browser, "W:W:B24,42")
    browser.click("#most")
    browser.press("ArrowLeft", "Home")
    time.sleep(0.2)
    fen_is(browser, "W:W:B24,42")
    browser.click("#look-back")
    browser.choose("#depth", "main")
    assert browser.run(lines) == every[:1], browser.run(lines)
    browser.choose("#depth", "longest")
    assert browser.run(lines) == every, "both replies hold out as long"
    open_page(browser, page)
    assert value(browser, "#depth") == "longest"
    roles = """[...new Set([...document.querySelectorAll('#solution, #solution > *, #solution > * > *')]
        .map((e) => e.getAttribute('role')))].join()"""
    solve(browser, 8)
    assert browser.run(roles) == "tree,group,treeitem", browser.run(roles)


def week_play(browser, page, folder):
    """Moves are played by dragging; the last one is marked, and glides; the board stays; one click solves it."""
    del folder
    begin(browser, page, "#fen=W:W27,32:B18&n=4")
    solve(browser, 4)
    top = "Math.round(document.querySelector('#board').getBoundingClientRect().top)"
    before = browser.run(top)
    browser.click("#mode-play")
    browser.wait("document.querySelectorAll('.dark.source').length === 2", 20)
    glides = """new Promise((resolve) => {
        const until = performance.now() + 1500;
        const look = () => {
            const found = document.getAnimations().some(({ effect }) => effect?.target?.matches?.('.piece'));
            if (found || performance.now() > until) resolve(found);
            else setTimeout(look, 3);
        };
        look();
    })"""
    browser.run(f"window.glided = {glides}; 0")
    browser.drag(*middles(browser, 32, 28))
    fen_is(browser, "B:W27,28:B18")
    assert browser.run("window.glided"), "the piece that has moved glides"
    marked = "[...document.querySelectorAll('.dark.last')].map((e) => e.dataset.square).join()"
    assert browser.run(marked) == "28,32", browser.run(marked)
    # What is dragged to a square where it cannot go stays where it was.
    browser.drag(*middles(browser, 18, 12))
    browser.drag(*middles(browser, 27, 22))
    fen_is(browser, "B:W27,28:B18")
    browser.drag(*middles(browser, 18, 22))
    browser.drag(*middles(browser, 27, 18))
    reads(browser, "#played", "1. 32-28 18-22 2. 27x18 Black has no move left and has lost.")
    browser.press("ArrowLeft", "ArrowLeft")
    fen_is(browser, "B:W27,28:B18")
    browser.press("End")
    fen_is(browser, "B:W18,28:B")
    browser.press("Home", "ArrowRight")
    fen_is(browser, "B:W27,28:B18")
    assert browser.run(f"scrollTo(0, 0), {top}") == before, "the board stays where it is"
    reads(browser, "#answer-of", "The verdict is that of the starting position, W:W27,32:B18")
    browser.click("#solve-here")
    browser.wait("document.querySelector('#answer-of').dataset.fen === 'B:W27,28:B18'", 20)
    browser.wait(SOLVED, 20)
    assert text(browser, "#verdict").startswith("∅ No win: Black to play"), text(browser, "#verdict")
    assert browser.run("document.querySelector('#solve-here').hidden")
    if browser.name == "chromium":
        browser.ask("Emulation.setEmulatedMedia", browser.session,
                    features=[{"name": "prefers-reduced-motion", "value": "reduce"}])
        browser.wait("document.getAnimations().length === 0", 10)
        browser.run(f"window.glided = {glides}; 0")
        browser.press("ArrowLeft", "ArrowRight")
        fen_is(browser, "B:W27,28:B18")
        assert not browser.run("window.glided"), "nothing moves for whom that is too much"
        browser.ask("Emulation.setEmulatedMedia", browser.session, features=[])
    browser.press("Escape")
    fen_is(browser, "W:W27,32:B18")


def week_windows(browser, page, folder):
    """Small windows: one asks without scrolling, the whole board is seen, and nothing jumps below a finger."""
    del folder
    for width, height, is_phone in ((PHONE, HEIGHT, True), (1366, 650, False)):
        for language in ("en", "nl", "fr", "ru"):
            begin(browser, page, f"#fen={TREE}&n=8&title=Spring&author=A.+Composer&source=Het+Damspel&date=1999")
            browser.resize(width, height, is_phone)
            browser.run(f"""(() => {{
                const field = document.querySelector('#language');
                field.value = '{language}';
                field.dispatchEvent(new Event('change'));
                scrollTo(0, 0);
            }})()""")
            assert is_seen(browser, "#solve") and is_seen(browser, "#board"), (width, language)
            assert browser.run("document.documentElement.scrollWidth <= innerWidth"), (width, language)
    begin(browser, page, f"#fen={TREE}&n=8")
    browser.resize(HEIGHT, PHONE, True)
    browser.run("scrollTo(0, 0)")
    assert is_seen(browser, "#board"), "the whole board in a low window"
    browser.resize(PHONE, HEIGHT, True)
    place_of = "document.querySelector({}).getBoundingClientRect().top"
    # A man on the last row is a fault, which is told without moving the square.
    square = json.dumps('[data-square="3"]')
    browser.tap('[data-square="3"]')
    before = browser.run(place_of.format(square))
    browser.wait("!document.querySelector('#board-fault').hidden", 20)
    assert browser.run(place_of.format(square)) == before, "a fault moves the board"
    browser.tap('[data-square="3"]')
    fen_is(browser, TREE)
    browser.tap("#solve")
    browser.wait(SOLVED, 60)
    for line, move in ((1, 1), (1, 2), (2, 1), (1, 3)):
        name = f"#solution .line:nth-child({line}) .move:nth-of-type({move})"
        browser.middle(name)
        before = browser.run(place_of.format(json.dumps(name)))
        browser.tap(name)
        browser.wait(f"document.querySelector({json.dumps(name)}).matches('.here')", 10)
        time.sleep(0.1)
        assert browser.run(place_of.format(json.dumps(name))) == before, (line, move)
        assert is_seen(browser, "#look-back") and is_seen(browser, "#board"), "the way back stands beside the board"
    if browser.name == "chromium":
        small = """[...document.querySelectorAll('button, select, summary, label.button, label.check, input')]
            .filter((e) => e.checkVisibility() && !e.matches('.dark, .file, [type=checkbox]')).map((e) =>
            [e.id || e.className || e.tagName, Math.round(e.getBoundingClientRect().height)])
            .filter(([, height]) => height < 44)"""
        for tab in ("solve", "compare", "improve", "collection"):
            browser.tap(f"#tab-{tab}")
            assert not browser.run(small), (tab, browser.run(small))
    browser.resize(1200, 900)


def week_paper(browser, page, folder):
    """A sheet has one's own heading, the name, the main line and the replies that hold out longest, and its bound."""
    begin(browser, page, "#fen=B:W21,26:BK5,14,22,23&n=8&title=Spring&author=A.+Composer&date=1999")
    browser.click("#paper summary")
    browser.replace("#heading", "Club evening")
    solve(browser, 8)

    def printed():
        """The text of the sheet, and its diagram as the elements of the page stand when it is printed."""
        if browser.name == "chromium":
            said = browser.ask("Page.printToPDF", browser.session, preferCSSPageSize=True)
        else:
            said = browser.ask("browsingContext.print", context=browser.context)
        (folder / "sheet.pdf").write_bytes(base64.b64decode(said["data"]))
        ran = subprocess.run(["pdftotext", "-layout", folder / "sheet.pdf", "-"], capture_output=True, text=True,
                             check=True)
        return " ".join(ran.stdout.split())
    said = printed()
    for wanted in ("Club evening", "Spring, A. Composer, 1999. Black to play and win in 5",
                   "Solution, with the replies that hold out longest: 1 line.",
                   "1... 22-27 2. 21x32 23-28 3. 32x23 14-19 4. 23x14 5x32 5. 26-21 32x16"):
        assert wanted in said, (wanted, said)
    assert "Draughts problems" not in said and "all variations" not in said, said
    # Also the squares below pieces have their numbers.
    assert all(re.search(rf"\b{square}\b", said.split("Sound")[0]) for square in (5, 14, 21, 22, 23, 26)), said
    browser.replace("#fen", "W:WK2,K17,K27,K32:BK20,K21")
    solve(browser, 4)
    said = printed()
    assert re.search(r"hold out longest: the \S+ 15 of 16 lines\.", said), said
    browser.click("#tab-collection")
    browser.click("#add summary")
    browser.click("#add-go")
    browser.wait("document.querySelector('#list').dataset.count === '1'", 20)
    (browser.downloads / "problems.html").unlink(missing_ok=True)
    browser.click("#save-page")
    browser.wait("document.querySelector('#list').dataset.saved === 'problems.html'", 60)
    assert "Club evening" in browser.saved("problems.html").read_text()


def week_go_on(browser, page, folder):
    """A search that is stopped goes on from what it has found, and its answer is that of one search."""
    del folder
    begin(browser, page, f"#fen={LONG}&n=14")
    count = "Number((/([\\d,]+) positions/.exec(document.querySelector('#state').innerText)?.[1] ?? '0')" \
        ".replaceAll(',', ''))"
    browser.click("#solve")
    browser.wait(f"{count} >= 400000 && /no win in 1\\d/.test(document.querySelector('#state').innerText)", 60)
    browser.click("#stop")
    browser.wait("!document.querySelector('#go-on').hidden", 10)
    found = int(re.match(r"Stopped: no win in (1\d)\.$", text(browser, "#state"))[1])
    browser.click("#go-on")
    browser.wait(f"document.querySelector('#state').dataset.state === 'done' || {count} >= 400000", 60)
    again = re.search(r"no win in (1\d)", text(browser, "#state"))
    assert not again or int(again[1]) >= found, (found, text(browser, "#state"))
    browser.wait(SOLVED, 120)
    reads(browser, "#verdict", "∅ No win: White to play cannot win in 14.")
    assert browser.run("document.querySelector('#go-on').hidden")
    # The answer is that of a search that nobody stopped.
    line = "document.querySelector('#about').textContent + document.querySelector('#tries').textContent"
    before = browser.run(line)
    browser.click("#solve")
    browser.wait("document.querySelector('#state').dataset.state === 'searching'", 10)
    browser.wait(SOLVED, 120)
    assert browser.run(line) == before


WAYS = [way_dual, way_fault, way_phone, way_keys, way_page, way_compare, way_stop, way_share, way_black, way_eight]
# Those of a composer who has used it for a week.
WEEK = [way for name, way in list(globals().items()) if name.startswith("week_")]


def main():
    words = argparse.ArgumentParser()
    words.add_argument("--page", help="a page that is there; without it one is made")
    words.add_argument("--browser", choices=("chromium", "firefox"))
    words.add_argument("--printed", type=pathlib.Path, help="the file for the picture of a printed page")
    words.add_argument("--way", nargs="*", choices=[way.__name__ for way in WAYS + WEEK], help="these ways alone")
    given = words.parse_args()
    with tempfile.TemporaryDirectory() as name:
        folder = pathlib.Path(name)
        page = made_page(given.page, folder)
        for kind in browsers_asked(given.browser):
            with kind() as browser:
                for way in WAYS + WEEK:
                    if given.way and way.__name__ not in given.way:
                        continue
                    if way in WEEK:
                        way(browser, page, folder)
                    elif way is way_page:
                        printed = given.printed or folder / "printed.png"
                        way(browser, page, folder, printed if browser.name == "chromium" else None)
                    else:
                        way(browser, page)
                    print(f"{browser.name}: {' '.join(way.__doc__.split())}", flush=True)
                assert not browser.fetched(), browser.fetched()
                assert not browser.errors, browser.errors


if __name__ == "__main__":
    main()
