#!/usr/bin/env python3
"""board.py: uses board.html as a composer does, in Chromium and in Firefox, and compares its answers with `dw-desk`.

    checks/board.py [--page FILE] [--browser NAME] [--count POSITIONS] [--shot docs/board.png]

Random positions (100 on each board if not said, fewer in the second browser) are set up by clicks, and answered as
`dw-desk find` does. Worked rows go through the page's controls. Pieces are dragged, taps and keys do what clicks do.
FEN texts and the board follow each other, and faults are those of `dw`. Whole lines are played, and captures with the
same ends are chosen. A long search is stopped; a certificate is checked; an author's solution is compared; neighbours,
a file of problems, four languages, a telephone's width, light and dark, a printed sheet. Nothing is asked of the
network, and the console has no error. Times are printed, and are no condition.
"""
import argparse
import base64
import json
import pathlib
import random
import re
import subprocess
import tempfile
import time

import browsers
from board_page import DESK, PHONE, becomes, browsers_asked, call, made_page, middles, of_fen, open_page, shown
from draughts import Board, fen
from wins import drawn

SEED, MOST = 123, 3
LONG = "W:W26,28,32,33,34,37,38,39,40,43,48:B8,9,12,13,14,16,18,19,20,24,25"
LARGEST = 1_500_000  # bytes of the page
NOT_KEPT = "This browser does not let the page keep the list: save it as a file."
MANY_LINES = "W:WK41,K42,K45,K46:B6,7"
CERTIFICATE = pathlib.Path(__file__).resolve().parent / "certificate.py"
SMALL = 150_000  # bytes of a picture in the documents
# Positions with the number of moves that is asked for, and the answer's lines.
FINDS = [
    ("W:W10,16,48:B13", 6, "dual in 3: 1. 10-5 13-18 2. 5-28 18-22 3. 28x6 / 28x11 / 28x17", [("10-4", "13-19")]),
    ("W:W10,16,48:B13", 2, "unsolvable in 2", [("10-4", "13-19"), ("10-5", "13-18")]),
    ("W:W27,32:B18", 20, "dual in 2: 1. 32-28 18-22 2. 27x18 / 28x17", [("27-22", "18x38")]),
    ("W:W27,45:B16", 20, "sound in 2: 45-40", [("27-21", "16x27"), ("27-22", "16-21")]),
    ("W:W27,32,38:B18", 20, "cooked in 2, shortest 2: 27-22, 32-28", [("38-33", "18-23")]),
    ("W:W27:B16", 3, "unsolvable in 3", [("27-21", "16x27"), ("27-22", "16-21")]),
    ("B:W43:B24,29", 20, "sound in 2: 29-33", None),
]
# Sound in 2 moves; a second first move wins in 3.
LATER = "W:W28,31,36,39:B33"
# Positions with the moves of their solutions, and their movetexts.
SOLUTIONS = [
    ("W:W27,32:B18", ["32-28", "18-22", "27x18", "28x17", "18-23", "28x19"],
     "{dual in 2} 1. 32-28 18-22 (1... 18-23 2. 28x19) 2. 27x18 (2. 28x17) 2-0"),
    ("B:W43:B24,29", ["29-33", "43-38", "33x42", "43-39", "33x44"],
     "{sound in 2} 1... 29-33 2. 43-38 (2. 43-39 33x44) 2... 33x42 0-2"),
]
# Positions, movetexts, and the lines that are said of them.
CHECKS = [
    ("W:W27,45:B16", "1. 45-40 16-21 2. 27x16 *", [], "holds in 2: 0 fail, 0 end, 0 open, 0 also"),
    ("W:W27,32:B18", "1. 32-28 18-22 2. 27x18 2-0",
     [["open", "1. 32-28", "18-23"], ["also", "1. 32-28 18-22", "28x17"]],
     "holds in 2: 0 fail, 0 end, 1 open, 1 also"),
    ("W:W27,32:B18", "1. 27-22! {why not} 18x38 *", [["fails", "", "27-22"]],
     "fails in 1: 1 fail, 0 end, 0 open, 0 also"),
    ("W:W27,32:B18", "1. 32-28 (1. 27-22 18x38) 1... 18-22 (1... 18-23 2. 28x19) 2. 27x18 (2. 28x17) 2-0",
     [["fails", "", "27-22"]], "fails in 2: 1 fail, 0 end, 0 open, 0 also"),
    ("W:W27,32:B18", "1. 32-28 *", [["fails", "", "32-28"]], "fails in 1: 1 fail, 0 end, 0 open, 0 also"),
    ("W:W27,32:B18", "1. 32-28 18-22 (1... 18-23) 2. 27x18 *",
     [["also", "1. 32-28 18-22", "28x17"], ["ends", "1. 32-28 18-23", ""]],
     "fails in 2: 0 fail, 1 end, 0 open, 1 also"),
    ("W:W27,32:B18", " 1. 32-27", [], "solution refused: 2 no such move at 5"),
    ("W:W27,32:B18", " 1. 32-28 (", [], "solution refused: 5 unclosed at 12"),
    ("W:W27,32:B18", " ( 1. 32-28", [], "solution refused: 4 variation at 2"),
    ("W:W27,32:B18", " 1. 32-28 2-0 x", [], "solution refused: 6 rest at 15"),
    ("W:W27,32:B18", " *", [], "solution refused: 10 empty at 3"),
    ("W:W27,32:B18", " 32_28", [], "solution refused: 1 token at 2"),
    ("W:W27,32:B18", "", [], "solution refused: 10 empty at 1"),
]
# FEN texts that are refused: number, name and place.
FAULTS = [
    ("", "1 turn at 1"), ("W W31", "2 colon at 3"), ("W:31", "3 colour at 3"), ("W:W51:B1", "4 number at 4"),
    ("W:W031:B1", "4 number at 4"), ("W:WK:B", "4 number at 5"), ("W:W28:B28", "5 twice at 8"),
    ("W:W31:W32", "6 same colour at 7"), ("W:W3:B20", "7 last row at 4"), ("W:W31-50,30:B", "8 too many at 10"),
    ("W:W31:B20.x", "9 rest at 11"), (" " * 1025, "10 too long at 1025"), ("W:W40-31:B", "11 range backwards at 7"),
]
READ = [("W:W31:B20:H0", "W:W31:B20"), ("W:WK3:B20", "W:WK3:B20"), (" w : w k 07 , 31 ", "W:WK7,31:B"),
        ("B:B1-3:W40", "B:W40:B1,2,3")]


def check_start(browser, page):
    """The page is small, and begins with the problem of its address."""
    assert page.stat().st_size <= LARGEST, page.stat().st_size
    begun = time.monotonic()
    open_page(browser, page, "#fen=W:W27,45:B16&n=5")
    took = time.monotonic() - begun
    assert browser.run("t.pieces()") == shown(of_fen("W:W27,45:B16")), browser.run("t.pieces()")
    assert browser.run("[t.at('#fen').value, t.at('#most').value, t.at('#state').dataset.state]") \
        == ["W:W27,45:B16", "5", "idle"]
    print(f"{browser.name}: {page.stat().st_size / 1e6:.2f} MB, usable after {took:.2f} s")


def check_random(browser, rows, count, source):
    """Random positions that are set up by clicks."""
    board, positions = Board(rows), []
    while len(positions) < count:
        cells, turn = drawn(source, board), source.choice("WB")
        positions.append((fen(cells, turn), turn))
    text = "".join(f"{text}\n" for text, _ in positions)
    ran = subprocess.run([DESK, "find", "--board", str(rows), "--most", str(MOST)], input=text, capture_output=True,
                         text=True, check=True)
    wanted = [re.split("\n", part)[1] for part in re.split(r"(?m)^problem \d+: ", ran.stdout)[1:]]
    asked = [[rows, turn, of_fen(text)] for text, turn in positions]
    said = browser.run(f"""(async () => {{
        const said = [];
        for (const [rows, turn, pieces] of {json.dumps(asked)}) {{
            t.place(rows, turn, pieces);
            said.push([t.at('#fen').value, t.pieces(), await t.solve({MOST})]);
        }}
        return said;
    }})()""")
    for (text, _), (written, pieces, line), wants in zip(positions, said, wanted, strict=True):
        assert (written, pieces, line) == (text, shown(of_fen(text)), wants), (text, written, pieces, line, wants)
    kinds = {kind: sum(line.startswith(kind) for line in wanted) for kind in ("sound", "dual", "cooked", "unsolvable")}
    print(f"{browser.name}: {rows} rows: {count} positions set up by clicks: {kinds}")


def check_rows(browser):
    """Worked rows: verdicts, tries, solutions with the positions after their moves, and as PDN."""
    for text, most, line, tries in FINDS:
        browser.run(call("place", 10, text[0], of_fen(text)))
        assert browser.run(call("solve", most)) == line, (text, most, line)
        if tries is not None:
            said = browser.run("t.all('#tries li').map((e) => "
                               "[...e.querySelectorAll('.move')].map((m) => m.textContent))")
            assert said == [list(pair) for pair in tries], (text, said)
    browser.run("navigator.clipboard.writeText = async (text) => { t.copied = text; }")
    for text, moves, movetext in SOLUTIONS:
        browser.run(call("place", 10, text[0], of_fen(text)))
        browser.run(call("solve", 20))
        said = browser.run("t.all('#solution .move').map((e) => e.dataset.move)")
        assert sorted(said) == sorted(moves), (text, said)
        browser.click("#copy")
        browser.wait("t.at('#state').textContent === 'Copied.'", 10)
        said = browser.run("t.copied")
        assert f'[FEN "{text}"]' in said and " ".join(said.split("\n\n")[1].split()) == movetext, said
        fens = browser.run("""(async () => {
            const said = [];
            for (const move of t.all('#solution .move')) {
                move.click();
                await t.until(() => t.at('#fen').value === move.dataset.fen);
                said.push([move.dataset.fen, t.pieces()]);
            }
            return said;
        })()""")
        for after, pieces in fens:
            assert pieces == shown(of_fen(after)), (after, pieces)
    browser.run(call("place", 10, "W", of_fen("W:W27,32:B18")))
    browser.run("t.at('#exact').click()")
    assert browser.run(call("solve", 3)).startswith("cooked in 3, shortest 2")
    browser.run("t.at('#exact').click()")
    browser.run(call("place", 10, "W", of_fen(LATER)))
    browser.run("t.set('#later', '1')")
    assert browser.run(call("solve", 3)) == "sound in 2: 31-27"
    assert browser.run("t.all('#later-wins li').map((e) => e.textContent)") == ["39-34 wins in 3"]
    browser.run("t.set('#later', '0')")
    browser.run(call("solve", 3))
    assert browser.run("t.at('#later-part').hidden")
    print(f"{browser.name}: {len(FINDS)} verdicts with their tries, {len(SOLUTIONS)} solutions, as worked")


def check_firsts(browser):
    """What each first move does."""
    browser.run(call("place", 10, "W", of_fen("W:W27,32:B18")))
    browser.run(call("solve", 5))
    browser.run("t.at('#ask-firsts').click()")
    browser.wait("t.all('#firsts li').length === 3", 30)
    said = browser.run("t.all('#firsts li').map((e) => [...e.querySelectorAll('.move')].map((m) => m.textContent))")
    assert said == [["27-21", "18-22", "18-23"], ["27-22", "18x38"], ["32-28"]], said
    browser.run("t.all('#firsts li .move')[2].click()")
    browser.wait("t.at('#fen').value === 'W:W21,32:B23'", 10)
    print(f"{browser.name}: what each first move does")


def check_texts(browser):
    """FEN texts to the board and back, and faults."""
    for text, fault in FAULTS:
        browser.run(call("read", text))
        place = int(fault.rsplit(" ", 1)[1])
        marked = text[place - 1:place] or "␣"
        becomes(browser, "['strong', 'mark'].map((part) => t.at(`#fault ${part}`)?.textContent)", [fault, marked])
    for text, wanted in READ:
        browser.run(call("read", text))
        pieces = json.dumps(shown(sorted(of_fen(wanted))), separators=(",", ":"))
        browser.wait(f"t.at('#fault').hidden && JSON.stringify(t.pieces()) === {json.dumps(pieces)}", 10)
        browser.run("t.leave()")
        browser.wait(f"t.at('#fen').value === {json.dumps(wanted)}", 10)
    browser.run(call("place", 10, "W", [(3, "w")]))
    browser.wait("!t.at('#fault').hidden && t.at('#fault strong').textContent === '7 last row at 4'", 10)
    print(f"{browser.name}: {len(FAULTS)} FEN texts with a fault, {len(READ)} without")


def check_paste(browser):
    """A link, a game and an address of another site are pasted into the field of the FEN text."""
    fen = "W:W27,32:B18"
    for text in (f"https://other.example/editor/{fen}:H0:F1", f"file:///board.html#fen={fen}&n=3",
                 f'[Event "x"]\n[FEN "{fen}"]\n\n1. 32-28 18-22 *'):
        browser.run(call("place", 10, "B", of_fen("B:W50:B1")))
        browser.run(f"""(() => {{
            const event = new Event('paste', {{ bubbles: true, cancelable: true }});
            Object.defineProperty(event, 'clipboardData', {{ value: {{ getData: () => {json.dumps(text)} }} }});
            t.at('#fen').dispatchEvent(event);
        }})()""")
        browser.wait(f"t.at('#fen').dataset.read === '{fen}' && t.at('#turn').value === 'W'", 10)
    assert browser.run("t.at('#movetext').value") == "1. 32-28 18-22 *"
    print(f"{browser.name}: a link, a game and another site's address, pasted")


def check_hands(browser):
    """Mouse and finger: dragging, dragging off, right clicks; undo and redo; the tools of the board."""
    browser.run(call("place", 10, "W", of_fen("W:W27,32:B18")))
    browser.click("[data-piece-choice=b]")
    browser.click('[data-square="12"]')
    browser.wait("t.at('#fen').value === 'W:W27,32:B12,18'")
    browser.click('[data-square="12"]', "right")
    browser.wait("t.at('#fen').value === 'W:W27,32:B18'")
    browser.drag(*middles(browser, 27, 21))
    browser.wait("t.at('#fen').value === 'W:W21,32:B18'")
    x, y = browser.middle('[data-square="32"]')
    browser.drag((x, y), (x, 3))
    browser.wait("t.at('#fen').value === 'W:W21:B18'")
    for _ in range(2):
        browser.click("#undo")
    browser.wait("t.at('#fen').value === 'W:W27,32:B18'")
    browser.click("#redo")
    browser.wait("t.at('#fen').value === 'W:W21,32:B18'")
    browser.click("#undo")
    browser.tap('[data-square="13"]')
    browser.wait("t.at('#fen').value === 'W:W27,32:B13,18'")
    browser.click("#undo")
    # A finger drags a piece: to a square, back to where it was, onto another piece, off the board.
    for path, wanted in (((27, 31, 22), "W:W22,32:B18"), ((22, 27, 22), "W:W22,32:B18"), ((22, 18), "W:W18,32:B")):
        browser.finger(*middles(browser, *path))
        browser.wait(f"t.at('#fen').value === '{wanted}'", 10)
    browser.click("#undo")
    browser.click("#undo")
    (x, y), = middles(browser, 32)
    browser.finger((x, y), (x // 2, y), (3, y))
    browser.wait("t.at('#fen').value === 'W:W27:B18'", 10)
    browser.click("#undo")
    browser.wait("t.at('#fen').value === 'W:W27,32:B18'", 10)
    for tool, wanted in (("mirror", "W:W19,24:B33"), ("mirror", "W:W27,32:B18"), ("exchange", "B:W33:B19,24"),
                         ("exchange", "W:W27,32:B18"), ("opening", None), ("undo", "W:W27,32:B18")):
        browser.click(f"#{tool}")
        if wanted:
            browser.wait(f"t.at('#fen').value === {json.dumps(wanted)}", 10)
    first = "t.at('#board [data-square]').dataset.square"
    assert browser.run(first) == "1"
    browser.click("#flip")
    assert browser.run(first) == "50" and browser.run("t.at('#fen').value") == "W:W27,32:B18"
    browser.click("#flip")
    browser.run("t.set('#rows', '8')")
    assert browser.run("t.all('[data-square]').length") == 32
    browser.run("t.set('#rows', '10')")
    print(f"{browser.name}: dragged, dragged off, erased, undone, mirrored, turned")


def check_keys(browser):
    """Keys alone: a position is set up, asked and gone through."""
    browser.run("t.at('#clear').click()")
    browser.run("t.at('[data-square=\"1\"]').focus()")

    def go_to(square):
        for _ in range(60):
            here = int(browser.run("document.activeElement.dataset.square"))
            if here == square:
                return
            (row, column), (below, beside) = divmod(here - 1, 5), divmod(square - 1, 5)
            browser.press("ArrowDown" if row < below else "ArrowUp" if row > below
                          else "ArrowRight" if column < beside else "ArrowLeft")
        raise AssertionError(square)
    for square, key in ((27, "w"), (32, "w"), (38, "W"), (18, "b"), (12, "B")):
        go_to(square)
        browser.press(key)
    browser.wait("t.at('#fen').value === 'W:W27,32,K38:BK12,18'", 10)
    for square in (38, 12):
        go_to(square)
        browser.press("Delete")
    browser.wait("t.at('#fen').value === 'W:W27,32:B18'", 10)
    for _ in range(60):
        browser.press("Tab")
        if browser.run("document.activeElement.id") == "solve":
            break
    browser.press("Enter")
    browser.wait("t.at('#state').dataset.state === 'done'", 30)
    assert browser.run("t.at('#verdict').dataset.line").startswith("dual in 2")
    for _ in range(60):
        browser.press("Tab")
        if browser.run("document.activeElement.closest('#solution') !== null"):
            break
    browser.press("Enter")
    browser.wait("t.at('#fen').value === 'B:W27,28:B18'", 10)
    browser.press("ArrowRight", "ArrowDown")
    browser.wait("t.at('#fen').value === 'W:W27,28:B23'", 10)
    browser.press("ArrowLeft", "ArrowLeft")
    browser.wait("t.at('#fen').value === 'W:W27,32:B18'", 10)
    print(f"{browser.name}: set up, asked and gone through by keys alone")


def check_play(browser, source):
    """Whole lines are played by clicks, and taken back; captures that share their ends are chosen."""
    played = 0
    for text in ("W:W27,32:B18", "W:WK46:B28", "W:W31-35,36-40,41-45,46-50:B1-5,6-10,11-15,16-20"):
        browser.run("t.at('#mode-setup').click()")
        browser.run(call("read", text))
        browser.run("t.leave()")
        browser.run("t.at('#mode-play').click()")
        start = browser.run("t.at('#fen').value")
        for _ in range(12):
            browser.wait("t.all('.dark.source').length || t.at('#played').textContent.includes('no move left')", 10)
            sources = browser.run("t.all('.dark.source').map((e) => e.dataset.square)")
            if not sources:
                break
            browser.run(f"t.at('[data-square=\"{source.choice(sources)}\"]').click()")
            targets = browser.run("t.all('.dark.target').map((e) => e.dataset.square)")
            before = browser.run("t.at('#fen').value")
            browser.run(f"t.at('[data-square=\"{source.choice(targets)}\"]').click()")
            if browser.run("!t.at('#choice').hidden"):
                browser.run("t.at('#choice button').click()")
            browser.wait(f"t.at('#fen').value !== {json.dumps(before)}", 10)
            played += 1
        browser.run("t.at('#play-start').click()")
        browser.wait(f"t.at('#fen').value === {json.dumps(start)}", 10)
    browser.run("t.at('#mode-setup').click()")
    browser.run(call("place", 10, "W", of_fen("W:W27,32:B18")))
    browser.run(call("solve", 5))
    browser.run("t.at('#mode-play').click()")
    for place, wanted in ((0, "18"), (1, "27,28"), (4, "27,28")):
        browser.run(f"t.all('#solution .move')[{place}].click()")
        browser.wait(f"t.all('.dark.source').map((e) => e.dataset.square).join() === {json.dumps(wanted)}"
                     if place < 4 else "t.at('#played').textContent.includes('no move left')", 10)
    browser.run("t.at('#mode-setup').click()")
    print(f"{browser.name}: {played} moves played by clicks, and on from moves of a solution")


def check_tools(browser, page):
    """The eraser, the numbers of the squares, and the settings, which are there again when the page is opened anew."""
    browser.run(call("place", 10, "W", of_fen("W:W27,32:B18")))
    browser.click('[data-piece-choice=""]')
    browser.click('[data-square="18"]')
    browser.wait("t.at('#fen').value === 'W:W27,32:B'", 10)
    number = "getComputedStyle(t.at('[data-square=\"{}\"] .number')).display"
    assert [browser.run(number.format(square)) for square in (18, 27)] == ["block", "none"], "below a piece, no number"
    browser.click("#numbers")
    assert browser.run(number.format(18)) == "none"
    browser.run("t.set('#language', 'nl')")
    open_page(browser, page)
    assert browser.run("[document.documentElement.lang, t.at('#language').value]") == ["nl", "nl"]
    browser.run("t.set('#language', 'en')")
    browser.run("if (!t.at('#numbers').checked) t.at('#numbers').click()")
    print(f"{browser.name}: an eraser, numbers, and settings that are kept")


def check_answer(browser):
    """Each move of an answer is played by a click; a solution folds, and has a certificate."""
    browser.run(call("read", "W:W27,45:B16"))
    browser.run(call("solve", 5))
    browser.click("#answer summary")
    line = "[t.at('#answer details').open, t.at('#about').textContent === t.at('#verdict').dataset.line]"
    assert browser.run(line) == [True, True], "the program's own line"
    browser.click("#answer summary")
    for place, wanted in ((0, "B:W21,45:B16"), (1, "W:W45:B27")):
        browser.click(f"#tries li .move:nth-of-type({place + 1})")
        browser.wait(f"t.at('#fen').value === {json.dumps(wanted)}", 10)
    browser.click("#look-back")
    browser.wait("t.at('#fen').value === 'W:W27,45:B16'", 10)
    browser.click("#certificate")
    browser.wait("t.at('#state').textContent === 'Written: certificate.txt'", 30)
    text = browser.saved("certificate.txt").read_bytes()
    ran = subprocess.run([CERTIFICATE], input=text, capture_output=True, check=False)
    assert (ran.returncode, ran.stdout) == (0, b"right\n"), (ran.stdout, text[:200])
    browser.run(call("read", MANY_LINES))
    browser.run(call("solve", 8))
    folds, moves = browser.run("[t.all('#solution .fold').length, t.all('#solution .move').length]")
    browser.click("#solution .fold")
    browser.wait(f"t.all('#solution .move').length > {moves}", 10)
    print(f"{browser.name}: tries are played, a certificate is right, {folds} variations are folded")


def check_choice(browser):
    """Two captures that begin and end alike are offered by name."""
    browser.run(call("read", "W:WK4:B13,33,40,43"))
    browser.click("#mode-play")
    browser.wait("t.at('[data-square=\"4\"]').matches('.source')", 10)
    browser.click('[data-square="4"]')
    browser.click('[data-square="35"]')
    browser.wait("!t.at('#choice').hidden", 10)
    assert len(browser.run("t.all('#choice button').map((e) => e.textContent)")) == 2
    browser.click("#choice button:last-of-type")
    browser.wait("t.at('#fen').value === 'B:WK35:B33'", 10)
    browser.click("#mode-setup")
    print(f"{browser.name}: one of two captures with the same ends is chosen")


def drop_two(browser):
    """Drops a file on the empty list: one problem, and one that is refused."""
    browser.run("""(() => {
        const dataTransfer = new DataTransfer();
        dataTransfer.items.add(new File(['W:W27,45:B16\\nW:W3:B20\\n'], 'two.fen'));
        t.at('#drop').dispatchEvent(new DragEvent('drop', { dataTransfer, bubbles: true, cancelable: true }));
    })()""")
    browser.wait("t.at('#list').dataset.count === '2'", 20)


def check_files(browser, folder):
    """An author's solution is opened, a file of problems is dropped, and a browser may keep nothing."""
    browser.run(call("read", "W:W27,32:B18"))
    browser.click("#tab-compare")
    file = folder / "solution.pdn"
    file.write_text('[FEN "W:W27,32:B18"]\n1. 32-28 18-22 2. 27x18 2-0\n')
    browser.upload("#movetext-file", file)
    browser.wait("t.at('#movetext').value.includes('32-28')", 10)
    browser.click("#compare")
    browser.wait("t.all('#remarks .remark').length === 2", 30)
    browser.click("#tab-collection")
    browser.run("t.empty()")
    drop_two(browser)
    browser.run("Storage.prototype.setItem = () => { throw new Error('not allowed'); }")
    browser.run("t.empty()")
    browser.wait("t.at('#list').dataset.count === '0'", 10)
    becomes(browser, "t.at('#kept').textContent", NOT_KEPT)
    browser.click("#tab-solve")
    print(f"{browser.name}: files are opened and dropped; what cannot be kept is told")


def printed(browser, folder):
    """The text of the page as it would be printed."""
    said = browser.ask("Page.printToPDF", browser.session, preferCSSPageSize=True)
    (folder / "printed.pdf").write_bytes(base64.b64decode(said["data"]))
    return subprocess.run(["pdftotext", "-layout", folder / "printed.pdf", "-"], capture_output=True, text=True,
                          check=True).stdout


def check_looks(browser, folder):
    """Light and dark differ; a problem with its answer is printed on one sheet, also after a move of the solution. A
    list is printed without the board."""
    if browser.name != "chromium":
        return
    colours = []
    for scheme in ("light", "dark"):
        browser.colours(scheme)
        colours.append(browser.run("getComputedStyle(document.documentElement).backgroundColor"))
    assert len(set(colours)) == 2, colours
    browser.colours("light")
    browser.run(call("read", "W:W27,45:B16"))
    browser.run(call("solve", 5))
    browser.run("t.all('#solution .move')[0].click()")
    browser.wait("t.at('#fen').value !== 'W:W27,45:B16'")
    text = printed(browser, folder)
    assert "White to play and win in 2" in text and "W:W27,45:B16" in text and text.count("\f") == 1, text
    browser.click("#tab-collection")
    browser.run("t.empty()")
    drop_two(browser)
    text = printed(browser, folder)
    assert "White to play" in text and "Refused" in text and "W:W27,45:B16" not in text, text
    browser.run("t.empty()")
    browser.click("#tab-solve")
    print(f"{browser.name}: light and dark, and two sheets that are printed")


def check_stop(browser):
    """A long search shows how far it is, is stopped at once, and says what is known; the page never waits."""
    browser.run(call("read", LONG))
    longest = browser.run("""(async () => {
        t.listen();
        t.set('#most', '20');
        t.at('#solve').click();
        await t.until(() => /\\d/.test(t.at('#state').textContent) && t.at('#state').dataset.state === 'searching');
        await new Promise((resolve) => setTimeout(resolve, 3000));
        return t.heard();
    })()""")
    said = browser.run("t.at('#state').textContent")
    begun = time.monotonic()
    browser.click("#stop")
    browser.wait("t.at('#state').dataset.state === 'stopped'", 10)
    took = time.monotonic() - begun
    told = browser.run("t.at('#state').textContent")
    assert browser.run("!t.at('#solve').disabled && t.at('#stop').disabled")
    browser.run(call("read", "W:W27,45:B16"))
    assert browser.run(call("solve", 5)) == "sound in 2: 45-40"
    print(f"{browser.name}: '{said}', '{told}', stopped within {took:.2f} s; longest pause {longest:.0f} ms")


def check_compare(browser):
    browser.run("t.at('#tab-compare').click()")
    for text, movetext, lines, last in CHECKS:
        browser.run(call("read", text))
        browser.run(f"t.set('#movetext', {json.dumps(movetext)})")
        browser.run("t.at('#compare').click()")
        becomes(browser, "[t.all('#remarks .remark').map(({ dataset: of }) => [of.kind, of.line, of.moves]), "
                "t.at('#compared').dataset.line]", [lines, last])
    browser.run("t.set('#movetext', '[FEN \"W:W27,32:B18\"]\\n1. 32-28 18-22 2. 27x18 2-0')")
    browser.run("t.at('#compare').click()")
    browser.wait("t.all('#remarks .remark').length === 2", 30)
    browser.run("t.all('#remarks .remark')[1].click()")
    browser.wait("t.at('#fen').value === 'W:W27,28:B22'", 10)
    assert browser.run("t.at('#compared-first').hidden")
    games = '[FEN "W:W27:B16"] 1. 27-22 * [FEN "W:W27,32:B18"] 1. 32-28 *'
    browser.run(f"t.set('#movetext', {json.dumps(games)})")
    browser.run("t.at('#compare').click()")
    becomes(browser, "[t.at('#compared').dataset.line, t.at('#compared-first').hidden, "
            "t.at('#compared-first').textContent.slice(0, 43)]",
            ["fails in 1: 1 fail, 0 end, 0 open, 0 also", False, "Only the first of 2 games was compared. For"])
    browser.run(call("read", "W:W27,32:B11"))
    browser.run("t.set('#movetext', '1. 27-21 11-17')")
    browser.run("t.set('#compare-most', '6')")
    browser.run("t.at('#compare').click()")
    becomes(browser, "t.at('#compared').dataset.line", "fails in 2: 0 fail, 1 end, 1 open, 0 also")
    browser.run("t.set('#compare-most', '')")
    becomes(browser, "t.at('#compared').dataset.line", "")
    browser.run("t.at('#tab-solve').click()")
    print(f"{browser.name}: {len(CHECKS) + 3} printed solutions compared")


def check_mend(browser):
    browser.run("t.at('#tab-improve').click()")
    browser.run(call("read", "W:W27,32:B18"))
    browser.run("t.set('#mend-n', '2')")
    browser.run("t.at('#mend-go').click()")
    browser.wait("t.at('#mend').dataset.state === 'done'", 60)
    said = browser.run("t.all('#mend .card').map((e) => [e.dataset.change, e.dataset.fen])")
    ran = subprocess.run([DESK, "mend", "-n", "2"], input="W:W27,32:B18\n", capture_output=True, text=True, check=True)
    wanted = re.findall(r"^(.*?): ([WB]:\S+), sound in 2: ", ran.stdout, re.MULTILINE)
    assert [tuple(pair) for pair in said] == wanted, (said, wanted)
    browser.run("t.at('#mend .card').click()")
    browser.wait(f"t.at('#fen').value === {json.dumps(wanted[0][1])}", 10)
    browser.run(call("read", LONG))
    browser.run("t.set('#mend-n', '12')")
    browser.run("t.at('#mend-go').click()")
    browser.wait("!t.at('#mend-stop').disabled", 10)
    browser.run("t.at('#mend-stop').click()")
    browser.wait("t.at('#mend').dataset.state === 'stopped' && !t.at('#mend-go').disabled", 10)
    browser.run("t.at('#tab-solve').click()")
    print(f"{browser.name}: {len(said)} sound neighbours, as dw-desk mend has them")


def check_collection(browser, folder, page):
    """A file of problems, judged, filtered, saved; hostile files; a thousand problems."""
    browser.run("t.empty()")
    file = folder / "games.pdn"
    file.write_bytes(b'[Event "<b>x</b><script>alert(1)</script>"] [White "A. Composer"] [FEN "W:W27,32:B18"]\n'
                     b'1. 32-28 *\n\n'
                     b'[FEN "W:W3:B20"] *\n\n[Event "G\xe9rard"] [FEN "W:W27,45:B16"] *\n')
    browser.upload("#file", file)
    browser.wait("t.all('#list .card').length === 3", 20)
    texts = browser.run("t.all('#list .card').map((e) => e.textContent)")
    assert "1. <b>x</b><script>alert(1)</script>, A. Composer" in texts[0] and "7 last row at 4" in texts[1], texts
    assert "Gérard" in texts[2], texts
    browser.run("t.at('#judge-all').click()")
    browser.wait("t.at('#list').dataset.state === 'done' && !t.at('#judge-all').disabled", 30)
    assert browser.run("t.all('#list .card').map((e) => e.dataset.state)") == ["dual", "refused", "sound"]
    browser.run("t.set('#sort', 'verdict')")
    browser.wait("t.all('#list .card').map((e) => e.dataset.state).join() === 'sound,dual,refused'", 10)
    browser.run("t.set('#sort', 'number'); t.set('#filter', 'sound')")
    browser.wait("t.all('#list .card').length === 1", 10)
    browser.run("t.at('#list .card').click()")
    browser.wait("t.at('#fen').value === 'W:W27,45:B16'", 10)
    browser.run("t.set('#filter', '')")
    browser.wait("t.all('#list .card').length === 3", 10)
    browser.run("t.at('#list .card').click()")
    browser.wait("t.at('#fen').value === 'W:W27,32:B18' && !t.at('#compare-own').hidden", 10)
    browser.run("t.at('#compare-own').click()")
    browser.wait("t.at('#compared').dataset.line === 'fails in 1: 1 fail, 0 end, 0 open, 0 also'", 20)
    browser.run("t.all('#list .card')[2].click()")
    browser.run("t.set('#add-title', 'Mine'); t.set('#add-author', 'Me'); t.at('#add-go').click()")
    browser.wait("t.all('#list .card').length === 4", 10)
    for name, button in (("problems.pdn", "save-pdn"), ("problems.html", "save-page"), ("problems.json", "save-json")):
        browser.run(f"t.at('#{button}').click()")
        browser.wait(f"t.at('#list').dataset.saved === '{name}'", 60)
    if browser.name == "chromium":
        for name in ("problems.pdn", "problems.html", "problems.json"):
            saved = browser.downloads / name
            for _ in range(100):
                if saved.exists() and saved.stat().st_size:
                    break
                time.sleep(0.05)
            text = saved.read_text()
            assert "W:W27,45:B16" in text, (name, text[:200])
            assert "<script>alert(1)" not in text or not name.endswith("html"), name
        pdn = (browser.downloads / "problems.pdn").read_text()
        assert '[Event "Mine"]' in pdn and "{sound in 2} 1. 45-40" in pdn and "\n\n1. 32-28 *\n" in pdn, pdn
    browser.run("t.at('#forget').click()")
    browser.wait("t.at('#list').dataset.count === '0'", 10)
    browser.run("t.at('#bring-back').click()")
    browser.wait("t.at('#list').dataset.count === '4'", 10)
    open_page(browser, page)
    browser.wait("t.at('#list').dataset.count === '4'", 10)
    browser.run("t.empty()")
    source, board = random.Random(3), Board(10)
    many = folder / "many.fen"
    many.write_text("".join(f"{fen(drawn(source, board), 'W')}\n" for _ in range(1000)))
    browser.run("t.listen()")
    begun = time.monotonic()
    browser.upload("#file", many)
    browser.wait("t.at('#list').dataset.count === '1000' && t.all('#list .card').length >= 200 && "
                 "t.at('#list').dataset.state === 'done'", 60)
    took, longest = time.monotonic() - begun, browser.run("t.heard()")
    browser.run("t.empty()")
    print(f"{browser.name}: files of problems, saved and opened again; 1,000 problems after {took:.1f} s, longest "
          f"pause {longest:.0f} ms")


def check_hostile(browser, folder):
    """Hostile files change nothing but the list."""
    markup = "<img src=x onerror=alert(1)>\"'><script>document.title='x'</script>&lt;"
    tags = "".join(f'[{name} "{text}"]\n' for name in ("Event", "White", "Date", "Site", "constructor", "__proto__")
                   for text in (markup.replace('"', '\\"'),))
    game = '[Event "E"] [White "W"] [FEN "W:W27,32:B18"]\n1. 32-28 18-22 2. 27x18 2-0\n\n'
    files = [
        ("markup.pdn", (tags + '[FEN "W:W27,45:B16"]\n{' + markup + "} *\n" + f'[FEN "{markup[:20]}"] *\n').encode()),
        ("brackets.pdn", b"[" * 1_000_000), ("braces.pdn", b'[FEN "W:W27:B18"]' + b"{(" * 500_000),
        ("bytes.fen", b"".join(random.Random(1).randbytes(40) + b"\n" for _ in range(300))),
        ("line.fen", b"W:W" + b"1," * 1_000_000), ("large.pdn", (game * 200_000).encode()[:9_999_999]),
        ("too_large.pdn", b"\n" * 10_000_001),
    ]
    browser.run("t.at('#tab-solve').click()")
    browser.run(call("read", "W:W27,45:B16"))
    browser.run(call("solve", 5))
    state = """JSON.stringify([t.at('#fen').value, t.pieces(), t.at('#verdict').textContent, location.href,
        document.title, t.all('#solution .move').map((e) => e.textContent), t.at('#movetext').value,
        t.all('script').length,
        t.all('img, iframe, object, embed, link, form, [onerror], [onload]').length, Object.keys(Object.prototype)])"""
    before, longest = browser.run(state), {}
    for name, content in files:
        file = folder / name
        file.write_bytes(content)
        browser.run("t.listen()")
        browser.upload("#file", file)
        if name == "too_large.pdn":
            browser.wait("t.at('#list-state').textContent === 'The file has more than 10 MB.'", 60)
        else:
            browser.wait("t.at('#list').dataset.state === 'done' && Number(t.at('#list').dataset.count) > 0", 120)
        longest[name] = round(browser.run("t.heard()"))
        assert browser.run(state) == before, (name, before, browser.run(state))
        if name == "markup.pdn":
            shown_text = browser.run("t.at('#list .card-title').textContent")
            assert shown_text.startswith(f"1. {markup}, {markup}"), shown_text
            browser.run("t.at('#save-page').click()")
            browser.wait("t.at('#list').dataset.saved === 'problems.html' && !t.at('#judge-all').disabled", 60)
            assert browser.run(state) == before, name
        browser.run("t.empty()")
        browser.wait("t.at('#list').dataset.count === '0'", 10)
    browser.run("t.at('#tab-solve').click()")
    print(f"{browser.name}: {len(files)} hostile files change nothing but the list; longest pauses {longest} ms")


def check_languages(browser):
    browser.run("t.at('#tab-solve').click()")
    browser.run(call("read", "W:W27,45:B16"))
    browser.run(call("solve", 5))
    sentences = set()
    for language, word in (("nl", "Los op"), ("fr", "Résoudre"), ("ru", "Решить"), ("en", "Solve")):
        browser.run(f"t.set('#language', '{language}')")
        assert browser.run("[document.documentElement.lang, t.at('#solve').textContent]") == [language, word]
        sentences.add(browser.run("t.at('#verdict').textContent"))
        for width in (PHONE, 800):
            browser.resize(width, 740, width == PHONE)
            for tab in ("compare", "improve", "collection", "solve"):
                browser.run(f"t.at('#tab-{tab}').click()")
                wide = browser.run("[document.documentElement.scrollWidth, innerWidth]")
                assert wide[0] <= wide[1], (language, width, tab, wide)
        unnamed = browser.run("""t.all('button, input, select, textarea').filter((e) =>
            !(e.textContent.trim() || e.getAttribute('aria-label') || e.labels?.length)).map((e) => e.outerHTML)""")
        assert not unnamed, (language, unnamed)
    browser.resize(1200, 900)
    assert len(sentences) == 4, sentences
    print(f"{browser.name}: four languages, from {PHONE} pixels of width on; every control has a name")


def check_share(browser, page):
    """A link shares a position; a second tab answers too."""
    browser.run(call("read", "B:W43:B24,29"))
    browser.run("t.set('#most', '4')")
    browser.wait("location.hash === '#fen=B:W43:B24,29&n=4'", 10)
    address = browser.run("location.hash")
    browser.tab()
    open_page(browser, page, address)
    assert browser.run("[t.at('#fen').value, t.at('#turn').value, t.at('#most').value]") == ["B:W43:B24,29", "B", "4"]
    assert browser.run(call("solve", 4)) == "sound in 2: 29-33"
    open_page(browser, page, "#fen=W:W3:B20&n=2")
    browser.wait("!t.at('#fault').hidden && t.at('#fault strong').textContent === '7 last row at 4'", 10)
    print(f"{browser.name}: an address shares a position with a second tab")


def take_shot(browser, page, file):
    """The picture of the README: a problem that is solved."""
    open_page(browser, page, "#fen=W:W27,32:B18&n=8")
    browser.run(call("solve", 8))
    browser.run("t.all('#solution .move')[1].click()")
    browser.wait("t.at('#fen').value === 'W:W27,28:B22'", 10)
    browser.resize(1100, 860)
    browser.wait("document.getAnimations().length === 0", 10)
    browser.picture(file)
    assert file.stat().st_size < SMALL, file.stat().st_size


def main():
    words = argparse.ArgumentParser()
    words.add_argument("--page", help="a page that is there; without it one is made")
    words.add_argument("--browser", choices=("chromium", "firefox"))
    words.add_argument("--count", type=int, default=100)
    words.add_argument("--shot", type=pathlib.Path, help="the file for the picture of the README")
    given = words.parse_args()
    with tempfile.TemporaryDirectory() as name:
        folder = pathlib.Path(name)
        page = made_page(given.page, folder)
        for kind in browsers_asked(given.browser):
            source = random.Random(SEED)
            with kind() as browser:
                check_start(browser, page)
                for rows in (10, 8):
                    check_random(browser, rows, given.count if kind is browsers.Chromium else given.count // 4, source)
                check_rows(browser)
                check_firsts(browser)
                check_texts(browser)
                check_paste(browser)
                check_hands(browser)
                check_keys(browser)
                check_play(browser, source)
                check_choice(browser)
                check_tools(browser, page)
                check_answer(browser)
                check_stop(browser)
                check_compare(browser)
                check_mend(browser)
                check_collection(browser, folder, page)
                check_hostile(browser, folder)
                check_languages(browser)
                check_looks(browser, folder)
                check_share(browser, page)
                check_files(browser, folder)
                if kind is browsers.Chromium:
                    take_shot(browser, page, given.shot or folder / "board.png")
                assert not browser.fetched(), browser.fetched()
                assert not browser.errors, browser.errors
                print(f"{browser.name}: nothing fetched, no error on the console", flush=True)


if __name__ == "__main__":
    main()
