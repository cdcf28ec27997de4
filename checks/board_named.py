#!/usr/bin/env python3
"""board_named.py: the ways in which board.html has once been wrong, or has lost something, for board_truth.py.

Each way begins with the page as a new reader finds it, and fails if the page is wrong again.
"""
import json
import pathlib
import re
import time

from board_page import PHONE, becomes, call, middles, open_page

LONG = "W:W26,28,32,33,34,37,38,39,40,43,48:B8,9,12,13,14,16,18,19,20,24,25"
# Its verdict in 11 moves is known soon, and then each first move and the certificate take long.
START, SHORT = "W:W27,32:B18", "W:W27,32,38:B18"
STATE = "[t.at('#state').dataset.state, t.at('#state').textContent]"
GAMES = """[Event "One"]
[White "A. Composer"]
[Result "*"]
[FEN "W:W27,32:B18"]

{from a contest} 1. 32-28 18-22 {the end} 2. 27x18 2-0

[Event "Two"]
[Result "0-2"]
[FEN "W:W27,45:B16"]

{no moves yet} *

[Event "Three"] [FEN "W:W3:B20"]
{refused} 1. 3-1 *
"""
MANY = 270


def begin(browser, page, address="#fen=W:W27,32:B18&n=5"):
    browser.resize(1200, 900)
    open_page(browser, page)
    browser.run("localStorage.clear()")
    open_page(browser, page, address)


def read(browser, fen):
    browser.run(call("read", fen))


def card_of(browser, fen):
    """A card of the list with this problem."""
    browser.run(call("read", fen))
    browser.run("t.at('#add-go').click()")
    browser.wait("Number(t.at('#list').dataset.count) > 0 && t.all('#list .card').length > 0")


def way_stale_search(browser, page, _):
    """What was found of one position does not stand beside another, whatever changes it, during a search and after."""
    begin(browser, page)
    card_of(browser, START)
    changes = {
        "a text": lambda: read(browser, SHORT), "a square": lambda: browser.run("t.at('[data-square=\"50\"]').click()"),
        "clear": lambda: browser.run("t.at('#clear').click()"), "a card": lambda: browser.run("t.at('.card').click()"),
        "mirror": lambda: browser.run("t.at('#mirror').click()"), "undo": lambda: browser.run("t.at('#undo').click()"),
        "a link": lambda: browser.run(f"location.hash = '#fen={SHORT}&n=20'"),
    }
    for name, change in changes.items():
        for is_stopped in (False, True):
            read(browser, START)
            read(browser, LONG)
            browser.run("t.set('#most', '20'); t.at('#solve').click()")
            browser.wait("/no win in 1\\d/.test(t.at('#state').textContent)", 120)
            if is_stopped:
                browser.run("t.at('#stop').click()")
                browser.wait("t.at('#state').dataset.state === 'stopped'", 10)
            change()
            browser.wait(f"t.at('#fen').value !== {json.dumps(LONG)}", 10)
            time.sleep(0.3)
            said = browser.run(STATE)
            assert "no win" not in said[1] and said[0] == "idle", (name, is_stopped, said)
    read(browser, LONG)
    said = browser.run(STATE)
    assert said[0] == "stopped" and "no win in 1" in said[1], said


def way_stale_mend(browser, page, _):
    """Improvements name the position that they belong to, and so does a verdict while moves are played."""
    begin(browser, page)
    browser.run(call("solve", 5))
    browser.run("t.at('#tab-improve').click(); t.set('#mend-n', '2'); t.at('#mend-go').click()")
    browser.wait("t.at('#mend').dataset.state === 'done'", 60)
    browser.run("t.at('#mend .card').click()")
    browser.wait("t.at('#fen').value === 'W:W32:B18'", 10)
    assert browser.run("[t.at('#mend-of').dataset.fen, t.at('#mend-of').className.includes('elsewhere'), "
                       "t.at('#mend-of').textContent.includes('W:W27,32:B18')]") == [START, True, True]
    browser.run("t.at('#undo').click(); t.at('#tab-solve').click(); t.at('#mode-play').click()")
    browser.wait("t.at('[data-square=\"32\"]').matches('.source')", 10)
    browser.run("t.at('[data-square=\"32\"]').click(); t.at('[data-square=\"28\"]').click()")
    browser.wait("t.at('#fen').value === 'B:W27,28:B18'", 10)
    assert browser.run("[t.at('#answer-of').dataset.fen, t.at('#answer-of').className.includes('elsewhere')]") \
        == [START, True]


def way_stop_all(browser, page, _):
    """Stop ends all that is searched: no certificate is written after it."""
    begin(browser, page, f"#fen={LONG}&n=10")
    assert browser.run(call("solve", 10)) == "unsolvable in 10"
    browser.run("t.at('#certificate').click(); t.at('#ask-firsts').click()")
    browser.wait("t.at('#state').dataset.state === 'searching'", 10)
    browser.run("t.at('#stop').click()")
    browser.wait("t.at('#state').dataset.state !== 'searching'", 10)
    for _ in range(50):
        time.sleep(0.2)
        said = browser.run(STATE)
        assert said[0] != "searching" and "certificate" not in said[1], said


def way_reload(browser, page, folder):
    """A reload while all problems are judged loses no verdict."""
    begin(browser, page)
    file = folder / "many.fen"
    file.write_text("".join(f"W:W{27 + i % 9},{38 + i % 11}:B{6 + i % 13},{19 + i % 3}\n" for i in range(MANY)) + LONG)
    browser.upload("#file", file)
    browser.wait(f"t.at('#list').dataset.count === '{MANY + 1}' && t.at('#list').dataset.state === 'done'", 30)
    browser.run("t.set('#judge-most', '6'); t.at('#judge-all').click()")
    judged = "Number(/, (\\d+) judged/.exec(t.at('#list-state').textContent)?.[1] ?? 0)"
    browser.wait(f"{judged} > 20", 60)
    before = browser.run(judged)
    open_page(browser, page)
    browser.wait(f"t.at('#list').dataset.count === '{MANY + 1}'", 30)
    after = browser.run(judged)
    assert after >= before, (before, after)
    assert browser.run("t.at('#judge-most').value") == "6"


def way_windows(browser, page, _):
    """Two windows share one list."""
    begin(browser, page)
    first = browser.tab_now()
    card_of(browser, START)
    browser.tab()
    open_page(browser, page)
    becomes(browser, "t.at('#list').dataset.count", "1")
    second = browser.tab_now()
    card_of(browser, SHORT)
    browser.show_tab(first)
    becomes(browser, "t.at('#list').dataset.count", "2")
    browser.run("t.at('#judge-all').click()")
    browser.wait("!t.at('#judge-all').disabled && t.at('#list').dataset.state === 'done'", 30)
    browser.show_tab(second)
    becomes(browser, "t.all('#list .card').map((e) => e.dataset.state)", ["dual", "cooked"])
    browser.show_tab(first)
    open_page(browser, page)
    becomes(browser, "t.at('#list').dataset.count", "2")


def saved(browser, button, name):
    for file in browser.downloads.glob("problems*"):
        file.unlink()
    browser.run(f"delete t.at('#list').dataset.saved; t.at('#{button}').click()")
    browser.wait(f"t.at('#list').dataset.saved === '{name}'", 60)
    return browser.saved(name).read_text()


def games_of(text):
    return [" ".join(game.split()) for game in re.split(r"(?m)^(?=\[Event)", text) if game.strip()]


def way_saved(browser, page, folder):
    """A file that is saved has the comments, the author's moves and a result that agrees; it is read as the same."""
    begin(browser, page)
    file = folder / "games.pdn"
    file.write_text(GAMES)
    browser.upload("#file", file)
    browser.wait("t.all('#list .card').length === 3", 20)
    text = saved(browser, "save-pdn", "problems.pdn")
    one, two, three = games_of(text)
    assert '[Result "2-0"]' in one and "{from a contest} 1. 32-28 18-22 {the end} 2. 27x18 2-0" in one, one
    assert '[Result "2-0"]' in two and "{no moves yet}" in two and two.endswith("16-21 2. 27x16 2-0"), two
    assert '[Event "Three"]' in three and "{refused} 1. 3-1 *" in three, three
    rows = [json.loads(line) for line in saved(browser, "save-json", "problems.json").splitlines()]
    assert (rows[0]["title"], rows[0]["author"], rows[0]["verdict"]) == ("One", "A. Composer", "dual"), rows[0]
    again = folder / "again.pdn"
    again.write_text(text)
    browser.run("t.at('#forget').click()")
    browser.wait("t.at('#list').dataset.count === '0'", 10)
    browser.upload("#file", again)
    browser.wait("t.all('#list .card').length === 3", 20)
    assert games_of(saved(browser, "save-pdn", "problems.pdn")) == [one, two, three]
    # The author's solution is there after a reload too.
    open_page(browser, page)
    browser.wait("t.all('#list .card').length === 3", 20)
    browser.run("t.at('#list .card').click()")
    browser.wait("!t.at('#compare-own').hidden", 10)
    browser.run("t.at('#compare-own').click()")
    browser.wait("t.at('#compared').dataset.line === 'holds in 2: 0 fail, 0 end, 1 open, 1 also'", 20)


def way_emptied(browser, page, _):
    """A list that was emptied comes back, also after another problem was added and the page opened anew."""
    begin(browser, page)
    card_of(browser, START)
    browser.run("t.at('#forget').click()")
    browser.wait("t.at('#list').dataset.count === '0'", 10)
    buttons = ["judge-all", "save-pdn", "save-page", "save-json", "forget"]
    assert browser.run(f"{json.dumps(buttons)}.every((id) => t.at(`#${{id}}`).disabled)")
    card_of(browser, SHORT)
    time.sleep(0.3)
    open_page(browser, page)
    browser.wait("t.at('#list').dataset.count === '1' && !t.at('#bring-back').hidden", 10)
    browser.run("t.at('#bring-back').click()")
    becomes(browser, "t.all('#list .card').map((e) => e.dataset.fen)", [START, SHORT])


def way_full(browser, page, folder):
    """A browser whose store is full is told of plainly, and keeps what it can; 5,000 problems are kept."""
    begin(browser, page)
    file = folder / "five.fen"
    file.write_text("".join(f"W:W{27 + i % 9},{38 + i % 11}:B{6 + i % 13},{19 + i % 3}\n" for i in range(5000)))
    browser.upload("#file", file)
    kept = "t.at('#kept').textContent"
    becomes(browser, f"[t.at('#list').dataset.count, {kept}]", ["5000", "The list is kept in this browser."], 60)
    open_page(browser, page)
    becomes(browser, "t.at('#list').dataset.count", "5000", 30)
    begin(browser, page)
    browser.run("""(() => {
        const put = Storage.prototype.setItem;
        let left = 3;
        Storage.prototype.setItem = function (name, value) {
            if (/problem/.test(name) && left-- <= 0) throw new Error('full');
            put.call(this, name, value);
        };
    })()""")
    few = folder / "few.fen"
    few.write_text(f"{START}\n" * 5)
    browser.upload("#file", few)
    becomes(browser, kept, "The store of this browser is full: 3 of 5 problems are kept. Save the list as a file.")


def way_replay(browser, page, _):
    """A later position of a solution cannot be changed by a touch, and Undo brings the answer back."""
    begin(browser, page)
    browser.run(call("solve", 5))
    browser.run("t.all('#solution .move')[0].click()")
    browser.wait("t.at('#fen').value === 'B:W27,28:B18'", 10)
    browser.click('[data-square="40"]')
    browser.click('[data-square="28"]', "right")
    browser.drag(*middles(browser, 27, 21))
    browser.run("t.at('[data-square=\"12\"]').focus()")
    browser.press("w", "Delete")
    assert browser.run("[t.at('#fen').value, t.at('#answer').hidden]") == ["B:W27,28:B18", False]
    browser.run("t.at('#look-back').click()")
    browser.wait("t.at('#fen').value === 'W:W27,32:B18'", 10)
    browser.click('[data-square="40"]')
    browser.wait("t.at('#fen').value === 'W:W27,32,40:B18' && t.at('#answer').hidden", 10)
    browser.click("#undo")
    browser.wait("t.at('#fen').value === 'W:W27,32:B18' && !t.at('#answer').hidden", 10)
    assert browser.run("t.at('#verdict').dataset.line").startswith("dual in 2")


def way_swipe(browser, page, _):
    """On a phone a swipe that begins on a piece changes nothing; a finger that rests on it drags it."""
    begin(browser, page)
    browser.resize(PHONE, 740, True)
    (x, y), = middles(browser, 32)
    for place in ((x, y - 150), (x, y + 200), (3, y)):
        browser.finger((x, y), ((x + place[0]) // 2, (y + place[1]) // 2), place, rests=0.02)
        time.sleep(0.4)
        assert browser.run("t.at('#fen').value") == START, browser.run("t.at('#fen').value")
        (x, y), = middles(browser, 32)
    browser.finger(*middles(browser, 32, 37, 38))
    browser.wait("t.at('#fen').value === 'W:W27,38:B18'", 10)
    browser.resize(1200, 900)


def way_refused(browser, page, _):
    """A refused position is no lost game: its square is marked, and the reason stands within the window."""
    begin(browser, page, "#fen=W:WK3:B20&n=5")
    browser.resize(1366, 650)
    browser.run("t.at('[data-piece-choice=\"w\"]').click(); t.at('[data-square=\"3\"]').click()")
    browser.wait("t.at('#fen').value === 'W:W3:B20' && !t.at('#fault').hidden", 10)
    assert browser.run("t.at('[data-square=\"3\"]').matches('.faulty')")
    box = browser.run("(() => { scrollTo(0, 0); const b = t.at('#board-fault').getBoundingClientRect();"
                      " return [b.top, b.bottom, innerHeight]; })()")
    assert 0 <= box[0] < box[1] <= box[2], box
    browser.run("t.at('#mode-play').click()")
    time.sleep(0.5)
    assert "no move left" not in browser.run("t.at('#played').textContent")
    browser.resize(1200, 900)


def way_play(browser, page, _):
    """Moves that are played are taken back by the keys of Undo, and are there again after a look at the setting up."""
    begin(browser, page)
    browser.run("t.at('#mode-play').click()")
    browser.wait("t.at('[data-square=\"32\"]').matches('.source')", 10)
    assert browser.run("t.at('#looked').hidden"), "a later position before any move"
    for start, end, fen in ((32, 28, "B:W27,28:B18"), (18, 22, "W:W27,28:B22")):
        browser.wait(f"t.at('[data-square=\"{start}\"]').matches('.source')", 10)
        browser.run(f"t.at('[data-square=\"{start}\"]').click(); t.at('[data-square=\"{end}\"]').click()")
        browser.wait(f"t.at('#fen').value === '{fen}'", 10)
    undo = "document.body.dispatchEvent(new KeyboardEvent('keydown', {key: '%s', ctrlKey: true, bubbles: true}))"
    browser.run(undo % "z")
    browser.wait("t.at('#fen').value === 'B:W27,28:B18'", 10)
    assert browser.run("t.at('#played').textContent") == "1. 32-28"
    browser.run(undo % "y")
    browser.wait("t.at('#fen').value === 'W:W27,28:B22'", 10)
    browser.run("t.at('#mode-setup').click(); t.at('#look-back').click()")
    browser.wait("t.at('#fen').value === 'W:W27,32:B18'", 10)
    browser.run("t.at('#mode-play').click()")
    browser.wait("t.at('#fen').value === 'W:W27,28:B22'", 10)
    assert browser.run("t.at('#played').textContent") == "1. 32-28 18-22"


def way_skip(browser, page, _):
    """The link to the board leaves the address, so that the link that is copied has the position."""
    begin(browser, page)
    browser.run("t.at('.skip').click()")
    time.sleep(0.2)
    assert browser.run("location.hash") == "#fen=W:W27,32:B18&n=5"
    assert browser.run("document.activeElement.dataset.square")
    for wrong in ("-3", "99", "2.5", "0", ""):
        begin(browser, page, f"#fen=W:W27,32:B18&n={wrong}")
        assert browser.run("[location.hash, t.at('#most').value]") == ["#fen=W:W27,32:B18&n=8", "8"], wrong


def way_numbers(browser, page, _):
    """A field for a number of moves takes 1 to 20 alone, says so, and belongs to its problem."""
    begin(browser, page)
    card_of(browser, START)
    for field, button in (("#judge-most", "#judge-all"), ("#most", "#solve"), ("#mend-n", "#mend-go")):
        for wrong in ("", "0", "-3", "99", "2.5"):
            browser.run(f"t.set({json.dumps(field)}, {json.dumps(wrong)}); t.at({json.dumps(button)}).click()")
            time.sleep(0.1)
            assert browser.run(f"t.at('{field}-fault').textContent") == "A whole number from 1 to 20.", (field, wrong)
            assert browser.run("location.hash").endswith(("&n=5", "&n=8")), browser.run("location.hash")
        assert "usage" not in browser.run("document.body.innerText").lower()
        assert browser.run("[t.at('#state').dataset.state, t.at('#mend').dataset.state ?? '', "
                           "t.all('#list .card').map((e) => e.dataset.state).join()]") == ["idle", "", "open"]
    browser.run("t.set('#mend-n', '3')")
    read(browser, SHORT)
    assert browser.run("t.at('#mend-n').value") == ""
    browser.run(call("solve", 5))
    becomes(browser, "t.at('#mend-n').value", "2")


def way_languages(browser, page, folder):
    """A text that is there while the language changes has the new language."""
    begin(browser, page, f"#fen={LONG}&n=20")
    browser.run("t.at('#solve').click()")
    file = folder / "hard.fen"
    file.write_text(f"{LONG}\n" * 3)
    browser.upload("#file", file)
    browser.wait("t.at('#list').dataset.count === '3'", 20)
    browser.run("t.set('#judge-most', '20'); t.at('#judge-all').click(); t.set('#movetext', '1. 28-23')")
    browser.run("t.at('#tab-improve').click(); t.set('#mend-n', '12'); t.at('#mend-go').click()")
    browser.wait("!t.at('#judge-stop').disabled && !t.at('#mend-stop').disabled && !t.at('#stop').disabled", 10)
    browser.run("t.set('#language', 'nl')")
    english = "Searching|Stopped|positions|problems|judged|sound of|Win in|It failed"
    for stop in (False, True):
        if stop:
            browser.run("for (const id of ['stop', 'mend-stop', 'judge-stop']) t.at(`#${id}`).click()")
            time.sleep(0.3)
            browser.run("t.set('#language', 'en'); t.set('#language', 'nl')")
        said = browser.run("['state', 'mend-state', 'list-state'].map((id) => t.at(`#${id}`).textContent)")
        assert all(said) and not any(re.search(english, text) for text in said), said
    browser.run("t.set('#language', 'en')")


def way_early(browser, page, _):
    """What is asked before the page is ready is not lost: the page says that it is loading, and answers then."""
    begin(browser, page)
    browser.goto("about:blank")
    browser.preload("""
        const look = setInterval(() => {
            const solve = document.querySelector('#solve'), root = document.documentElement;
            if (!solve || root.dataset.asked || !document.querySelector('#module')) return;
            root.dataset.asked = root.dataset.ready ? 'late' : 'early';
            clearInterval(look);
            solve.click();
            root.dataset.told = document.querySelector('#state').textContent;
        }, 1);
    """)
    open_page(browser, page, "#fen=W:W27,45:B16&n=5")
    assert browser.run("document.documentElement.dataset.asked") == "early"
    browser.wait("t.at('#state').dataset.state === 'done'", 20)
    assert browser.run("t.at('#verdict').dataset.line") == "sound in 2: 45-40"
    assert browser.run("document.documentElement.dataset.told").startswith("Loading")
    browser.preload(None)


# What of the page is hard to see: texts below 4.5 to 1 (large ones below 3), borders of controls and marks on the board
# below 3, squares with lines between them, items of a tree outside one.
CONTRAST = r"""
(() => {
  const found = [];
  const context = Object.assign(document.createElement('canvas'), { width: 1, height: 1 })
    .getContext('2d', { willReadFrequently: true });
  const parts = (colour) => {
    context.clearRect(0, 0, 1, 1);
    context.fillStyle = colour;
    context.fillRect(0, 0, 1, 1);
    return [...context.getImageData(0, 0, 1, 1).data];
  };
  const over = (top, below) => top.slice(0, 3).map((part, i) => (part * top[3] + below[i] * (255 - top[3])) / 255);
  const light = (colour) => {
    const [r, g, b] = colour.map((part) => part / 255)
      .map((part) => (part <= 0.04045 ? part / 12.92 : ((part + 0.055) / 1.055) ** 2.4));
    return 0.2126 * r + 0.7152 * g + 0.0722 * b;
  };
  const ratio = (a, b) => {
    const [one, other] = [light(a), light(b)];
    return (Math.max(one, other) + 0.05) / (Math.min(one, other) + 0.05);
  };
  const ground = (element) => {
    const above = element.parentElement ? ground(element.parentElement) : [255, 255, 255];
    return over(parts(getComputedStyle(element).backgroundColor), above);
  };
  const note = (element, what, value, least) => {
    if (value < least) {
      found.push(`${what} ${element.id || element.className?.baseVal || element.className || element.tagName} `
        + `"${(element.textContent ?? '').trim().slice(0, 20)}": ${value.toFixed(2)}`);
    }
  };
  const isSeen = (element) => element.checkVisibility({ visibilityProperty: true })
    && element.getBoundingClientRect().width > 1 && !element.closest(':disabled, .hidden, .skip');
  const all = [...document.body.querySelectorAll('*')].filter((element) => !element.closest('svg') && isSeen(element));
  for (const element of all) {
    const style = getComputedStyle(element), hasText = [...element.childNodes]
      .some((node) => node.nodeType === 3 && node.textContent.trim());
    if (hasText || (element.matches('input[type=text], textarea, select') && element.value)) {
      const size = parseFloat(style.fontSize), isLarge = size >= 24 || (size >= 18.66 && style.fontWeight >= 700);
      note(element, 'text', ratio(over(parts(style.color), ground(element)), ground(element)), isLarge ? 3 : 4.5);
    }
    if (element.matches('button:not(.move, .dark), .button, select, textarea, input[type=text], input[type=number], '
        + '.drop, dialog')) {
      const outside = ground(element.parentElement), border = over(parts(style.borderBottomColor), outside);
      const isBordered = parseFloat(style.borderBottomWidth) > 0;
      note(element, 'border', Math.max(isBordered ? ratio(border, outside) : 1, ratio(ground(element), outside)), 3);
    }
    if (element.matches('.move') && !element.closest('[role=tree]')) {
      note(element, 'move', /underline/.test(style.textDecorationLine) ? 3 : 1, 3);
    }
  }
  for (const square of document.querySelectorAll('.board .dark')) {
    const under = ground(square), style = getComputedStyle(square);
    const ring = /rgba?\([^)]*\)/.exec(style.boxShadow)?.[0];
    if (square.matches('.source, .last, .faulty') && ring) {
      note(square, 'ring', ratio(over(parts(ring), under), under), 3);
    }
    if (square.matches('.target')) {
      note(square, 'target', ratio(parts(getComputedStyle(square, '::after').backgroundColor), under), 3);
    }
    const edge = square.querySelector('.piece use');
    if (edge) {
      const [fill, line] = ['--fill', '--stroke'].map((name) => parts(getComputedStyle(edge).getPropertyValue(name)));
      note(square, 'piece', Math.max(ratio(fill, under), ratio(line, under)), 3);
    }
    const number = square.querySelector('.number');
    if (isSeen(number)) note(square, 'number', ratio(parts(getComputedStyle(number).color), under), 4.5);
  }
  note(document.body, 'focus', ratio(parts(getComputedStyle(document.documentElement).getPropertyValue('--main')),
    ground(document.querySelector('.panels'))), 3);
  const cells = [...document.querySelector('#board').children].map((cell) => cell.getBoundingClientRect());
  const rows = Math.sqrt(cells.length);
  cells.forEach((cell, i) => {
    const beside = i % rows ? cells[i - 1].right : cell.left;
    if (Math.abs(cell.width - Math.round(cell.width)) > 0.01 || Math.abs(cell.left - beside) > 0.01) {
      found.push(`square ${i}: ${cell.left} to ${cell.right}`);
    }
  });
  for (const item of document.querySelectorAll('[role=treeitem]')) {
    if (!item.closest('[role=tree]')) found.push(`an item outside a tree: ${item.textContent}`);
  }
  for (const part of document.querySelectorAll('[role=tree] > *')) {
    const items = [...part.children];
    if (part.getAttribute('role') !== 'group' || !items.every((item) => item.getAttribute('role') === 'treeitem')) {
      found.push(`a tree with other parts: ${part.outerHTML.slice(0, 80)}`);
    }
  }
  return [...new Set(found)];
})()
"""


def look_of(browser):
    """The states in which all is looked at, each after the one before."""
    yield "problem"
    read(browser, "W:W27,K32,31:B18,K13,7")
    yield "pieces"
    read(browser, "W:W3,K27:B18")
    browser.wait("!t.at('#fault').hidden", 10)
    yield "fault"
    read(browser, START)
    browser.run("t.all('details').forEach((one) => { one.open = true; })")
    browser.run(call("solve", 4))
    browser.run("t.at('#ask-firsts').click()")
    browser.wait("t.all('#firsts li').length === 3", 20)
    browser.run("t.all('#solution .move')[1].click()")
    yield "answer"
    browser.run("t.at('#look-back').click(); t.at('#mode-play').click()")
    browser.wait("t.all('.dark.source').length === 2", 10)
    browser.run("t.at('[data-square=\"32\"]').click(); t.at('[data-square=\"28\"]').click()")
    browser.wait("t.at('[data-square=\"18\"]').matches('.source')", 10)
    browser.run("t.at('[data-square=\"18\"]').click()")
    yield "play"
    browser.run("t.at('#mode-setup').click(); t.at('#look-back').click(); t.at('#tab-compare').click()")
    browser.run("t.set('#movetext', '1. 32-28 18-22 2. 27x18'); t.at('#compare').click()")
    browser.wait("t.all('#remarks .remark').length === 2", 20)
    yield "compare"
    browser.run("t.at('#tab-improve').click(); t.set('#mend-n', '2'); t.at('#mend-go').click()")
    browser.wait("t.at('#mend').dataset.state === 'done'", 60)
    yield "improve"
    browser.run("t.at('#tab-collection').click(); t.at('#add-go').click()")
    browser.wait("t.all('#list .card').length === 1 && t.at('#list').dataset.state === 'done'", 10)
    yield "collection"
    browser.run("t.at('.edit').click()")
    yield "form"


def way_seen(browser, page, _):
    """Texts, borders and marks are seen, light and dark; squares have no lines between them; a tree has its items."""
    faults = []
    for scheme in ("light", "dark") if browser.name == "chromium" else ("light",):
        begin(browser, page, f"#fen={START}&n=4&title=Spring")
        if browser.name == "chromium":
            browser.colours(scheme)
        for state in look_of(browser):
            for width, height in ((1366, 768), (800, 900), (PHONE, 740)):
                browser.resize(width, height, width == PHONE)
                faults += [f"{scheme} {state} {width}: {fault}" for fault in browser.run(CONTRAST)]
    browser.resize(1200, 900)
    if browser.name == "chromium":
        browser.colours("light")
    assert not faults, "\n".join(faults[:60])


WAYS = [value for name, value in list(globals().items()) if name.startswith("way_")]
assert pathlib.Path(__file__).name == "board_named.py"
