#!/usr/bin/env python3
"""pages.py: opens the pages of `dw-desk page` in a browser without a window.

    checks/pages.py [--count POSITIONS]

For random positions (100 on each board by default) the pixels in the middle of each square must show the pieces of `dw
show`. A click on a move shows the position after it, and so do the arrow keys; a move generator of this folder finds
that position. On paper six problems fill a page, and none is cut. A telephone's width needs no sideways scrolling. A
page of 2,000 problems opens within seconds. There is no network request, no console error and no HTML error. Tag values
appear as they are, also those that are not UTF-8. The tries must be those of the recursion in judging.py, and --tries
none must leave out just these.
"""
import html
import json
import os
import pathlib
import random
import re
import subprocess
import tempfile
import time

from draughts import Board, fen, other, play
from judging import Problems, TooMany, count_asked
from solutions import RESULTS, named_moves, tokens
from wins import drawn

TOP = pathlib.Path(__file__).resolve().parent.parent
DW, DESK = TOP / "dw", TOP / "dw-desk"
SEED, PHONE, OPENS_WITHIN = 77, 360, 20
WHITE, BLACK = 200, 60  # what is lighter is white, what is darker is black
EDGE = re.compile(rb"[\x00-\xa0]{100,}")  # a row of a frame on paper: no other dark row of points is as long
BROWSER = ("chromium", "--headless", "--no-sandbox", "--disable-gpu", "--hide-scrollbars", "--enable-logging=stderr",
           "--force-device-scale-factor=1", "--disable-background-networking", "--no-pdf-header-footer")
# What a script of this check writes into the page.
REPORT = """<pre id="report"></pre><script>
{body}
document.getElementById('report').textContent = JSON.stringify(report);
</script></body>"""
PLACES = "const report = [...document.querySelectorAll('.problem svg')].map((svg) => { " \
    "const box = svg.getBoundingClientRect(); return [box.left, box.top, box.width]; });"
# No window is as narrow as a telephone, but a frame is.
FRAMED = """const report = null;
addEventListener('load', () => {
  const inside = frames[0], asked = inside.performance.getEntriesByType('resource').length;
  document.getElementById('report').textContent =
    JSON.stringify([inside.innerWidth, inside.document.documentElement.scrollWidth, asked]);
});"""
SIZES = "const report = [innerWidth, document.documentElement.scrollWidth, " \
    "performance.getEntriesByType('resource').length];"
# The marks on a board after each move was clicked, then after each arrow to the right, and all the way back.
PLAY = """
const marks = (board) => [...board.querySelectorAll('g use')].map((use) =>
  [use.getAttribute('href').slice(1), Number(use.getAttribute('x')), Number(use.getAttribute('y'))]);
const press = (key) => document.dispatchEvent(new KeyboardEvent('keydown', {key}));
const report = [...document.querySelectorAll('.solution')].map((solution) => {
  const board = boardOf(solution), start = marks(board), moves = [...solution.querySelectorAll('.move')];
  const clicked = moves.map((move) => { move.click(); return marks(board); });
  const text = solution.querySelector('.moves').textContent;
  if (!moves.length) return {text, start, clicked, right: [], back: start};
  moves[0].click();
  const right = [marks(board)];
  for (const _ of moves.slice(1)) { press('ArrowRight'); right.push(marks(board)); }
  for (const _ of moves) press('ArrowLeft');
  return {text, start, clicked, right, back: marks(board)};
});
"""
TAGGED = """[Event "<b>&\\"x\\"</b><script>alert(1)</script>"] [White "G\xe9rard"] [Site "\x01'"] [FEN "W:W27,32:B18"] *
"""


def browse(*words):
    """What the browser writes; it has to find no error in the page."""
    ran = subprocess.run([*BROWSER, *words], capture_output=True, encoding="utf-8", timeout=300, check=True,
                         env={**os.environ, "HOME": "/tmp"})
    assert "CONSOLE" not in ran.stderr, ran.stderr
    return ran.stdout


def page_of(text, *words, status=0):
    """The page of some problems."""
    ran = subprocess.run([DESK, "page", *words], input=text.encode("latin-1"), capture_output=True, timeout=3600,
                         check=False)
    assert (ran.returncode, ran.stderr) == (status, b""), ran.stderr
    return ran.stdout.decode()


def told(folder, page, body, size="1100,1000"):
    """What a script says of a page."""
    file = folder / "told.html"
    file.write_text(page.replace("</body>", REPORT.replace("{body}", body)))
    out = browse(f"--window-size={size}", "--dump-dom", file.as_uri())
    said = re.search(r'<pre id="report">(.*?)</pre>', out, re.DOTALL)[1]
    return json.loads(said.replace("&lt;", "<").replace("&gt;", ">").replace("&amp;", "&"))


def pixels(file):
    """The grey values of a picture, and its width."""
    raw = subprocess.run(f"pngtopam {file} | ppmtopgm", shell=True, capture_output=True, check=True).stdout
    head = re.match(rb"P5\s+(\d+)\s+(\d+)\s+255\n", raw)
    return int(head[1]), raw[head.end():]


def check_pixels(rows, count, source, folder):
    """The middles of all squares of random positions."""
    board = Board(rows)
    text = "".join(f"{fen(drawn(source, board), source.choice('WB'))}\n" for _ in range(count))
    shown = subprocess.run([DW, "show", "--board", str(rows)], input=text, capture_output=True, text=True, check=True)
    wanted = re.findall(r"(?:^\|.*\|\n)+", shown.stdout, re.MULTILINE)
    page = page_of(text, "-n", "1", "--solutions", "none", "--board", str(rows))
    page = page.replace("</style>", ".problem { width: 200px !important; }</style>")
    places = told(folder, page, PLACES, "1100,9000")
    (folder / "seen.html").write_text(page)
    browse("--window-size=1100,9000", f"--screenshot={folder / 'seen.png'}", (folder / "seen.html").as_uri())
    width, grey = pixels(folder / "seen.png")
    for (left, top, size), diagram in zip(places, wanted, strict=True):
        step = size / rows

        def at(column, row, across, down):
            return grey[int(top + (row + down) * step) * width + int(left + (column + across) * step)]
        for row, line in enumerate(diagram.splitlines()):
            for column, sign in enumerate(line.strip("|")):
                middle, disc = at(column, row, .5, .5), at(column, row, .5, .74)
                told_by = {".": BLACK < middle < WHITE, " ": middle > WHITE and disc > WHITE,
                           "w": middle > WHITE and disc > WHITE, "W": middle < BLACK and disc > WHITE,
                           "b": middle < BLACK and disc < BLACK, "B": middle > WHITE and disc < BLACK}
                assert told_by[sign], (rows, row, column, sign, middle, disc, diagram)
    print(f"{rows} rows: {count} diagrams, pixel by pixel as `dw show` says", flush=True)


def squares_of(rows, marks):
    """The pieces that marks show, by square."""
    half = rows // 2
    return {row * half + column // 2 + 1: (name[0].upper(), name[1] == "k") for name, column, row in marks}


def check_play(rows, count, source, folder):
    """Each move that is clicked shows the position after it."""
    board, lines, entries = Board(rows), [], []
    for _ in range(count):
        cells, turn = drawn(source, board), source.choice("WB")
        entries.append((cells, turn))
        lines.append(fen(cells, turn))
    page = page_of("".join(f"{line}\n" for line in lines), "--most", "2", "--lines", "20", "--board", str(rows))
    seen, clicks = told(folder, page, PLAY), 0
    for (cells, turn), said in zip(entries, seen, strict=True):
        assert squares_of(rows, said["start"]) == squares_of(rows, said["back"]) == dict(cells), said
        wanted = list(positions(board, said["text"], cells, turn))
        assert [squares_of(rows, marks) for marks in said["clicked"]] == wanted, said
        assert said["right"] == said["clicked"], said
        clicks += len(wanted)
    print(f"{rows} rows: {clicks} moves clicked, and gone through with the arrow keys", flush=True)


def positions(board, text, cells, turn):
    """The position after each move of a movetext."""
    problems, line, outer = Problems(board), [(cells, turn)], []
    for kind, whole, _ in tokens(text.encode()):
        if kind == "opens":
            outer.append(line)
            line = [line[-2]]
        elif kind == "closes":
            line = outer.pop()
        elif kind == "written" and whole.decode() not in RESULTS:
            here, side = line[-1]
            move, = named_moves(problems, here, side, whole)
            line.append((play(board, here, move), other(side)))
            yield dict(line[-1][0])


def printed(folder, text, where):
    """A page with its solutions in this place on paper: its file, but for the ending, and what stands on each sheet."""
    paper = folder / f"print-{where}"
    file = paper.with_suffix(".html")
    file.write_text(page_of(text, "-n", "1", "--solutions", where))
    browse(f"--print-to-pdf={paper.with_suffix('.pdf')}", file.as_uri())
    words = ["pdftotext", "-layout", paper.with_suffix(".pdf"), "-"]
    return paper, subprocess.run(words, capture_output=True, text=True, check=True).stdout.split("\f")


def diagrams_on(sheet):
    """How many diagrams the picture of a sheet has. Each is whole: its frame is a square, with both edges there."""
    data = sheet.read_bytes()
    head = re.match(rb"P5\s+(\d+)\s+\d+\s+\d+\s", data)
    wide = int(head[1])
    rows = [data[at : at + wide] for at in range(head.end(), len(data), wide)]
    edges = sorted((edge.start(), y, len(edge[0])) for y, row in enumerate(rows) for edge in EDGE.finditer(row))
    for (left, upper, size), (below, lower, same) in zip(edges[::2], edges[1::2], strict=True):
        assert (left, size) == (below, same) and abs(lower - upper - size) <= 2, (sheet.name, edges)
    return len(edges) // 2


def check_print(source, folder):
    """Six problems on each sheet of paper, with what stands above and below each diagram on the same one, and no
    diagram cut, wherever the solutions are."""
    board = Board(10)
    text = "".join(f"{fen(drawn(source, board), 'W')}\n" for _ in range(20))
    for where in ("end", "after"):
        paper, sheets = printed(folder, text, where)
        tasks = [sheet.count("White to play and win in 1") for sheet in sheets]
        heads = [len(re.findall(r"(?<!\S)\d+\.(?!\S)", sheet)) for sheet in sheets]
        subprocess.run(["pdftoppm", "-r", "72", "-gray", paper.with_suffix(".pdf"), paper], check=True)
        diagrams = [diagrams_on(sheet) for sheet in sorted(folder.glob(f"{paper.name}-*.pgm"))]
        assert tasks[:4] == diagrams[:4] == [6, 6, 6, 2], (where, tasks, diagrams)
        assert where != "end" or heads[:3] == [6, 6, 6], heads
    print("paper: six problems a sheet, and the frame of each diagram whole")


def check_tries(rows, count, source):
    """The tries of each problem are those of the recursion of judging.py; with --tries none a page lacks just these."""
    board, entries = Board(rows), []
    while len(entries) < count:
        cells, turn, n = drawn(source, board), source.choice("WB"), source.randint(1, 2)
        try:
            _, *tries = Problems(board).judged(cells, turn, n)
        except TooMany:
            continue
        tries = [re.sub(r"try (.*) refuted by (.*)", r"\1? \2", one) for one in tries]
        entries.append((n, f"{fen(cells, turn)}\n", tries))
    told_of = 0
    for n in (1, 2):
        of_number = [entry for entry in entries if entry[0] == n]
        text, words = "".join(line for _, line, _ in of_number), ["-n", str(n), "--board", str(rows)]
        page = page_of(text, *words)
        said = [[html.unescape(one) for one in re.findall(r'<span class="try">(.*?)</span>', part)]
                for part in page.split('<section class="problem"')[1:]]
        assert said == [tries for _, _, tries in of_number], next(
            pair for pair in zip(said, of_number) if pair[0] != pair[1][2])
        assert page_of(text, *words, "--tries", "none") == re.sub(r"<p[^>]*>Tries: .*</p>\n", "", page), (rows, n)
        told_of += sum(map(len, said))
    print(f"{rows} rows: {told_of} tries of {count} problems, as in the recursion; none with --tries none", flush=True)


def check_rest(source, folder):
    """A telephone, a long page, the network, texts of tags, and the HTML."""
    board = Board(10)
    text = "".join(f"{fen(drawn(source, board), 'W')}\n" for _ in range(2000))
    page = page_of(text[: text.index("\n", 600) + 1], "-n", "1", "--title", "<&>", "--numbers", "--lang", "ru")
    frame = f'<iframe style="width: {PHONE}px; border: 0" srcdoc="{html.escape(page)}"></iframe>'
    framed = f"<!DOCTYPE html><body>{frame}</body>"
    width, scrolled, asked = told(folder, framed, FRAMED)
    assert scrolled <= width == PHONE and asked == 0, (width, scrolled, asked)
    long = page_of(text, "-n", "1")
    began = time.monotonic()
    assert told(folder, long, SIZES)[2] == 0
    took = time.monotonic() - began
    assert took < OPENS_WITHIN, took
    tagged = page_of(TAGGED, "-n", "2", "--pdn")
    said = told(folder, tagged, "const report = [...document.querySelectorAll('h2, .tags')].map((e) => e.textContent);")
    assert said == ["1. Gérard", "<b>&\"x\"</b><script>alert(1)</script>,  '"], said
    for text in (page, tagged):
        (folder / "tidy.html").write_text(text)
        ran = subprocess.run(["tidy", "-e", "-q", "--show-warnings", "yes", folder / "tidy.html"], capture_output=True,
                             text=True, check=False)
        assert (ran.returncode, ran.stderr) == (0, ""), ran.stderr
    print(f"a telephone, 2,000 problems in {took:.1f} s, no request, tags as they are, no fault in the HTML")


def main():
    count, source = count_asked(100), random.Random(SEED)
    with tempfile.TemporaryDirectory() as name:
        folder = pathlib.Path(name)
        for rows in (10, 8):
            check_pixels(rows, count, source, folder)
            check_play(rows, 40, source, folder)
            check_tries(rows, count, source)
        check_print(source, folder)
        check_rest(source, folder)


if __name__ == "__main__":
    main()
