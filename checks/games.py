#!/usr/bin/env python3
"""games.py: compares the games of `dw-desk solution` with lists of lines, and reads them again.

    checks/games.py [--count POSITIONS]

For random small positions (100 on each board by default) it makes a movetext from the lines of `dw list`. The output of
`solution` must be the same, byte for byte, with all lines and with a few. The reader of solutions.py must find exactly
these lines in it, and `dw-desk check` nothing to remark. The JSON must have the moves of the movetext, each with its
depth and the position after it. A game keeps the tags of its section. A solution that is too long is cut after the last
line that fits.
"""
import json
import pathlib
import random
import re
import subprocess
import tempfile

import solutions
from draughts import Board, fen, other, play
from judging import Problems, TooMany, count_asked
from wins import drawn

TOP = pathlib.Path(__file__).resolve().parent.parent
DW, DESK = TOP / "dw", TOP / "dw-desk"
SEED, MOST, MOST_LINES, MOST_BYTES, COLUMNS = 31, 3, 300, 1_000_000, 79
GAME = re.compile(r"((?:\[.*\]\n)+)\n((?:.+\n)+)\n")
# A position with more lines than a movetext holds.
LONG, LONG_MOVES = "W:WK46,K47,48:B1", 5
TAGGED = """%
[Event "a \\"b\\""] [White  "Šimon"]
[GameType "20,W,10"]
[fen "W:W27,32:B18"] 1. 27-22 {[no tag]} *
[FEN "W:W3:B20"] [Site "s"] *
[FEN "B:W43:B24,29"]
"""
KEPT = """[Event "a \\"b\\""]
[White  "Šimon"]
[GameType "20"]
[FEN "W:W27,32:B18"]

{dual in 2} 1. 32-28 18-22 (1... 18-23 2. 28x19) 2. 27x18 (2. 28x17) 2-0

[Event "problem 2: refused: 1 fen: 7 last row at 4"]

*

[GameType "20"]
[FEN "B:W43:B24,29"]

{sound in 2} 1... 29-33 2. 43-38 (2. 43-39 33x44) 2... 33x42 0-2

"""
ROW = ('{"problem":1,"fen":"W:W27,32:B18","n":2,"verdict":"dual","more":false,"moves":[{"depth":1,"move":"32-28","fen":'
       '"B:W27,28:B18"},{"depth":2,"move":"18-22","fen":"W:W27,28:B22"},{"depth":3,"move":"27x18","fen":"B:W18,28:B"},'
       '{"depth":3,"move":"28x17","fen":"B:W17,27:B"},{"depth":2,"move":"18-23","fen":"W:W27,28:B23"},{"depth":3,'
       '"move":"28x19","fen":"B:W19,27:B"}]}\n')
ROW_CUT = ('{"problem":1,"fen":"W:W27,32:B18","n":2,"verdict":"dual","more":true,"moves":[{"depth":1,"move":"32-28",'
           '"fen":"B:W27,28:B18"},{"depth":2,"move":"18-22","fen":"W:W27,28:B22"},{"depth":3,"move":"27x18","fen":'
           '"B:W18,28:B"}]}\n')
CUT = '[GameType "20"]\n[FEN "W:W27,32:B18"]\n\n{dual in 2} 1. 32-28 18-22 2. 27x18 (2. 28x17) {more} 2-0\n\n'


def run(*words, text="", status=0):
    ran = subprocess.run(words, input=text, capture_output=True, encoding="utf-8", timeout=3600, check=False)
    assert (ran.returncode, ran.stderr) == (status, ""), (words, ran)
    return ran.stdout


def texts_of(report):
    """The text of each problem behind its first line."""
    return [part.split("\n", 1)[1] for part in re.split(r"^problem ", report, flags=re.MULTILINE)[1:]]


def moves_of(line):
    """The texts of a line's moves."""
    return [word for word in line.split() if not word.endswith(".")]


def words_of(tree, ply, due):
    """The words of a tree, whose next half turn has this number."""
    if not tree:
        return []
    first, *others = tree
    words = numbered(first, ply, due)
    for move in others:
        inside = numbered(move, ply, True) + words_of(tree[move], ply + 1, False)
        words += [f"({inside[0]}", *inside[1:-1], f"{inside[-1]})"] if inside[1:] else [f"({inside[0]})"]
    return words + words_of(tree[first], ply + 1, bool(others))


def numbered(move, ply, due):
    if ply % 2 == 0:
        return [f"{ply // 2 + 1}.", move]
    return [f"{ply // 2 + 1}...", move] if due else [move]


def filled(words):
    """Words with a blank before each, or a line feed if the line would be too long."""
    text, column = words[0], len(words[0])
    for word in words[1:]:
        fits = column + 1 + len(word) <= COLUMNS
        text += (" " if fits else "\n") + word
        column = column + 1 + len(word) if fits else len(word)
    return text


def movetext(verdict, lines, more, turn):
    """The movetext of lines, with the verdict's first words."""
    tree = solutions.tree_of([moves_of(line) for line in lines])
    result = ("2-0" if turn == "W" else "0-2") if lines else "*"
    words = words_of(tree, int(turn == "B"), True)
    return filled([f"{{{verdict}}}", *words, *(["{more}"] if more else []), result])


def placed(problems, tree, cells, turn, depth=1):
    """The moves of a tree of texts: each before all that go on after it, with the position after it."""
    moves = {problems.text(cells, turn, move): move for move, _ in problems.moves(cells, turn)}
    for text, rest in tree.items():
        after = play(problems.board, cells, moves[text])
        yield {"depth": depth, "move": text, "fen": fen(after, other(turn))}
        yield from placed(problems, rest, after, other(turn), depth + 1)


def row(number, entry, game, lines, more):
    """The line of JSON of a position with these lines, whose game this is."""
    cells, turn, problems = entry
    verdict, n = re.search(r"\{(\w+) in (\d+)\}", game).groups()
    moves = list(placed(problems, solutions.tree_of(lines), cells, turn))
    return json.dumps({"problem": number, "fen": fen(cells, turn), "n": int(n), "verdict": verdict, "more": more,
                       "moves": moves}, separators=(",", ":")) + "\n"


def expected(positions, rows, n, most):
    """The games of some positions, and their lines."""
    text, words = "".join(f"{position}\n" for position in positions), ["-n", str(n), "--board", str(rows)]
    verdicts = [re.match(r"\w+ in \d+", said)[0] for said in texts_of(run(DW, "judge", *words, text=text))]
    lists = [said.splitlines() for said in texts_of(run(DW, "list", *words, "--lines", str(most), text=text))]
    game_type = '[GameType "20"]\n' if rows == 10 else ""
    games = [f'{game_type}[FEN "{position}"]\n\n{movetext(verdict, lines, end.startswith("more"), position[0])}\n\n'
             for position, verdict, (*lines, end) in zip(positions, verdicts, lists)]
    return "".join(games), [(lines, end) for *lines, end in lists]


def expansion(problems, tree, cells, turn):
    """The lines of a tree that was read, as texts of their moves."""
    def paths(tree, line):
        if not tree:
            yield line
        for move, rest in tree.items():
            yield from paths(rest, [*line, move])
    for line in paths(tree, []):
        yield moves_of(problems.line_text(cells, turn, line))


def chosen(source, board, count):
    """Random positions with a number of moves within which a win is, of not too many lines, and some without one."""
    found = []
    while len(found) < count:
        cells, turn, problems = drawn(source, board), source.choice("WB"), Problems(board)
        try:
            n = next((n for n in range(1, MOST + 1) if problems.wins(cells, turn, n)), None)
            if n is None and source.randrange(20):
                continue
            if n and len([1 for _, _ in zip(problems.lines(cells, turn, n), range(MOST_LINES + 1))]) > MOST_LINES:
                continue
        except TooMany:
            continue
        found.append((n or MOST, cells, turn, problems))
    return found


def check_random(rows, count, source):
    board, lines_read = Board(rows), 0
    found = chosen(source, board, count)
    for n in range(1, MOST + 1):
        entries = [entry[1:] for entry in found if entry[0] == n]
        positions = [fen(cells, turn) for cells, turn, _ in entries]
        text, words = "".join(f"{position}\n" for position in positions), ["-n", str(n), "--board", str(rows)]
        for most in (1_000_000, 3):
            games, lists = expected(positions, rows, n, most)
            written = run(DESK, "solution", *words, "--lines", str(most), text=text)
            assert written == games, next(pair for pair in zip(written.split("\n\n"), games.split("\n\n"))
                                          if pair[0] != pair[1])
            if most > 3:
                least = ["--most", str(MOST), "--board", str(rows), "--lines", str(most)]
                assert run(DESK, "solution", *least, text=text) == games, (rows, n)
            parts = GAME.findall(written)
            wanted = "".join(row(number, entry, game, [moves_of(line) for line in lines], end.startswith("more"))
                             for number, (entry, (_, game), (lines, end)) in
                             enumerate(zip(entries, parts, lists, strict=True), 1))
            said = run(DESK, "solution", "--json", *words, "--lines", str(most), text=text)
            assert said == wanted, next(pair for pair in zip(said.splitlines(), wanted.splitlines())
                                        if pair[0] != pair[1])
            for (cells, turn, problems), (_, game), (lines, _) in zip(entries, parts, lists):
                assert all(len(row) <= COLUMNS for row in game.splitlines()), game
                if lines:
                    tree = solutions.read(problems, b"\n" + game.encode(), cells, turn)
                    assert list(expansion(problems, tree, cells, turn)) == [moves_of(line) for line in lines], game
                    lines_read += len(lines)
            some = "".join(f"{tags}\n{game}\n" for (tags, game), (lines, _) in zip(parts, lists) if lines)
            said = run(DESK, "check", *words, text=some)
            whole = [end.startswith("complete") for lines, end in lists if lines]
            for all_there, remarks in zip(whole, texts_of(said)):
                last = remarks.splitlines()[-1]
                assert re.fullmatch(rf"holds in {n}: 0 fail, 0 end, \d+ open, \d+ also", last), remarks
                assert not all_there or last.endswith("0 open, 0 also"), remarks
    print(f"{rows} rows: {count} positions, {lines_read} lines: written as here, read again, nothing to remark",
          flush=True)


def check_rows():
    """Tags that are kept, a refused problem, Black's win, and a list that is cut."""
    assert run(DESK, "solution", "-n", "2", "--pdn", text=TAGGED, status=1) == KEPT
    assert run(DESK, "solution", "-n", "2", "--lines", "2", text="W:W27,32:B18\n") == CUT
    assert run(DESK, "solution", "-n", "2", "--json", text="W:W27,32:B18\n") == ROW
    assert run(DESK, "solution", "--most", "6", "--json", "--lines", "1", text="W:W27,32:B18\n") == ROW_CUT
    assert run(DESK, "solution", "-n", "1", "--json", text="W:W27,32:B18\n") == (
        '{"problem":1,"fen":"W:W27,32:B18","n":1,"verdict":"unsolvable","more":false,"moves":[]}\n')
    assert run(DESK, "solution", "-n", "2", "--json", "--pdn", "--problem", "2", text=TAGGED, status=1) == (
        '{"problem":2,"refused":"1 fen: 7 last row at 4"}\n')
    part = run(DESK, "solution", "-n", "2", "--pdn", "--problem", "3-9", text=TAGGED)
    assert KEPT.endswith(part) and part.startswith("[GameType"), part
    print("tags, a refused problem, Black's win, a list that is cut: as worked")


def check_long(folder):
    """A movetext of over a million bytes is cut behind the last line with which it is not as long."""
    file = folder / "long.fen"
    file.write_text(f"{LONG}\n")
    tags, game = GAME.findall(run(DESK, "solution", "-n", str(LONG_MOVES), "--lines", "1000000", str(file)))[0]
    game = game.rstrip("\n")
    verdict = game[1 : game.index("}")]
    many = 1 + game.count("(")
    lines = texts_of(run(DW, "list", "-n", str(LONG_MOVES), "--lines", str(many + 1), str(file)))[0].splitlines()[:-1]
    assert game == movetext(verdict, lines[:many], True, "W") and len(game) <= MOST_BYTES, (len(game), many)
    assert len(movetext(verdict, lines, True, "W")) > MOST_BYTES, many
    said = json.loads(run(DESK, "solution", "--json", "-n", str(LONG_MOVES), "--lines", "1000000", str(file)))
    words = [word.strip("()") for word in re.sub(r"\{[^}]*\}", "", game).split()]
    moves = [word for word in words if not word.endswith(".") and word not in solutions.RESULTS]
    assert said["more"] and sorted(move["move"] for move in said["moves"]) == sorted(moves), many
    print(f"{LONG}: cut after {many} lines, with {len(game)} bytes; its line of JSON has the same {len(moves)} moves")


def main():
    count, source = count_asked(100), random.Random(SEED)
    check_rows()
    for rows in (10, 8):
        check_random(rows, count, source)
    with tempfile.TemporaryDirectory() as name:
        check_long(pathlib.Path(name))


if __name__ == "__main__":
    main()
