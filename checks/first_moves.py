#!/usr/bin/env python3
"""first_moves.py: compares `dw-desk moves` with a recursion over all moves on an independent generator.

    checks/first_moves.py [--count POSITIONS]

For random small positions (30 on each board by default), within 1, 2 or 3 moves, the recursion of judging.py finds for
each legal move the least number of moves in which it wins, or all replies that refute it. The output must be the same,
in the same order, with the same count, with each cache, as text and as JSON. The parts joined must be the whole, and
the winning moves the keys of `dw judge`. `find --later` must list those moves that win later than the keys, in words
and in JSON. The errors of the command come last.
"""
import json
import pathlib
import random
import subprocess

from draughts import Board, fen, other
from judging import Problems, TooMany, count_asked
from wins import drawn

TOP = pathlib.Path(__file__).resolve().parent.parent
DW, DESK = TOP / "dw", TOP / "dw-desk"
SEED, MOST, MOST_PARTS, MOST_LATER = 61, 3, 4, 2
ROW = "W:W27,32:B18\n"
MEMOS = [[], ["--memo", "none"], ["--memo", "lru", "--cache", "20"], ["--memo", "slots", "--cache", "50"]]


def run(program, words, text, status=0, complaint=""):
    ran = subprocess.run([program, *words], input=text, capture_output=True, text=True, timeout=600, check=False)
    assert (ran.returncode, ran.stderr) == (status, complaint), (words, text, ran)
    return ran.stdout


def effects(problems, cells, turn, n):
    """Each legal move with the number of moves in which it wins, or with the replies that refute it, as texts."""
    found = []
    for move, after in problems.after(cells, turn):
        name = problems.text(cells, turn, move)
        least = next((k for k in range(1, n + 1) if problems.loses(after, other(turn), k - 1)), None)
        replies = [problems.text(after, other(turn), reply) for reply, then in problems.after(after, other(turn))
                   if not problems.wins(then, turn, n - 1)]
        assert (least is None) == bool(replies), (fen(cells, turn), n, name)
        found.append((name, after, least, replies))
    return found


def lines_of(found):
    return [f"{name} refuted by {', '.join(replies)}" if least is None else f"{name} wins in {least}"
            for name, _, least, replies in found]


def count_line(found):
    return f"{sum(least is not None for _, _, least, _ in found)} of {len(found)} win"


def part_of(all_of_them, part, parts):
    return [one for place, one in enumerate(all_of_them, 1) if place % parts == part % parts]


def report(first, found):
    return "".join(line + "\n" for line in [first, *lines_of(found), count_line(found)])


def row(position, n, found, turn):
    """What is said of a position as a line of JSON."""
    moves = [{"move": name, "fen": fen(after, other(turn)),
              **({"refuted_by": replies} if least is None else {"wins_in": least})}
             for name, after, least, replies in found]
    winning = sum(least is not None for _, _, least, _ in found)
    told = {"problem": 1, "fen": position, "n": n, "winning": winning, "moves": moves}
    return json.dumps(told, separators=(",", ":")) + "\n"


def check_random(rows, count):
    source, board = random.Random(SEED + rows), Board(rows)
    told = winning = 0
    for place in range(count):
        while True:
            cells, turn, n = drawn(source, board), source.choice("WB"), source.randint(1, MOST)
            problems = Problems(board)
            try:
                found = effects(problems, cells, turn, n)
            except TooMany:
                continue
            break
        words = ["-n", str(n), "--board", str(rows)]
        position = fen(cells, turn)
        text, first = position + "\n", f"problem 1: {position}"
        wanted = report(first, found)
        written = run(DESK, ["moves", *words, *MEMOS[place % len(MEMOS)]], text)
        assert written == wanted, (position, n, written, wanted)
        written = run(DESK, ["moves", *words, "--json"], text)
        assert written == row(position, n, found, turn), (position, n, written)
        parts = source.randint(2, MOST_PARTS)
        pieces = []
        for part in range(1, parts + 1):
            some = part_of(found, part, parts)
            written = run(DESK, ["moves", *words, "--part", f"{part}/{parts}"], text)
            assert written == report(first, some), (position, n, part, parts, written)
            pieces.append(written.splitlines()[1:-1])
            written = run(DESK, ["moves", *words, "--json", "--part", f"{part}/{parts}"], text)
            assert written == row(position, n, some, turn), (position, n, part, parts, written)
        joined = [pieces[at % parts][at // parts] for at in range(len(found))]
        assert joined == lines_of(found), (position, n, parts, joined)
        verdict = run(DW, ["judge", *words], text).splitlines()[1]
        keys = [name for name, _, least, _ in found if least is not None]
        kind = verdict.split()[0]
        assert (kind == "unsolvable") == (not keys), (position, n, verdict, keys)
        if kind in ("cooked", "sound"):
            assert verdict.split(": ")[1].split(", ") == keys, (position, n, verdict, keys)
        told, winning = told + len(found), winning + len(keys)
    print(f"{rows} rows: {told} first moves of {count} positions, {winning} of them winning, whole and in parts",
          flush=True)


def check_later(rows, count):
    source, board = random.Random(SEED * rows), Board(rows)
    asked = told = 0
    while asked < count:
        cells, turn = drawn(source, board), source.choice("WB")
        problems, more = Problems(board), source.randint(1, MOST_LATER)
        try:
            n = next((k for k in range(1, MOST) if problems.wins(cells, turn, k)), None)
            if n is None:
                continue
            found = effects(problems, cells, turn, n + more)
        except TooMany:
            continue
        later = [(name, least) for name, _, least, _ in found if least is not None and least > n]
        words, text = ["find", "--most", str(MOST), "--board", str(rows)], fen(cells, turn) + "\n"
        lines = "".join(f"later {name} in {least}\n" for name, least in later)
        written = run(DESK, [*words, "--later", str(more), *MEMOS[asked % len(MEMOS)]], text)
        assert written == run(DESK, words, text) + lines, (text, more, written, lines)
        row, alone = (json.loads(run(DESK, [*words, "--json", *own], text)) for own in (["--later", str(more)], []))
        assert row == {**alone, "later": [list(one) for one in later]} and list(row)[-1] == "later", (text, more, row)
        asked, told = asked + 1, told + len(later)
    print(f"{rows} rows: {told} first moves of {count} positions win later", flush=True)


def check_rows():
    assert run(DESK, ["moves", "-n", "2"], ROW) == (
        "problem 1: W:W27,32:B18\n27-21 refuted by 18-22, 18-23\n27-22 refuted by 18x38\n32-28 wins in 2\n1 of 3 win\n")
    assert run(DESK, ["moves", "-n", "2", "--part", "2/2"], ROW) == (
        "problem 1: W:W27,32:B18\n27-22 refuted by 18x38\n0 of 1 win\n")
    assert run(DESK, ["moves", "-n", "1", "--part", "9/9"], ROW) == "problem 1: W:W27,32:B18\n0 of 0 win\n"
    assert run(DESK, ["moves", "-n", "1"], "W:W:B18\n") == "problem 1: W:W:B18\n0 of 0 win\n"
    assert run(DESK, ["moves", "-n", "2", "--problem", "2"], ROW + "W:W3:B20\n", 1) == (
        "problem 2: refused: 1 fen: 7 last row at 4\n")
    assert run(DESK, ["moves", "-n", "2", "--pdn"], '[FEN "W:W32:B28"]\n') == (
        "problem 1: W:W32:B28\n32x23 wins in 1\n1 of 1 win\n")
    assert run(DESK, ["moves", "-n", "2", "--json"], ROW) == (
        '{"problem":1,"fen":"W:W27,32:B18","n":2,"winning":1,"moves":[{"move":"27-21","fen":"B:W21,32:B18",'
        '"refuted_by":["18-22","18-23"]},{"move":"27-22","fen":"B:W22,32:B18","refuted_by":["18x38"]},'
        '{"move":"32-28","fen":"B:W27,28:B18","wins_in":2}]}\n')
    assert run(DESK, ["moves", "-n", "2", "--json", "--problem", "2"], ROW + "W:W3:B20\n", 1) == (
        '{"problem":2,"refused":"1 fen: 7 last row at 4"}\n')
    run(DESK, ["moves", "-n", "2", "--problem", "3"], ROW, 1, "dw-desk: no problem 3\n")
    for words in ([], ["-n", "0"], ["-n", "21"], ["-n", "2", "--part", "3/2"], ["-n", "2", "--part", "0/2"],
                  ["-n", "2", "--part", "1"], ["-n", "2", "--part", "1/1000001"], ["-n", "2", "--problem", "1-2"],
                  ["-n", "2", "--each", "5"], ["-n", "2", "--most", "3"]):
        ran = subprocess.run([DESK, "moves", *words], input=ROW.encode(), capture_output=True, timeout=600, check=False)
        assert (ran.returncode, ran.stdout) == (2, b"") and ran.stderr.startswith(b"error: "), (words, ran)
    print("the worked position, and the faults of the command", flush=True)


def main():
    count = count_asked(30)
    check_rows()
    for rows in (10, 8):
        check_random(rows, count)
        check_later(rows, count)


if __name__ == "__main__":
    main()
