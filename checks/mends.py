#!/usr/bin/env python3
"""mends.py: compares `dw-desk mend` with all changes made here, each judged by `dw judge`.

    checks/mends.py [--count POSITIONS]

For random small positions (8 on each board by default), within 1 or 2 moves, it makes all changes as docs/DESK.md
describes them. One run of `dw judge` judges the new positions, and the lines of the sound ones must be the same, in the
same order, with the same count. So must the parts, joined, and the JSON. With a bound of one position each line is
still a sound one, and the rest is counted. The errors of the command come last.
"""
import json
import pathlib
import random
import subprocess

from draughts import Board, fen
from judging import count_asked
from wins import drawn

TOP = pathlib.Path(__file__).resolve().parent.parent
DW, DESK = TOP / "dw", TOP / "dw-desk"
SEED, PARTS = 59, 3
KINDS = [("W", False), ("W", True), ("B", False), ("B", True)]
ROW = "W:W27,32:B18\n"


def letters(piece):
    side, king = piece
    return side + ("K" if king else "")


def is_position(rows, cells):
    """No side has too many pieces, and no man stands on its last row."""
    half, most = rows // 2, {10: 20, 8: 12}[rows]
    last = {"W": range(1, half + 1), "B": range(rows * half - half + 1, rows * half + 1)}
    return all(sum(side == whose for side, _ in cells.values()) <= most for whose in "WB") and \
        not any(not king and square in last[side] for square, (side, king) in cells.items())


def neighbours(rows, cells):
    """The changes that make a position, in order, and the positions."""
    squares = range(1, rows * rows // 2 + 1)
    changes = [(f"without {s}", {t: p for t, p in cells.items() if t != s}) for s in squares if s in cells]
    changes += [(f"with {letters(piece)}{s}", {**cells, s: piece}) for s in squares if s not in cells
                for piece in KINDS]
    changes += [(f"{s} to {t}", {**{u: p for u, p in cells.items() if u != s}, t: cells[s]})
                for s in squares if s in cells for t in squares if t not in cells]
    changes += [(f"{s} as {'man' if cells[s][1] else 'king'}", {**cells, s: (cells[s][0], not cells[s][1])})
                for s in squares if s in cells]
    return [(change, made) for change, made in changes if is_position(rows, made)]


def mend(words, text, status=0):
    ran = subprocess.run([DESK, "mend", *words], input=text.encode(), capture_output=True, timeout=600, check=False)
    assert (ran.returncode, ran.stderr) == (status, b""), (words, text, ran)
    return ran.stdout.decode().splitlines()


def rows_of(lines, n, count):
    """What is said in these lines and in the last one, as lines of JSON."""
    rows = []
    for line in lines:
        change, rest = line.split(": ", 1)
        position, key = rest.split(f", sound in {n}: ")
        rows.append({"change": change, "fen": position, "n": n, "key": key})
    rows.append({"sound": len(lines), "of": count, "undecided": 0})
    return [json.dumps(row, separators=(",", ":")) for row in rows]


def judged(words, made, turn):
    """The FEN text and the verdict of each position."""
    text = "".join(fen(cells, turn) + "\n" for _, cells in made)
    ran = subprocess.run([DW, "judge", *words], input=text.encode(), capture_output=True, timeout=600, check=True)
    firsts = ran.stdout.decode().split("problem ")[1:]
    assert len(firsts) == len(made), (len(firsts), len(made))
    return [first.split(": ", 1)[1].split("\n")[:2] for first in firsts]


def check_random(rows, count):
    source, board = random.Random(SEED + rows), Board(rows)
    sound = 0
    for _ in range(count):
        cells, turn, n = drawn(source, board), source.choice("WB"), source.randint(1, 2)
        words = ["-n", str(n), "--board", str(rows)]
        made = neighbours(rows, cells)
        lines = [f"{change}: {position}, {verdict}" if verdict.startswith(f"sound in {n}: ") else ""
                 for (change, _), (position, verdict) in zip(made, judged(words, made, turn), strict=True)]
        text = fen(cells, turn) + "\n"
        wanted = [line for line in lines if line]
        first, *said, last = mend(words, text)
        assert said == wanted and last == f"sound {len(wanted)} of {len(made)}", (text, n, said, wanted, last)
        for part in range(1, PARTS + 1):
            some = [line for place, line in enumerate(lines, 1) if place % PARTS == part % PARTS]
            those = [line for line in some if line]
            asked = mend([*words, "--part", f"{part}/{PARTS}"], text)
            assert asked == [first, *those, f"sound {len(those)} of {len(some)}"], (text, part, asked)
            asked = mend([*words, "--json", "--part", f"{part}/{PARTS}"], text)
            assert asked == rows_of(those, n, len(some)), (text, part, asked)
        sound += len(wanted)
    print(f"board {rows}: the neighbours of {count} positions, {sound} of them sound, whole and in parts", flush=True)


def check_bound():
    """A search that is cut off leaves a position undecided, and never a wrong line."""
    whole = mend(["-n", "2"], ROW)
    for memo in ("none", "deep"):
        first, *lines, last = mend(["-n", "2", "--each", "1", "--memo", memo], ROW, 1)
        assert first == whole[0] and set(lines) <= set(whole[1:-1]), lines
        counted, undecided = last.split(", ")
        assert counted == f"sound {len(lines)} of 310" and undecided.endswith(" undecided"), last
    assert mend(["-n", "2", "--each", "1000000"], ROW) == whole
    print("bounds of one position and of many", flush=True)


def check_faults():
    lines = mend(["-n", "2"], ROW)
    assert lines[0] == "problem 1: W:W27,32:B18" and lines[-1] == "sound 44 of 310" and len(lines) == 46, lines
    assert [lines[1], lines[2], lines[4], lines[44]] == [
        "without 27: W:W32:B18, sound in 2: 32-28", "with W17: W:W17,27,32:B18, sound in 2: 32-28",
        "18 to 11: W:W27,32:B11, sound in 2: 27-21", "32 to 34: W:W27,34:B18, sound in 2: 34-29"], lines
    rows = mend(["-n", "2", "--json"], ROW)
    assert rows[0] == '{"change":"without 27","fen":"W:W32:B18","n":2,"key":"32-28"}' and len(rows) == 45, rows
    assert rows[-1] == '{"sound":44,"of":310,"undecided":0}', rows
    assert mend(["-n", "2", "--problem", "2"], ROW + "W:W3:B20\n", 1) == [
        "problem 2: refused: 1 fen: 7 last row at 4"]
    assert mend(["-n", "2", "--json", "--problem", "2"], ROW + "W:W3:B20\n", 1) == [
        '{"problem":2,"refused":"1 fen: 7 last row at 4"}']
    ran = subprocess.run([DESK, "mend", "-n", "2", "--problem", "3"], input=ROW.encode(), capture_output=True,
                         timeout=600, check=False)
    assert (ran.returncode, ran.stdout, ran.stderr) == (1, b"", b"dw-desk: no problem 3\n"), ran
    for words in ([], ["-n", "0"], ["-n", "2", "--part", "3/2"], ["-n", "2", "--part", "0/2"],
                  ["-n", "2", "--part", "1"], ["-n", "2", "--part", "1/1000001"], ["-n", "2", "--problem", "1-2"],
                  ["-n", "2", "--each", "0"]):
        ran = subprocess.run([DESK, "mend", *words], input=ROW.encode(), capture_output=True, timeout=600, check=False)
        assert (ran.returncode, ran.stdout) == (2, b"") and ran.stderr.startswith(b"error: "), (words, ran)
    print("the worked position, and the faults of the command", flush=True)


def main():
    count = count_asked(8)
    check_faults()
    check_bound()
    for rows in (10, 8):
        check_random(rows, count)


if __name__ == "__main__":
    main()
