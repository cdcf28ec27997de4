#!/usr/bin/env python3
"""random_moves.py: compares `dw moves` with a plain generator on random positions.

    checks/random_moves.py [--count POSITIONS]

It uses the rules of draughts.py and follows docs/REPORT.md. For random positions (100,000 by default), half of them on
each board, from two pieces to full boards, with few or many kings, it makes the whole report of `dw moves`, and the
rows of `dw moves --json` and `dw show --json`. They must be the same, byte for byte.
"""
import itertools
import json
import pathlib
import random
import subprocess
import sys

from draughts import Board, fen, other, play
from judging import Problems, count_asked

DW = pathlib.Path(__file__).resolve().parent.parent / "dw"
SEED = 16
AT_ONCE = 2000


def drawn(source, board):
    """A random position: up to as many pieces as a side may have, and no man on its last row."""
    most = 20 if board.rows == 10 else 12
    squares = source.sample(board.squares, source.randint(2, min(2 * most, len(board.squares) - 1)))
    kings = source.choice([0, 0, 0.1, 0.3]) if len(squares) > 12 else source.choice([0, 0.2, 0.6])
    apart = source.choice([0, 0.9, 1])  # how many stand on their own half, so that less can be taken
    cells, left = {}, {"W": most, "B": most}
    for square in squares:
        side = source.choice("WB") if source.random() >= apart else "BW"[square > len(board.squares) // 2]
        if left[side]:
            left[side] -= 1
            cells[square] = (side, board.is_last(side, square) or source.random() < kings)
    return cells, source.choice("WB")


def report(problems, number, cells, turn):
    yield f"problem {number}: {fen(cells, turn)}"
    found = problems.moves(cells, turn)
    for move, _ in found:
        yield f"{problems.text(cells, turn, move)} {fen(play(problems.board, cells, move), other(turn))}"
    yield f"moves {len(found)} taking {len(found[0][0][2]) if found else 0}"


def row(problems, number, cells, turn):
    """The row of `show`, and that of `moves`."""
    front, found = {"problem": number, "fen": fen(cells, turn)}, problems.moves(cells, turn)
    pairs = [[problems.text(cells, turn, move), fen(play(problems.board, cells, move), other(turn))]
             for move, _ in found]
    whole = {**front, "taking": len(found[0][0][2]) if found else 0, "moves": pairs}
    return [json.dumps(told, separators=(",", ":")) for told in (front, whole)]


def compare(words, rows, text, wanted):
    ran = subprocess.run([DW, *words, "--board", str(rows)], input=text, capture_output=True, text=True, timeout=3600,
                         check=False)
    if (ran.returncode, ran.stderr) != (0, ""):
        sys.exit(f"random_moves.py: {words}: status {ran.returncode}, {ran.stderr!r}")
    if ran.stdout != "".join(line + "\n" for line in wanted):
        lines = itertools.zip_longest(ran.stdout.splitlines(), wanted)
        first = next(((here, there) for here, there in lines if here != there), None)
        sys.exit(f"random_moves.py: {words}, {rows} rows: written and wanted: {first}")


def check(rows, count, source):
    board, moves, captures = Board(rows), 0, 0
    for start in range(0, count, AT_ONCE):
        positions = [drawn(source, board) for _ in range(min(AT_ONCE, count - start))]
        wanted, told, problems = [], [], Problems(board)
        for number, (cells, turn) in enumerate(positions, 1):
            problems.lists.clear()
            wanted += report(problems, number, cells, turn)
            told.append(row(problems, number, cells, turn))
            here = problems.moves(cells, turn)
            moves, captures = moves + len(here), captures + bool(here and here[0][0][2])
        text = "".join(fen(cells, turn) + "\n" for cells, turn in positions)
        compare(["moves"], rows, text, wanted)
        compare(["show", "--json"], rows, text, [shown for shown, _ in told])
        compare(["moves", "--json"], rows, text, [listed for _, listed in told])
    print(f"random_moves.py: {rows} rows: {count} positions, {moves} moves, captures in {captures}: the same bytes, "
          "also as JSON")


def main():
    count, source = count_asked(100_000), random.Random(SEED)
    check(10, count - count // 2, source)
    check(8, count // 2, source)


if __name__ == "__main__":
    main()
