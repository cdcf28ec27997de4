#!/usr/bin/env python3
"""same.py: compares `dw-desk same` with a comparison of each problem with all before it.

    checks/same.py [--count FILES]

For random files of few problems on each board (200 by default, half of them on each), in which many repeat an earlier
one, turned or not, and some are refused, a plain loop finds the first problem that is the same. The output must be the
same, in words and in JSON, with the same status, for the whole file, for a portion of it, and for a PDN file.
"""
import json
import pathlib
import random
import subprocess

from draughts import Board, fen, other
from judging import count_asked

TOP = pathlib.Path(__file__).resolve().parent.parent
DESK = TOP / "dw-desk"
SEED, MOST_PROBLEMS, MOST_PIECES = 83, 12, 4
REFUSED = [("x", "1 fen: 1 turn at 1"), ("W:W0:B1", "1 fen: 4 number at 4")]


def run(words, text):
    ran = subprocess.run([DESK, "same", *words], input=text, capture_output=True, text=True, timeout=600, check=False)
    assert ran.stderr == "", (words, text, ran)
    return ran.returncode, ran.stdout


def turned(board, cells, turn):
    """The board seen from the other side, with the other colours."""
    last = len(board.squares) + 1
    return {last - square: (other(side), king) for square, (side, king) in cells.items()}, other(turn)


def drawn(source, board):
    """A position with few pieces on few squares, so that some positions come again by chance."""
    cells = {}
    for square in source.sample(board.squares, source.randint(1, MOST_PIECES)):
        side, king = source.choice("WB"), source.random() < 0.3
        cells[square] = (side, king or board.is_last(side, square))
    return cells, source.choice("WB")


def near(source, board, cells, turn):
    """A position that is like another one, and mostly not the same."""
    if not cells:
        return cells, other(turn)
    changed = dict(cells)
    square = source.choice(list(changed))
    side, king = changed.pop(square)
    kind = source.randrange(5)
    if kind == 0:
        return cells, other(turn)
    if kind == 1:
        return {len(board.squares) + 1 - at: (side, True) for at, (side, _) in cells.items()}, other(turn)
    if kind == 2:
        changed[square] = (other(side), True)
    elif kind == 3:
        changed[square] = (side, not king or board.is_last(side, square))
    return changed, turn


def file_of(source, board):
    """The problems of a file: each a position, or what a refused one has."""
    problems, known = [], []
    for _ in range(source.randint(0, MOST_PROBLEMS)):
        kind = source.random()
        if kind < 0.1:
            problems.append(source.choice(REFUSED))
            continue
        if known and kind < 0.35:
            position = source.choice(known)
        elif known and kind < 0.6:
            position = turned(board, *source.choice(known))
        elif known and kind < 0.75:
            position = near(source, board, *source.choice(known))
        else:
            position = drawn(source, board)
        known.append(position)
        problems.append(position)
    return problems


def is_refused(problem):
    return isinstance(problem[0], str)


def answer(board, problems, first, last):
    """The lines of the problems from `first` to `last` in words and in JSON, and the status."""
    words, rows, seen, repeated, bad = [], [], [], 0, 0
    for number, problem in enumerate(problems, 1):
        if not first <= number <= last:
            continue
        if is_refused(problem):
            words.append(f"problem {number}: refused: {problem[1]}")
            rows.append({"problem": number, "refused": problem[1]})
            bad += 1
            continue
        text = fen(*problem)
        for earlier, cells, turn in seen:
            if (cells, turn) == problem:
                kind, name = "same as", "same_as"
            elif turned(board, cells, turn) == problem:
                kind, name = "turned", "turned"
            else:
                continue
            words.append(f"problem {number}: {text} {kind} {earlier}")
            rows.append({"problem": number, "fen": text, name: earlier})
            repeated += 1
            break
        seen.append((number, *problem))
    words.append(f"{repeated} of {len(seen)} repeated")
    rows.append({"repeated": repeated, "of": len(seen)})
    told = "".join(json.dumps(row, separators=(",", ":")) + "\n" for row in rows)
    return int(bad + repeated > 0), "".join(line + "\n" for line in words), told


def line_of(problem):
    return problem[0] if is_refused(problem) else fen(*problem)


def check_random(rows, count):
    source, board = random.Random(SEED + rows), Board(rows)
    told = repeats = 0
    for _ in range(count):
        problems = file_of(source, board)
        text = "".join(line_of(problem) + "\n" for problem in problems)
        sections = "".join(f'[Event "x"]\n[FEN "{line_of(problem)}"]\n\n*\n\n' for problem in problems)
        status, words, json_rows = answer(board, problems, 1, len(problems))
        own = ["--board", str(rows)]
        assert run(own, text) == (status, words), (text, words)
        assert run([*own, "--json"], text) == (status, json_rows), (text, json_rows)
        assert run([*own, "--pdn"], sections) == (status, words), (sections, words)
        if problems:
            first = source.randint(1, len(problems))
            last = source.randint(first, len(problems))
            status, some, _ = answer(board, problems, first, last)
            assert run([*own, "--problem", f"{first}-{last}"], text) == (status, some), (text, first, last, some)
        told, repeats = told + len(problems), repeats + words.count("same as") + words.count("turned")
    assert repeats > count, repeats
    print(f"{rows} rows: {told} problems of {count} files, {repeats} of them repeated", flush=True)


def main():
    count = count_asked(200)
    for rows in (10, 8):
        check_random(rows, count // 2)


if __name__ == "__main__":
    main()
