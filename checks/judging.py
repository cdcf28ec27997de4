#!/usr/bin/env python3
"""judging.py: compares `dw judge` and `dw list` with reports made here, by plain recursion over all moves.

    checks/judging.py [--count POSITIONS]

It uses the rules of draughts.py and follows docs/REPORT.md. It shares nothing with the solver: it orders no moves and
cuts nothing. For random small positions (500 by default; two thirds of them with a win) on both boards, and for wins in
1 to 3 moves, it makes the whole report of each command, with all lines, with the first one or two, and with the rest
after a token. Each must be the program's report, byte for byte.
"""
import argparse
import itertools
import pathlib
import random
import subprocess
import sys
import tempfile

from draughts import Board, fen, listed, other, play
from wins import drawn

DW = pathlib.Path(__file__).resolve().parent.parent / "dw"
SEED = 15
MOST = 3
# A position is left out if the recursion meets more positions than this, or if it has more lines.
ROOM, MOST_LINES = 4000, 3000


class TooMany(Exception):
    """The recursion has no room left."""


class Problems:
    """What holds of positions on a board."""

    def __init__(self, board):
        self.board, self.lists, self.answers = board, {}, {}

    def moves(self, cells, turn):
        place = (frozenset(cells.items()), turn)
        if place not in self.lists:
            if len(self.lists) >= ROOM:
                raise TooMany
            self.lists[place] = listed(self.board, cells, turn)
        return self.lists[place]

    def after(self, cells, turn):
        return [(move, play(self.board, cells, move)) for move, _ in self.moves(cells, turn)]

    def wins(self, cells, turn, n):
        place = (frozenset(cells.items()), turn, n)
        if place not in self.answers:
            moves = self.after(cells, turn) if n > 0 else []
            self.answers[place] = any(self.loses(then, other(turn), n - 1) for _, then in moves)
        return self.answers[place]

    def loses(self, cells, turn, n):
        return all(self.wins(then, other(turn), n) for _, then in self.after(cells, turn))

    def keys(self, cells, turn, n):
        return [move for move, then in self.after(cells, turn) if n > 0 and self.loses(then, other(turn), n - 1)]

    def lines(self, cells, turn, n):
        for key in self.keys(cells, turn, n):
            then = play(self.board, cells, key)
            replies = self.after(then, other(turn))
            if not replies:
                yield [key]
            for reply, later in replies:
                for rest in self.lines(later, turn, n - 1):
                    yield [key, reply, *rest]

    def dual(self, cells, turn, n):
        """The first place along the lines, after some turns, at which the attacker has a choice."""
        for key in self.keys(cells, turn, n):
            for reply, later in self.after(play(self.board, cells, key), other(turn)):
                choices = self.keys(later, turn, n - 1)
                if len(choices) >= 2:
                    return [key, reply], later, choices
                found = self.dual(later, turn, n - 1)
                if found:
                    return [key, reply, *found[0]], found[1], found[2]
        return None

    # TEXTS

    def text(self, cells, turn, move):
        moves = self.moves(cells, turn)
        if not move[2]:
            return f"{move[0]}-{move[1]}"
        alike = [m for m, _ in moves if m[:2] == move[:2]]
        return "x".join(map(str, dict(moves)[move] if len(alike) > 1 else move[:2]))

    def line_text(self, cells, turn, line):
        words = []
        for ply, move in enumerate(line):
            words += [f"{ply // 2 + 1}."] * (ply % 2 == 0) + [self.text(cells, turn, move)]
            cells, turn = play(self.board, cells, move), other(turn)
        return " ".join(words)

    def token(self, line):
        made = bytes([2, self.board.rows, len(line)])
        for square, to, taken in line:
            made += bytes([square, to]) + sum(1 << (s - 1) for s in taken).to_bytes(8, "big")
        return made.hex()

    def judged(self, cells, turn, n):
        keys = self.keys(cells, turn, n)
        texts = ", ".join(self.text(cells, turn, key) for key in keys)
        if not keys:
            yield f"unsolvable in {n}"
        elif len(keys) > 1 or self.wins(cells, turn, n - 1):
            shortest = next(j for j in itertools.count(1) if self.wins(cells, turn, j))
            yield f"cooked in {n}, shortest {shortest}: {texts}"
        elif dual := self.dual(cells, turn, n):
            choices = " / ".join(self.text(dual[1], turn, choice) for choice in dual[2])
            yield f"dual in {n}: {self.line_text(cells, turn, dual[0])} {len(dual[0]) // 2 + 1}. {choices}"
        else:
            yield f"sound in {n}: {texts}"
        for move, then in self.after(cells, turn):
            left = [reply for reply, later in self.after(then, other(turn)) if not self.wins(later, turn, n - 1)]
            if len(left) == 1:
                yield f"try {self.text(cells, turn, move)} refuted by {self.text(then, other(turn), left[0])}"

    def listing(self, cells, turn, lines, most):
        for line in lines[:most]:
            yield self.line_text(cells, turn, line)
        yield f"complete {len(lines)}" if len(lines) <= most else f"more after {self.token(lines[most - 1])}"


def position(source, board, wins):
    """A random small position for which the recursion has room, with a win if one is asked for.

    Beside it stand what holds of it, and its lines and its judgement by the number of moves."""
    while True:
        cells, turn, problems = drawn(source, board), source.choice("WB"), Problems(board)
        try:
            lines = [list(itertools.islice(problems.lines(cells, turn, n), MOST_LINES + 1)) for n in range(1, MOST + 1)]
            reports = [list(problems.judged(cells, turn, n)) for n in range(1, MOST + 1)]
        except TooMany:
            continue
        if len(lines[-1]) <= MOST_LINES and (lines[-1] or not wins):
            return cells, turn, problems, lines, reports


def report(texts):
    return "".join(f"problem {number}: {first}\n" + "".join(line + "\n" for line in rest)
                   for number, (first, rest) in enumerate(texts, 1))


def compare(name, words, wanted):
    ran = subprocess.run([DW, *words], capture_output=True, text=True, timeout=3600, check=False)
    if (ran.returncode, ran.stdout, ran.stderr) != (0, wanted, ""):
        lines = itertools.zip_longest(ran.stdout.splitlines(), wanted.splitlines())
        first = next(((here, there) for here, there in lines if here != there), None)
        sys.exit(f"{name}: status {ran.returncode}, {ran.stderr!r}; written and wanted: {first}")


def check(rows, count, source, folder):
    board = Board(rows)
    found = [position(source, board, number % 3 > 0) for number in range(count)]
    firsts = [fen(cells, turn) for cells, turn, *_ in found]
    file = folder / "positions.fen"
    file.write_text("".join(first + "\n" for first in firsts))
    written, verdicts, resumed = 0, {}, 0
    for n in range(1, MOST + 1):
        common = ["-n", str(n), "--board", str(rows), str(file)]
        judged = [(first, reports[n - 1]) for first, (*_, reports) in zip(firsts, found)]
        compare(f"judge on {rows} rows in {n}", ["judge", *common], report(judged))
        for _, (verdict, *tries) in judged:
            kind = verdict.split()[0]
            verdicts[kind] = verdicts.get(kind, 0) + 1
            verdicts["tries"] = verdicts.get("tries", 0) + len(tries)
        for most in (1, 2, MOST_LINES):
            listed_texts = [(first, list(problems.listing(cells, turn, lines[n - 1], most)))
                            for first, (cells, turn, problems, lines, _) in zip(firsts, found)]
            compare(f"list on {rows} rows in {n}", ["list", "--lines", str(most), *common], report(listed_texts))
        written += sum(len(lines[n - 1]) for *_, lines, _ in found)
        # Behind a token of each of some lists.
        for number, (cells, turn, problems, lines, _) in enumerate(found, 1):
            lines = lines[n - 1]
            if len(lines) > 1 and resumed < 40 * n:
                resumed += 1
                place = source.randrange(len(lines))
                rest = problems.listing(cells, turn, lines[place + 1 :], MOST_LINES)
                wanted = f"problem {number}: {firsts[number - 1]}\n" + "".join(line + "\n" for line in rest)
                words = ["list", "--problem", str(number), "--after", problems.token(lines[place]), *common]
                compare(f"list after a token on {rows} rows", words, wanted)
    print(f"{rows} rows: {count} positions, {verdicts}, {written} lines, {resumed} lists after a token:",
          "the same bytes")


def count_asked(usually):
    """How many random positions are asked for, or as many as usually."""
    words = argparse.ArgumentParser()
    words.add_argument("--count", type=int, default=usually)
    return words.parse_args().count


def main():
    count, source = count_asked(500), random.Random(SEED)
    with tempfile.TemporaryDirectory() as name:
        for rows in (10, 8):
            check(rows, count, source, pathlib.Path(name))


if __name__ == "__main__":
    main()
