#!/usr/bin/env python3
"""wins.py: makes the rows of small positions and least numbers of moves for the tests of the solver.

It uses plain recursion on the rules of draughts.py: no cache, no order of moves, nothing of the solver. The rows are
its output, and stand in crates/dw_tests/stdin, as `checks/all.py wins` checks:

    python3 checks/wins.py

Positions come from a fixed seed, the same number of each kind: by the least number of moves (1, 2 or 3, or none up to
3), with a king or only men, with or without a capture at the start, and by the side to move.
"""
import itertools
import random

from draughts import Board, fen, moves, other, play

SEED = 2026
MOST = 3
# A position whose recursion looks at the moves of more positions than this is left out, so that the tests stay quick.
ROOM = 300
TURNS = "WB"
# How the tests ask each row: by searches and by lists of lines, with these caches, in these orders of moves.
HEAD = "least {rows} none,lru:1000,slots:1000,deep:1000 any,end,trial"


class TooLong(Exception):
    """The recursion has no room left."""


class Recursion:
    """Bare recursion over all moves, which counts the positions whose moves it looks at."""

    def __init__(self, board):
        self.board, self.count = board, 0

    def after(self, cells, turn):
        self.count += 1
        if self.count > ROOM:
            raise TooLong
        # In order, so that the same positions are left out in each run.
        for move in sorted(moves(self.board, cells, turn), key=lambda move: (move[0], move[1], sorted(move[2]))):
            yield play(self.board, cells, move)

    def wins(self, cells, turn, number):
        """A win within some number: a legal move after whose every reply there is a win within one less."""
        return number > 0 and any(self.loses(after, other(turn), number - 1) for after in self.after(cells, turn))

    def loses(self, cells, turn, number):
        """Every reply leaves the other side a win within so many moves; so it is if there is no reply."""
        return all(self.wins(after, other(turn), number) for after in self.after(cells, turn))

    def least(self, cells, turn, most):
        return next((number for number in range(1, most + 1) if self.wins(cells, turn, number)), 0)


def drawn(source, board):
    """Two to six pieces near each other, at least one of each side, none of them a man on its last row."""
    rows = source.randint(3, board.rows)
    first = source.randint(0, board.rows - rows) * board.per_row
    near = board.squares[first : first + rows * board.per_row]
    sides = source.sample("WB", 2) + source.choices("WB", k=source.randint(0, 4))
    share = source.choice([0, 0, 0.5])
    cells = {}
    for square, side in zip(source.sample(near, len(sides)), sides):
        cells[square] = (side, board.is_last(side, square) or source.random() < share)
    return cells


def kind_of(board, cells, turn):
    king = any(king for _, king in cells.values())
    capture = any(move[2] for move in moves(board, cells, turn))
    return king, capture, turn


def found_in(board, cells, turn, wanted):
    """The least number, if it is one of the wanted ones and the recursion has room."""
    try:
        least = Recursion(board).least(cells, turn, MOST if 0 in wanted else max(wanted))
    except TooLong:
        return None
    return least if least in wanted else None


def table(rows, each):
    """As many different positions of each kind."""
    source, board = random.Random(SEED), Board(rows)
    found = {kind: {} for kind in itertools.product(range(MOST + 1), (False, True), (False, True), TURNS)}
    while any(len(positions) < each for positions in found.values()):
        cells, turn = drawn(source, board), source.choice(TURNS)
        kind = kind_of(board, cells, turn)
        wanted = [number for number in range(MOST + 1) if len(found[(number, *kind)]) < each]
        least = found_in(board, cells, turn, wanted) if wanted else None
        if least is not None:
            found[(least, *kind)][fen(cells, turn)] = least
    return [row for positions in found.values() for row in positions.items()]


def printed(rows, each):
    print(HEAD.format(rows=rows))
    for text, least in table(rows, each):
        print(f"  {text} = {least}")


def main():
    printed(10, 8)
    printed(8, 2)


if __name__ == "__main__":
    main()
