#!/usr/bin/env python3
"""perft.py: counts lines of play by the plain rules of draughts.py, and compares the counts with those of dw_bench.

    checks/perft.py [ROWS TURN WHITE BLACK DEPTH]     as in 6 W 13-18 1-6 7

It prints the number of lines of 1, 2, 3 and more moves from a position: without arguments from one on the board of six
rows, one on the board of eight, and the three of dw_bench. The counts of these three must be those in
crates/dw_bench/stdout.
"""
import pathlib
import sys

from draughts import Board, moves, other, pieces, play

STORED = pathlib.Path(__file__).resolve().parent.parent / "crates/dw_bench/stdout"


def perft(board, cells, turn, depth):
    if depth == 0:
        return 1
    found = moves(board, cells, turn)
    if depth == 1:
        return len(found)
    return sum(perft(board, play(board, cells, move), other(turn), depth - 1) for move in found)


def counted(rows, turn, white, black, depth):
    """The counts from a position, which are printed."""
    board = Board(int(rows))
    cells = dict(pieces("W", white)) | dict(pieces("B", black))
    counts = [perft(board, cells, turn, n) for n in range(1, int(depth) + 1)]
    print(rows, turn, white, black, *counts, flush=True)
    return counts


def stored(turn, white, black):
    """The counts of a position in the stored run of dw_bench."""
    wanted, counts = (turn, {*pieces("W", white), *pieces("B", black)}), None
    for line in STORED.read_text().splitlines():
        if ":" in line:
            fields = line.split(":")
            listed = {piece for field in fields[1:] for piece in pieces(field[0], field[1:])}
            if counts is not None:
                break
            counts = [] if (fields[0], listed) == wanted else None
        elif counts is not None:
            counts.append(int(line))
    assert counts, f"{STORED} has no such position"
    return counts


def main():
    if len(sys.argv) == 6:
        counted(*sys.argv[1:])
        return
    counted(6, "W", "13-18", "1-6", 8)
    counted(8, "W", "21-32", "1-12", 5)
    for turn, white, black, depth in [
        ("B", "31-50", "1-20", 4),
        ("W", "25,27,28,30,32-35,37,38", "12-14,16,18,19,21,23,24,26", 7),
        ("B", "6,9-11,20-23,30,K31,33,37,41-44,46", "K17,K24", 3),
    ]:
        counts = counted(10, turn, white, black, depth)
        assert counts == stored(turn, white, black)[:depth], "dw_bench has other counts"
    print("the counts of dw_bench are the same")


if __name__ == "__main__":
    main()
