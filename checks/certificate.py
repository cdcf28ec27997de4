#!/usr/bin/env python3
"""Checks a certificate of dw-desk from FILE or standard input.

It is installed as dw-certificate.

It has its own rules of the game, makes no search and uses no other module. It prints `right`, status 0, or the first
wrong line with its number and the reason, status 1. Status 3: the file cannot be read.
"""

import functools
import os
import re
import sys

MOST_PIECES = {10: 20, 8: 12}
WAYS = [(down, right) for down in (-1, 1) for right in (-1, 1)]


class Wrong(Exception):
    """A line is not right: its number, and why."""


def rays_of(rows):
    """For each square the squares on its four diagonals, the nearest first, by direction: down or up, right or left."""
    width = rows // 2
    rays = {}
    for square in range(1, rows * width + 1):
        row = (square - 1) // width
        column = 2 * ((square - 1) % width) + (1 - row % 2)
        for way in WAYS:
            places = [(row + far * way[0], column + far * way[1]) for far in range(1, rows)]
            rays[square, way] = [at * width + across // 2 + 1 for at, across in places
                                 if 0 <= at < rows and 0 <= across < rows]
    return rays


class Board:
    """A board of 10 or 8 rows. A position is the side to move and a map from squares to pieces, as `W`, `WK`, `B`."""

    def __init__(self, rows):
        self.rows = rows
        self.rays = rays_of(rows)

    def is_last(self, side, square):
        row = (square - 1) // (self.rows // 2)
        return row == (0 if side == 'W' else self.rows - 1)

    def read(self, text, number):
        """The position of a FEN in the form that is written: White's pieces and Black's, by ascending squares."""
        form = re.fullmatch(r'([WB]):W((?:K?\d\d?(?:,K?\d\d?)*)?):B((?:K?\d\d?(?:,K?\d\d?)*)?)', text)
        if not form:
            raise Wrong(number, 'no position')
        pieces = {}
        for side, items in (('W', form[2]), ('B', form[3])):
            words = items.split(',') if items else []
            numbers = [int(word.lstrip('K')) for word in words]
            if numbers != sorted(set(numbers)) or len(numbers) > MOST_PIECES[self.rows]:
                raise Wrong(number, 'no position')
            for word, square in zip(words, numbers):
                if str(square) != word.lstrip('K') or not 1 <= square <= self.rows * self.rows // 2:
                    raise Wrong(number, 'no position')
                if square in pieces or ('K' not in word and self.is_last(side, square)):
                    raise Wrong(number, 'no position')
                pieces[square] = side + ('K' if 'K' in word else '')
        return form[1], frozenset(pieces.items())

    def captures(self, pieces, square, piece, taken):
        """Where rows of jumps from a square end, and what each takes. What is taken stands to the end."""
        yield square, taken
        for way in WAYS:
            ray = self.rays[square, way]
            clear = next((place for place, at in enumerate(ray) if at in pieces), len(ray))
            if clear == len(ray) or len(piece) == 1 and clear > 0:
                continue
            met = ray[clear]
            if met in taken or pieces[met][0] == piece[0]:
                continue
            for landing in ray[clear + 1:clear + 2] if len(piece) == 1 else ray[clear + 1:]:
                if landing in pieces:
                    break
                yield from self.captures(pieces, landing, piece, taken | {met})

    def quiet(self, pieces, square, piece):
        """Where a piece can go without taking anything."""
        for way in WAYS:
            if len(piece) == 1 and way[0] != (-1 if piece == 'W' else 1):
                continue
            for landing in self.rays[square, way][:1 if len(piece) == 1 else None]:
                if landing in pieces:
                    break
                yield landing

    @functools.lru_cache(maxsize=None)
    def after(self, position):
        """All positions after a legal move."""
        side, held = position
        pieces = dict(held)
        own = [(square, piece) for square, piece in pieces.items() if piece[0] == side]
        moves = []
        for square, piece in own:
            others = {at: what for at, what in pieces.items() if at != square}
            for end, taken in set(self.captures(others, square, piece, frozenset())):
                if taken:
                    moves.append((len(taken), square, end, taken))
        most = max((move[0] for move in moves), default=0)
        moves = [move[1:] for move in moves if move[0] == most]
        if not moves:
            moves = [(square, end, ()) for square, piece in own for end in self.quiet(pieces, square, piece)]
        return {self.played(side, pieces, move) for move in moves}

    def played(self, side, pieces, move):
        square, end, taken = move
        after = {at: what for at, what in pieces.items() if at != square and at not in taken}
        after[end] = side + 'K' if self.is_last(side, end) else pieces[square]
        return 'B' if side == 'W' else 'W', frozenset(after.items())


def bound(word, number):
    """A bound, or None for a dash."""
    if word == '-':
        return None
    if not re.fullmatch(r'[1-9]\d?', word) or int(word) > 20:
        raise Wrong(number, f'no bound: {word}')
    return int(word)


def read_entry(board, line, number):
    """The position of a line, and its two bounds."""
    form = re.fullmatch(r'(\S+) fails (\S+) wins (\S+)', line)
    if not form:
        raise Wrong(number, 'no position with its bounds')
    return board.read(form[1], number), bound(form[2], number), bound(form[3], number)


def doubt(board, entries, position, fails, wins):
    """Why a position's bounds do not follow from the other lines, or None if they do."""
    def wins_below(next_position, moves):
        held = entries.get(next_position)
        return held is not None and held[1] is not None and held[1] < moves

    def fails_from(next_position, moves):
        held = entries.get(next_position)
        return moves == 0 or held is not None and held[0] is not None and held[0] >= moves

    if wins is not None and not any(
            all(wins_below(reply, wins) for reply in board.after(move)) for move in board.after(position)):
        return f'no move wins in {wins}'
    if fails is not None and not all(
            any(fails_from(reply, fails - 1) for reply in board.after(move)) for move in board.after(position)):
        return f'some move has no reply that keeps it from a win in {fails}'
    return None


def check(text):
    """Raises Wrong if a certificate is not right."""
    *lines, end = text.split('\n')
    if end != '':
        raise Wrong(len(lines) + 1, 'it has no end')
    lines += [''] * (4 - len(lines))
    if lines[0] != 'certificate 1':
        raise Wrong(1, 'no certificate')
    if lines[1] not in ('board 10', 'board 8'):
        raise Wrong(2, 'no board')
    board = Board(int(lines[1].split()[1]))
    position = board.read(lines[2], 3)
    answer = re.fullmatch(r'(no )?win in ([1-9]\d?)', lines[3])
    if not answer or int(answer[2]) > 20:
        raise Wrong(4, 'no answer')
    entries = {}
    for number, line in enumerate(lines[4:], 5):
        held, fails, wins = read_entry(board, line, number)
        if held in entries:
            raise Wrong(number, 'the position stands twice')
        entries[held] = fails, wins
    fails, wins = entries.get(position, (None, None))
    n = int(answer[2])
    if not (fails is not None and fails >= n if answer[1] else wins is not None and wins <= n):
        raise Wrong(4, 'the lines below do not say so')
    for number, (held, bounds) in enumerate(entries.items(), 5):
        why = doubt(board, entries, held, *bounds)
        if why:
            raise Wrong(number, why)


def main():
    name = os.path.basename(sys.argv[0])
    if sys.argv[1:] in (['-h'], ['--help']):
        print(f'Usage: {name} [FILE]')
        return 0
    if len(sys.argv) > 2:
        print(f'Usage: {name} [FILE]', file=sys.stderr)
        return 2
    try:
        with open(sys.argv[1] if len(sys.argv) == 2 else 0, 'rb') as stream:
            check(stream.read().decode('ascii', 'backslashreplace'))  # no form has a backslash
    except OSError as fault:
        print(f'{name}: {fault}', file=sys.stderr)
        return 3
    except Wrong as wrong:
        print(f'line {wrong.args[0]}: {wrong.args[1]}')
        return 1
    print('right')
    return 0


if __name__ == '__main__':
    sys.exit(main())
