#!/usr/bin/env python3
"""collection.py: makes the first problems of examples/collection.pdn again, by a random search with a seed.

    checks/collection.py [--count PROBLEMS]

It prints the first five problems, or --count of them. The whole file is its output with --count 100.

Problems grow backwards. A random position that White wins in one move is the start. Random last moves of Black and
White are taken back, and `dw judge` says whether White wins from there in one move more. Sound positions grow on. An
ending starts with up to five scattered pieces. A combination starts with a path of at least five captures by one white
piece, and each earlier turn left Black only one reply.

KINDS says how many problems of each growth, verdict and number of moves are chosen, with how many pieces a side. Quiet
keys come first, then problems with tries, fewer pieces and more tries. No two problems of a kind have the same numbers
of men and kings, and no two grew from the same start. No solution has more than MOST_LINES lines. Each fifth problem is
turned round, so that Black wins.
"""
import collections
import dataclasses
import functools
import pathlib
import random
import re
import subprocess
from collections.abc import Callable

from draughts import WAYS, Board, fen, moves, other, play
from judging import count_asked

TOP = pathlib.Path(__file__).resolve().parent.parent
DW, DESK = TOP / "dw", TOP / "dw-desk"
BOARD = Board(10)
SEED = 100
MOST_LINES = 30
# So many positions of a number of moves grow on, so many of them from one beginning, and to so many others from each.
WIDTH, ALIKE, MOST_GROWN = 1000, 5, 10


@dataclasses.dataclass(frozen=True)
class Kind:
    """Some problems of the collection, and what they have in common."""
    growth: str
    verdict: str
    moves: int
    count: int
    pieces: range  # on each side


FEW, SOME, MANY = range(1, 6), range(2, 9), range(6, 13)
KINDS = [
    *(Kind("endgames", "sound", n, count, FEW) for n, count in ((2, 10), (3, 9), (4, 8), (5, 6), (6, 3))),
    *(Kind("combinations", "sound", n, count, SOME) for n, count in ((2, 9), (3, 9), (4, 8), (5, 4))),
    *(Kind("combinations", "sound", n, count, MANY) for n, count in ((4, 6), (5, 7), (6, 6), (7, 5))),
    *(Kind("endgames", "dual", n, 2, range(2, 6)) for n in (2, 3, 4)),
    *(Kind("endgames", "cooked", n, 1, range(2, 6)) for n in (2, 3)),
    Kind("combinations", "cooked", 3, 2, SOME),
]


@dataclasses.dataclass(frozen=True)
class Found:
    """A position with White to move, the number of the beginning that it grew from, and what `dw judge` says of it."""
    text: str
    cells: dict
    beginning: int
    verdict: str
    tries: int

    def fits(self, kind):
        """Whether it is of this kind."""
        sides = collections.Counter(side for side, _ in self.cells.values())
        return self.verdict.startswith(f"{kind.verdict} ") and all(sides[side] in kind.pieces for side in "WB")

    def material(self):
        """How many men and kings each side has."""
        return tuple(sorted(collections.Counter(self.cells.values()).items()))

    def rank(self):
        """The one that is chosen first has the least."""
        key = re.search(r": (?:1\. )?([\dx-]+)", self.verdict)[1]
        return "x" in key, self.tries == 0, len(self.cells), -self.tries, self.text


def run(program, words, text):
    ran = subprocess.run([program, *words], input=text, capture_output=True, text=True, timeout=3600, check=False)
    assert (ran.returncode, ran.stderr) == (0, ""), (words, ran)
    return ran.stdout


def answers(words, texts):
    """What `dw` says of each of these positions, line by line."""
    parts = run(DW, words, "".join(f"{text}\n" for text in texts)).split("problem ")[1:]
    assert len(parts) == len(texts), words
    return [part.splitlines()[1:] for part in parts]


# BACKWARDS

def free(cells, square, way, king):
    """The empty squares that a man, or a king, can come to in this direction."""
    to = BOARD.next[square, way]
    while to is not None and to not in cells:
        yield to
        to = BOARD.next[to, way] if king else None


def one_of(source, squares):
    squares = list(squares)
    return source.choice(squares) if squares else None


def untaken(source, cells, square, side, king):
    """Puts back, in a random direction, a piece that was taken last, and answers where the taker came from."""
    way = source.choice(WAYS)
    over = one_of(source, free(cells, square, way, king))
    if over is None or BOARD.is_last(other(side), over):
        return None
    cells[over] = (other(side), source.random() < 0.1)
    return one_of(source, free(cells, over, way, king))


def unmoved(source, cells, side, square, taken):
    """The position before a random move by which a piece came to this square and took so many."""
    before = dict(cells)
    _, king = before.pop(square)
    if taken == 0:
        ways = [way for way in WAYS if king or (way[0] > 0) == (side == "W")]
        square = one_of(source, free(before, square, source.choice(ways), king))
    for _ in range(taken):
        if square is not None:
            square = untaken(source, before, square, side, king)
    if square is None or square in before or not king and BOARD.is_last(side, square):
        return None
    before[square] = (side, king)
    return before


def leads(before, side, after):
    return any(play(BOARD, before, move) == after for move in moves(BOARD, before, side))


def one_turn_before(source, cells, growth):
    """A position from which a move of White's and a reply lead to this one, if it is not met with too many replies."""
    black = source.choice(sorted(square for square, (side, _) in cells.items() if side == "B"))
    between = unmoved(source, cells, "B", black, source.randint(0, growth.most_taken))
    if between is None or not leads(between, "B", cells):
        return None
    if len(moves(BOARD, between, "B")) > growth.most_replies:
        return None
    white = sorted(square for square, (side, _) in between.items() if side == "W")
    sacrificed = [square for square in white if square not in cells]
    square = source.choice(sacrificed if sacrificed and source.random() < 0.8 else white)
    before = unmoved(source, between, "W", square, int(source.random() < growth.captures))
    return before if before and leads(before, "W", between) else None


# BEGINNINGS

def scattered(source):
    """Up to five pieces, a king among them."""
    while True:
        sides = "W" * source.randint(1, 3) + "B" * source.randint(1, 2)
        squares = source.sample(BOARD.squares, len(sides))
        cells = {square: (side, BOARD.is_last(side, square) or source.random() < 0.4)
                 for square, side in zip(squares, sides)}
        if any(king for _, king in cells.values()):
            return cells


def row_of_captures(source):
    """A piece of White's, and five or more of Black's along a path on which it takes them."""
    cells = {}
    while len(cells) < 6:
        square = source.choice(BOARD.squares)
        king = BOARD.is_last("W", square) or source.random() < 0.2
        cells = {square: ("W", king)}
        for _ in range(source.randint(5, 9)):
            way = source.choice(WAYS)
            over = one_of(source, free(cells, square, way, king))
            to = one_of(source, free(cells, over, way, king)) if over else None
            if to is not None:
                cells[over] = ("B", BOARD.is_last("B", over) or source.random() < 0.05)
                square = to
    return cells


@dataclasses.dataclass
class Growth:
    """Positions that grow from beginnings of one sort, from one number of moves to the next."""
    name: str
    beginning: Callable
    beginnings: int
    draws: int  # so often a turn is taken back, for each number of moves
    most_replies: int
    most_taken: int  # by Black in one move
    captures: float  # the share of White's moves that take a piece
    most_pieces: int

    def __post_init__(self):
        self.source = random.Random(f"{SEED} {self.name}")
        begun = enumerate(self.beginning(self.source) for _ in range(self.beginnings))
        self.found = [self.judged(1, {fen(cells, "W"): (number, cells) for number, cells in begun})]

    def judged(self, n, drawn):
        """Those of these positions, by their texts, that are won in n moves and not in fewer."""
        said = answers(["judge", "-n", str(n)], drawn)
        found = [Found(text, cells, beginning, verdict, len(tries))
                 for (text, (beginning, cells)), (verdict, *tries) in zip(drawn.items(), said)]
        won = re.compile(rf"sound|dual|cooked in {n}, shortest {n}:")
        return [one for one in found if won.match(one.verdict)]

    def growing(self):
        """Those that grow on."""
        sound = [one for one in self.found[-1] if one.verdict.startswith("sound")]
        seen, chosen = collections.Counter(), []
        for one in self.source.sample(sound, len(sound)):
            seen[one.beginning] += 1
            if seen[one.beginning] <= ALIKE:
                chosen.append(one)
        return chosen[:WIDTH]

    def grown(self, one, draws):
        """Positions one turn before this one, by their texts."""
        drawn = {}
        for _ in range(draws):
            cells = one_turn_before(self.source, one.cells, self)
            if cells and len(cells) <= self.most_pieces:
                drawn[fen(cells, "W")] = (one.beginning, cells)
            if len(drawn) == MOST_GROWN:
                break
        return drawn

    def of(self, n):
        """What is found in n moves."""
        while len(self.found) < n:
            growing, drawn = self.growing(), {}
            for one in growing:
                drawn |= self.grown(one, self.draws // len(growing))
            self.found.append(self.judged(len(self.found) + 1, drawn))
        return self.found[n - 1]


@functools.cache
def growth_of(name):
    if name == "endgames":
        return Growth(name, scattered, 20_000, 100_000, most_replies=3, most_taken=1, captures=0.5,
                      most_pieces=8)
    return Growth(name, row_of_captures, 20_000, 200_000, most_replies=1, most_taken=3, captures=0.15,
                  most_pieces=24)


# CHOICE

def is_short(one, n):
    """Whether its solution does not have too many lines."""
    (*_, last), = answers(["list", "-n", str(n), "--lines", str(MOST_LINES)], [one.text])
    return last.startswith("complete")


def chosen(kind, begun):
    """The problems of a kind. Beginnings that they grew from are added to those that are used up."""
    problems, materials = [], set()
    for one in sorted(growth_of(kind.growth).of(kind.moves), key=Found.rank):
        if len(problems) == kind.count:
            break
        beginning, material = (kind.growth, one.beginning), one.material()
        if one.fits(kind) and beginning not in begun and material not in materials and is_short(one, kind.moves):
            problems.append(one)
            materials.add(material)
            begun.add(beginning)
    assert len(problems) == kind.count, (kind, len(problems))
    return problems


def turned(cells):
    return {51 - square: (other(side), king) for square, (side, king) in cells.items()}


def section(number, one):
    """A problem as a section of a PDN file."""
    text = fen(turned(one.cells), "B") if number % 5 == 0 else one.text
    return f'[Event "Fombakir collection"]\n[Round "{number}"]\n[FEN "{text}"]\n*\n'


def collection(count):
    """The first problems with their solutions, as the text of a PDN file."""
    text, number, begun = "", 0, set()
    for kind in KINDS:
        if number < count:
            problems = chosen(kind, begun)[: count - number]
            sections = "".join(section(place, one) for place, one in enumerate(problems, number + 1))
            text += run(DESK, ["solution", "-n", str(kind.moves), "--pdn"], sections)
            number += len(problems)
    return text


def main():
    for program in (DW, DESK):
        subprocess.run([program, "--help"], stdout=subprocess.DEVNULL, check=True)  # so that it is built
    print(collection(count_asked(5)), end="")


if __name__ == "__main__":
    main()
