"""draughts.py: the rules of the game as in docs/RULES.md, for checks that compare the programs with plain recursion. It
shares nothing with the programs.

A position is a dict from squares to pieces, and the side to move, `W` or `B`. A piece is its side and whether it is a
king. A move is its start, its end, and the frozen set of the squares that it takes.
"""

WAYS = [(-1, -1), (-1, 1), (1, -1), (1, 1)]


class Board:
    """The dark squares of a board, numbered from 1 at the top left, and their neighbours."""

    def __init__(self, rows):
        per_row = rows // 2
        where = {}
        for row in range(rows):
            for place in range(per_row):
                where[row * per_row + place + 1] = (row, 2 * place + 1 - row % 2)
        at = {cell: square for square, cell in where.items()}
        self.rows, self.per_row, self.squares = rows, per_row, sorted(where)
        self.next = {
            (square, way): at.get((row + way[0], column + way[1]))
            for square, (row, column) in where.items()
            for way in WAYS
        }

    def is_last(self, side, square):
        row = (square - 1) // self.per_row
        return row == (0 if side == "W" else self.rows - 1)


def other(turn):
    return "B" if turn == "W" else "W"


def jumps(board, cells, square, side, king):
    """Each piece that can be jumped from a square, with a square behind it to land on."""
    for way in WAYS:
        over = board.next[square, way]
        while king and over is not None and over not in cells:
            over = board.next[over, way]
        if over is None or over not in cells or cells[over][0] == side:
            continue
        to = board.next[over, way]
        while to is not None and to not in cells:
            yield over, to
            if not king:
                break
            to = board.next[to, way]


def paths(board, cells, square, side, king, taken, path):
    """Each way to go on taking with the piece that came to this square, as the whole path and what it takes."""
    ended = True
    for over, to in jumps(board, cells, square, side, king):
        if over not in taken:
            ended = False
            yield from paths(board, cells, to, side, king, taken | {over}, path + [to])
    if ended and taken:
        yield path, taken


def captures(board, cells, turn):
    """The legal captures, those that take the most pieces, each with its least path."""
    least = {}
    for square, (side, king) in cells.items():
        if side == turn:
            rest = {s: p for s, p in cells.items() if s != square}
            for path, taken in paths(board, rest, square, side, king, frozenset(), [square]):
                move = (square, path[-1], taken)
                least[move] = min(least.get(move, path), path)
    most = max((len(taken) for _, _, taken in least), default=0)
    return {move: path for move, path in least.items() if len(move[2]) == most}


def quiet_moves(board, cells, turn):
    """The moves that take nothing, each with its path."""
    found = {}
    for square, (side, king) in cells.items():
        if side == turn:
            for way in WAYS:
                to = board.next[square, way] if king or (way[0] < 0) == (side == "W") else None
                while to is not None and to not in cells:
                    found[square, to, frozenset()] = [square, to]
                    to = board.next[to, way] if king else None
    return found


def moves(board, cells, turn):
    """The legal moves, each with its least path."""
    return captures(board, cells, turn) or quiet_moves(board, cells, turn)


def listed(board, cells, turn):
    """The legal moves with their least paths, in the order in which they are written."""
    found = moves(board, cells, turn)
    return sorted(found.items(), key=lambda item: [item[0][0], item[0][1], *item[1][1:-1]])


def play(board, cells, move):
    """The pieces after a move."""
    square, to, taken = move
    side, king = cells[square]
    after = {s: p for s, p in cells.items() if s != square and s not in taken}
    after[to] = (side, king or board.is_last(side, to))
    return after


def pieces(side, text):
    """The squares and pieces of a list such as `6,9-11,K31`."""
    for item in filter(None, text.split(",")):
        king = item.startswith("K")
        first, _, last = item.lstrip("K").partition("-")
        for square in range(int(first), int(last or first) + 1):
            yield square, (side, king)


def fen(cells, turn):
    """The FEN text of a position."""
    def items(side):
        return ",".join("K" * king + str(square) for square, (owner, king) in sorted(cells.items()) if owner == side)

    return f"{turn}:W{items('W')}:B{items('B')}"
