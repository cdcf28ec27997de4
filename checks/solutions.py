#!/usr/bin/env python3
"""solutions.py: compares `dw-desk check` with remarks made by plain recursion, and errors in movetexts with those of a
second reader.

    checks/solutions.py [--count TREES]

For random small positions (150 on each board by default) it makes a tree of all lines of a win and spoils it: it cuts a
path, changes a move, removes a variation or a reply. It writes the tree as a movetext with comments, marks and numbers
of all kinds, and with variations and replies in parentheses. `dw-desk check` must give the remarks of the recursion in
judging.py, byte for byte, for the right number of moves, for one less, for the least up to these, and for that of the
tree, as text, as JSON, and with --faults. Then bytes of the movetexts are dropped, doubled and changed: a reader made
from the list of parts in docs/DESK.md must find the same error at the same place, or the same tree. With --count 4500
there are up to 108,000 such movetexts, which takes a quarter of an hour.
"""
import itertools
import json
import pathlib
import random
import re
import subprocess
import tempfile

from draughts import Board, fen, other, paths, play
from judging import TooMany, Problems, count_asked
from wins import drawn

TOP = pathlib.Path(__file__).resolve().parent.parent
DESK = TOP / "dw-desk"
SEED, MOST, MOST_LINES = 29, 3, 40
SPOILT = 12  # movetexts made of each
# Worked solutions, and the rows of `check --json -n 2`.
WORKED = b"""[FEN "W:W27,45:B16"] 1. 45-40 16-21 2. 27x16 *
[FEN "W:W27,32:B18"] 1. 32-28 18-22 2. 27x18 2-0
[FEN "W:W27,32:B18"] 1. 27-22! {why not} 18x38 *
[FEN "W:W27,32:B18"] 1. 32-28 *
[FEN "W:W27,32:B18"] 1. 32-27
[FEN "W:W3:B20"] *
"""
WORKED_ROWS = """\
{"problem":1,"fen":"W:W27,45:B16","n":2,"win":true,"holds":true,"fail":0,"end":0,"open":0,"also":0,"remarks":[]}
{"problem":2,"fen":"W:W27,32:B18","n":2,"win":true,"holds":true,"fail":0,"end":0,"open":1,"also":1,"remarks":[\
{"kind":"open","line":"1. 32-28","moves":["18-23"]},{"kind":"also","line":"1. 32-28 18-22","moves":["28x17"]}]}
{"problem":3,"fen":"W:W27,32:B18","n":2,"win":true,"holds":false,"fail":1,"end":0,"open":0,"also":1,"remarks":[\
{"kind":"fails","line":"","moves":["27-22"],"refutation":"18x38"},{"kind":"also","line":"","moves":["32-28"]}]}
{"problem":4,"fen":"W:W27,32:B18","n":2,"win":true,"holds":false,"fail":0,"end":1,"open":0,"also":0,"remarks":[\
{"kind":"ends","line":"1. 32-28","moves":[],"wins_in":1}]}
{"problem":5,"fen":"W:W27,32:B18","solution_refused":"2 no such move at 5"}
{"problem":6,"refused":"1 fen: 7 last row at 4"}
"""
RESULTS = {"2-0", "0-2", "1-1", "0-0", "1-0", "0-1", "1/2-1/2", "*"}
NAMES = {1: "token", 2: "no such move", 3: "ambiguous", 4: "variation", 5: "unclosed", 6: "rest", 7: "too deep",
         8: "too long", 10: "empty", 12: "reply"}
BYTES = b" \n\r\t0123456789-xX:/.$!?(){};%*[]a\xff,+#=W\x96\xb1\xd7"
LONG = ["\u2011".encode(), "\u2013".encode(), "\u2212".encode(), "\xd7".encode(), "\xb1".encode(), b"; 2) "]
# The signs of moves and results, crosses, and the rest of a text that makes a semicolon a blank.
SIGN = rb"(?:[0-9xX:/\x96\xd7-]|\xe2\x80[\x91\x93]|\xe2\x88\x92|\xc3\x97)"
CROSS = rb"(?:[xX:\xd7]|\xc3\x97)"
NUMBERED = rb"[ \t]*[0-9]+(?:\.+|\))[ \t]*(?:[0-9(]|[a-h][1-8])"


class Refused(Exception):
    """A movetext has a fault: its number and its place."""


# TREES: a move leads to the tree behind it, in the order of the text

def tree_of(lines):
    tree = {}
    for line in lines:
        here = tree
        for move in line:
            here = here.setdefault(move, {})
    return tree


def places(tree, cells, turn, board):
    """Each beginning of the tree: the tree behind it, the position and who is to move."""
    yield tree, cells, turn
    for move, rest in tree.items():
        yield from places(rest, play(board, cells, move), other(turn), board)


def spoil(source, problems, tree, cells, turn):
    """Changes the tree at a random place."""
    found = list(places(tree, cells, turn, problems.board))
    here, there, side = source.choice(found)
    moves = [move for move, _ in problems.moves(there, side)]
    way = source.randrange(4)
    if way == 0:
        here.clear()
    elif way == 1 and here:
        del here[source.choice(list(here))]
    elif moves and here:
        move = source.choice(moves)
        if way == 2:
            old = list(here.items())
            gone = source.randrange(len(old))
            here.clear()
            for place, (name, rest) in enumerate(old):
                here.setdefault(move if place == gone else name, {} if place == gone else rest)
        else:
            here.setdefault(move, {})


def turns(tree, ply=0):
    return max([(ply + 1) // 2, *(turns(rest, ply + 1) for rest in tree.values())])


# THE REMARKS

class Remarks:
    def __init__(self, problems, cells, turn):
        self.problems, self.cells, self.turn = problems, cells, turn
        self.kinds = {"fail": 0, "end": 0, "open": 0, "also": 0}

    def behind(self, line):
        text = self.problems.line_text(self.cells, self.turn, line)
        return f" {text}" if text else ""

    def attacker(self, tree, cells, n, line):
        problems, then = self.problems, other(self.turn)
        keys = problems.keys(cells, self.turn, n)
        number = len(line) // 2 + 1
        if not tree:
            missing = next(k for k in itertools.count(1) if problems.wins(cells, self.turn, k))
            yield self.told("end", f"ends{self.behind(line)}: wins in {missing}")
            return
        for move in tree:
            if move not in keys:
                after = play(problems.board, cells, move)
                reply = next(reply for reply, later in problems.after(after, then)
                             if not problems.wins(later, self.turn, n - 1))
                texts = problems.text(cells, self.turn, move), problems.text(after, then, reply)
                yield self.told("fail", f"fails{self.behind(line)} {number}. {texts[0]} refuted by {texts[1]}")
        left = " / ".join(problems.text(cells, self.turn, key) for key in keys if key not in tree)
        if left:
            yield self.told("also", f"also{self.behind(line)} {number}. {left}")
        for move, rest in tree.items():
            if move in keys:
                yield from self.defender(rest, play(problems.board, cells, move), n - 1, [*line, move])

    def defender(self, tree, cells, n, line):
        problems, side = self.problems, other(self.turn)
        replies = [move for move, _ in problems.moves(cells, side)]
        if replies and not tree:
            missing = next(k for k in itertools.count(1) if problems.loses(cells, side, k))
            yield self.told("end", f"ends{self.behind(line)}: wins in {missing}")
            return
        left = ", ".join(problems.text(cells, side, reply) for reply in replies if reply not in tree)
        if left:
            yield self.told("open", f"open{self.behind(line)}: {left}")
        for move, rest in tree.items():
            yield from self.attacker(rest, play(problems.board, cells, move), n, [*line, move])

    def told(self, kind, text):
        self.kinds[kind] += 1
        return text


def checked(problems, cells, turn, tree, n):
    """What is said of a tree within n moves, and whether it fails."""
    remarks = Remarks(problems, cells, turn)
    lines = [] if problems.wins(cells, turn, n) else [f"no win in {n}"]
    lines += remarks.attacker(tree, cells, n, [])
    fails = remarks.kinds["fail"] + remarks.kinds["end"] > 0
    numbers = ", ".join(f"{number} {kind}" for kind, number in remarks.kinds.items())
    return [*lines, f"{'fails' if fails else 'holds'} in {n}: {numbers}"], fails


# MOVETEXTS

def marked(source, text):
    """A move as one program or another may write it."""
    text = source.choice([text, text, text.replace("x", ":"), text.replace("x", "X"), text.replace("x", "\xd7")])
    text = text.replace("-", source.choice(["-", "-", "\u2011", "\u2013", "\u2212"]))
    return text + source.choice(["", "", "", "!", "?!", "$1", " $22", " {so (it) goes; [no]\n1. 2-3}", "+", "#=", "W+",
                                 " x", " :", "\xb1 X+", " \xd7"])


def written(source, problems, tree, cells, turn, ply, is_behind=True):
    """The tokens of a tree, from its first move on. Those that follow a move may begin with parentheses."""
    if not tree:
        return
    first, *others = tree
    numbers = ["", f"{ply // 2 + 1}." if ply % 2 == 0 else f"{ply // 2 + 1}...", "7.", "...", "3)"]

    def named(move):
        return source.choice(numbers) + source.choice(["", " "]) + marked(source, problems.text(cells, turn, move))

    def enclosed(words):
        return "(" + source.choice(["", " "]) + " ".join(words) + source.choice([")", " )", "\n% )\n)"])

    def beside(move):
        rest = written(source, problems, tree[move], play(problems.board, cells, move), other(turn), ply + 1)
        return enclosed([named(move), *rest])

    # Other moves are replies in parentheses, which come first, or variations. The first one may be a reply too.
    may_open = is_behind and ply > 0
    are_replies = may_open and source.randrange(3) == 0
    if are_replies:
        yield from map(beside, others)
    is_named = False
    if may_open and (are_replies or not others) and source.randrange(3) == 0:
        yield enclosed([named(first)])
    # A forced reply may be left out, if a move follows and no other move stands beside either.
    elif ply % 2 == 0 or others or not tree[first] or source.randrange(2) or len(problems.moves(cells, turn)) > 1:
        is_named = True
        yield named(first)
    if not are_replies:
        yield from map(beside, others)
    after = play(problems.board, cells, first)
    yield from written(source, problems, tree[first], after, other(turn), ply + 1, is_named)


def movetext(source, problems, tree, cells, turn):
    tokens = list(written(source, problems, tree, cells, turn, 0))
    text = ""
    for token, after in zip(tokens, [*tokens[1:], ""]):
        blanks = [" ", "\n", "\r\n", "\t ", ", "]
        text += token + source.choice([*blanks, "; ", ";"] if re.match(NUMBERED, after.encode()) else blanks)
    text = source.choice([" ", "\n\n", "\r\n"]) + text
    text += source.choice(["*", "2-0", "1-0 {end}", "", "0-2 ; end", "2\u20130 ; 1 end"])
    if source.randrange(3):
        return text.encode()
    return text.encode().replace("\u2013".encode(), b"\x96").replace(b"\xc3\x97", b"\xd7").replace(b"\xc2\xb1", b"\xb1")


def tokens(text):
    """Kind, bytes and place of each token."""
    at, fresh = 0, True
    while at < len(text):
        byte, rest = text[at : at + 1], text[at:]
        if byte in b" \t\r\n," or byte == b";" and re.match(NUMBERED, rest[1:]):
            at, fresh = at + 1, byte in b"\r\n"
            continue
        for kind, form in (("comment", rb"\{[^}]*\}"), ("cut off", rb"\{"), ("comment", rb";[^\r\n]*"),
                           ("comment", rb"%[^\r\n]*" if fresh else rb"(?!)"), ("passed", rb"\$[0-9]+"),
                           ("cut off", rb"\$"), ("passed", rb"(?:[!?+#=\xb1]|\xc2\xb1)+"), ("opens", rb"\("),
                           ("closes", rb"\)"), ("written", rb"\*"), ("passed", rb"[0-9]*\.+|[0-9]+\)"),
                           ("written", rb"[0-9]" + SIGN + rb"*"), ("passed", CROSS + rb"(?!" + SIGN + rb")"),
                           ("passed", rb"[A-WYZa-wyz]\+"), ("unknown", rb"(?s:.)")):
            found = re.match(form, rest)
            if found:
                break
        whole = rest if rest.startswith(b"{") and kind == "cut off" else found[0]
        yield kind, whole, at + 1
        at, fresh = at + len(whole), False


def plain(text):
    """A move or a result with - for each dash, and x for each cross but X."""
    text = re.sub(rb"\x96|\xe2\x80[\x91\x93]|\xe2\x88\x92", b"-", text)
    return re.sub(rb"[:\xd7]|\xc3\x97", b"x", text)


def named_moves(problems, cells, turn, text):
    """The legal moves that a text names, or none if it names nothing."""
    board = problems.board
    numbers = [int(number) for number in re.findall(rb"[0-9]+", text)]
    squares = 50 if board.rows == 10 else 32
    if any(not 1 <= number <= squares for number in numbers) or len(numbers) > 21:
        return None
    moves = [move for move, _ in problems.moves(cells, turn)]
    if re.fullmatch(rb"[0-9]{1,2}-[0-9]{1,2}", text):
        return [move for move in moves if list(move[:2]) == numbers and not move[2]]
    if not re.fullmatch(rb"[0-9]{1,2}([xX][0-9]{1,2})+", text):
        return None
    if len(numbers) == 2:
        return [move for move in moves if list(move[:2]) == numbers and move[2]]
    start = numbers[0]
    if cells.get(start, ("", 0))[0] != turn:
        return []
    side, king = cells[start]
    without = {square: piece for square, piece in cells.items() if square != start}
    found = {(start, path[-1], taken) for path, taken in paths(board, without, start, side, king, frozenset(), [start])
             if path == numbers}
    return [move for move in moves if move in found]


def left_out(problems, cells, turn, text, place):
    """The only reply and the move that a text names after it, or nothing; Refused if it names one after another reply,
    or several."""
    replies = [move for move, _ in problems.moves(cells, turn)]
    named = [named_moves(problems, play(problems.board, cells, reply), other(turn), text) for reply in replies]
    if not any(named):
        return []
    if len(replies) > 1:
        raise Refused(12, place)
    if len(named[0]) > 1:
        raise Refused(3, place)
    return [replies[0], named[0][0]]


class Line:
    """An open line: its places; in parentheses, until the first move, the place after the move that they follow; how
    many of its tokens are moves; whether it is a reply; and the places of the reply that counts after its last move."""

    def __init__(self, start, behind=None):
        self.places, self.behind = [start], behind
        self.count, self.is_reply, self.answer = 0, False, []

    def after(self, inner):
        """Takes up the parentheses that end."""
        self.count += inner.count
        if inner.is_reply:
            self.answer = inner.places[1:] if inner.count == 1 else []


def stands_for(problems, place, text, at):
    """The moves that a token stands for at a place."""
    _, cells, side, ply = place
    moves = named_moves(problems, cells, side, text)
    if moves is None:
        raise Refused(1, at)
    if ply == 39:
        raise Refused(8, at)
    replies = [] if moves or ply % 2 == 0 else left_out(problems, cells, side, text, at)
    if not replies and len(moves) != 1:
        raise Refused(3 if moves else 2, at)
    return replies or moves


def follow(problems, line, text, at):
    """Goes to the place from which a token goes on with a line, and returns the moves that it stands for there."""
    now = line.places[-1]
    named = named_moves(problems, now[1], now[2], text) or []
    if line.behind and not named:
        moves = stands_for(problems, line.behind, text, at)
        line.places, line.is_reply = [line.behind], True
        return moves
    if line.answer and len(named) != 1:
        try:
            moves = stands_for(problems, line.answer[-1], text, at)
        except Refused as fault:
            try:
                return stands_for(problems, now, text, at)
            except Refused:
                raise fault from None
        line.places += line.answer
        return moves
    return stands_for(problems, now, text, at)


def read(problems, text, cells, turn):
    """The tree of a movetext; Refused tells its first fault."""
    tree, over = {}, False
    line, outer = Line((tree, cells, turn, 0)), []  # the innermost line, and those around it
    for kind, whole, place in tokens(text):
        if over and kind not in ("comment", "cut off"):
            raise Refused(6, place)
        if kind in ("cut off", "unknown"):
            raise Refused(1, place)
        if kind == "opens":
            if len(line.places) == 1:
                raise Refused(4, place)
            if len(outer) == 40:
                raise Refused(7, place)
            outer.append(line)
            line = Line(*line.places[-2:])
        elif kind == "closes":
            if not outer:
                raise Refused(4, place)
            outer[-1].after(line)
            line = outer.pop()
        elif kind == "written" and plain(whole).decode() in RESULTS:
            if outer:
                raise Refused(5, place)
            over = True
        elif kind == "written":
            moves = follow(problems, line, plain(whole), place)
            line.behind, line.answer, line.count = None, [], line.count + 1
            for move in moves:
                here, there, side, ply = line.places[-1]
                line.places.append((here.setdefault(move, {}), play(problems.board, there, move), other(side), ply + 1))
    if outer:
        raise Refused(5, len(text) + 1)
    if not tree:
        raise Refused(10, len(text) + 1)
    return tree


def mutated(source, text):
    """A movetext with some bytes dropped, doubled or changed."""
    text = bytearray(text)
    for _ in range(source.randrange(1, 4)):
        place, way = source.randrange(len(text) + 1), source.randrange(3)
        if way == 0:
            del text[place : place + source.randrange(1, 4)]
        elif way == 1:
            text[place:place] = text[place : place + source.randrange(1, 9)]
        else:
            text[place : place + 1] = source.choice([*LONG, *(bytes([byte]) for byte in BYTES)])
        if not text:
            return b" "
    return bytes(text)


def is_one_section(text):
    """Whether it is a movetext alone: not blank, and outside braces no bracket stands, and no brace is open."""
    outside = re.sub(rb"\{[^}]*\}", b"", text)
    return bool(text.strip(b" \t\r\n")) and not set(b"[{") & set(outside)


def number_of(problems, cells, turn, tree, asked):
    """The number of moves of -n, the least with a win up to that of --most, or that of a tree."""
    if not asked:
        return max(1, turns(tree))
    option, n = asked
    if option == "-n":
        return n
    return next((k for k in range(1, n) if problems.wins(cells, turn, k)), n)


def expected(problems, text, cells, turn, asked):
    """What is said of a movetext within as many moves as are asked for, and whether it is refused or fails."""
    try:
        tree = read(problems, text, cells, turn)
    except Refused as fault:
        number, place = fault.args
        return [f"solution refused: {number} {NAMES[number]} at {place}"], True
    return checked(problems, cells, turn, tree, number_of(problems, cells, turn, tree, asked))


def row_of(number, first, lines):
    """What is said of a problem as a line of JSON."""
    row = {"problem": number, "fen": first}
    if lines[0].startswith("solution refused: "):
        return {**row, "solution_refused": lines[0].removeprefix("solution refused: ")}
    *said, last = lines
    verdict, n, fail, end, left, also = re.fullmatch(
        r"(holds|fails) in (\d+): (\d+) fail, (\d+) end, (\d+) open, (\d+) also", last).groups()
    wins = not (said and said[0].startswith("no win in "))
    remarks = []
    for line in said[not wins:]:
        kind, rest = line.split(" ", 1) if " " in line else (line, "")
        more = {}
        if kind == "fails":
            rest, reply = rest.split(" refuted by ")
            more = {"refutation": reply}
        elif kind == "ends":
            rest, missing = rest.split(": wins in ")
            more = {"wins_in": int(missing)}
        beginning, moves = rest, []
        if kind == "open":
            beginning, replies = rest.split(": ")
            moves = replies.split(", ")
        elif kind in ("fails", "also"):
            beginning, keys = re.fullmatch(r"(?:(.*) )?\d+\. (.*)", rest).groups()
            beginning, moves = beginning or "", keys.split(" / ")
        remarks.append({"kind": kind, "line": beginning, "moves": moves, **more})
    return {**row, "n": int(n), "win": wins, "holds": verdict == "holds", "fail": int(fail), "end": int(end),
            "open": int(left), "also": int(also), "remarks": remarks}


def compare_forms(words, told, status, file):
    """Compares lines of JSON, and what is left with --faults, with the lines that are wanted of each problem."""
    faulty = [(number, first, lines) for number, first, lines in told if not lines[0].startswith("holds in ")]
    for more, some in ((["--json"], told), (["--faults"], faulty), (["--faults", "--json"], faulty)):
        wanted = [[f"problem {number}: {first}", *lines] if "--json" not in more else
                  [json.dumps(row_of(number, first, lines), separators=(",", ":"))] for number, first, lines in some]
        ran = subprocess.run([DESK, "check", *words, *more, file], capture_output=True, text=True, timeout=3600,
                             check=False)
        lines = [line for lines in wanted for line in lines]
        differ = [pair for pair in zip(ran.stdout.splitlines(), lines) if pair[0] != pair[1]]
        assert (ran.returncode, ran.stdout.splitlines(), ran.stderr) == (status, lines, ""), (more, differ[:1])


def compare(words, games, asked, file):
    """Has the program check a file of games, and compares what it says."""
    file.write_bytes(b"".join(f'[Event "x"]\n[FEN "{first}"]'.encode() + text for _, first, _, _, text in games))
    wanted, bad, told = "", 0, []
    for number, (problems, first, cells, turn, text) in enumerate(games, 1):
        lines, fails = expected(problems, text, cells, turn, asked)
        told.append((number, first, lines))
        wanted += "".join(f"{line}\n" for line in [f"problem {number}: {first}", *lines])
        bad += fails
    words = [*words, *map(str, asked)]
    ran = subprocess.run([DESK, "check", *words, file], capture_output=True, text=True, timeout=3600, check=False)
    if (ran.returncode, ran.stdout, ran.stderr) != (int(bad > 0), wanted, ""):
        rows = zip(ran.stdout.splitlines(), wanted.splitlines())
        raise AssertionError((ran.returncode, ran.stderr, next((pair for pair in rows if pair[0] != pair[1]), None)))
    compare_forms(words, told, int(bad > 0), file)
    return wanted


def game(source, board):
    """A random position with a win in some moves, that number, and a spoilt tree."""
    while True:
        cells, turn, problems = drawn(source, board), source.choice("WB"), Problems(board)
        try:
            n = next((n for n in range(1, MOST + 1) if problems.wins(cells, turn, n)), None)
            if n is None:
                continue
            n = min(MOST, n + source.randrange(2))
            lines = [line for line, _ in zip(problems.lines(cells, turn, n), range(MOST_LINES + 1))]
            if len(lines) > MOST_LINES:
                continue
            tree = tree_of(lines)
            for _ in range(source.randrange(4)):
                spoil(source, problems, tree, cells, turn)
            if not tree:
                continue
            for within in {n, n - 1, turns(tree)} - {0}:
                checked(problems, cells, turn, tree, within)
        except TooMany:
            continue
        return problems, cells, turn, n, tree


def check(rows, count, source, folder):
    board, file = Board(rows), folder / "games.pdn"
    words = ["--board", str(rows)]
    found, games = [], {}
    for _ in range(count):
        problems, cells, turn, n, tree = game(source, board)
        text = movetext(source, problems, tree, cells, turn)
        if is_one_section(text + b" "):
            found.append((problems, fen(cells, turn), cells, turn, text + b"\n\n"))
            games.setdefault(n, []).append(found[-1])
    kinds = {}
    for n, of_number in sorted(games.items()):
        for asked in itertools.product(("-n", "--most"), {n, n - 1} - {0}):
            said = compare(words, of_number, asked, file)
            for kind in ("holds", "fails in", "no win", "fails 1.", "also", "open", "ends"):
                kinds[kind] = kinds.get(kind, 0) + len(re.findall(rf"^{kind}", said, re.MULTILINE))
    compare(words, found, (), file)
    print(f"{rows} rows: {len(found)} trees, {kinds}: the same remarks", flush=True)
    spoilt = []
    for problems, first, cells, turn, text in found:
        for _ in range(SPOILT):
            other_text = mutated(source, text)
            if is_one_section(other_text):
                spoilt.append((problems, first, cells, turn, other_text + source.choice([b"", b"\n"])))
    said = compare(words, [g for g in spoilt if usable(g)], ("-n", 2), file)
    faults = {name: len(re.findall(rf"refused: \d+ {name} at", said)) for name in NAMES.values()}
    print(f"{rows} rows: {said.count('problem ')} mutated movetexts, {faults}: the same faults and remarks", flush=True)


def usable(entry):
    """Whether the recursion has room for a mutated movetext, and it does not go on in the next section's tags."""
    problems, _, cells, turn, text = entry
    try:
        expected(problems, text, cells, turn, ("-n", 2))
    except TooMany:
        return False
    return True


def check_worked(folder):
    """The rows of worked solutions; with --faults all but those of the one without a remark."""
    file = folder / "worked.pdn"
    file.write_bytes(WORKED)
    for more, rows in (([], WORKED_ROWS), (["--faults"], WORKED_ROWS.split("\n", 1)[1])):
        ran = subprocess.run([DESK, "check", "--json", "-n", "2", *more, file], capture_output=True, text=True,
                             check=False)
        assert (ran.returncode, ran.stdout, ran.stderr) == (1, rows, ""), ran
    print("worked solutions: their rows, with and without --faults")


def main():
    count, source = count_asked(150), random.Random(SEED)
    with tempfile.TemporaryDirectory() as name:
        check_worked(pathlib.Path(name))
        for rows in (10, 8):
            check(rows, count, source, pathlib.Path(name))


if __name__ == "__main__":
    main()
