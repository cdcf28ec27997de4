#!/usr/bin/env python3
"""certificates.py: lets certificate.py check the certificates of `dw-desk certify`, and refuse broken ones.

    checks/certificates.py [--count POSITIONS | --sizes]

It certifies the problems of examples/ within a few moves, and random small positions (100 on each board by default)
within 1 to 3. Each certificate must be right and give the answer of the recursion in wins.py. Then lines are changed,
doubled and removed, and certificate.py must refuse each text at the right line. The errors of the command come last:
they write nothing to standard output.

--sizes checks the certificates of the forty problems of `dw_bench`, for a win and for none in a move less. It prints a
row of their sizes for each number of moves: the least, the middle and the greatest.
"""
import pathlib
import random
import re
import statistics
import subprocess
import sys

from draughts import Board, fen
from judging import count_asked
from wins import Recursion, TooLong, drawn

TOP = pathlib.Path(__file__).resolve().parent.parent
DESK, CHECKER = TOP / "dw-desk", TOP / "checks" / "certificate.py"
SEED, MOST = 41, 3
# Files of problems, and within how many moves they are certified.
EXAMPLES = [("problems.fen", 3), ("large5.fen", 5)]
TOO_MANY = b"dw-desk: too many positions, ask with a larger --cache\n"
# A certificate, each of whose lines is needed.
WHOLE = ["certificate 1", "board 10", "W:W27,45:B16", "win in 2", "W:W27,45:B16 fails - wins 2",
         "W:W27,40:B21 fails - wins 1"]
NONE = ["certificate 1", "board 10", "W:W27:B16", "no win in 1", "W:W27:B16 fails 1 wins -"]
# What is changed in one of them: the number of a line, what stands there (no line, if nothing), and which line is
# refused then.
BROKEN = [
    ("another form", WHOLE, 1, ["certificate 2"], 1),
    ("another board", WHOLE, 2, ["board 8"], 3),
    ("no board", WHOLE, 2, ["board 12"], 2),
    ("a man on its last row", WHOLE, 3, ["W:W3,45:B16"], 3),
    ("a position in another order", WHOLE, 3, ["W:W45,27:B16"], 3),
    ("another position", WHOLE, 3, ["W:W27,44:B16"], 4),
    ("a smaller number", WHOLE, 4, ["win in 1"], 4),
    ("the other answer", WHOLE, 4, ["no win in 2"], 4),
    ("no answer", WHOLE, 4, ["win in 21"], 4),
    ("a bound too strong", WHOLE, 5, ["W:W27,45:B16 fails - wins 1"], 5),
    ("a bound of the other kind", WHOLE, 5, ["W:W27,45:B16 fails 2 wins 2"], 5),
    ("a dash for a bound", WHOLE, 6, ["W:W27,40:B21 fails - wins -"], 5),
    ("a bound too weak", WHOLE, 6, ["W:W27,40:B21 fails - wins 2"], 5),
    ("a reply left out", WHOLE, 6, [], 5),
    ("the position left out", WHOLE, 5, [], 4),
    ("a position twice", WHOLE, 6, ["W:W27,40:B21 fails - wins 1"] * 2, 7),
    ("the other side", WHOLE, 6, ["B:W27,40:B21 fails - wins 1"], 5),
    ("a bound of 0", WHOLE, 6, ["W:W27,40:B21 fails - wins 0"], 6),
    ("a line of another form", WHOLE, 6, ["W:W27,40:B21 wins 1"], 6),
    ("a byte that is not ASCII", WHOLE, 6, ["W:W27,40:B21 fails - wins 1\xff"], 6),
    ("such a byte in the first line", WHOLE, 1, ["certificate\xff1"], 1),
    ("a number of five thousand digits", WHOLE, 3, ["W:W27,45:B" + 5000 * "1"], 3),
    ("no win in more moves", NONE, 5, ["W:W27:B16 fails 2 wins -"], 5),
    ("a win that is none", NONE, 5, ["W:W27:B16 fails 1 wins 1"], 5),
]


def certify(words, text):
    """Runs `dw-desk certify` on a text."""
    return subprocess.run([DESK, "certify", *words], input=text.encode(), capture_output=True, timeout=300, check=False)


def said_of(certificate):
    """What certificate.py says of a certificate, and its status."""
    ran = subprocess.run([sys.executable, CHECKER], input=certificate, capture_output=True, timeout=300, check=False)
    return ran.stdout.decode(), ran.returncode


def check_right(words, text, answer=None):
    """A problem's certificate is right, and has this answer, if one is given. It is handed back."""
    ran = certify(words, text)
    assert (ran.returncode, ran.stderr) == (0, b""), (words, text, ran)
    assert said_of(ran.stdout) == ("right\n", 0), (words, text, said_of(ran.stdout))
    lines = ran.stdout.decode().splitlines()
    assert answer in (None, lines[3]), (words, text, answer, lines[3])
    return ran.stdout


def positions(certificate):
    return certificate.count(b"\n") - 4


def check_examples():
    for name, n in EXAMPLES:
        text = (TOP / "examples" / name).read_text()
        count, rows = 0, 0
        for number in range(1, len(text.splitlines()) + 1):
            ran = certify(["-n", str(n), "--problem", str(number)], text)
            if ran.returncode == 0:
                rows += positions(check_right(["-n", str(n), "--problem", str(number)], text))
                count += 1
            else:
                assert ran.returncode == 1 and b"refused" in ran.stdout or ran.stderr.startswith(b"dw-desk: no "), ran
        print(f"examples/{name} within {n}: {count} certificates are right, of {rows} positions", flush=True)


def check_random(rows, count):
    source = random.Random(SEED + rows)
    board = Board(rows)
    wins, done, lines = 0, 0, 0
    while done < count:
        cells, turn = drawn(source, board), source.choice("WB")
        n = source.randint(1, MOST)
        try:
            least = Recursion(board).least(cells, turn, n)
        except TooLong:
            continue
        # Half of them are wins.
        if bool(least) != (done % 2 == 0):
            continue
        answer = f"win in {n}" if least else f"no win in {n}"
        lines += positions(check_right(["-n", str(n), "--board", str(rows)], fen(cells, turn) + "\n", answer))
        wins += bool(least)
        done += 1
    print(f"board {rows}: {done} certificates are right, {wins} of wins, of {lines} positions", flush=True)


def check_broken():
    for lines in (WHOLE, NONE):
        text = "".join(line + "\n" for line in lines).encode()
        assert said_of(text) == ("right\n", 0), said_of(text)
        said, status = said_of(text[:-1])
        assert (said, status) == (f"line {len(lines)}: it has no end\n", 1), said
    for what, lines, number, new, refused in BROKEN:
        text = "".join(line + "\n" for line in [*lines[:number - 1], *new, *lines[number:]])
        said, status = said_of(text.encode("latin-1"))
        assert said.startswith(f"line {refused}: ") and status == 1, (what, said)
    ran = subprocess.run([sys.executable, CHECKER, "/nowhere"], capture_output=True, timeout=300, check=False)
    assert (ran.returncode, ran.stdout, ran.stderr.count(b"\n")) == (3, b"", 1) and b"/nowhere" in ran.stderr, ran
    print(f"{len(BROKEN) + 2} broken certificates are refused, and a file that is not there", flush=True)


def check_faults():
    problem = "W:W27,45:B16\nW:W3:B20\n"
    fault = b"problem 2: refused: 1 fen: 7 last row at 4\n"
    pdn = '[FEN "W:W27,45:B16"]\n\n1. 45-40 *\n'
    for words, text, wanted in [
            (["-n", "2", "--problem", "2"], problem, (1, fault, b"")),
            (["-n", "2", "--problem", "3"], problem, (1, b"", b"dw-desk: no problem 3\n")),
            (["-n", "2"], "", (1, b"", b"dw-desk: no problem 1\n")),
            (["-n", "2", "--memo", "none"], problem, (3, b"", TOO_MANY)),
            (["-n", "2", "--memo", "lru", "--cache", "1"], problem, (3, b"", TOO_MANY)),
            (["-n", "2", "/nowhere"], problem, (3, b"", b"dw-desk: cannot open /nowhere\n"))]:
        ran = certify(words, text)
        assert (ran.returncode, ran.stdout, ran.stderr) == wanted, (words, ran)
    for words in (["-n", "2", "--problem", "1-2"], ["-n", "0"], ["-n", "21"], [], ["-n", "2", "--lines", "3"]):
        ran = certify(words, problem)
        assert (ran.returncode, ran.stdout) == (2, b"") and ran.stderr.startswith(b"error: "), (words, ran)
    check_right(["-n", "2", "--pdn"], pdn, "win in 2")
    ran = certify(["-n", "2"], problem)
    assert ran.stdout.decode().splitlines() == WHOLE, ran.stdout
    print("the faults of the command, and their statuses", flush=True)


def print_sizes():
    """The numbers of positions and bytes of the benchmark's certificates: the least, the middle and the greatest."""
    code = "".join((TOP / "crates/dw_bench/src/problems.rt").read_text().split())
    for n, block in re.findall(r"\((\d),\[(.*?)\]", code):
        row = [n]
        for within, answer in ((int(n), "win"), (int(n) - 1, "no win")):
            made = [check_right(["-n", str(within), "--cache", "4000000"], problem + "\n", f"{answer} in {within}")
                    for problem in re.findall('"(.*?)"', block)]
            for sizes in (sorted(map(positions, made)), sorted(map(len, made))):
                middle = int(statistics.median(sizes) + .5)
                row.append(", ".join(f"{size:,}" for size in (sizes[0], middle, sizes[-1])))
        print(f"| {' | '.join(row)} |", flush=True)


def main():
    if sys.argv[1:] == ["--sizes"]:
        print_sizes()
        return
    count = count_asked(100)
    check_broken()
    check_faults()
    check_examples()
    for rows in (10, 8):
        check_random(rows, count)


if __name__ == "__main__":
    main()
