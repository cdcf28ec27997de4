#!/usr/bin/env python3
"""examples.py: compares the answers in examples/ with the programs' output, and runs the examples of the help texts.

    checks/examples.py

examples/README.md has each answer and its command. The answer must be the output of the command, and that of the plain
recursion in judging.py or solutions.py; for examples/games.pdn bad_input.py has the refusals. Each problem file needs
an answer. Each example of a help text must end with status 0 or 1 and nothing on standard error.

In examples/collection.pdn `dw-desk find` must find the stated verdicts, and `dw-desk check` nothing to remark. Plain
recursion must agree for those that it can judge. The page beside it must be the output of its command.
"""
import argparse
import pathlib
import re
import shlex
import subprocess

import bad_input
import judging
import solutions
from draughts import Board, fen, pieces

TOP = pathlib.Path(__file__).resolve().parent.parent
DW = TOP / "dw"
DESK = TOP / "dw-desk"
EXAMPLES = TOP / "examples"
ROW = re.compile(r"^\| `([^`]+)` \| `dw ([^`]+)` \|$", re.MULTILINE)
DESK_ROW = re.compile(r"^\| `([^`]+)` \| `dw-desk check ([^`]+)` \|$", re.MULTILINE)
PAGE_ROW = re.compile(r"^\| `([^`]+)` \| `dw-desk (page [^`]+) ([^ `]+)` \|$", re.MULTILINE)
COLLECTION, IN_COLLECTION = "collection.pdn", 100
COMMANDS = {DW: ["show", "moves", "judge", "list"], DESK: ["find", "check", "solution", "token"]}
EXAMPLE = re.compile(r"  ((?:echo .* \| )?dw(?:-desk)? .*)")
# The tags of a section, and its movetext.
SECTION = re.compile(rb"((?:\[[^\]]*\]\s*)*\[[^\]]*\])([^\[]*)")
ALL_LINES = 1_000_000_000


def run(words, folder=TOP, program=DW):
    return subprocess.run([program, *words], cwd=folder, capture_output=True, timeout=600, check=False)


def position(text):
    """The pieces and the side to move of a FEN text."""
    turn, *lists = text.rstrip(".").split(":")
    return {square: piece for part in lists for square, piece in pieces(part[0], part[1:])}, turn


def asked(words):
    """What a command asks for."""
    known = argparse.ArgumentParser()
    known.add_argument("command", choices=("judge", "list"))
    known.add_argument("-n", type=int)
    known.add_argument("--lines", type=int, default=ALL_LINES)
    known.add_argument("--pdn", action="store_true")
    known.add_argument("file")
    return known.parse_args(words)


def problems(request):
    """The texts of the problems, and of refusals."""
    if request.pdn:
        assert request.file == "games.pdn"
        return [text.decode() for text in bad_input.GAMES]
    return (EXAMPLES / request.file).read_text().splitlines()


def recursion(request):
    """The report, by bare recursion."""
    judging.ROOM = 100_000
    texts = []
    for text in problems(request):
        if text.startswith("refused: "):
            texts.append((text, []))
            continue
        cells, turn = position(text)
        made = judging.Problems(Board(10))
        if request.command == "judge":
            texts.append((fen(cells, turn), list(made.judged(cells, turn, request.n))))
        else:
            lines = list(made.lines(cells, turn, request.n))
            texts.append((fen(cells, turn), list(made.listing(cells, turn, lines, request.lines))))
    return judging.report(texts)


def compare_reports():
    rows = ROW.findall((EXAMPLES / "README.md").read_text())
    requests = {name: asked(words.split()) for name, words in rows}
    there = {path.name for path in EXAMPLES.iterdir()} - {"README.md", "dw.h", "judge.c"}
    desk = dict(DESK_ROW.findall((EXAMPLES / "README.md").read_text()))
    pages = {name: (words, file) for name, words, file in PAGE_ROW.findall((EXAMPLES / "README.md").read_text())}
    files = {request.file for request in requests.values()} | set(desk.values()) | {file for _, file in pages.values()}
    assert there == set(requests) | set(desk) | set(pages) | files, there
    for name, (words, file) in pages.items():
        compare_page(name, [*shlex.split(words), file])
    for name, file in desk.items():
        compare_solutions(name, file)
    for name, words in rows:
        ran, wanted = run(words.split(), EXAMPLES), (EXAMPLES / name).read_bytes()
        assert ran.stderr == b"", (name, ran.stderr)
        assert ran.returncode == (1 if b": refused: " in wanted else 0), (name, ran.returncode)
        assert ran.stdout == wanted, f"{name} is not what dw {words} writes"
        assert recursion(requests[name]).encode() == wanted, f"{name} is not what the recursion makes"
        count, lines = wanted.count(b"problem "), wanted.count(b"\n")
        print(f"examples/{name}: {count} problems, {lines} lines, the same bytes; status {ran.returncode}", flush=True)


def compare_solutions(name, file):
    """What is said of the solutions in a file is what the recursion says."""
    said = bad = b""
    for number, (tags, movetext) in enumerate(SECTION.findall((EXAMPLES / file).read_bytes()), 1):
        text = re.search(rb'\[FEN "([^"]*)"\]', tags)[1].decode()
        cells, turn = position(text)
        lines, fails = solutions.expected(judging.Problems(Board(10)), movetext, cells, turn, None)
        said += "".join(f"{line}\n" for line in [f"problem {number}: {fen(cells, turn)}", *lines]).encode()
        bad += b"x" * fails
    ran = run(["check", file], EXAMPLES, DESK)
    assert (ran.returncode, ran.stdout, ran.stderr) == (int(bool(bad)), said, b""), (name, ran, said)
    assert said == (EXAMPLES / name).read_bytes(), f"{name} is not what dw-desk check {file} writes"
    print(f"examples/{name}: {said.count(b'problem ')} solutions, the same bytes; status {ran.returncode}", flush=True)


def compare_page(name, words):
    ran = run(words, EXAMPLES, DESK)
    assert (ran.returncode, ran.stderr) == (0, b""), (name, ran.stderr)
    assert ran.stdout == (EXAMPLES / name).read_bytes(), f"{name} is not what dw-desk {' '.join(words)} writes"
    print(f"examples/{name}: the same bytes", flush=True)


def recursion_says(text, n):
    """The verdict by bare recursion, if it has room."""
    judging.ROOM = 3_000
    cells, turn = position(text)
    try:
        return next(judging.Problems(Board(10)).judged(cells, turn, n))
    except judging.TooMany:
        return None


def check_collection():
    """The verdicts of the collection are right, and its solutions have all lines."""
    problems = re.findall(r'^\[FEN "(.+)"\]\n\n\{((?:sound|dual|cooked) in (\d+))\}',
                          (EXAMPLES / COLLECTION).read_text(), re.MULTILINE)
    texts = {text for text, *_ in problems}
    assert len(problems) == len(texts) == IN_COLLECTION, (len(problems), len(texts))
    ran = run(["check", COLLECTION], EXAMPLES, DESK)
    wanted = "".join(f"problem {number}: {text}\nholds in {n}: 0 fail, 0 end, 0 open, 0 also\n"
                     for number, (text, _, n) in enumerate(problems, 1))
    assert (ran.returncode, ran.stdout.decode(), ran.stderr) == (0, wanted, b""), ran
    found = run(["find", "--pdn", COLLECTION], EXAMPLES, DESK).stdout.decode()
    found = re.findall(r"^problem \d+: .*\n(.*)$", found, re.MULTILINE)
    assert [re.match(r"\w+ in \d+", line)[0] for line in found] == [verdict for _, verdict, _ in problems], found
    said = [recursion_says(text, int(n)) for text, _, n in problems]
    assert all(one in (None, line) for one, line in zip(said, found)), list(zip(said, found))
    judged = sum(one is not None for one in said)
    print(f"examples/{COLLECTION}: {len(problems)} solutions without a fault; the recursion judged {judged}")


def helps():
    """The examples of all help texts."""
    for program, commands in COMMANDS.items():
        for words in [[], *([command] for command in commands)]:
            ran = run([*words, "--help"], program=program)
            assert (ran.returncode, ran.stderr) == (0, b""), (words, ran)
            found = [match[1] for match in map(EXAMPLE.fullmatch, ran.stdout.decode().splitlines()) if match]
            assert len(found) >= 2, f"{program.name} {' '.join(words)} --help has {len(found)} examples"
            yield from found


def run_helps():
    for example in helps():
        given = f'dw() {{ "{DW}" "$@"; }}\ndw-desk() {{ "{DESK}" "$@"; }}\n{example}'
        ran = subprocess.run(["bash", "-c", given], cwd=TOP, capture_output=True, timeout=600, check=False)
        assert ran.returncode in (0, 1) and ran.stderr == b"" and ran.stdout, (example, ran)
        print(f"{example}: status {ran.returncode}, {ran.stdout.count(bytes([10]))} lines")


def main():
    compare_reports()
    check_collection()
    run_helps()


if __name__ == "__main__":
    main()
