#!/usr/bin/env python3
"""random_fens.py: sends random FEN texts through `dw show`, and reads its output again.

    checks/random_fens.py [--count COUNT]

COUNT texts of random bytes and COUNT of random tokens (100,000 of each by default) go through the program, one a line,
on both boards. Each must give one problem, in order: a written FEN with its diagram, or a refusal. The written FEN must
give itself again. The exit status must fit the report.
"""
import pathlib
import random
import re
import subprocess

from judging import count_asked

TOP = pathlib.Path(__file__).resolve().parent.parent
SEED = 1
FAULT = re.compile(rb"1 fen: (\d+ [a-z ]+) at (\d+)")
TOKENS = ["W", "B", "w", "b", ":", ":", ":", ",", ",", "-", ".", "K", "k", " ", "\t", "0", "5", "07",
          "12", "28", "31", "32", "33", "45", "50", "51", "031", "x", "\r"]


def random_bytes(rng):
    """A line of 1 to 40 bytes, none of them a line feed."""
    return rng.randbytes(rng.randint(1, 40)).replace(b"\n", b":")


def random_tokens(rng):
    """A line that looks like a FEN text, or nearly."""
    if rng.random() < 0.5:
        return "".join(rng.choice(TOKENS) for _ in range(rng.randint(1, 16))).encode()
    squares = rng.sample(range(1, 52), rng.randint(0, 12))
    items = [rng.choice(["", "", "K", "k "]) + str(s) + rng.choice(["", "", "", "", f"-{s + rng.randint(-1, 2)}"])
             for s in squares]
    cut = rng.randint(0, len(items))
    first, second = rng.choice([("W", "B"), ("W", "B"), ("b", "w"), ("W", "w")])
    lists = f"{first}{','.join(items[:cut])}:{second}{','.join(items[cut:])}"
    return (rng.choice("WBwb") + ":" + lists + rng.choice(["", "", ".", ":H0", " x"])).encode()


def is_problem(line):
    """Whether a line has a number: it is longer than its blanks and its carriage return."""
    return line.removesuffix(b"\r").strip(b" \t") != b""


def show(lines, board):
    """Runs `dw show` on lines, and answers its answers: the first line of each problem, without its number."""
    ran = subprocess.run([TOP / "dw", "show", "--board", board], input=b"".join(line + b"\n" for line in lines),
                         capture_output=True, timeout=300, check=False)
    assert ran.stderr == b"", ran.stderr
    answers = []
    rows_left = 0
    for line in ran.stdout.splitlines():
        if rows_left:
            assert re.fullmatch(rb"\|[ .wbWB]{%d}\|" % int(board), line), line
            rows_left -= 1
            continue
        number, _, answer = line.removeprefix(b"problem ").partition(b": ")
        assert int(number) == len(answers) + 1, line
        rows_left = 0 if answer.startswith(b"refused: ") else int(board)
        answers.append(answer)
    assert rows_left == 0, "a diagram was cut short"
    refused = any(answer.startswith(b"refused: ") for answer in answers)
    assert ran.returncode == (1 if refused else 0), ran.returncode
    return answers


def problems(make, rng, count):
    """So many random lines that are problems."""
    lines = []
    while len(lines) < count:
        line = make(rng)
        if is_problem(line):
            lines.append(line)
    return lines


def check(name, lines, board):
    """Sends lines through the program, and what it wrote once more."""
    answers = show(lines, board)
    assert len(answers) == len(lines), (len(answers), len(lines))
    written = []
    for line, answer in zip(lines, answers):
        if answer.startswith(b"refused: "):
            fault = FAULT.fullmatch(answer.removeprefix(b"refused: "))
            assert fault and 1 <= int(fault[2]) <= len(line) + 1, (line, answer)
        else:
            written.append(answer)
    assert show(written, board) == written, "a written text did not come back the same"
    print(f"{name}, board of {board} rows: {len(lines)} texts, {len(written)} read, written and read again the same")


def main():
    count, rng = count_asked(100_000), random.Random(SEED)
    subprocess.run([TOP / "build"], check=True)  # so that it is built
    for board in ("10", "8"):
        check("random bytes", problems(random_bytes, rng, count), board)
        check("random tokens", problems(random_tokens, rng, count), board)


if __name__ == "__main__":
    main()
