#!/usr/bin/env python3
"""rows.py: runs `dw` and `dw-desk` on the rows of tests/*.rows, and compares the output and the exit status.

    checks/rows.py [FILE ..]

Each row also runs with its input in small pieces, and must write the same. Then each byte of a text of two games is
changed in turn to each mark of a PDN file: every such text has one report, also in pieces.

A file of rows has sections. A section begins with a command at the start of a line, and ` = STATUS` after it if the
status is not 0. Below it a row is one line of input after two blanks, then the lines that the program must write:

    # A comment. The next section runs four times, with each word between the braces.
    dw judge -n 1 --memo {none,lru,slots,deep}
      W:W32:B28
      > problem 1: W:W32:B28
      > sound in 1: 32x23
    dw-desk token --line @ = 1
      W:W32:B28 @ 32-23
      ! dw-desk: line refused: 2 no such move at 1

`>` marks standard output and `!` standard error. A row with a line `~` also runs with each read and each write failing
in turn; tests/streams.rows says what stands in that line. If the command has the word `@`, the text after ` @ ` in a
row takes its place. In both, `\\n`, `\\r`, `\\t`, `\\\\` and `\\x` with two digits stand for bytes, and
`\\(TEXT*N)` for N times TEXT. `\\(*0)` is no input.
"""
import argparse
import dataclasses
import fcntl
import itertools
import os
import pathlib
import re
import shlex
import struct
import subprocess
import sys
import tempfile
import termios
import time

TOP = pathlib.Path(__file__).resolve().parent.parent
ROWS = TOP / "tests"
PROGRAMS = {"dw": TOP / "crates/dw/out/dw", "dw-desk": TOP / "crates/dw_desk/out/dw_desk"}
ESCAPE = re.compile(r"\\(?:([nrt\\])|x([0-9A-F]{2})|\(((?:[^\\*]|\\[^(])*)\*(\d+)\))")
LETTERS = {"n": b"\n", "r": b"\r", "t": b"\t", "\\": b"\\"}
PIECES = 300  # a longer input comes in about so many pieces
PATIENCE = 60
MOST_CALLS = 2000  # no row needs so many reads or writes
# Two games, of which each byte is changed, and what it is changed to.
GAMES = b"""[Event "Test \\"A\\""]
[GameType "20,W,10"]
[FEN "W:W27,45:B16"]

1. 45-40 {[a wait]} 16-21 2. 27x16 *

[GameType "21"]
[FEN "W:W32:B28"]
*
"""
MARKS = b'[]{}"\\'


@dataclasses.dataclass
class Row:
    place: str
    command: str
    status: int
    text: str
    out: str = ""
    err: str = ""
    ends: list = None

    def __post_init__(self):
        """Splits off the word of the row, if the command wants one."""
        self.words, text, word = shlex.split(self.command), self.text, ""
        if "@" in self.words:
            text, _, word = text.rpartition(" @ ")
        self.input, self.word = unescaped(text), unescaped(word).decode()

    def calls(self):
        """The words of each call: one for each choice of a word between braces."""
        given = [self.word if part == "@" else part for part in self.words]
        choices = [part[1:-1].split(",") if part.startswith("{") else [part] for part in given]
        return [list(words) for words in itertools.product(*choices)]


def unescaped(text):
    """The bytes that a text with escapes stands for."""
    made, at = b"", 0
    for found in ESCAPE.finditer(text):
        made += plain(text[at : found.start()])
        at = found.end()
        letter, code, repeated, times = found.groups()
        made += LETTERS[letter] if letter else bytes.fromhex(code) if code else unescaped(repeated) * int(times)
    return made + plain(text[at:])


def plain(text):
    assert "\\" not in text, f"no such escape: {text}"
    return text.encode()


def read(file):
    """The rows of a file."""
    command, status, rows = None, 0, []
    for number, line in enumerate(file.read_text().splitlines(), 1):
        place = f"{file.name}, line {number}"
        mark = line.strip() if len(line) == 3 else line[:4].strip()
        if line.startswith("  ") and mark == ">":
            rows[-1].out += f"{line[4:]}\n"
        elif line.startswith("  ") and mark == "!":
            rows[-1].err += f"{line[4:]}\n"
        elif line.startswith("  ") and mark == "~":
            rows[-1].ends = [tuple(map(int, end.split(":"))) for end in line[4:].split()]
        elif line.startswith("  "):
            rows.append(Row(place, command, status, line[2:]))
        elif line and not line.startswith("#"):
            command, _, told = line.partition(" = ")
            status = int(told or "0")
            assert command.split()[0] in PROGRAMS, place
    return rows


def run(words, given, **changes):
    """The status and the output of a program that gets its input at once, with changes of its environment."""
    ran = subprocess.run([PROGRAMS[words[0]], *words[1:]], input=given, capture_output=True, timeout=PATIENCE,
                         check=False, env=os.environ | changes)
    return ran.returncode, ran.stdout, ran.stderr


def run_in_pieces(words, given):
    """The same of a program that gets the next piece only once it has read the one before."""
    size = len(given) // PIECES + 1
    with tempfile.TemporaryFile() as out, tempfile.TemporaryFile() as err:
        process = subprocess.Popen([PROGRAMS[words[0]], *words[1:]], stdin=subprocess.PIPE, stdout=out, stderr=err,
                                   bufsize=0)
        try:
            for at in range(0, len(given), size):
                process.stdin.write(given[at : at + size])
                wait_until_read(process)
        except BrokenPipeError:
            pass  # it ended without reading the rest
        process.stdin.close()
        status = process.wait(timeout=PATIENCE)
        out.seek(0)
        err.seek(0)
        return status, out.read(), err.read()


def wait_until_read(process):
    """Waits until nothing is left in the pipe to a process, or the process has ended."""
    until = time.monotonic() + PATIENCE
    while struct.unpack("i", fcntl.ioctl(process.stdin, termios.FIONREAD, b"\0" * 4))[0]:
        if process.poll() is not None:
            return
        assert time.monotonic() < until, process.args
        time.sleep(0.00002)


def compare(row):
    """What is wrong with a row, or nothing."""
    wanted = row.status, row.out.encode(), row.err.encode()
    for words in row.calls():
        found = run(words, row.input)
        if found != wanted:
            return f"{row.place}: {shlex.join(words)}: {shown(found)}; wanted: {shown(wanted)}"
    found = run_in_pieces(words, row.input)
    return None if found == wanted else f"{row.place}: {shlex.join(words)}, in pieces: {shown(found)}"


def shown(answer):
    status, out, err = answer
    return f"status {status}, {out[:2000]!r}, {err[:2000]!r}"


def fails_at_reads(row, words, chop, step):
    """What is wrong with a row whose input gives a few bytes a read and fails at one read. It leaves just the texts of
    the problems that ended before, and everything if that read is not needed."""
    lines, name = row.out.splitlines(keepends=True), words[0]
    for number in range(1, MOST_CALLS):
        found = run(words, row.input, LD_PRELOAD=chop, READ_STEP=str(step), READ_FAILS=str(number))
        if found == (row.status, row.out.encode(), b""):
            return None
        there = max([written for place, written in row.ends if place <= step * (number - 1)], default=0)
        if found != (3, "".join(lines[:there]).encode(), f"{name}: read failed\n".encode()):
            break
    return f"{row.place}: {step} bytes a read, and read {number} fails: {shown(found)}"


def fails_at_writes(row, words, chop, step):
    """What is wrong with a row whose output takes a few bytes a write and fails at one. It leaves a beginning, and
    everything if that write is not needed."""
    whole, before, failed = row.out.encode(), b"", (3, f"{words[0]}: write failed\n".encode())
    for number in range(1, MOST_CALLS):
        found = run(words, row.input, LD_PRELOAD=chop, WRITE_STEP=str(step), WRITE_FAILS=str(number))
        if found == (row.status, whole, b""):
            return None
        status, out, err = found
        if (status, err) != failed or not whole.startswith(out) or not out.startswith(before):
            break
        before = out
    return f"{row.place}: {step} bytes a write, and write {number} fails: {shown(found)}"


def check_failing(rows):
    """What is wrong with the rows whose reads and writes fail in turn."""
    wrong = []
    with tempfile.TemporaryDirectory() as name:
        chop = f"{name}/chop.so"
        subprocess.run(["cc", "-O1", "-shared", "-fPIC", "-o", chop, TOP / "checks/chop_streams.c", "-ldl"], check=True)
        for row in rows:
            (words,) = row.calls()
            wrong += [fails_at_reads(row, words, chop, step) for step in (1, 2, 7, 10)]
            wrong += [fails_at_writes(row, words, chop, step) for step in (1, 5)]
            none = run(words, row.input, LD_PRELOAD=chop, WRITE_STEP="0")
            if none != (3, b"", f"{words[0]}: write failed\n".encode()):
                wrong.append(f"{row.place}: writes that take nothing: {shown(none)}")
    print(f"{len(rows)} rows with each read and each write failing in turn")
    return list(filter(None, wrong))


def check_changed():
    """Each byte of two games changed to each mark."""
    words, count = ["dw", "show", "--pdn"], 0
    for place, mark in itertools.product(range(len(GAMES)), MARKS):
        text = GAMES[:place] + bytes([mark]) + GAMES[place + 1 :]
        found = run(words, text)
        assert found[0] in (0, 1) and found[1].startswith(b"problem 1: ") and not found[2], (place, mark, found)
        assert run_in_pieces(words, text) == found, (place, mark)
        count += 1
    print(f"{count} texts of two games with a changed byte: one report each")


def main():
    words = argparse.ArgumentParser(description="Runs the programs on rows of text.")
    words.add_argument("files", nargs="*", type=pathlib.Path, help="just these files of rows")
    files = words.parse_args().files or sorted(ROWS.glob("*.rows"))
    subprocess.run([TOP / "build"], check=True)  # so that the programs are there
    wrong = []
    for file in files:
        rows = read(file)
        told = list(filter(None, map(compare, rows)))
        wrong += told
        print(f"{file.name}: {len(rows) - len(told)} of {len(rows)} rows right", flush=True)
        failing = [row for row in rows if row.ends is not None]
        wrong += check_failing(failing) if failing else []
    if wrong:
        sys.exit("\n".join(wrong))
    check_changed()


if __name__ == "__main__":
    main()
