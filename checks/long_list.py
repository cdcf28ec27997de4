#!/usr/bin/env python3
"""long_list.py: lists over a million lines, measures speed and memory, and continues after lines of the list.

    checks/long_list.py

For each cache it prints the lines a second and the greatest resident size of `dw list`, for the whole list and for its
first 10,000 lines; the size may not grow by more than 1 MB. The caches hold 1,000 positions there, so they are full in
both runs; with the default size it only prints what they take. Then it stops the list after 20 of its lines by --lines,
and continues with the token: the output must be the rest of the list, byte for byte. The token is also made here, from
the text of the line. The last line comes within few expansions, since the lines before it are not listed again. After
it nothing comes.
"""
import hashlib
import os
import pathlib
import re
import subprocess
import tempfile
import time

from draughts import Board, other, play
from examples import position
from judging import Problems

DW = pathlib.Path(__file__).resolve().parent.parent / "dw"
POSITION = b"W:WK46,K47,49,50:B2\n"
WORDS = ["list", "-n", "5"]
MEMOS = [["none"], ["lru", "--cache", "1000"], ["slots", "--cache", "1000"], ["slots"], ["deep"]]
SHORT = 10_000
PLACES = 20
MOST_GROWTH = 1024  # kB
FEW = ["--memo", "none", "--positions", "2000"]
FIRST = b"problem 1: " + POSITION
MORE, COMPLETE = b"more after ", b"complete "


def listed(words, file, into):
    """Lists into a file."""
    with open(into, "wb") as sink:
        subprocess.run([DW, *WORDS, *words, file], stdout=sink, check=True)


def measured(words, into):
    """Lists into a file: the seconds that it took, and the greatest resident size in kB.

    The size that a process leaves at its end is also that of what it was before it became the program. So the program
    gets the position on its standard input, which stays open until the list is there and the size has been read.
    """
    started = time.monotonic()
    with open(into, "wb") as sink:
        process = subprocess.Popen([DW, *WORDS, *words], stdin=subprocess.PIPE, stdout=sink)
        process.stdin.write(POSITION)
        process.stdin.flush()
        while not is_ended(into):
            assert process.poll() is None, (words, process.returncode)
            time.sleep(0.005)
        seconds = time.monotonic() - started
        status = pathlib.Path(f"/proc/{process.pid}/status").read_text()
        process.stdin.close()
    assert process.wait(timeout=60) == 0, (words, process.returncode)
    return seconds, int(re.search(r"VmHWM:\s+(\d+) kB", status)[1])


def is_ended(path):
    """Whether the list in the file has its last line, whole."""
    if path.stat().st_size == 0:
        return False
    last = last_line(path)
    return last.startswith((MORE, COMPLETE)) and last.endswith(b"\n")


def last_line(path):
    with open(path, "rb") as file:
        file.seek(-min(1000, os.path.getsize(path)), os.SEEK_END)
        return file.read().splitlines(keepends=True)[-1]


def starts(path):
    """The place at which each line of a file starts, and its size."""
    places = [0]
    with open(path, "rb") as file:
        for line in file:
            places.append(places[-1] + len(line))
    return places


def text_at(path, lines, place):
    with open(path, "rb") as file:
        file.seek(lines[place])
        return file.readline()


def digest(path, first, end):
    """What stands in a file from one place up to another."""
    made = hashlib.sha256()
    with open(path, "rb") as file:
        file.seek(first)
        left = end - first
        while left > 0:
            piece = file.read(min(left, 1 << 20))
            assert piece, f"{path} ends too soon"
            made.update(piece)
            left -= len(piece)
    return made.hexdigest()


def measure(folder):
    """Prints speeds and sizes; the whole lists are the same bytes, and one of them is kept."""
    kept, wholes = folder / "whole", set()
    for memo in [*MEMOS, ["lru"]]:
        seconds, size = measured(["--memo", *memo], kept)
        short_seconds, short_size = measured(["--memo", *memo, "--lines", str(SHORT)], folder / "short")
        wholes.add(digest(kept, 0, kept.stat().st_size))
        count = int(last_line(kept).removeprefix(COMPLETE))
        print(f"--memo {' '.join(memo)}: {count} lines in {seconds:.1f} s, {count / seconds:.0f} a second, {size} kB; "
              f"{SHORT} lines in {short_seconds:.2f} s, {short_size} kB", flush=True)
        assert count > 1_000_000, count
        assert memo in (["lru"], ["slots"], ["deep"]) or size - short_size <= MOST_GROWTH, (memo, size, short_size)
    assert len(wholes) == 1, "the lists differ"
    return kept, count


def token_of(line):
    """The token of a line of the list, made from its text."""
    words = [word for word in line.decode().split() if not word.endswith(".")]
    cells, turn = position(POSITION.decode().strip())
    problems, moves = Problems(Board(10)), []
    for word in words:
        moves.append(next(move for move, _ in problems.moves(cells, turn) if problems.text(cells, turn, move) == word))
        cells, turn = play(problems.board, cells, moves[-1]), other(turn)
    return problems.token(moves)


def go_on(file, rest, whole, place, token):
    """Goes on after the line of that number and token, and compares what comes with the whole list."""
    path, lines, count = whole
    listed(["--after", token, *(FEW if place >= count - 1 else [])], file, rest)
    complete = b"complete %d\n" % (count - place)
    assert last_line(rest) == complete, (place, last_line(rest))
    size = rest.stat().st_size - len(complete)
    assert size - len(FIRST) == lines[count + 1] - lines[place + 1], (place, size)
    assert digest(rest, 0, len(FIRST)) == digest(path, 0, len(FIRST)), place
    assert digest(rest, len(FIRST), size) == digest(path, lines[place + 1], lines[count + 1]), place


def resume(file, folder, path, count):
    """Stops the list after some of its lines, and goes on after each; then after the last line."""
    lines = starts(path)  # line k of the list, from 1, starts at lines[k]
    assert len(lines) == count + 3, (len(lines), count)
    begun, rest, whole = folder / "begun", folder / "rest", (path, lines, count)
    for place in [1 + (count - 2) * step // (PLACES - 1) for step in range(PLACES)]:
        listed(["--lines", str(place)], file, begun)
        token = last_line(begun).removeprefix(MORE).strip().decode()
        assert token == token_of(text_at(path, lines, place)), (place, token)
        stop = lines[place + 1]
        assert begun.stat().st_size == stop + len(MORE) + len(token) + 1, place
        assert digest(begun, 0, stop) == digest(path, 0, stop), place
        go_on(file, rest, whole, place, token)
        print(f"stopped after line {place}, and {count - place} lines after it: the same bytes", flush=True)
    listed(["--lines", str(count)], file, begun)
    size = path.stat().st_size
    assert begun.stat().st_size == size and digest(begun, 0, size) == digest(path, 0, size), "not complete"
    go_on(file, rest, whole, count, token_of(text_at(path, lines, count)))
    print(f"stopped after line {count}, the last: complete, and no line after its token")


def main():
    subprocess.run([DW, "--help"], capture_output=True, check=False)  # so that it is built
    with tempfile.TemporaryDirectory() as name:
        folder = pathlib.Path(name)
        file = folder / "position"
        file.write_bytes(POSITION)
        resume(file, folder, *measure(folder))


if __name__ == "__main__":
    main()
