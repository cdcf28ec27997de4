#!/usr/bin/env python3
"""memory.py: measures the greatest resident size of programs that read one small problem, and many.

    checks/memory.py

A cache starts small, and becomes small again after each problem. `dw-desk find --each` empties it, and makes no other.
"""
import pathlib
import random
import re
import subprocess
import tempfile
import time

from draughts import Board, fen
from long_list import last_line
from wins import drawn

TOP = pathlib.Path(__file__).resolve().parent.parent
SEED = 85
MANY = 20_000
# The words, the number of problems, and the most that the run may take, in kB.
RUNS = [(["dw", "judge", "-n", "2"], 1, 10_000), (["dw", "judge", "-n", "3"], MANY, 20_000),
        *((["dw-desk", "find", "--most", "4", "--each", "1000", "--memo", memo], MANY, 20_000)
          for memo in ("deep", "slots", "lru"))]


def measured(words, problems, into):
    """The greatest resident size in kB, as long_list.py reads it: once the text after the problems is refused."""
    with open(into, "wb") as sink:
        process = subprocess.Popen([TOP / words[0], *words[1:]], stdin=subprocess.PIPE, stdout=sink)
        process.stdin.write("".join(f"{problem}\n" for problem in [*problems, "x"]).encode())
        process.stdin.flush()
        last = b"problem %d: refused" % (len(problems) + 1)
        while not (into.stat().st_size > 0 and last_line(into).startswith(last)):
            assert process.poll() is None, (words, process.returncode)
            time.sleep(0.005)
        status = pathlib.Path(f"/proc/{process.pid}/status").read_text()
        process.stdin.close()
    assert process.wait(timeout=60) == 1, (words, process.returncode)
    return int(re.search(r"VmHWM:\s+(\d+) kB", status)[1])


def main():
    source, board = random.Random(SEED), Board(10)
    problems = [fen(drawn(source, board), "W") for _ in range(MANY)]
    with tempfile.TemporaryDirectory() as name:
        for words, count, most in RUNS:
            subprocess.run([TOP / words[0], "--help"], capture_output=True, check=False)  # so that it is built
            size = measured(words, problems[:count], pathlib.Path(name) / "report")
            print(f"{' '.join(words)}, {count} problems: {size} kB")
            assert size <= most, (words, size)


if __name__ == "__main__":
    main()
