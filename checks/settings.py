#!/usr/bin/env python3
"""settings.py: compares the reports of worked positions with each cache and each limit.

    checks/settings.py

The positions and their reports are the rows of tests/wins.rows that are asked with several caches. Each is judged and
listed with each cache, and with --cache 1, 2 and 100000; the report must be the stated bytes. Then the limit of
--positions rises by one from 1 until the run is whole. Each smaller limit E must stop the run with status 3 and `dw:
stopped: 2 limit, E expanded`, after the problem's first line and whole lines of the rest, and never with less output
than a smaller limit.
"""
import pathlib
import re
import subprocess

import rows

TOP = pathlib.Path(__file__).resolve().parent.parent
DW = TOP / "dw"
ROWS = TOP / "tests/wins.rows"
MEMOS = [("none", "100000"), *((memo, cache) for memo in ("lru", "slots", "deep") for cache in ("1", "2", "100000"))]
MOST = 1000


def reports(command):
    """The reports of a command, by position and number of moves."""
    found = {}
    for row in rows.read(ROWS):
        asked = re.fullmatch(rf"dw {command} -n (\d+) --memo {{.*", row.command)
        if asked:
            found[row.input.decode(), asked[1]] = row.out.encode()
    assert found, command
    return found


def solved():
    """The rows: a position, a number of moves, the report that judges it and the one that lists it."""
    judged, listed = reports("judge"), reports("list")
    assert judged.keys() == listed.keys()
    return [(fen, n, judged[fen, n], listed[fen, n]) for fen, n in judged]


def run(words, fen):
    return subprocess.run([DW, *words], input=fen.encode(), capture_output=True, timeout=60, check=False)


def needed(words, fen, wanted):
    """The least limit that does not stop the run."""
    written = b""
    for limit in range(1, MOST):
        ran = run([*words, "--positions", str(limit)], fen)
        assert ran.stdout.startswith(written) and wanted.startswith(ran.stdout), (words, limit, ran)
        written = ran.stdout
        if ran.returncode != 3:
            assert (ran.returncode, ran.stdout, ran.stderr) == (0, wanted, b""), (words, limit, ran)
            return limit
        assert ran.stderr == b"dw: stopped: 2 limit, %d expanded\n" % limit, (words, limit, ran)
        assert written.startswith(f"problem 1: {fen}\n".encode()) and written.endswith(b"\n"), (words, limit, ran)
    raise AssertionError(f"{words} {fen}: {MOST} positions are not enough")


def main():
    run(["--help"], "")  # so that it is built
    for fen, n, judged, listed in solved():
        found = []
        for command, wanted in (("judge", judged), ("list", listed)):
            limits = []
            for memo, cache in MEMOS:
                words = [command, "-n", n, "--memo", memo, "--cache", cache]
                ran = run(words, fen)
                assert (ran.returncode, ran.stdout, ran.stderr) == (0, wanted, b""), (words, fen, ran)
                limits.append(needed(words, fen, wanted))
            found.append(f"{command} {' '.join(map(str, limits))}")
        print(f"{fen or 'nothing'} in {n}: the same bytes; positions needed: {', '.join(found)}")
    print(f"with the memos {', '.join(f'{memo} {cache}' for memo, cache in MEMOS)}, in this order")


if __name__ == "__main__":
    main()
