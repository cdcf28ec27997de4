#!/usr/bin/env python3
"""refused_search.py: refuses each allocation of the solver's searches, the lister and the reader of moves in turn.

    checks/refused_search.py

It takes the sections whose heads begin with `refused` from the rows of crates/dw_tests, and runs its program once for
each allocation. `rt ci` leaves this program; the launcher builds it if it is missing or old. The rows parse moves, note
bounds, search positions with each cache for 1 to 3 moves, judge positions, and list lines one by one. After a refusal
the right answer must still come, or an out-of-memory error and then the right answer at the second call. The program
itself may end for lack of memory only while it reads the rows. The last run of each section meets no refusal.
"""
import os
import pathlib
import subprocess
import tempfile

TOP = pathlib.Path(__file__).resolve().parent.parent
CRATE = TOP / "crates/dw_tests"
PROGRAM = CRATE / "out/dw_tests"
MOST = 100_000


def build():
    """Has the launcher build the program, if it is not there."""
    subprocess.run([TOP / "build", CRATE.name], check=True)


def sections():
    """The sections to run: each its rows, and what has to be said of it."""
    wanted = dict(line.split(": ") for line in (CRATE / "stdout").read_text().splitlines())
    found = {}
    for line in (CRATE / "stdin").read_text().splitlines():
        if not line.startswith((" ", "#")):
            head = line
        if not line.startswith("#") and head.startswith("refused"):
            found.setdefault(head, []).append(line)
    assert len(found) >= 5, found
    return [("\n".join(lines) + "\n", f"{head}: {wanted[head]}\n") for head, lines in found.items()]


def run(library, folder, number, rows):
    """Runs the program with that allocation refused, and tells whether there was one of that number."""
    mark = folder / "mark"
    mark.unlink(missing_ok=True)
    changes = {"LD_PRELOAD": str(library), "REFUSED_ALLOCATION": str(number), "REFUSED_MARK": str(mark)}
    ran = subprocess.run([PROGRAM], input=rows, capture_output=True, timeout=60, check=False, text=True,
                         env=os.environ | changes)
    return ran, mark.exists()


def each_in_turn(library, rows, wanted):
    """Refuses each allocation of a section in turn; says how many there are."""
    unread = 0
    with tempfile.TemporaryDirectory() as name:
        for number in range(1, MOST):
            ran, was_refused = run(library, pathlib.Path(name), number, rows)
            if ran.returncode == 1 and was_refused and ran.stdout == "" and unread == number - 1:
                unread = number
                continue
            assert (ran.returncode, ran.stdout) == (0, wanted), (wanted, number, ran)
            if not was_refused:
                break
    assert number - 1 > unread, "no allocation was refused behind the reading"
    return (f"{wanted.strip()}, with {number - 1} allocations, each refused in turn;"
            f" of the first {unread} the rows are read")


def main():
    build()
    with tempfile.TemporaryDirectory() as name:
        library = pathlib.Path(name) / "refuse.so"
        source = TOP / "checks/refuse_allocation.c"
        subprocess.run(["cc", "-O1", "-shared", "-fPIC", "-o", library, source, "-ldl"], check=True)
        for rows, wanted in sections():
            print(each_in_turn(library, rows, wanted), flush=True)


if __name__ == "__main__":
    main()
