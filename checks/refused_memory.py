#!/usr/bin/env python3
"""refused_memory.py: refuses each allocation of `dw moves`, `judge`, `list` and the commands of `dw-desk` in turn, and
compares the output.

    checks/refused_memory.py

A run without enough memory writes the whole report, or it ends with status 3 and the line `dw: stopped: 1 memory, E
expanded`. Its output is then the whole texts of some problems, the first line of the next, and whole lines of its text;
or nothing with E 0, if the arguments could not be read or the cache not be made. E is at most the expansions of a run
without a cache, and 0 for `moves`. The last run of each input meets no refusal and is whole. `judge` and `list` run
with each cache. `dw show` allocates nothing after its arguments. `show` and `moves` with `--json` have written whole
rows. Each command of `dw-desk` writes everything, or ends in this way after a beginning of it.
"""
import os
import pathlib
import re
import subprocess
import tempfile

HERE = pathlib.Path(__file__).resolve().parent
DW = HERE.parent / "dw"
PROGRAM = HERE.parent / "crates/dw/out/dw"
DESK = HERE.parent / "crates/dw_desk/out/dw_desk"
POSITIONS = """W:W32:B28 W:W41,45,47:B36 W:W27,45:B16 W:W27:B16 W:W14:B8,9 W:WK47:B17,18,24,32,33 W:W38:B22,23,32,33
W:W47:B13,14,22,31,32,41,42 W:W27,32,38:B18 W:W27,32:B18 W:W28:B W:WK46:B28 W:W:B20 W:W3:B20""".split()
TOGETHER = "\n".join(POSITIONS).encode()
# Of these the wins in one move are looked for too.
IN_ONE = POSITIONS[:2] + POSITIONS[10:12]
MEMOS = ["none", "lru", "slots", "deep"]
STOPPED = re.compile(rb"dw: stopped: 1 memory, (\d+) expanded\n")
# What the last line of a problem's text has, of a command that marks it. A verdict may have tries after it.
LAST_LINE = {"moves": b" taking ", "list": b"\ncomplete "}
# Commands of dw-desk, for one game.
DESK_COMMANDS = (["find", "--pdn"], ["find", "--pdn", "--json"], ["find", "--pdn", "-n", "3", "--json", "--solution"],
                 ["check"], ["solution", "--pdn", "-n", "2"],
                 ["page", "--pdn", "-n", "2"], ["certify", "--pdn", "-n", "2"], ["mend", "--pdn", "-n", "1"],
                 ["moves", "--pdn", "-n", "2"], ["moves", "--pdn", "-n", "2", "--json"], ["check", "--json"],
                 ["mend", "--pdn", "-n", "1", "--json"], ["solution", "--pdn", "--most", "2"],
                 ["solution", "--pdn", "-n", "2", "--json"], ["check", "--faults"], ["check", "--most", "3"],
                 ["page", "--pdn", "-n", "2", "--tries", "none"], ["moves", "--pdn", "-n", "2", "--part", "2/2"],
                 ["same", "--pdn"], ["same", "--pdn", "--json"], ["token", "--pdn", "--line", "45-40 16-21 27x16"])
GAME = b'[Event "a"]\n[FEN "W:W27,45:B16"]\n\n1. 45-40 (1. 27-21 16x27) 16-21 2. 27x16 *\n'
# A memo that is refused memory for an entry loses it, and then a certificate may lack a position.
DESK_STOPPED = re.compile(rb"dw-desk: (stopped: 1 memory, \d+ expanded|too many positions, .*)\n")


def refused(folder, number, words, given, program=PROGRAM):
    mark = folder / "mark"
    mark.unlink(missing_ok=True)
    changes = {"LD_PRELOAD": str(folder / "refuse.so"), "REFUSED_ALLOCATION": str(number), "REFUSED_MARK": str(mark)}
    environment = os.environ | changes
    ran = subprocess.run([program, *words], input=given, capture_output=True, timeout=60, check=False, env=environment)
    return ran, mark.exists()


def whole(words, given):
    ran = subprocess.run([DW, *words], input=given, capture_output=True, timeout=900, check=False)
    assert ran.stderr == b"" and ran.returncode in (0, 1), (words, ran)
    return ran


def most_expanded(words, given):
    """How many positions a run expands that keeps nothing: the least limit that does not stop it, or 0."""

    def is_stopped(limit):
        limited = [DW, *words, "--memo", "none", "--positions", str(limit)]
        return subprocess.run(limited, input=given, capture_output=True, timeout=60, check=False).returncode == 3

    low, high = 0, 1
    while is_stopped(high):
        low, high = high, 2 * high
    while low + 1 < high:
        middle = (low + high) // 2
        low, high = (middle, high) if is_stopped(middle) else (low, middle)
    return high


def is_part(written, report, command):
    """Whether these are whole texts of problems, the first line of the next, and whole lines of its text."""
    if not (report.startswith(written) and written.startswith(b"problem 1: ") and written.endswith(b"\n")):
        return False
    last = written[written.rindex(b"problem ") :]
    return ": refused: " not in last.decode() and LAST_LINE.get(command, b"problem problem") not in last


def each_in_turn(folder, words, given, most):
    """The number of allocations, at how many the run stopped with nothing written, and at how many after something."""
    report = whole(words, given)
    silent = stopped = 0
    for number in range(1, 10000):
        ran, was_refused = refused(folder, number, words, given)
        found = STOPPED.fullmatch(ran.stderr)
        if found and was_refused:
            assert ran.returncode == 3, (words, number, ran)
            expanded = int(found[1])
            if ran.stdout == b"":
                assert expanded == 0 and stopped == 0, (words, number, ran)
                silent += 1
            else:
                assert expanded <= most and is_part(ran.stdout, report.stdout, words[0]), (words, number, ran)
                stopped += 1
        else:
            ended, wanted = (ran.returncode, ran.stdout, ran.stderr), (report.returncode, report.stdout, b"")
            assert ended == wanted, (words, number, ran)
        if not was_refused:
            return number - 1, silent, stopped
    raise AssertionError("no run without a refusal")


def rows_in_turn(folder, words):
    """Each allocation of a run that writes rows. After a refusal those before it are whole, and each number of rows
    occurs."""
    report, counts = whole(words, TOGETHER), set()
    for number in range(1, 10000):
        ran, was_refused = refused(folder, number, words, TOGETHER)
        if not was_refused:
            assert ran.stdout == report.stdout and counts == set(range(len(POSITIONS))), (words, number, counts)
            print(f"{' '.join(words)}: {number - 1} allocations, each refused in turn; whole rows", flush=True)
            return
        if ran.returncode == report.returncode:
            assert (ran.stdout, ran.stderr) == (report.stdout, b""), (words, number, ran)
            continue
        assert (ran.returncode, ran.stderr) == (3, b"dw: stopped: 1 memory, 0 expanded\n"), (words, number, ran)
        rows = ran.stdout.splitlines(keepends=True)
        assert rows == report.stdout.splitlines(keepends=True)[: len(rows)], (words, number, ran)
        counts.add(len(rows))
    raise AssertionError("no run without a refusal")


def show_takes_none(folder):
    one, many = (each_in_turn(folder, ["show"], given, 0) for given in (POSITIONS[0].encode(), TOGETHER))
    assert one == many, (one, many)
    print(f"show: {one[0]} allocations, as many for one problem as for {len(POSITIONS)}")


def command_on(folder, words, inputs, memo=()):
    """Each input with these words, the memo's among them."""
    allocations = stops = 0
    silences = set()
    for given in inputs:
        most = 0 if words[0] == "moves" else most_expanded(words, given)
        number, silent, stopped = each_in_turn(folder, [*words, *memo], given, most)
        silences.add(silent)
        allocations, stops = allocations + number, stops + stopped
    assert len(silences) == 1, f"a first line was left out: {silences}"
    print(f"{' '.join([*words, *memo])}: {len(inputs)} inputs, {allocations} allocations, each refused in turn; "
          f"{silences.pop()} of each stopped with nothing written, {stops} after whole lines", flush=True)


def desk_in_turn(folder, words):
    """Each allocation of a command of dw-desk."""
    report = subprocess.run([DESK, *words], input=GAME, capture_output=True, timeout=60, check=False)
    assert report.stderr == b"" and report.returncode in (0, 1) and report.stdout, (words, report)
    stopped = 0
    for number in range(1, 10000):
        ran, was_refused = refused(folder, number, words, GAME, DESK)
        if was_refused and ran.returncode == 3:
            found = DESK_STOPPED.fullmatch(ran.stderr)
            assert found and report.stdout.startswith(ran.stdout), (words, number, ran)
            assert found[1].startswith(b"stopped") or words[0] == "certify", (words, number, ran)
            stopped += 1
        else:
            ended, wanted = (ran.returncode, ran.stdout, ran.stderr), (report.returncode, report.stdout, b"")
            assert ended == wanted, (words, number, ran)
        if not was_refused:
            print(f"dw-desk {' '.join(words)}: {number - 1} allocations, each refused in turn; {stopped} runs stopped",
                  flush=True)
            return
    raise AssertionError("no run without a refusal")


def main():
    with tempfile.TemporaryDirectory() as name:
        folder = pathlib.Path(name)
        library, source = folder / "refuse.so", HERE / "refuse_allocation.c"
        subprocess.run(["cc", "-O1", "-shared", "-fPIC", "-o", library, source, "-ldl"], check=True)
        whole(["show"], b"")  # so that it is built
        show_takes_none(folder)
        for words in DESK_COMMANDS:
            desk_in_turn(folder, words)
        each = [position.encode() for position in POSITIONS]
        command_on(folder, ["moves"], [*each, TOGETHER])
        rows_in_turn(folder, ["show", "--json"])
        rows_in_turn(folder, ["moves", "--json"])
        for command in ("judge", "list"):
            for memo in MEMOS:
                chosen = ["--memo", memo, "--cache", "1000"]
                command_on(folder, [command, "-n", "2"], [*each, TOGETHER], chosen)
                command_on(folder, [command, "-n", "1"], [position.encode() for position in IN_ONE], chosen)


if __name__ == "__main__":
    main()
