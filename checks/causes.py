#!/usr/bin/env python3
"""causes.py: runs `dw list` with each pair of causes that end it early, and compares how it ends.

    checks/causes.py

The causes come in this order: the arguments are wrong, the token cannot be read, there is no memory for the cache, the
file cannot be opened; then, in the run, a read fails, a write fails, the limit stops the search. A refused or missing
problem and a refused line count only if the run ends by itself.
"""
import itertools
import pathlib
import resource
import subprocess
import tempfile

TOP = pathlib.Path(__file__).resolve().parent.parent
DW = TOP / "crates/dw/out/dw"
FOUR = "W:W27,32,38:B18\n"
REFUSED = "W:W3:B20\n"
NO_LINE = "0101201c0000000000000000"
WORDS, TOKEN, MEMORY, OPEN, READ, WRITE, LIMIT, PROBLEM, NONE, LINE = range(10)
NAMES = ["wrong words", "no token", "no memory", "no file", "failed read", "failed write", "limit", "refused problem",
         "no such problem", "refused line"]
SAID = {
    TOKEN: (1, "dw: token refused: 1 not hex\n"),
    MEMORY: (3, "dw: stopped: 1 memory, 0 expanded\n"),
    OPEN: (3, "dw: cannot open /no/such/file\n"),
    READ: (3, "dw: read failed\n"),
    WRITE: (3, "dw: write failed\n"),
    LIMIT: (3, "dw: stopped: 2 limit, 1 expanded\n"),
    PROBLEM: (1, ""),
    NONE: (1, "dw: no problem 9\n"),
    LINE: (1, ""),
}
# Pairs that ask for two values of one thing.
IMPOSSIBLE = [{TOKEN, LINE}, {OPEN, READ}]
# Pairs in which the later one counts, since the earlier is not come to: nothing is written if there is no such problem,
# and nothing is searched; and a problem that is refused is not searched.
LATER = {(WRITE, NONE): NONE, (LIMIT, NONE): NONE, (PROBLEM, NONE): NONE}


def ended(causes, folder):
    problems = folder / "problems.fen"
    problems.write_text((REFUSED if PROBLEM in causes else "") + FOUR)
    words = ["list", "-n", "2"]
    words += ["--lines", "0"] * (WORDS in causes)
    words += ["--after", "0g"] * (TOKEN in causes) + ["--after", NO_LINE] * (LINE in causes)
    words += ["--memo", "slots", "--cache", "4000000"] * (MEMORY in causes)
    words += ["--positions", "1"] * (LIMIT in causes)
    words += ["--problem", "9"] * (NONE in causes)
    words += ["/no/such/file" if OPEN in causes else str(folder) if READ in causes else str(problems)]
    limit = (lambda: resource.setrlimit(resource.RLIMIT_AS, (64_000_000, 64_000_000))) if MEMORY in causes else None
    with open("/dev/full" if WRITE in causes else "/dev/null", "wb") as out:
        return subprocess.run([DW, *words], stdin=subprocess.DEVNULL, stdout=out, stderr=subprocess.PIPE, text=True,
                              timeout=60, check=False, preexec_fn=limit)


def main():
    count = 0
    # Builds the program if it has to be. Memory is refused to the program alone, and not to this.
    subprocess.run([TOP / "build"], check=True)
    with tempfile.TemporaryDirectory() as name:
        for causes in [*((cause,) for cause in range(10)), *itertools.combinations(range(10), 2)]:
            if set(causes) in IMPOSSIBLE:
                continue
            ran = ended(causes, pathlib.Path(name))
            first = LATER.get(causes, min(causes))
            named = " and ".join(NAMES[cause] for cause in causes)
            if first == WORDS:
                assert ran.returncode == 2 and ran.stderr.startswith("error: "), (named, ran)
            else:
                assert (ran.returncode, ran.stderr) == SAID[first], (named, ran)
            count += 1
            print(f"{named}: status {ran.returncode}, {ran.stderr.splitlines()[:1]}")
    print(f"{count} causes and pairs of causes: as stated")


if __name__ == "__main__":
    main()
