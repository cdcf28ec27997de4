#!/usr/bin/env python3
"""parallel.py: follows docs/MANY.md on one machine, and compares the result with the report of one run.

    checks/parallel.py

The commands come from the page: GNU parallel with `-k`, with `--joblog` and `--resume`, and `xargs`. The problems are
those of examples/problems.fen, two refused ones, and random small ones, 200 in all. The result must be the report of
one run, byte for byte, for `judge`, `list`, the portions of a contest by `dw-desk find`, and the parts of one problem
by `dw-desk moves`. The interruptible run is killed in the middle and started again. The log must show a run that a
limit or `--timeout` stopped, as the page says.
"""
import os
import pathlib
import random
import re
import signal
import subprocess
import tempfile
import time

from draughts import Board, fen
from launching import below, end
from wins import drawn

TOP = pathlib.Path(__file__).resolve().parent.parent
PROGRAMS = TOP / "crates/dw/out"
PAGE = TOP / "docs/MANY.md"
COUNT = 200
SEED = 17
REFUSED = ["W:W3:B20", "W:W32,32:B28"]
COMMANDS = [["judge", "-n", "3"], ["list", "-n", "2", "--lines", "20"]]
ENDS = {0, 1, 2}  # of 200 runs two are refused


def problems():
    """The lines of the file: problems in order, with an empty line among them."""
    source, board = random.Random(SEED), Board(10)
    lines = (TOP / "examples" / "problems.fen").read_text().split() + REFUSED
    while len(lines) < COUNT:
        lines.append(fen(drawn(source, board), source.choice("WB")))
    source.shuffle(lines)
    return [*lines[:10], "", *lines[10:]]


def recipe(word, words=("judge", "-n", "3"), program="dw"):
    """The block of commands on the page that calls this program and has this word, for these words of the program."""
    blocks = re.findall(r"(?:^ {4}.*\n)+", PAGE.read_text(), re.MULTILINE)
    found, = (block for block in blocks if word in block and ("dw-desk" in block) == (program == "dw-desk"))
    assert "judge -n 3" in found or words == ("judge", "-n", "3"), found
    return found.replace("judge -n 3", " ".join(words)).replace("FILE", "problems.fen")


def environment(folder):
    """The programs on the PATH, and a place for what GNU parallel keeps."""
    return os.environ | {"PATH": f"{PROGRAMS}{os.pathsep}{TOP}{os.pathsep}{os.environ['PATH']}", "n": str(COUNT),
                         "PARALLEL_HOME": str(folder / "home")}


def follow(commands, folder, ends=ENDS, **more):
    ran = subprocess.run(["bash", "-c", commands], cwd=folder, env=environment(folder) | more, stdin=subprocess.DEVNULL,
                         capture_output=True, timeout=600, check=False)
    assert ran.returncode in ends, (commands, ran)
    return ran


def one_run(words, folder, program=PROGRAMS / "dw"):
    one = subprocess.run([program, *words, "problems.fen"], cwd=folder, capture_output=True, timeout=600,
                         check=False)
    assert (one.returncode, one.stderr) == (1, b"") and one.stdout.count(b"problem ") == COUNT, one
    return one.stdout


def compare(name, words, folder, wanted):
    written = (folder / "report").read_bytes()
    assert written == wanted, (name, words, written[-300:])
    print(f"{name}, {' '.join(words)}: {COUNT} problems, {wanted.count(bytes([10]))} lines, the same bytes", flush=True)
    (folder / "report").unlink()


def interrupted(words, folder, wanted):
    """Kills the run in its middle, and starts it again."""
    commands = recipe("--resume", words)
    process = subprocess.Popen(["bash", "-c", commands], cwd=folder, env=environment(folder), stdin=subprocess.DEVNULL,
                               stdout=subprocess.DEVNULL, stderr=subprocess.DEVNULL)
    log = folder / "log"
    last = time.monotonic() + 60
    while not log.exists() or log.read_text().count("\n") < COUNT // 4:
        assert process.poll() is None and time.monotonic() < last, "it ended before it was interrupted"
        time.sleep(0.01)
    end([process.pid, *below(process.pid)])
    assert process.wait(timeout=60) == -signal.SIGKILL
    begun = log.read_text().count("\n") - 1
    assert begun < COUNT, "all runs had ended"
    follow(commands, folder)
    assert log.read_text().count("\n") - 1 == COUNT, "runs that had ended were started again"
    compare(f"--resume after {begun} problems", words, folder, wanted)


def stopped(folder):
    """Runs that --positions and --timeout stop are named by the page's command, and can be asked again."""
    # Two that are solved at once, and two that take minutes in 20 moves.
    (folder / "problems.fen").write_text("W:W32:B28\nW:WK46:B28\nB:W31,K35:BK40,45,K49\nW:W31-50:B1-20\n")
    named = recipe("awk")
    for more, n, wanted in ((["--positions", "20"], "2", "3\n4\n"), ([], "20", "3\n4\n")):
        words = ["judge", "-n", n, *more]
        commands = recipe("--resume", words).replace("$n", "4")
        if not more:
            commands = commands.replace("parallel ", "parallel --timeout 5 ")
        follow(commands, folder)
        assert follow(named, folder).stdout.decode() == wanted, (words, (folder / "log").read_text())
        follow("rm -r log parts report", folder)
    print("runs that a limit or --timeout stopped: named as the page says")


def contest(folder):
    """The portions of a contest, whole and after an end in the middle, as `dw-desk find` gives them in one run."""
    words = ["find", "--each", "2000"]
    wanted = one_run(words, folder, TOP / "dw-desk")
    assert b"undecided" in wanted
    jobs = range(COUNT // 20 + 1)  # so many may have something that is refused or undecided

    def smaller(text):
        return text.replace("--each 100000000", "--each 2000").replace("1 100 $n", "1 20 $n").replace("+ 99", "+ 19")

    follow(smaller(recipe("parallel -k '", program="dw-desk")), folder, jobs)
    compare("portions", words, folder, wanted)
    commands = smaller(recipe("--resume", program="dw-desk"))
    follow(commands.replace("$n", "100"), folder, jobs)
    (folder / "report").unlink()
    follow(commands, folder, jobs)
    assert (folder / "log").read_text().count("\n") - 1 == COUNT // 20, "portions that had ended were started again"
    compare("portions, --resume after the first half", words, folder, wanted)
    follow("rm -r log parts", folder)


def hard(folder):
    """The parts of one problem are what `dw-desk moves` says of it in one run, and its keys are those of `dw judge`."""
    commands = recipe("grep -h", program="dw-desk")
    for number in range(1, 9):
        follow(commands.replace("--problem 1 ", f"--problem {number} ").replace("-n 8", "-n 2"), folder)
        words = ["-n", "2", "--problem", str(number), "problems.fen"]
        whole = subprocess.run([TOP / "dw-desk", "moves", *words], cwd=folder, capture_output=True, text=True,
                               timeout=600, check=True).stdout.splitlines()[1:-1]
        lines = (folder / "moves").read_text().splitlines()
        assert lines == whole, (number, lines, whole)
        judged = subprocess.run([PROGRAMS / "dw", "judge", *words], cwd=folder, capture_output=True, text=True,
                                timeout=600, check=True).stdout.splitlines()[1]
        keys = [line.split()[0] for line in lines if " wins in " in line]
        assert judged.startswith("dual") or judged.split(": ")[1:] == ([", ".join(keys)] if keys else []), judged
        follow("rm effects moves", folder)
    print("the first moves of 8 problems, a part for each: joined they are the whole, and the keys those of judge")


def main():
    for name in ("dw", "dw-desk"):
        subprocess.run([TOP / "build"], check=True)  # so that it is built
    with tempfile.TemporaryDirectory(prefix="dw-parallel-") as name:
        folder = pathlib.Path(name)
        (folder / "problems.fen").write_text("".join(line + "\n" for line in problems()))
        for words in COMMANDS:
            wanted = one_run(words, folder)
            counted = recipe("parallel -k dw", words)
            follow(counted.replace("n=$(", "m=$(") + "[ $m = $n ] || exit 9\n", folder)
            compare("parallel", words, folder, wanted)
            interrupted(words, folder, wanted)
            follow("rm -r log parts", folder)
            follow(recipe("xargs -P", words), folder)
            compare("xargs", words, folder, wanted)
            follow("rm -r parts", folder)
        contest(folder)
        hard(folder)
        stopped(folder)


if __name__ == "__main__":
    main()
