#!/usr/bin/env python3
"""web.py: runs the module of the page outside a browser, the scripts of the page, and the heap below the module.

    checks/web.py [--module FILE] [--count CALLS]

The scripts pass their own tests in node, and their types are right. The heap passes random traces, natively and under
valgrind. The module answers as the programs do, byte for byte, with the same exit status and message: each example of
a command on each of some files, random arguments, and bytes that are no text. Each allocation is refused in turn, a
report has too little room, memory has a bound; then it says so, and what it wrote is a beginning of the report. The
page in docs/ is what its sources give, if they are the present ones.
"""
import argparse
import base64
import json
import pathlib
import random
import re
import shutil
import subprocess
import tempfile

TOP = pathlib.Path(__file__).resolve().parent.parent
WEB = TOP / "web"
PROGRAMS = {"dw": TOP / "dw", "dw-desk": TOP / "dw-desk"}
SEED, TRACES, SLOW_TRACES = 31, 60, 3
USAGE = "usage: ./board [FILE], or ./board --all"
# The numbers of the reasons for which the module's call ends.
ENDED, REFUSED, FULL, MEMORY, OTHER = range(5)
PROBLEMS = "W:W27,32:B18\nW:W27,45:B16\nW:W3:B20\nW:W27,32,38:B18\nW:W10,16,48:B13\nB:W43:B24,29\n"
GAMES = '[Event "a \xe9"] [FEN "W:W27,32:B18"] 1. 32-28 18-22 2. 27x18 2-0\n\n' \
    '[FEN "W:W27,45:B16"]\n1. 45-40 *\n[FEN "x"] *\n'
# Commands with their arguments, and whether they read games.
COMMANDS = [
    ("dw show", False), ("dw moves", False), ("dw judge -n 2", False), ("dw list -n 2", False),
    ("dw list -n 2 --lines 3", False), ("dw judge -n 3 --positions 1", False), ("dw judge -n 3 --problem 4", False),
    ("dw judge -n 3 --problem 9", False), ("dw show --pdn", True), ("dw judge -n 2 --memo none", False),
    ("dw list -n 2 --after 00", False), ("dw show --board 8", False), ("dw judge -n 2 FILE", False), ("dw", False),
    ("dw --help", False), ("dw list --help", False), ("dw solve", False), ("dw judge", False), ("dw --version", False),
    ("dw-desk find", False), ("dw-desk find --json --most 3", False), ("dw-desk find --each 5", False),
    ("dw-desk find --json -n 2 --solution", False), ("dw-desk find -n 2 --most 2", False),
    ("dw-desk check", True), ("dw-desk check -n 2 --problem 1-2", True), ("dw-desk solution -n 2", False),
    ("dw-desk solution -n 2 --pdn --lines 1", True), ("dw-desk page -n 2 --lang ru --numbers", False),
    ("dw-desk page --most 2 --pdn --solutions end", True), ("dw-desk certify -n 2", False),
    ("dw-desk mend -n 2 --part 3/40", False), ("dw-desk token --line 1.32-28", False),
    ("dw-desk token --line 1.32-27", False), ("dw-desk find --problem 9", False), ("dw-desk find FILE", False),
    ("dw-desk --help", False), ("dw-desk mend --help", False), ("dw-desk find --most 0", False),
    ("dw-desk token --line 32-28 --problem 3", False), ("dw-desk find --problem 2-1", False),
]
WORDS = """dw dw-desk find find judge moves judge list show --most -n 2 1 0 21 --problem 1-2 --json --pdn --board 8 10
--lines --each --part 1/2 --help -h --memo none lru x -- é --line 32-28 token mend page --lang fr""".split() + [""]


class Module:
    """The module in node."""

    def __init__(self, file):
        self.process = subprocess.Popen(["node", WEB / "tests" / "module.mjs", file], stdin=subprocess.PIPE,
                                        stdout=subprocess.PIPE, text=True)

    def ask(self, words, text, **more):
        asked = {"bytes": base64.b64encode(words).decode()} if isinstance(words, bytes) else {"words": words}
        line = json.dumps({**asked, "input": base64.b64encode(text).decode(), **more})
        self.process.stdin.write(line + "\n")
        self.process.stdin.flush()
        said = json.loads(self.process.stdout.readline())
        self.took, self.reason = said["took"], said["reason"]
        return said["status"], base64.b64decode(said["report"]), said["message"]

    def close(self):
        self.process.stdin.close()
        assert self.process.wait(timeout=60) == 0


def native(words, text):
    """What the program itself answers."""
    ran = subprocess.run([PROGRAMS[words[0]], *words[1:]], input=text, capture_output=True, timeout=600, check=False,
                         cwd="/none" if pathlib.Path("/none").exists() else "/")
    return ran.returncode, ran.stdout, ran.stderr.decode()


def check_committed(page):
    """The page in docs/ and the module in package/ are those of the present sources, byte for byte with this kit."""
    committed, foot = (TOP / "docs" / "board.html").read_bytes(), rb'<p id="version">dw (.*), (.*), sources (.*)</p>'
    theirs, ours = (re.search(foot, text).groups() for text in (committed, page.read_bytes()))
    notes = dict(line.split(" ", 1) for line in (TOP / "package" / "dw.wasm.sources").read_text().splitlines())
    assert theirs[2] == ours[2], "docs/board.html is of other sources: ./board --all"
    assert (notes["version"], notes["kit"], notes["sources"]) == tuple(part.decode() for part in theirs), notes
    if theirs[1] == ours[1]:
        made = (TOP / "crates" / "dw_web" / "out" / "dw_web.wasm").read_bytes()
        assert committed == page.read_bytes(), "docs/board.html: the same sources and toolchain, and other bytes"
        assert (TOP / "package" / "dw.wasm").read_bytes() == made, "package/dw.wasm is another module than the page's"
    print("docs/board.html and package/dw.wasm: as they are made now")


def check_tools(folder):
    """What is missing is named."""
    path = folder / "path"
    path.mkdir()
    for name in ("bash", "dirname", "readlink", "realpath", "rt"):
        (path / name).symlink_to(shutil.which(name))
    for words, said in (([], "wasm-opt is not on the PATH; it is in Debian's package binaryen"),
                        (["a", "b"], USAGE), (["--help"], USAGE)):
        ran = subprocess.run([TOP / "board", *words], capture_output=True, text=True, env={"PATH": str(path)},
                             check=False)
        assert (ran.returncode, ran.stdout, ran.stderr) == (3, "", f"board: {said}\n"), ran
    print("./board: a tool that is missing and wrong arguments are named")


def check_scripts():
    subprocess.run(["node", "--test", "tests/"], cwd=WEB, check=True, stdout=subprocess.DEVNULL)
    subprocess.run(["tsc", "-p", "jsconfig.json"], cwd=WEB, check=True)
    print("the scripts: their tests in node, and their types")


def check_heap(folder):
    program = folder / "heap_traces"
    subprocess.run(["gcc", "-std=c99", "-Wall", "-Wextra", "-Werror", "-O1", "-g", "-o", program,
                    WEB / "tests" / "heap_traces.c", WEB / "heap.c"], check=True)
    subprocess.run([program, "1", str(TRACES)], check=True, stdout=subprocess.DEVNULL)
    subprocess.run(["valgrind", "-q", "--error-exitcode=1", program, "2", str(SLOW_TRACES)], check=True,
                   stdout=subprocess.DEVNULL)
    print(f"the heap: {TRACES} random traces, and {SLOW_TRACES} under valgrind")


def reason_of(status, _, message):
    """The reason of an end that is neither a full report nor want of memory."""
    is_ended = status == 0 or status == 1 and not re.search("refused: |cannot open", message)
    return ENDED if is_ended or "problem refused" in message else REFUSED if status == 2 else OTHER


def check_commands(module):
    for line, is_pdn in COMMANDS:
        words = line.split(" ")
        text = (GAMES if is_pdn else PROBLEMS).encode("latin-1")
        wanted = native(words, text)
        assert module.ask(words, text) == wanted, (line, module.ask(words, text), wanted)
        assert module.reason == reason_of(*wanted), (line, module.reason, wanted)
    print(f"{len(COMMANDS)} commands: report, status and message of the programs")


def check_random(module, count, source):
    """Random words: with nobody to read a FILE, so words that are one are left out by the programs' own answer."""
    kinds = {}
    for _ in range(count):
        words = [source.choice(("dw", "dw-desk")), *source.choices(WORDS, k=source.randint(0, 6))]
        if source.random() < 0.5:
            words = [*source.choice(COMMANDS)[0].split(" "), *source.choices(WORDS, k=source.randint(0, 2))]
        text = PROBLEMS.encode()[:source.randint(0, 80)]
        wanted = native(words, text)
        assert module.ask(words, text) == wanted, (words, text, module.ask(words, text), wanted)
        kinds[wanted[0]] = kinds.get(wanted[0], 0) + 1
    for _ in range(count):
        raw = source.randbytes(source.randint(0, 40))
        if source.random() < 0.7:
            raw = source.choice((b"dw\n", b"dw-desk\n", b"dw", b"dw-desk", b"dw\nshow\n")) + raw
        status, report, message = module.ask(raw, source.randbytes(source.randint(0, 60)))
        assert status in (0, 1, 2, 3) and (status != 2 or (report == b"" and message)), (raw, status, message)
    for name in (b"", b"\n", b"dw2\nshow", b"DW\nshow"):
        assert module.ask(name, b"") == (2, b"", "error: the first argument is neither dw nor dw-desk\n"), name
    for name in ("dw", "dw-desk"):
        said = module.ask(name.encode() + b"\n\xff", b"")
        assert said[:2] == (2, b"") and said[2].startswith("error: invalid UTF-8"), said
        assert f"Usage: {name} " in said[2], said
    print(f"{count} rows of random words, as the programs: statuses {dict(sorted(kinds.items()))}; {count} of random "
          "bytes")


def check_memory(module):
    """Each allocation is refused in turn, until the answer is the whole one."""
    refusals = 0
    for line in ("dw list -n 2", "dw-desk find --json", "dw-desk page -n 2", "dw-desk check", "dw-desk certify -n 2",
                 "dw-desk mend -n 2 --part 1/40"):
        words, text = line.split(" "), (GAMES if line.endswith("check") else PROBLEMS).encode("latin-1")
        whole = module.ask(words, text)
        for refused in range(1, 1_000_000):
            said = module.ask(words, text, refused=refused)
            if said == whole:
                break
            assert said[0] == 3 and whole[1].startswith(said[1]), (line, refused, said)
            # A memo that may not grow forgets, and then a certificate lacks a position.
            assert re.fullmatch(rf"{words[0]}: (stopped: 1 memory, \d+ expanded|too many positions, .*)\n", said[2]), \
                (line, refused, said)
            assert module.reason == (MEMORY if "1 memory" in said[2] else OTHER), (line, said)
            refusals += 1
    for memory in (0, 1000, 100_000, 1_500_000, 3_000_000):
        status, report, message = module.ask(["dw-desk", "find"], PROBLEMS.encode(), memory=memory)
        assert status in (1, 3) and (status == 1 or "memory" in message), message
    # More than there can be: addresses have 32 bits.
    for room in (5_000_000_000, 3_900_000_000, 2 ** 32 - 1):
        said = module.ask(["dw", "show"], b"", memory=10 ** 10, room=room)
        assert said == (3, b"", "no memory for the input\n") or said[0] in (0, 3), said
    assert module.ask(["dw", "show"], b"W:W32:B28\n")[0] == 0
    print(f"{refusals} allocations refused in turn, and bounds on memory: want of memory is said")


def check_room(module):
    """A report that does not fit is a failed write, and what was written is its beginning."""
    for line in ("dw list -n 2", "dw --help", "dw-desk find", "dw-desk page -n 2", "dw-desk --help",
                 "dw-desk mend -n 2"):
        words, text = line.split(" "), PROBLEMS.encode()
        status, whole, message = module.ask(words, text)
        for room in {0, 1, len(whole) // 2, len(whole) - 1}:
            said = module.ask(words, text, room=room)
            assert said == (3, whole[:room], f"{words[0]}: write failed\n"), (line, room, said[0], said[2])
            assert module.reason == FULL, (line, room)
        assert module.ask(words, text, room=len(whole)) == (status, whole, message), line
    print("reports without enough room: a failed write, with the beginning of the report")


def check_hostile(module, source):
    for text in (b"[" * 1_000_000, b'[Event "<script>alert(1)</script>"] [FEN "W:W27,32:B18"] {x} *',
                 source.randbytes(300_000), b"".join(source.randbytes(30) + b"\n" for _ in range(2000)),
                 b'[FEN "' * 20_000, b"{" * 100_000):
        for words in (["dw", "show"], ["dw", "show", "--pdn"], ["dw-desk", "check"],
                      ["dw-desk", "solution", "--pdn", "-n", "1"]):
            status, report, message = module.ask(words, text)
            assert status in (0, 1) and not message, (words, text[:40], status, message)
            assert (status, report, message) == native(words, text), (words, text[:40])
    print("hostile files: as the programs")


def main():
    words = argparse.ArgumentParser()
    words.add_argument("--module", help="a module that is there; without it one is made")
    words.add_argument("--count", type=int, default=150)
    given = words.parse_args()
    with tempfile.TemporaryDirectory() as name:
        folder = pathlib.Path(name)
        check_tools(folder)
        check_scripts()
        check_heap(folder)
        if not given.module:
            subprocess.run([TOP / "board", folder / "board.html"], check=True, stderr=subprocess.DEVNULL)
            check_committed(folder / "board.html")
        module = Module(given.module or TOP / "crates" / "dw_web" / "out" / "dw_web.wasm")
        source = random.Random(SEED)
        check_commands(module)
        check_random(module, given.count, source)
        check_memory(module)
        check_room(module)
        check_hostile(module, source)
        module.close()


if __name__ == "__main__":
    main()
