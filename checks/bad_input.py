#!/usr/bin/env python3
"""bad_input.py: gives `dw` bad arguments, tokens, input and streams, and compares report, message and status.

    checks/bad_input.py

Bad texts and very long ones go to `dw show`; wrong arguments to each command that has them; tokens, refused problems
and limits to `dw judge` and `dw list`; and failing streams to all of them.
"""
import os
import pathlib
import subprocess
import tempfile
import threading
import time

TOP = pathlib.Path(__file__).resolve().parent.parent
DW = TOP / "dw"
FEN = b"W:W32:B28\n"
DIAGRAM = (b"| . . . . .|\n|. . . . . |\n| . . . . .|\n|. . . . . |\n| . . . . .|\n"
           b"|. . b . . |\n| . w . . .|\n|. . . . . |\n| . . . . .|\n|. . . . . |\n")
SHOWN = b"problem 1: W:W32:B28\n" + DIAGRAM
# A position with four lines in two moves, the first line of its report, and the lines.
FOUR = b"W:W27,32,38:B18\n"
FOUR_FIRST = b"problem 1: " + FOUR
FOUR_LINES = [b"1. 27-22 18x27 2. 32x21\n", b"1. 32-28 18-22 2. 27x18\n", b"1. 32-28 18-22 2. 28x17\n",
              b"1. 32-28 18-23 2. 28x19\n"]
LISTED = FOUR_FIRST + b"".join(FOUR_LINES) + b"complete 4\n"
# The token of the second of these lines, in both versions.
SECOND = "020a03201c0000000000000000121600000000000000001b120000000000200000"
OLD_SECOND = "0103201c0000000000000000121600000000000000001b120000000000200000"
# A position of which within five moves some 375,000 lines are listed, far more than a pipe holds.
LONG = b"W:WK46,K47,48:B1\n"
# The first lines of the report on examples/games.pdn.
GAMES = [b"W:W27,45:B16", b"W:WK47:B17,18,24,32,33",
         b"W:W" + b",".join(b"%d" % s for s in range(31, 51)) + b":B" + b",".join(b"%d" % s for s in range(1, 21)),
         b"refused: 4 wrong game", b"refused: 2 no fen", b"refused: 1 fen: 5 twice at 11",
         b"refused: 7 unclosed tag", b"B:W25,K34:BK2,12"]


def run(words, given=b"", **streams):
    streams = {"stdout": subprocess.PIPE, "stderr": subprocess.PIPE} | streams
    if "stdin" not in streams:
        streams["input"] = given
    return subprocess.run([DW, *words], timeout=120, check=False, **streams)


def expect(name, ran, status, complained, written=None):
    assert ran.returncode == status, (name, ran.returncode, ran.stderr)
    assert ran.stderr == complained, (name, ran.stderr)
    if written is not None:
        assert ran.stdout == written, (name, ran.stdout[:300])
    print(f"{name}: as stated")


def texts():
    expect("4,096 letters in a line", run(["show"], b"x" * 4096 + b"\n" + FEN), 1, b"",
           b"problem 1: refused: 1 fen: 10 too long at 1025\nproblem 2: W:W32:B28\n" + DIAGRAM)
    expect("4,097 letters in a line", run(["show"], b"x" * 4097 + b"\n" + FEN), 1, b"",
           b"problem 1: refused: 5 line too long\nproblem 2: W:W32:B28\n" + DIAGRAM)
    expect("4,097 blanks in a line", run(["show"], b" " * 4097 + b"\n"), 1, b"",
           b"problem 1: refused: 5 line too long\n")
    expect("bytes zero", run(["show"], b"\0\0\n" + b"W:W32\0:B28\n"), 1, b"",
           b"problem 1: refused: 1 fen: 1 turn at 1\nproblem 2: refused: 1 fen: 9 rest at 6\n")
    expect("no line feed in a megabyte", run(["show"], b"W" * 1_000_000), 1, b"",
           b"problem 1: refused: 5 line too long\n")
    movetext = b'[FEN "W:W32:B28"]' + b"1. 32x23 " * 120_000
    expect("no line feed in a megabyte of movetext", run(["show", "--pdn"], movetext), 0, b"", SHOWN)
    expect("an open comment of a megabyte", run(["show", "--pdn"], b"{" + b"[" * 1_000_000), 1, b"",
           b"problem 1: refused: 8 unclosed comment\n")
    for words in (*COMMANDS, ["show", "--json"], ["moves", "--json"]):
        expect(f"nothing, {words[0]}", run(words), 0, b"", b"")
        expect(f"no such problem, {words[0]}", run([*words, "--problem", "2"], FEN), 1, b"dw: no problem 2\n", b"")


def refusals():
    """Problems and lines that are refused in the report."""
    two = b"W:W3:B20\n" + FEN
    refused, second = b"problem 1: refused: 1 fen: 7 last row at 4\n", b"problem 2: W:W32:B28\n"
    expect("a refused problem, judge", run(["judge", "-n", "1"], two), 1, b"",
           refused + second + b"sound in 1: 32x23\n")
    expect("a refused problem, list", run(["list", "-n", "1"], two), 1, b"",
           refused + second + b"1. 32x23\ncomplete 1\n")
    for words in (["judge", "-n", "1"], ["list", "-n", "1"], ["list", "-n", "1", "--after", SECOND]):
        ran = run([*words, "--problem", "1"], two)
        expect(f"the chosen problem refused, {' '.join(words)[:22]}", ran, 1, b"", refused)
    expect("the other problem chosen", run(["judge", "-n", "1", "--problem", "2"], two), 0, b"",
           second + b"sound in 1: 32x23\n")
    not_a_line = [
        ("a token of another position", b"W:W27,45:B16\n", 2, SECOND, 1),
        ("a beginning of a line", FOUR, 2, "0101201c0000000000000000", 2),
        ("a capture that takes nothing", FEN, 1, "010120170000000000000000", 1),
        ("a line and more", FEN, 1, "0103201700000000080000001c21000000000000000017120000000000000000", 2),
    ]
    for name, fen, n, token, place in not_a_line:
        expect(name, run(["list", "-n", str(n), "--after", token], fen), 1, b"",
               b"problem 1: " + fen + b"refused token: 1 not a line at %d\n" % place)


def limits():
    """Runs that a limit stops, of lines or of positions."""
    for memo in ("none", "lru", "slots", "deep"):
        ran = run(["list", "-n", "2", "--positions", "1", "--memo", memo], FOUR)
        expect(f"one position, list, {memo}", ran, 3, b"dw: stopped: 2 limit, 1 expanded\n")
        assert ran.stdout in (FOUR_FIRST, FOUR_FIRST + FOUR_LINES[0]), ran
        expect(f"one position, judge, {memo}", run(["judge", "-n", "2", "--positions", "1", "--memo", memo], FOUR), 3,
               b"dw: stopped: 2 limit, 1 expanded\n", FOUR_FIRST)
    # A status of 3 goes before 1.
    ran = run(["list", "-n", "2", "--positions", "1"], b"x\n" + FOUR)
    assert ran.returncode == 3 and ran.stdout.startswith(b"problem 1: refused: 1 fen: 1 turn at 1\nproblem 2: "), ran
    more = b"more after " + SECOND.encode() + b"\n"
    expect("two lines", run(["list", "-n", "2", "--lines", "2"], FOUR), 0, b"",
           FOUR_FIRST + b"".join(FOUR_LINES[:2]) + more)
    for most in ("4", "5", "1000000000"):
        expect(f"{most} lines", run(["list", "-n", "2", "--lines", most], FOUR), 0, b"", LISTED)


def tokens():
    """Tokens that can not be read, before FILE is looked for, and those that can."""
    rows = [("0g", "10", "1 not hex"), ("0", "10", "1 not hex"), ("03", "10", "2 version"), ("", "10", "3 length"),
            ("01", "10", "3 length"), ("0102", "10", "3 length"), ("0" * 787, "10", "3 length"),
            ("010100170000000000000000", "10", "4 square"), ("010120330000000000000000", "10", "4 square"),
            ("010120170004000000000000", "10", "5 taken"), ("02", "10", "6 board"), ("0207", "10", "6 board"),
            ("0208", "10", "6 board"), ("020a", "8", "6 board"), ("020801210f0000000000000000", "8", "4 square"),
            ("020801160f0000000100000000", "8", "5 taken"), ("010120170000000008000000", "8", "6 board")]
    for token, board, text in rows:
        words = ["list", "-n", "1", "--board", board, "--after", token, "/no/such/file"]
        expect(f"token {token[:26] or 'of no byte'}, board {board}: {text}", run(words), 1,
               b"dw: token refused: " + text.encode() + b"\n", b"")
    rest = b"".join(FOUR_LINES[2:]) + b"complete 2\n"
    for token in (SECOND, OLD_SECOND, SECOND.upper()):
        ran = run(["list", "-n", "2", "--after", token], FOUR + FEN)
        expect(f"after {token[:6]}, of problem 1 if none is named", ran, 0, b"", FOUR_FIRST + rest)
    ran = run(["list", "-n", "2", "--after", SECOND, "--problem", "2"], FEN + FOUR)
    expect("after a token of problem 2", ran, 0, b"", b"problem 2: " + FOUR + rest)
    expect("a token, and no problem", run(["list", "-n", "2", "--after", SECOND]), 1, b"dw: no problem 1\n", b"")
    expect("a token, and no file", run(["list", "-n", "2", "--after", SECOND, "/no/such/file"]), 3,
           b"dw: cannot open /no/such/file\n", b"")


# What each command says of FEN.
ANSWERS = [
    (["show"], DIAGRAM),
    (["moves"], b"32x23 B:W23:B\nmoves 1 taking 1\n"),
    (["judge", "-n", "1"], b"sound in 1: 32x23\n"),
    (["list", "-n", "1"], b"1. 32x23\ncomplete 1\n"),
]


def lengths():
    """Lines and sections of just the length that is read, and of one byte more, with each command."""
    shown = b"problem 1: W:W32:B28\n"
    tag, last = b'[FEN "W:W32:B28"]', b'[A ""]'
    for words, answer in ANSWERS:
        for count, refusal in [(4096, b"1 fen: 10 too long at 1025"), (4097, b"5 line too long")]:
            expect(f"{words[0]}: {count} digits in a line", run(words, b"1" * count + b"\n" + FEN), 1, b"",
                   b"problem 1: refused: " + refusal + b"\nproblem 2: W:W32:B28\n" + answer)
        expect(f"{words[0]}: 4,096 blanks in a line", run(words, b" " * 4096 + b"\n" + FEN), 0, b"", shown + answer)
        too_long = b"problem 1: refused: 6 section too long\n"
        for count, status, wanted in [(65536, 0, shown + answer), (65537, 1, too_long)]:
            section = tag + b" " * (count - len(tag) - len(last)) + last
            expect(f"{words[0]}: {count} bytes in a section", run([*words, "--pdn"], section), status, b"", wanted)


def many(folder):
    file = folder / "many"
    file.write_bytes(FEN * 1_000_001)
    started = time.monotonic()
    ran = run(["show"], FEN * 1_000_001)
    expect("1,000,001 lines", ran, 1, b"")
    last = b"problem 1000000: W:W32:B28\n"
    too_many = b"problem 1000001: refused: 9 too many problems\n"
    assert ran.stdout.endswith(last + DIAGRAM + too_many)
    print(f"  in {time.monotonic() - started:.1f} s")
    started = time.monotonic()
    for words, text in ((["judge"], b"sound in 1: 32x23\n"), (["list"], b"1. 32x23\ncomplete 1\n")):
        ran = run([*words, "-n", "1", "--problem", "1000000", file])
        expect(f"the last of 1,000,000 problems, {words[0]}", ran, 0, b"", last + text)
        ran = run([*words, "-n", "1", file])
        expect(f"1,000,001 lines, {words[0]}", ran, 1, b"")
        assert ran.stdout.endswith(last + text + too_many), ran.stdout[-300:]
    expect("a token of the last problem",
           run(["list", "-n", "1", "--problem", "1000000", "--after", "010120170000000008000000", file]), 0, b"",
           last + b"complete 0\n")
    print(f"  in {time.monotonic() - started:.1f} s")


# Each command with words that make a report of the four lines' position.
COMMANDS = [["show"], ["moves"], ["judge", "-n", "2"], ["list", "-n", "2"]]


def inputs(folder):
    for words in COMMANDS:
        whole = run(words, FOUR)
        assert (whole.returncode, whole.stderr) == (0, b"") and whole.stdout.startswith(FOUR_FIRST), (words, whole)
        expect(f"no such file, {words[0]}", run([*words, "/no/such/file"]), 3, b"dw: cannot open /no/such/file\n", b"")
        ran = run([*words, "/"])
        assert ran.returncode == 3 and ran.stdout == b"", ran
        assert ran.stderr in (b"dw: read failed\n", b"dw: cannot open /\n"), ran
        print(f"a folder as FILE, {words[0]}: {ran.stderr.decode().strip()}")
        closed = run(words, stdin=None, preexec_fn=lambda: os.close(0))
        expect(f"a closed standard input, {words[0]}", closed, 3, b"dw: read failed\n", b"")
        file = folder / "a file"
        file.write_bytes(FOUR)
        expect(f"a file with a blank in its name, {words[0]}", run([*words, file]), 0, b"", whole.stdout)
        pipe = folder / "pipe"
        os.mkfifo(pipe)
        writer = threading.Thread(target=pipe.write_bytes, args=(FOUR,))
        writer.start()
        expect(f"a named pipe as FILE, {words[0]}", run([*words, pipe]), 0, b"", whole.stdout)
        writer.join()
        pipe.unlink()


def open_pipes():
    for words in COMMANDS:
        process = subprocess.Popen([DW, *words, "--problem", "1"], stdin=subprocess.PIPE, stdout=subprocess.DEVNULL)
        process.stdin.write(FEN)
        process.stdin.flush()
        assert process.wait(timeout=120) == 0, words
        process.stdin.close()
        print(f"a problem alone, after which the pipe stays open, {words[0]}: as stated")


def outputs(folder):
    file = folder / "four"
    file.write_bytes(FOUR)
    for words in COMMANDS:
        with open("/dev/full", "wb") as full:
            expect(f"a full disk, {words[0]}", run(words, FOUR, stdout=full), 3, b"dw: write failed\n")
        reading, writing = os.pipe()
        os.close(reading)
        expect(f"a standard output without a reader, {words[0]}", run(words, FOUR, stdout=writing), 3,
               b"dw: write failed\n")
        os.close(writing)
        # FILE is opened where standard output was.
        for given in ([], [file]):
            closed = run([*words, *given], FOUR, stdout=None, preexec_fn=lambda: os.close(1))
            expect(f"a closed standard output, {words[0]}{' FILE' * len(given)}", closed, 3, b"dw: write failed\n")
        assert file.read_bytes() == FOUR
    with open("/dev/full", "wb") as full:
        expect("nothing to write, on a full disk", run(["list", "-n", "2"], stdout=full), 0, b"")
    for read in (1, 1000):
        ended, first, complained = read_only(["list", "-n", "5"], LONG, read)
        assert (ended, complained) == (3, b"dw: write failed\n"), (ended, complained)
        assert first.startswith(b"problem 1: " + LONG), first
        print(f"a reader that closes after {read} lines, list: as stated")


def read_only(words, given, count):
    """The end of a run of whose report so many lines are read before the pipe is closed, and these lines."""
    process = subprocess.Popen([DW, *words], stdin=subprocess.PIPE, stdout=subprocess.PIPE, stderr=subprocess.PIPE)
    process.stdin.write(given)
    process.stdin.close()
    lines = b"".join(process.stdout.readline() for _ in range(count))
    process.stdout.close()
    complained = process.stderr.read()
    process.stderr.close()
    return process.wait(timeout=120), lines, complained


def example():
    """The program's stored run, and the example of a PDN file."""
    stored = TOP / "crates" / "dw"
    words = (stored / "args").read_text().split()
    ran = subprocess.run([DW, *words], cwd=stored / "data", capture_output=True, timeout=120, check=False)
    expect("the stored run", ran, 0, b"", (stored / "stdout").read_bytes())
    assert ran.stdout == LISTED, ran
    ran = run(["show", "--pdn", TOP / "examples" / "games.pdn"])
    expect("the example of a PDN file", ran, 1, b"")
    firsts = [line for line in ran.stdout.splitlines() if line.startswith(b"problem ")]
    assert firsts == [b"problem %d: " % number + text for number, text in enumerate(GAMES, 1)], firsts


def wrong_words():
    """Words that are no command."""
    yield from ([], ["solve"], ["show", "--board", "9"], ["show", "--problem", "0"], ["show", "--problem", "1000001"],
                ["show", "a", "b"], ["show", "--pdn=1"])
    for command in ("judge", "list"):
        yield [command]
        yield [command, "-n"]
        yield from ([command, "-n", wrong] for wrong in ("0", "21", "x", "", "-1", "1.5", "256", "4294967298"))
        for option, wrongs in {
            "--board": ("9", "", "010"),
            "--problem": ("0", "1000001", "x"),
            "--positions": ("0", "1000000000001", "x", "", "-1", "18446744073709551617"),
            "--memo": ("big", "", "LRU", "no", "1"),
            "--cache": ("0", "4000001", "x", "", "-1", "4294967297"),
        }.items():
            yield from ([command, "-n", "1", option, wrong] for wrong in wrongs)
            yield [command, "-n", "1", option]
        yield [command, "-n", "1", "a", "b"]
        yield [command, "-n", "1", "--pdn=1"]
    yield from (["list", "-n", "1", "--lines", wrong] for wrong in ("0", "1000000001", "x", "", "-1"))
    yield from (["list", "-n", "1", option] for option in ("--lines", "--after"))
    for command in (["show"], ["moves"], ["judge", "-n", "1"]):
        yield [*command, "--lines", "1"]
        yield [*command, "--after", SECOND]
    for command in ("show", "moves"):
        yield from ([command, option, value] for option, value in
                    (("-n", "1"), ("--positions", "1"), ("--memo", "lru"), ("--cache", "1")))
        yield [command, "--json=1"]
    yield from ([command, "-n", "1", "--json"] for command in ("judge", "list"))
    # Wrong words come before a wrong token.
    yield ["list", "-n", "0", "--after", "0g"]


def words():
    count = 0
    for given in wrong_words():
        ran = run(given, FEN)
        assert ran.returncode == 2 and ran.stdout == b"" and ran.stderr, (given, ran)
        count += 1
    print(f"words that are no command, {count} of them: as stated")
    for given in ([b"\xff"], ["show", b"p\xe9.fen"], ["judge", "-n", b"\xc0"],
                  ["list", "-n", "1", "--after", b"0\xff"]):
        ran = run(given, FEN)
        assert ran.returncode == 2 and ran.stdout == b"" and b"invalid UTF-8" in ran.stderr, (given, ran)
    print("words that are not UTF-8: as stated")
    for given in (["--help"], *([command, "--help"] for command in ("show", "moves", "judge", "list"))):
        ran = run(given)
        assert ran.returncode == 0 and b"Example" in ran.stdout and ran.stderr == b"", (given, ran)
    print("help: as stated")


def main():
    run(["--help"])  # so that it is built
    with tempfile.TemporaryDirectory() as name:
        folder = pathlib.Path(name)
        texts()
        lengths()
        refusals()
        limits()
        tokens()
        inputs(folder)
        open_pipes()
        outputs(folder)
        example()
        words()
        many(folder)


if __name__ == "__main__":
    main()
