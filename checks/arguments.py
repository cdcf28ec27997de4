#!/usr/bin/env python3
"""arguments.py: runs `dw` with arguments of each kind, and compares the output and the exit status.

    checks/arguments.py

Each row has the arguments, the exit status, and the text on standard output and on standard error. Standard input has
three problems; so has the file `three`, and a file `--pdn` has one. Wrong arguments end with status 2, write nothing to
standard output, and give the error on standard error. Each of a token's six faults has a row.
"""
import pathlib
import subprocess
import tempfile

TOP = pathlib.Path(__file__).resolve().parent.parent
DW = TOP / "crates/dw/out/dw"
PROBLEMS = ["W:W27,45:B16", "W:W7:B", "W:W22:B18"]
THREE = "".join(f"{problem}\n" for problem in PROBLEMS)
TAGS = '[Event "a"]\n[FEN "W:W7:B"]\n*\n'

EMPTY = ["| . . . . .|", "|. . . . . |"] * 5
EMPTY_OF_EIGHT = ["| . . . .|", "|. . . . |"] * 4


def drawn(rows, **changed):
    """A diagram: an empty one, but for these rows."""
    rows = list(rows)
    for row, text in changed.items():
        rows[int(row.removeprefix("row"))] = text
    return "".join(f"{row}\n" for row in rows)


FIRST = "problem 1: W:W27,45:B16\n" + drawn(EMPTY, row3="|b . . . . |", row5="|. w . . . |", row8="| . . . . w|")
SECOND = "problem 2: W:W7:B\n" + drawn(EMPTY, row1="|. w . . . |")
THIRD = "problem 3: W:W22:B18\n" + drawn(EMPTY, row3="|. . b . . |", row4="| . w . . .|")
THIRD_OF_EIGHT = "problem 3: W:W22:B18\n" + drawn(EMPTY_OF_EIGHT, row4="| . b . .|", row5="|. w . . |")
MOVES = "problem 3: W:W22:B18\n22x13 B:W13:B\nmoves 1 taking 1\n"
ROW = '{{"problem":{},"fen":"{}"}}\n'
MOVES_ROW = '{"problem":3,"fen":"W:W22:B18","taking":1,"moves":[["22x13","B:W13:B"]]}\n'
MOVES_ROW_OF_EIGHT = '{"problem":3,"fen":"W:W22:B18","taking":1,"moves":[["22x15","B:W15:B"]]}\n'
SOUND = "problem 1: W:W27,45:B16\nsound in 2: 45-40\ntry 27-21 refuted by 16x27\ntry 27-22 refuted by 16-21\n"
LINE = "problem 1: W:W27,45:B16\n1. 45-40 16-21 2. 27x16\ncomplete 1\n"
CAPTURE = "problem 3: W:W22:B18\n1. 22x13\ncomplete 1\n"

# Arguments, the exit status, standard output and standard error.
ASKED = [
    (["show", "--problem", "3", "three"], 0, THIRD, ""),
    (["moves", "--problem", "3", "three"], 0, MOVES, ""),
    (["show"], 0, FIRST + SECOND + THIRD, ""),
    (["show", "three"], 0, FIRST + SECOND + THIRD, ""),
    (["show", "--pdn", "--", "--pdn"], 0, SECOND.replace("2:", "1:"), ""),
    (["show", "--board", "8", "--problem", "3"], 0, THIRD_OF_EIGHT, ""),
    (["show", "--problem=1000000", "--board=10"], 1, "", "dw: no problem 1000000\n"),
    (["show", "--", "none"], 3, "", "dw: cannot open none\n"),
    (["show", "--json"], 0, ROW.format(1, "W:W27,45:B16") + ROW.format(2, "W:W7:B") + ROW.format(3, "W:W22:B18"), ""),
    (["show", "--json", "--pdn", "--", "--pdn"], 0, ROW.format(1, "W:W7:B"), ""),
    (["moves", "--problem", "3", "--json", "three"], 0, MOVES_ROW, ""),
    (["moves", "--board", "8", "--json", "--problem", "3"], 0, MOVES_ROW_OF_EIGHT, ""),
    (["moves", "--json", "--problem", "4"], 1, "", "dw: no problem 4\n"),
    (["judge", "-n", "2", "--problem", "1"], 0, SOUND, ""),
    (["judge", "-n20", "--problem", "1", "--positions", "7", "--memo=none"], 3, "problem 1: W:W27,45:B16\n",
     "dw: stopped: 2 limit, 7 expanded\n"),
    (["list", "-n", "1", "--memo", "slots", "--cache", "4000000", "--problem", "3"], 0, CAPTURE, ""),
    (["judge", "-n", "2", "--memo", "deep", "--cache", "1", "--problem", "1"], 0, SOUND, ""),
    (["list", "-n", "2", "--lines", "1", "--problem", "1"], 0, LINE, ""),
    (["list", "-n", "3", "--lines", "5", "--after", "01"], 1, "", "dw: token refused: 3 length\n"),
    (["list", "-n", "3", "--problem", "4", "--after", ""], 1, "", "dw: token refused: 3 length\n"),
    (["list", "-n", "3", "--after", "0g"], 1, "", "dw: token refused: 1 not hex\n"),
    (["list", "-n", "3", "--after", "03"], 1, "", "dw: token refused: 2 version\n"),
    (["list", "-n", "3", "--after", "010100170000000000000000"], 1, "", "dw: token refused: 4 square\n"),
    (["list", "-n", "3", "--after", "010120170004000000000000"], 1, "", "dw: token refused: 5 taken\n"),
    (["list", "-n", "3", "--after", "0208"], 1, "", "dw: token refused: 6 board\n"),
]

# Arguments that are no command.
REFUSED = [
    [], ["solve"], ["show", "--board", "9"], ["show", "--problem", "0"], ["show", "--problem", "1000001"],
    ["show", "--problem", "x"], ["show", "a", "b"], ["show", "--fen"], ["show", "-n", "1"], ["judge"],
    ["judge", "-n", "0"], ["judge", "-n", "21"], ["judge", "-n", "2", "--lines", "1"],
    ["list", "-n", "2", "--memo", "big"], ["list", "-n", "2", "--cache", "4000001"],
    ["list", "-n", "2", "--positions", "1000000000001"], ["judge", "-n", "2", "--json"],
    ["list", "-n", "2", "--json"], ["show", "--json=1"],
]


def run(words, folder):
    ran = subprocess.run([DW, *words], input=THREE, capture_output=True, text=True, timeout=60, check=False, cwd=folder)
    return ran.returncode, ran.stdout, ran.stderr


def main():
    subprocess.run([TOP / "build"], check=True)  # so that it is built
    with tempfile.TemporaryDirectory() as name:
        folder = pathlib.Path(name)
        (folder / "three").write_text(THREE)
        (folder / "--pdn").write_text(TAGS)
        for words, *wanted in ASKED:
            ran = run(words, folder)
            assert ran == tuple(wanted), (words, ran)
        for words in REFUSED:
            status, out, err = run(words, folder)
            assert (status, out) == (2, "") and err, (words, status, out, err)
    print(f"{len(ASKED)} rows of arguments are answered as stated, {len(REFUSED)} are refused")


if __name__ == "__main__":
    main()
