#!/usr/bin/env python3
"""desk.py: compares `dw-desk find` with `dw judge`, and tests portions, bounds, errors, progress and tokens.

    checks/desk.py [--count POSITIONS]

For random small positions (250 on each board by default) it asks `dw judge` for 1 move, 2 and so on. The first verdict
with a win, or the last one, must be the output of `find`, byte for byte, and agree with its JSON. `find -n N` must
write what `dw judge -n N` writes. With `--solution` a line of JSON must be the line without it, with the moves that
`solution --json` writes for that number. The joined portions of a file must be the whole. A bound on each problem
leaves some undecided, each at a number without a win, whatever came before. At a terminal a line shows the progress of
a long search, and disappears at the end; it never reaches a file.
"""
import json
import os
import pathlib
import pty
import random
import re
import subprocess
import tempfile

from draughts import Board, fen
from judging import count_asked
from wins import drawn

TOP = pathlib.Path(__file__).resolve().parent.parent
DW, DESK = TOP / "dw", TOP / "dw-desk"
SEED, MOST = 23, 4
# A search of some seconds, with a small memo.
LONG, LONG_MOVES, LONG_CACHE = "W:WK39,41,50:B5,12,29", 9, 10_000
# A problem with more lines than a line of JSON has.
MANY, MANY_MOVES, MOST_LINES = "W:WK46,K47,49,50:B2", 5, 1000


# Options, a problem, and what is written.
FINDS = [
    (["--most", "6"], "W:W10,16,48:B13", "problem 1: W:W10,16,48:B13\ndual in 3: 1. 10-5 13-18 2. 5-28 18-22 "
     "3. 28x6 / 28x11 / 28x17\ntry 10-4 refuted by 13-19\n"),
    (["--most", "2"], "W:W10,16,48:B13", "problem 1: W:W10,16,48:B13\nunsolvable in 2\ntry 10-4 refuted by 13-19\n"
     "try 10-5 refuted by 13-18\n"),
    (["-n", "2"], "W:W10,16,48:B13", "problem 1: W:W10,16,48:B13\nunsolvable in 2\ntry 10-4 refuted by 13-19\n"
     "try 10-5 refuted by 13-18\n"),
    (["-n", "2"], "W:W32:B28", "problem 1: W:W32:B28\ncooked in 2, shortest 1: 32x23\n"),
    (["--most", "2"], "W:W32:B28", "problem 1: W:W32:B28\nsound in 1: 32x23\n"),
    (["--later", "1"], "W:W28,31,36,39:B33", "problem 1: W:W28,31,36,39:B33\nsound in 2: 31-27\n"
     "try 28-22 refuted by 33x44\ntry 28-23 refuted by 33x44\ntry 39-34 refuted by 33x22\nlater 39-34 in 3\n"),
    (["--later", "1", "-n", "3"], "W:W28,31,36,39:B33", "problem 1: W:W28,31,36,39:B33\ncooked in 3, shortest 2: "
     "31-27, 39-34\ntry 28-22 refuted by 33x44\ntry 28-23 refuted by 33x44\n"),
    (["--later", "19", "-n", "1"], "W:W27:B16", "problem 1: W:W27:B16\nunsolvable in 1\ntry 27-21 refuted by 16x27\n"
     "try 27-22 refuted by 16-21\n"),
]
# Options, a problem, and its line of JSON.
ROWS = [
    ([], "W:W27,32:B18", '{"problem":1,"fen":"W:W27,32:B18","n":2,"verdict":"dual","keys":["32-28"],"at":"1. 32-28 '
     '18-22","choices":["27x18","28x17"],"tries":[["27-22","18x38"]]}'),
    ([], "W:W27,45:B16", '{"problem":2,"fen":"W:W27,45:B16","n":2,"verdict":"sound","keys":["45-40"],"tries":'
     '[["27-21","16x27"],["27-22","16-21"]]}'),
    ([], "W:W27,32,38:B18", '{"problem":3,"fen":"W:W27,32,38:B18","n":2,"verdict":"cooked","shortest":2,"keys":'
     '["27-22","32-28"],"tries":[["38-33","18-23"]]}'),
    (["--most", "3"], "W:W27:B16", '{"problem":4,"fen":"W:W27:B16","n":3,"verdict":"unsolvable","keys":[],"tries":'
     '[["27-21","16x27"],["27-22","16-21"]]}'),
    (["--each", "3"], "W:W27,45:B16", '{"problem":5,"fen":"W:W27,45:B16","verdict":"undecided","no_win_in":1}'),
    ([], "W:W3:B20", '{"problem":6,"refused":"1 fen: 7 last row at 4"}'),
    (["-n", "2", "--solution"], "W:W32:B28", '{"problem":7,"fen":"W:W32:B28","n":2,"verdict":"cooked","shortest":1,'
     '"keys":["32x23"],"tries":[],"more":false,"moves":[{"depth":1,"move":"32x23","fen":"B:W23:B"}]}'),
    (["--solution"], "W:W27,32:B18", '{"problem":8,"fen":"W:W27,32:B18","n":2,"verdict":"dual","keys":["32-28"],'
     '"at":"1. 32-28 18-22","choices":["27x18","28x17"],"tries":[["27-22","18x38"]],"more":false,"moves":['
     '{"depth":1,"move":"32-28","fen":"B:W27,28:B18"},{"depth":2,"move":"18-22","fen":"W:W27,28:B22"},'
     '{"depth":3,"move":"27x18","fen":"B:W18,28:B"},{"depth":3,"move":"28x17","fen":"B:W17,27:B"},'
     '{"depth":2,"move":"18-23","fen":"W:W27,28:B23"},{"depth":3,"move":"28x19","fen":"B:W19,27:B"}]}'),
    (["-n", "1", "--solution"], "W:W27:B16", '{"problem":9,"fen":"W:W27:B16","n":1,"verdict":"unsolvable","keys":[],'
     '"tries":[["27-21","16x27"],["27-22","16-21"]],"more":false,"moves":[]}'),
    (["--each", "3", "--solution"], "W:W27,45:B16", '{"problem":10,"fen":"W:W27,45:B16","verdict":"undecided",'
     '"no_win_in":1}'),
    (["-n", "4", "--each", "3"], "W:W27,45:B16", '{"problem":11,"fen":"W:W27,45:B16","verdict":"undecided",'
     '"no_win_in":1}'),
    (["-n", "3", "--solution"], "W:W3:B20", '{"problem":12,"refused":"1 fen: 7 last row at 4"}'),
    (["--later", "1"], "W:W28,31,36,39:B33", '{"problem":13,"fen":"W:W28,31,36,39:B33","n":2,"verdict":"sound",'
     '"keys":["31-27"],"tries":[["28-22","33x44"],["28-23","33x44"],["39-34","33x22"]],"later":[["39-34",3]]}'),
    (["--later", "2", "--solution"], "W:W32:B28", '{"problem":14,"fen":"W:W32:B28","n":1,"verdict":"sound",'
     '"keys":["32x23"],"tries":[],"more":false,"moves":[{"depth":1,"move":"32x23","fen":"B:W23:B"}],"later":[]}'),
    (["--later", "2", "--each", "3"], "W:W27,45:B16", '{"problem":15,"fen":"W:W27,45:B16","verdict":"undecided",'
     '"no_win_in":1}'),
]
TWO = "W:W27,32:B18"
# A position, its movetext, options, the status and what is written behind the first line.
SOLUTIONS = [
    ("W:W27,45:B16", " 1. 45-40 16-21 2. 27x16 *", [], 0, ["holds in 2: 0 fail, 0 end, 0 open, 0 also"]),
    (TWO, " 1. 32-28 18-22 2. 27x18 2-0", [], 0,
     ["open 1. 32-28: 18-23", "also 1. 32-28 18-22 2. 28x17", "holds in 2: 0 fail, 0 end, 1 open, 1 also"]),
    (TWO, " 1. 27-22! {why not} 18x38 *", ["-n", "2"], 1,
     ["fails 1. 27-22 refuted by 18x38", "also 1. 32-28", "fails in 2: 1 fail, 0 end, 0 open, 1 also"]),
    (TWO, " 1. 27-22! {why not} 18x38 *", [], 1,
     ["no win in 1", "fails 1. 27-22 refuted by 18x38", "fails in 1: 1 fail, 0 end, 0 open, 0 also"]),
    (TWO, " 1. 32-28 *", ["-n", "2"], 1, ["ends 1. 32-28: wins in 1", "fails in 2: 0 fail, 1 end, 0 open, 0 also"]),
    (TWO, " 1. 32-28 (1. 27-22 18x38) 1... 18-22 (1... 18-23 2. 28x19) 2. 27x18 (2. 28x17) 2-0", [], 1,
     ["fails 1. 27-22 refuted by 18x38", "fails in 2: 1 fail, 0 end, 0 open, 0 also"]),
    (TWO, " 1. 32-27", [], 1, ["solution refused: 2 no such move at 5"]),
    (TWO, " 1. 32-28 (", [], 1, ["solution refused: 5 unclosed at 12"]),
    (TWO, " ( 1. 32-28", [], 1, ["solution refused: 4 variation at 2"]),
    (TWO, " 1. 32-28 2-0 x", [], 1, ["solution refused: 6 rest at 15"]),
    (TWO, " *", [], 1, ["solution refused: 10 empty at 3"]),
    (TWO, " 32_28", [], 1, ["solution refused: 1 token at 2"]),
    (TWO, f" 1. 32-28 {'(1. 32-28 ' * 41}", [], 1, ["solution refused: 7 too deep at 411"]),
    (TWO, " ;" + "x" * 1048576, [], 1, ["solution refused: 9 too large at 1048577"]),
]


def run(*words, text="", status=0, complaint=""):
    """What the program writes; it has to end with this status, and to say just this on standard error."""
    ran = subprocess.run(words, input=text, capture_output=True, text=True, timeout=3600, check=False)
    assert (ran.returncode, ran.stderr) == (status, complaint), (words, ran)
    return ran.stdout


def texts(report):
    """The text of each problem: its first line, and all others."""
    return [tuple(part.split("\n", 1)) for part in re.split(r"^(?=problem )", report, flags=re.MULTILINE) if part]


def least(judged):
    """The first of these texts of a problem that tells of a win, with its number, or the last."""
    for number, (_, text) in enumerate(judged, 1):
        if not text.startswith("unsolvable"):
            return number, text
    return len(judged), judged[-1][1]


def told(row):
    """A line of JSON as the text that it stands for."""
    first = f"problem {row['problem']}: "
    if "refused" in row:
        return f"{first}refused: {row['refused']}\n"
    first += row["fen"] + "\n"
    verdict, keys = row["verdict"], ", ".join(row.get("keys", []))
    if verdict == "undecided":
        return f"{first}undecided, no win in {row['no_win_in']}\n"
    lines = {"unsolvable": "", "cooked": f", shortest {row.get('shortest')}: {keys}", "sound": f": {keys}"}
    if verdict == "dual":
        turn = len(re.findall(r"\d+\. ", row["at"])) + 1
        lines["dual"] = f": {row['at']} {turn}. {' / '.join(row['choices'])}"
        assert row["at"].split()[1:2] == row["keys"], row
    tries = "".join(f"try {move} refuted by {reply}\n" for move, reply in row["tries"])
    later = "".join(f"later {move} in {moves}\n" for move, moves in row.get("later", []))
    return f"{first}{verdict} in {row['n']}{lines[verdict]}\n{tries}{later}"


def check_findings(rows, count, source, folder):
    board = Board(rows)
    file = folder / "positions.fen"
    positions = [fen(drawn(source, board), source.choice("WB")) for _ in range(count)] + ["W:W3:B20", "x"]
    file.write_text("".join(position + "\n" for position in positions))
    words = ["--board", str(rows), str(file)]
    reports = [run(DW, "judge", "-n", str(n), *words, status=1) for n in range(1, MOST + 1)]
    judged = [texts(report) for report in reports]
    found = [least(judgements) for judgements in zip(*judged)]
    wanted = "".join(f"{first}\n{text}" for (first, _), (_, text) in zip(judged[0], found))
    for more in ([], ["--memo", "none"], ["--memo", "lru", "--cache", "20"], ["--each", "1000000000000"]):
        written = run(DESK, "find", "--most", str(MOST), *more, *words, status=1)
        differ = [pair for pair in zip(texts(written), texts(wanted)) if pair[0] != pair[1]]
        assert written == wanted, (rows, more, differ)
    lines = run(DESK, "find", "--most", str(MOST), "--json", *words, status=1).splitlines()
    assert len(lines) == len(positions)
    for line in lines:
        row = json.loads(line)
        assert json.dumps(row, separators=(",", ":")) == line, line
    assert "".join(told(json.loads(line)) for line in lines) == wanted
    check_exact(reports, words)
    check_solved(words)
    kinds = {kind: wanted.count(f"\n{kind} in") for kind in ("unsolvable", "cooked", "dual", "sound")}
    print(f"{rows} rows: {count} positions, {kinds}: find is judge at the least number, in words and in JSON")
    check_portions(words, wanted, len(positions))
    check_bounds(words, [number for number, _ in found], wanted)


def check_exact(reports, words):
    """`find -n N` is judge at exactly N, in words and in JSON. A bound leaves the same problems undecided."""
    for n, report in enumerate(reports, 1):
        assert run(DESK, "find", "-n", str(n), *words, status=1) == report, n
        lines = run(DESK, "find", "-n", str(n), "--json", *words, status=1).splitlines()
        assert "".join(told(json.loads(line)) for line in lines) == report, n
    undecided = 0
    for each in (1, 7, 40):
        bounded = [run(DESK, "find", how, str(MOST), "--each", str(each), *words, status=1) for how in ("-n", "--most")]
        for (first, text), (_, least_text), (_, whole) in zip(*map(texts, bounded), texts(reports[-1])):
            assert text == (least_text if least_text.startswith("undecided") else whole), (each, first, text)
            undecided += text.startswith("undecided")
    assert undecided > 0
    print(f"find -n is judge at 1 to {MOST} moves, in words and in JSON, and leaves {undecided} undecided under bounds")


def check_solved(words):
    """A line with the solution is the line without it, with the moves of `solution --json` at its number."""
    reports = [run(DESK, "solution", "--json", "-n", str(n), *words, status=1) for n in range(1, MOST + 1)]
    solved = [[json.loads(line) for line in report.splitlines()] for report in reports]
    moves, undecided = 0, 0
    for more in (["--most", str(MOST)], ["--most", str(MOST), "--each", "7"], ["-n", "1"], ["-n", str(MOST)]):
        alone = run(DESK, "find", "--json", *more, *words, status=1).splitlines()
        both = run(DESK, "find", "--json", "--solution", *more, *words, status=1).splitlines()
        assert len(alone) == len(both)
        for line, whole in zip(alone, both):
            row = json.loads(line)
            if "n" in row:
                solution = solved[row["n"] - 1][row["problem"] - 1]
                row |= {"more": solution["more"], "moves": solution["moves"]}
                assert solution["fen"] == row["fen"] and solution["verdict"] == row["verdict"], (solution, row)
                moves += len(row["moves"])
            undecided += "no_win_in" in row
            assert whole == json.dumps(row, separators=(",", ":")), (more, line, whole)
    assert moves > 0 and undecided > 0
    print(f"{moves} moves of solutions in the lines of find: those of solution; none of {undecided} undecided problems")


def check_many():
    """Of too many lines a line of JSON has the moves of the first ones of `dw list`, each once and in order."""
    words, text = ["-n", str(MANY_MOVES)], f"{MANY}\n"
    row = json.loads(run(DESK, "find", "--json", "--solution", *words, text=text))
    _, *lines, last = run(DW, "list", "--lines", str(MOST_LINES), *words, text=text).splitlines()
    assert len(lines) == MOST_LINES and last.startswith("more after "), last
    beginnings = {}
    for line in lines:
        played = [word for word in line.split() if not word.endswith(".")]
        beginnings |= {tuple(played[:depth]): None for depth in range(1, len(played) + 1)}
    wanted = [(len(beginning), beginning[-1]) for beginning in beginnings]
    assert row["more"] is True and [(one["depth"], one["move"]) for one in row["moves"]] == wanted
    print(f"{len(wanted)} moves of the first {MOST_LINES} lines in a line of find: those of list")


def check_portions(words, wanted, count):
    """Portions in order are the whole; one that begins behind the last problem is none."""
    size, whole = 60, ""
    for begin in range(1, count + 1, size):
        part = f"{begin}-{begin + size - 1}"
        status = int("refused" in "".join(map("".join, texts(wanted)[begin - 1 : begin + size - 1])))
        whole += run(DESK, "find", "--most", str(MOST), "--problem", part, *words, status=status)
    assert whole == wanted
    one = run(DESK, "find", "--most", str(MOST), "--problem", "7", *words)
    assert "\n".join(texts(wanted)[6]) == one
    for part in (f"{count + 1}", f"{count + 1}-{count + 9}"):
        run(DESK, "find", "--problem", part, *words, status=1, complaint=f"dw-desk: no problem {count + 1}\n")
    print(f"{count} problems in portions of {size}: joined they are the whole")


def check_bounds(words, numbers, wanted):
    """Of what is undecided under a bound it is known up to which number there is no win."""
    undecided = 0
    for each in (1, 7, 40):
        report = texts(run(DESK, "find", "--most", str(MOST), "--each", str(each), *words, status=1))
        for number, (first, text), (same, whole) in zip(numbers, report, texts(wanted)):
            bound = re.fullmatch(r"undecided, no win in (\d+)\n", text)
            assert first == same and (int(bound[1]) < number if bound else text == whole), (each, first, text, whole)
            undecided += bool(bound)
        alone = texts(run(DESK, "find", "--most", str(MOST), "--each", str(each), "--problem", "9-20", *words,
                          status=int(any("undecided" in text for _, text in report[8:20]))))
        assert alone == report[8:20], each
    assert undecided > 0
    print(f"{undecided} undecided under bounds of 1, 7 and 40 positions, each below its number")


def check_rows(folder):
    """Worked rows of each command."""
    for words, problem, wanted in FINDS:
        assert run(DESK, "find", *words, text=f"{problem}\n") == wanted, (words, problem)
    file = folder / "six.fen"
    file.write_text("".join(f"{problem}\n" for _, problem, _ in ROWS))
    written = ""
    for number, (words, _, row) in enumerate(ROWS, 1):
        status = int("undecided" in row or "refused" in row)
        written += run(DESK, "find", "--json", "--problem", str(number), *words, str(file), status=status)
    assert written == "".join(f"{row}\n" for _, _, row in ROWS), written
    for position, movetext, words, status, wanted in SOLUTIONS:
        text = f'[FEN "{position}"]{movetext}'
        said = run(DESK, "check", *words, text=text, status=status)
        assert said == "".join(f"{line}\n" for line in [f"problem 1: {position}", *wanted]), (text, said)
    print(f"{len(FINDS) + len(ROWS)} rows of find and {len(SOLUTIONS)} of check: as worked")


def check_errors():
    """Arguments that are none, a file that is not there, and one that can not be written."""
    for words in (["find", "--most", "0"], ["find", "--most", "21"], ["find", "--each", "0"], ["find", "-n", "0"],
                  ["find", "-n", "2", "--most", "3"], ["find", "--solution"], ["find", "-n", "2", "--solution"],
                  ["find", "--later", "0"], ["find", "--later", "20"],
                  ["find", "--problem", "2-1"], ["find", "--problem", "0"], ["find", "--problem", "1-"],
                  ["find", "--problem", "1000001"], ["find", "--problem", "a"], ["find", "a", "b"], ["seek"],
                  ["token"], ["token", "--line", "x", "--problem", "1-2"], ["check", "-n", "21"],
                  ["certify", "-n", "2", "--json"], ["page", "-n", "2", "--json"], ["token", "--line", "x", "--json"],
                  ["solution"], ["solution", "-n", "2", "--most", "3"], ["solution", "--most", "0"],
                  ["check", "-n", "2", "--most", "3"], ["check", "--most", "0"], ["check", "--most", "21"],
                  ["page", "-n", "2", "--tries", "some"], ["find", "--faults"], ["same", "--memo", "lru"],
                  ["same", "--cache", "5"], ["same", "-n", "2"], ["same", "--problem", "2-1"], ["same", "--progress"]):
        ran = subprocess.run([DESK, *words], capture_output=True, text=True, input="", timeout=60, check=False)
        assert (ran.returncode, ran.stdout) == (2, "") and ran.stderr.startswith("error: "), (words, ran)
    for words in (["find"], ["check"], ["solution", "-n", "2"], ["page", "-n", "2"], ["certify", "-n", "2"],
                  ["mend", "-n", "2"], ["moves", "-n", "2"], ["solution", "--most", "2"], ["check", "--faults"],
                  ["check", "--most", "2"], ["same"], ["same", "--json"],
                  ["solution", "-n", "2", "--json"], ["token", "--line", "x"]):
        assert run(DESK, *words, "--problem", "2", text="W:W32:B28\n", status=1,
                   complaint="dw-desk: no problem 2\n") == "", words
    run(DESK, "find", "/none/there", status=3, complaint="dw-desk: cannot open /none/there\n")
    text = b'[FEN "W:W32:B28"] 1. 32x23 *\n'
    for words in (["find", "--pdn"], ["check"], ["solution", "--pdn", "-n", "1"], ["page", "--pdn", "-n", "1"],
                  ["solution", "--pdn", "-n", "1", "--json"], ["certify", "--pdn", "-n", "1"],
                  ["mend", "--pdn", "-n", "1"], ["moves", "--pdn", "-n", "1"], ["same", "--pdn"],
                  ["token", "--pdn", "--line", "32x23"]):
        with open("/dev/full", "w", encoding="ascii") as full:
            ran = subprocess.run([DESK, *words], input=text, stdout=full, stderr=subprocess.PIPE, timeout=60,
                                 check=False)
        assert (ran.returncode, ran.stderr) == (3, b"dw-desk: write failed\n"), (words, ran)
        run(DESK, *words, "/", status=3, complaint="dw-desk: read failed\n")
    version = run(DW, "--version").replace("dw ", "dw-desk ")
    assert run(DESK, "--version") == version and "find" in run(DESK, "--help")
    pdn = '[Event "a"]\n[FEN "W:W27,45:B16"]\n\n1. 45-40 *\n\n[FEN "W:W32:B28"]\n'
    assert run(DESK, "find", "--pdn", text=pdn) == ("problem 1: W:W27,45:B16\nsound in 2: 45-40\ntry 27-21 refuted by "
                                                    "16x27\ntry 27-22 refuted by 16-21\nproblem 2: W:W32:B28\n"
                                                    "sound in 1: 32x23\n")
    print("wrong arguments, streams that fail, a PDN file, the version: as told")


def check_tokens(folder):
    """Behind each line the list goes on with the rest; what is no line is refused at its place."""
    file = folder / "one.fen"
    file.write_text("x\nW:W27,32,38:B18\n")
    words = ["--problem", "2", str(file)]
    first, *lines, last = run(DW, "list", "-n", "2", *words).splitlines()
    assert len(lines) == 4 and last == "complete 4", lines
    for place, line in enumerate(lines, 1):
        token = run(DESK, "token", "--line", line, *words)
        rest = "".join(f"{text}\n" for text in [first, *lines[place:], f"complete {4 - place}"])
        assert run(DW, "list", "-n", "2", "--after", token.strip(), *words) == rest, line
        assert token == run(DESK, "token", "--line", f"{{a}} {line.replace('x', ':')}! 2-0 ; b", *words)
    for line, fault in (("1. 32-28 18-22", "11 even at 15"), ("", "10 empty at 1"), ("1. 32-27", "2 no such move at 4"),
                        ("1. 32-28 (1. 38-33)", "4 variation at 10"), ("(1. 32-28)", "4 variation at 1"),
                        ("1. 32-28 2-0 (", "6 rest at 14"), ("32_28", "1 token at 1")):
        run(DESK, "token", "--line", line, *words, status=1, complaint=f"dw-desk: line refused: {fault}\n")
    run(DESK, "token", "--line", "1. 32-28", str(file), status=1,
        complaint="dw-desk: problem refused: 1 fen: 1 turn at 1\n")
    run(DESK, "token", "--line", "1. 32-28", "--problem", "3", str(file), status=1,
        complaint="dw-desk: no problem 3\n")
    print(f"lists go on behind each of {len(lines)} lines by its token; what is no line is refused")


def at_terminal(words, answers=False):
    """What the program writes on standard error if that is a terminal, and with it its answers, if they are wanted."""
    reader, writer = pty.openpty()
    output = writer if answers else subprocess.DEVNULL
    with subprocess.Popen(words, stdin=subprocess.DEVNULL, stdout=output, stderr=writer) as process:
        os.close(writer)
        said = b""
        while True:
            try:
                piece = os.read(reader, 4096)
            except OSError:  # the terminal's other end is closed
                piece = b""
            if not piece:
                break
            said += piece
        os.close(reader)
        assert process.wait(timeout=3600) == 0, words
    return said.decode()


def check_progress(folder):
    file = folder / "long.fen"
    file.write_text(f"{LONG}\nW:W32:B28\n")
    words = [DESK, "find", "--most", str(LONG_MOVES), "--cache", str(LONG_CACHE), str(file)]
    said = at_terminal(words)
    steps = [int(number) for number in re.findall(r"problem 1: \d+ moves, (\d+) positions", said)]
    assert steps == sorted(set(steps)) and len(steps) >= 2, said
    assert said.endswith("\r\x1b[K") and "problem 2" not in said, said
    assert at_terminal([*words, "--problem", "2"]) == ""
    written = run(*words)
    asked = subprocess.run([*words, "--progress"], capture_output=True, text=True, timeout=3600, check=False)
    assert asked.stdout == written and "problem 1: " in asked.stderr, asked
    print(f"a search of {steps[-1]} positions and more: shown {len(steps)} times at a terminal, and taken away")


def check_mending():
    """The numbers in the line that shows how far `mend` is never fall, and the line stands before no answer."""
    words = [DESK, "mend", "-n", "6", "--pdn", "--problem", "35", str(TOP / "examples" / "collection.pdn")]
    answers = run(*words)
    said = at_terminal(words, answers=True)
    shown = r"problem 35: [56] moves, (\d+) positions"
    steps = [int(number) for number in re.findall(shown, said)]
    assert steps == sorted(steps) and len(set(steps)) >= 2, said
    left = re.sub(rf"\r\x1b\[K({shown}(?=\r\x1b\[K))?", "", said)
    assert left.replace("\r\n", "\n") == answers, said
    print(f"mend at a terminal: {len(steps)} numbers of positions, and each answer in a line of its own")


def main():
    count, source = count_asked(250), random.Random(SEED)
    with tempfile.TemporaryDirectory() as name:
        for rows in (10, 8):
            check_findings(rows, count, source, pathlib.Path(name))
        check_rows(pathlib.Path(name))
        check_many()
        check_errors()
        check_tokens(pathlib.Path(name))
        check_progress(pathlib.Path(name))
        check_mending()


if __name__ == "__main__":
    main()
