#!/usr/bin/env python3
"""json_rows.py: validates the JSON of `dw` and `dw-desk` for all examples with a validator of Debian.

    checks/json_rows.py

Each line of JSON must be valid by docs/dw-desk.schema.json, a JSON Schema of the draft 2020-12, and have no blanks
between its parts. The members of the schema are those in the tables of docs/JSON.md, and each occurs in a line of some
example, or in one made here. The validator is python3-jsonschema.
"""
import json
import pathlib
import re
import subprocess

import jsonschema

TOP = pathlib.Path(__file__).resolve().parent.parent
DW, DESK, EXAMPLES, DOCS = TOP / "dw", TOP / "dw-desk", TOP / "examples", TOP / "docs"
# Problems of all kinds, two that are refused, and solutions with each kind of remark.
POSITIONS = ["W:W27,32:B18", "W:W27,45:B16", "W:W27,32,38:B18", "W:W27:B16", "W:W3:B20", "x", "W:W:B18"]
# The first problem once more, and turned.
TWICE = "W:W27,32:B18\nB:W33:B19,24\n"
MOVETEXTS = [" 1. 32-28 18-22 2. 27x18 2-0", " 1. 27-22! {why not} 18x38 *", " 1. 32-28 *", " 1. 32-27", " *"]


def lines_of(*words, text="", program=DESK):
    ran = subprocess.run([program, *words], input=text, capture_output=True, text=True, timeout=3600, check=False)
    assert ran.returncode in (0, 1) and ran.stderr == "", (words, ran)
    return ran.stdout.splitlines()


def written():
    """The lines of all commands, by command."""
    positions = "".join(position + "\n" for position in POSITIONS)
    games = "".join(f'[FEN "W:W27,32:B18"]{movetext}\n\n' for movetext in MOVETEXTS)
    found = {"find": lines_of("find", "--json", "--most", "3", text=positions), "check": [],
             "solution": [], "moves": [], "same": lines_of("same", "--json", text=positions + TWICE)}
    for more in (["--each", "3"], ["--solution"], ["--solution", "--each", "3"]):
        found["find"] += lines_of("find", "--json", "--most", "3", *more, text=positions)
    for more in ([], ["--solution"]):
        found["find"] += lines_of("find", "--json", "-n", "2", *more, text=positions)
        found["find"] += lines_of("find", "--json", "--most", "3", "--later", "1", *more, text=positions)
    for more in ([], ["-n", "2"], ["--most", "3"], ["--faults"]):
        found["check"] += lines_of("check", "--json", *more, text=games)
    for more in (["-n", "3"], ["--most", "3", "--lines", "1"]):
        found["solution"] += lines_of("solution", "--json", *more, text=positions)
    for number in range(1, len(POSITIONS) + 1):
        found["moves"] += lines_of("moves", "--json", "-n", "2", "--problem", str(number), text=positions)
    found["mend"] = [line for number in range(1, 7)
                     for line in lines_of("mend", "--json", "-n", "2", "--problem", str(number), text=positions)]
    for command in ("show", "moves"):
        found[f"dw {command}"] = lines_of(command, "--json", text=positions, program=DW)
        for file in [*EXAMPLES.glob("*.fen"), *EXAMPLES.glob("*.pdn")]:
            form = ["--pdn"] if file.suffix == ".pdn" else []
            found[f"dw {command}"] += lines_of(command, "--json", *form, str(file), program=DW)
    for file in sorted(EXAMPLES.glob("*.fen")):
        most = "2" if file.name.startswith("large") else "4"
        found["find"] += lines_of("find", "--json", "--most", most, "--problem", "1-20", str(file))
        found["solution"] += lines_of("solution", "--json", "-n", "2", "--problem", "1-20", str(file))
        found["moves"] += lines_of("moves", "--json", "-n", "2", str(file))
    for file in sorted(EXAMPLES.glob("*.pdn")):
        found["check"] += lines_of("check", "--json", "--problem", "1-20", str(file))
        found["solution"] += lines_of("solution", "--json", "-n", "2", "--pdn", "--problem", "1-20", str(file))
        found["moves"] += lines_of("moves", "--json", "-n", "2", "--pdn", str(file))
    return found


def names_in(value):
    """The names of all members of a value, and of all values in it."""
    if isinstance(value, dict):
        return set(value).union(*map(names_in, value.values()))
    return set().union(*map(names_in, value)) if isinstance(value, list) else set()


def names_known(schema):
    """The names of all members that a schema knows."""
    if isinstance(schema, dict):
        return set(schema.get("properties", {})).union(*map(names_known, schema.values()))
    return set().union(*map(names_known, schema)) if isinstance(schema, list) else set()


def main():
    schema = json.loads((DOCS / "dw-desk.schema.json").read_text())
    jsonschema.Draft202012Validator.check_schema(schema)
    validator, met, found = jsonschema.Draft202012Validator(schema), set(), written()
    for command, lines in found.items():
        for line in lines:
            row = json.loads(line)
            assert json.dumps(row, separators=(",", ":")) == line, (command, line)
            faults = [error.message for error in validator.iter_errors(row)]
            assert not faults, (command, line, faults)
            met |= names_in(row)
    known = names_known(schema)
    assert met == known, f"in no line: {sorted(known - met)}; not in the schema: {sorted(met - known)}"
    page = (DOCS / "JSON.md").read_text()
    told = {name for row in re.findall(r"^\| (`.*?) \|", page, re.MULTILINE) for name in re.findall(r"`(\w+)`", row)}
    assert told == known, f"docs/JSON.md lacks {sorted(known - told)}, and has too many: {sorted(told - known)}"
    for bad in ({"problem": 0, "refused": "2 no fen"}, {"problem": 1}, {"problem": 1, "refused": "2 no fen", "n": 2}):
        assert not validator.is_valid(bad), bad
    counts = ", ".join(f"{len(lines)} of {command}" for command, lines in found.items())
    print(f"lines of JSON, {counts}: valid, with the {len(known)} members that docs/JSON.md has")


if __name__ == "__main__":
    main()
