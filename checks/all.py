#!/usr/bin/env python3
"""all.py: runs the checks of this folder, and reports for each its purpose, its time and its result.

    checks/all.py [--slow] [--jobs N] [NAME ..]

Without names it runs all checks. --slow draws more random positions, and tries all edits, which takes the prover hours.
With names, such as `judging` or `judging.py`, it runs only these. It runs one check for each processor at a
time, or as many as --jobs says, the longest first. The purpose of a check is the first paragraph of its own text. A
failed check shows its last lines. The last line counts the checks that passed and failed. The status is 0 if all
passed.
"""
import argparse
import ast
import concurrent.futures
import dataclasses
import os
import pathlib
import subprocess
import sys
import tempfile
import textwrap
import threading
import time

import refused_search

HERE = pathlib.Path(__file__).resolve().parent
TOP = HERE.parent
SHOWN = 20  # lines of a check that failed
PRINTING = threading.Lock()


@dataclasses.dataclass
class Check:
    name: str
    # What it is given with --slow, and what without.
    slow: tuple = ()
    usual: tuple = ()
    # A file in which its output has to stand, byte for byte.
    wanted: str = ""
    # Whether it needs the module of the page.
    page: bool = False


# The longest first, but last those that need the module of the page, which takes minutes to make.
CHECKS = [
    Check("edits", slow=("--all", "--jobs", "1"), usual=("--jobs", "1")),
    Check("judging", slow=("--count", "5000")),
    Check("desk", slow=("--count", "3000")),
    Check("solutions", slow=("--count", "4500")),
    Check("games", slow=("--count", "2000")),
    Check("pages", slow=("--count", "1000")),
    Check("certificates", slow=("--count", "1000")),
    Check("mends", slow=("--count", "100")),
    Check("first_moves", slow=("--count", "2000")),
    Check("same", slow=("--count", "20000")),
    Check("board_making"),
    Check("refused_memory"),
    Check("long_list"),
    Check("random_moves", slow=("--count", "1000000")),
    Check("settings"),
    Check("rows"),
    Check("launching"),
    Check("bad_input"),
    Check("parallel"),
    Check("borrow"),
    Check("machines"),
    Check("wins", wanted="crates/dw_tests/stdin"),
    Check("collection", slow=("--count", "100"), wanted="examples/collection.pdn"),
    Check("examples"),
    Check("json_rows"),
    Check("random_fens", slow=("--count", "1000000")),
    Check("refused_search"),
    Check("memory"),
    Check("perft"),
    Check("installing"),
    Check("first_answer"),
    Check("gate"),
    Check("options"),
    Check("docs"),
    Check("prose"),
    Check("definitions"),
    Check("layers"),
    Check("calls"),
    Check("causes"),
    Check("arguments"),
    Check("board", slow=("--count", "400"), page=True),
    Check("board_truth", slow=("--count", "1000"), page=True),
    Check("board_ways", page=True),
    Check("package", page=True),
    Check("c_library", page=True),
    Check("web", slow=("--count", "1500"), page=True),
]
# What is no check of this repository, but for whom reads what the programs write.
READERS = ["certificate"]
# What is a part of a check.
PARTS = ["board_named", "board_page", "browsers", "draughts", "man_pages", "reading_order"]
# What takes pictures and measures, for the documents.
FIGURES = ["board_figures", "board_pictures"]


def purpose(check):
    """The first paragraph of a check's own text, without its name."""
    text = ast.get_docstring(ast.parse((HERE / f"{check.name}.py").read_text()))
    return " ".join(text.split("\n\n")[0].removeprefix(f"{check.name}.py: ").split())


def run(check, slow, output):
    """Runs a check, and answers whether it passed."""
    words = check.slow if slow else check.usual
    ran = subprocess.run([sys.executable, HERE / f"{check.name}.py", *words], stdout=output,
                         stdin=subprocess.DEVNULL, stderr=subprocess.STDOUT, cwd=TOP, check=False)
    if check.wanted:
        output.seek(0)
        stands = output.read() in (TOP / check.wanted).read_bytes()
        if not stands:
            output.write(f"all.py: the output does not stand in {check.wanted}\n".encode())
        return ran.returncode == 0 and stands
    return ran.returncode == 0


def report(check, slow, page):
    """Runs a check, if it needs the page once that is made, and tells of it."""
    if check.page:
        page.result()
    started = time.monotonic()
    with tempfile.TemporaryFile() as output:
        passed = run(check, slow, output)
        seconds = time.monotonic() - started
        output.seek(0)
        said = output.read().decode(errors="replace").splitlines()[-SHOWN:]
    with PRINTING:
        print(textwrap.fill(f"{check.name}: {purpose(check)}", 100, subsequent_indent="    "))
        for line in [] if passed else said:
            print(f"    | {line}")
        print(f"    {'passed' if passed else 'FAILED'} in {seconds:.1f} s", flush=True)
    return passed


def chosen(names):
    """The checks of these names, or all."""
    known = {check.name: check for check in CHECKS}
    there = {path.stem for path in HERE.glob("*.py")} - {"all", *READERS, *PARTS, *FIGURES}
    assert set(known) == there, f"all.py lacks, or has too much: {sorted(set(known) ^ there)}"
    if not names:
        return CHECKS
    unknown = [name for name in names if name.removesuffix(".py") not in known]
    if unknown:
        sys.exit(f"all.py: there is no check {', '.join(unknown)}")
    return [known[name.removesuffix(".py")] for name in names]


def build(checks):
    """Builds what is not there, so that no check's time has that in it."""
    subprocess.run([TOP / "build"], check=True)
    if any(check.name == "refused_search" for check in checks):
        refused_search.build()


def build_page():
    subprocess.run([TOP / "board", os.devnull], stderr=subprocess.DEVNULL, check=True)


def main():
    words = argparse.ArgumentParser(description="Runs the checks of this folder.")
    words.add_argument("--slow", action="store_true", help="more random positions, and all edits")
    words.add_argument("--jobs", type=int, default=len(os.sched_getaffinity(0)), help="how many run side by side")
    words.add_argument("names", nargs="*", metavar="NAME", help="just these")
    given = words.parse_args()
    checks = chosen(given.names)
    build(checks)
    with concurrent.futures.ThreadPoolExecutor(max(given.jobs, 1)) as pool:
        page = pool.submit(build_page) if any(check.page for check in checks) else None
        passed = list(pool.map(lambda check: report(check, given.slow, page), checks))
    failed = [check.name for check, well in zip(checks, passed) if not well]
    if failed:
        print(f"all.py: FAILED: {' '.join(failed)}")
    print(f"{len(checks) - len(failed)} passed, {len(failed)} failed")
    return 1 if failed else 0


if __name__ == "__main__":
    sys.exit(main())
