#!/usr/bin/env python3
"""calls.py: compares docs/CALLS.md, the index of all functions with a contract, with the source.

    checks/calls.py [--write]      with --write the page is written again

The page has each public function of each crate that has a contract, and for a program those that its modules share.
Each of them needs a comment.
"""
import dataclasses
import pathlib
import re
import sys
import textwrap

TOP = pathlib.Path(__file__).resolve().parent.parent
CRATES, PAGE = TOP / "crates", TOP / "docs/CALLS.md"
WIDTH = 120
HEAD = """# Functions with a contract

This index has each public function with a contract, and the methods of the crates' traits, private ones too. `rt ci`
proves them all. Follow a link: a comment above each function says what it does, and its clauses state what is proved.
[CONTRACTS.md](CONTRACTS.md) explains the notation. Most functions are at the root of their crate
(`dw_report::key_texts`), the others in the module of their file (`dw_page::escape::push_text`).

`checks/calls.py --write` makes this page from the source.
"""
# Crates that only test, measure or show the others.
LEFT_OUT = re.compile(r"dw_(tests|bench|example)$")
FUNCTION = re.compile(r"( *)((?:pub(?:\(crate\))? )?)(?:const )?(?:extern .C. )?fn (\w+)")
BLOCK = re.compile(
    r"(?:pub(?:\(crate\))? )?(?:impl(?:<.*?>)? (?:([\w:]+)(?:<.*?>)? for )?&?(?:mut )?(\w+)|trait (\w+))")


@dataclasses.dataclass
class Call:
    name: str
    file: pathlib.Path


def row(file, calls):
    """A file with its functions."""
    shown = file.relative_to(TOP).parts[3:]
    names = ", ".join(f"`{call.name}`" for call in calls)
    return textwrap.fill(f"[{'/'.join(shown)}](../{file.relative_to(TOP)}): {names}", WIDTH, initial_indent="- ",
                         subsequent_indent="  ", break_long_words=False, break_on_hyphens=False)


def calls_of(file, is_program):
    found, has_comment, block, lines = [], False, "", file.read_text().splitlines()
    for number, line in enumerate(lines):
        stripped = line.strip()
        if stripped.startswith("///"):
            has_comment = True
            continue
        if named := BLOCK.match(line):
            # Of a trait's implementation the contract is the trait's.
            block = "" if named[1] else (named[2] or named[3])
            is_trait, is_impl_of_trait = bool(named[3]), bool(named[1])
        elif line.startswith("}"):
            block, is_trait, is_impl_of_trait = "", False, False
        if function := FUNCTION.match(line):
            inside = bool(function[1])
            is_shown = function[2] == "pub " or (is_program and function[2]) or (inside and block and is_trait)
            if is_shown and not (inside and is_impl_of_trait):
                if is_ensured(lines, number):
                    name = f"{block}::{function[3]}" if inside and block else function[3]
                    assert has_comment, f"{file}: {name} has no comment"
                    found.append(Call(name, file))
        if not stripped.startswith("#["):
            has_comment = False
    return found


def is_ensured(lines, number):
    """Whether the function that begins there has a clause."""
    for line in lines[number:]:
        stripped = line.strip()
        if re.match(r"ensures (?:(\w+) )?\{", stripped):
            return True
        if stripped in ("{", "{}") or stripped.endswith(" {") and not stripped.startswith("requires"):
            return False
    return False


def crates():
    rows = (row.partition("#")[0] for row in (TOP / "crates.txt").read_text().splitlines())
    names = [row.split(":")[0].split()[0] for row in rows if ":" in row]
    return [name for name in names if not LEFT_OUT.match(name)]


def page():
    parts = [HEAD]
    for crate in crates():
        src = CRATES / crate / "src"
        is_program = (src / "main.rt").is_file()
        root = (src / ("main.rt" if is_program else "lib.rt")).read_text()
        front = re.match(r"(?:#!\[.*\n|\n)*((?://! .*\n)+)", root)[1]
        title = " ".join(line.removeprefix("//! ") for line in front.splitlines()).rstrip(".:")
        files = [(file, calls_of(file, is_program)) for file in sorted(src.rglob("*.rt"))]
        rows = [row(file, calls) for file, calls in files if calls]
        if rows:
            about = textwrap.fill(f"{title}.", WIDTH, break_long_words=False, break_on_hyphens=False)
            parts.append(f"## {crate}\n\n{about}\n\n" + "\n".join(rows) + "\n")
    return "\n".join(parts)


def main(words):
    if words not in ([], ["--write"]):
        sys.exit(__doc__)
    if words:
        PAGE.write_text(page())
    elif not PAGE.is_file() or PAGE.read_text() != page():
        sys.exit("docs/CALLS.md is not what checks/calls.py makes of the source: write it with --write")
    print("docs/CALLS.md has the calls of the source")


if __name__ == "__main__":
    main(sys.argv[1:])
