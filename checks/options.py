#!/usr/bin/env python3
"""options.py: compares man pages, bash completions and a table of options with the help texts of the programs.

    checks/options.py [--write] [--programs FOLDER]

The commands and options come from `dw --help` and `dw COMMAND --help`. The part of docs/dw.1 between comment lines must
be what man_pages.py makes of the help; --write writes it again. The rest of the page names only options of the help.
docs/dw.bash must offer each command and option, the values of an option if they are listed, and files for FILE, and
nothing else. The same holds for `dw-desk`. The table in docs/REPORT.md must have the options of `dw`, with their
commands, values and defaults. The version of the programs must be that of the man pages and the first one in
CHANGELOG.md. --programs names the folder of the programs.
"""
import argparse
import pathlib
import re
import shlex
import subprocess
import tempfile

import man_pages

TOP = pathlib.Path(__file__).resolve().parent.parent
PROGRAMS = ("dw", "dw-desk")
REPORT, CHANGES = TOP / "docs/REPORT.md", TOP / "CHANGELOG.md"


def completion(program):
    return TOP / "docs" / f"{program}.bash"


def help_of(program, *words):
    ran = subprocess.run([program, *words, "--help"], capture_output=True, text=True, timeout=3600, check=False)
    assert (ran.returncode, ran.stderr) == (0, ""), (program, words, ran)
    return man_pages.read(ran.stdout)


def options_in(told):
    return {name for entry in told.lists["Options"] for name in entry.names}


# THE MAN PAGE

def check_man(program, top, commands, is_written_anew):
    path = TOP / "docs" / f"{program}.1"
    page = man_pages.page(path.read_text(), man_pages.parts(program, top, commands))
    if is_written_anew:
        path.write_text(page)
    assert path.read_text() == page, f"docs/{program}.1 is not what the helps make: run checks/options.py --write"
    wanted = options_in(top).union(*map(options_in, commands.values()))
    has = set(man_pages.OPTION.findall(man_pages.by_hand(page)))
    assert has - wanted <= {"-k"}, f"docs/{program}.1: {sorted(has - wanted)} in no help"  # parallel's own
    print(f"docs/{program}.1: {len(commands)} commands and {len(wanted)} options, as in the helps")


# THE TABLE OF OPTIONS

def row(uses, commands):
    """What the table says of an option: its commands, its values and its default. `None` stands for any text."""
    has, entry = [command for command, _ in uses], uses[0][1]
    numbers = re.search(r"1 to \d+", entry.what)
    return ("all" if has == list(commands) else ", ".join(f"`{command}`" for command in has),
            ", ".join(f"`{value}`" for value in entry.values) or (numbers[0] if numbers else None),
            (f"`{entry.default}`" if entry.values else entry.default) or None)


def check_report(commands):
    rows = re.findall(r"^\| `(-[^`]*)` \| ([^|]*) \| [^|]* \| ([^|]*) \| ([^|]*) \|$", REPORT.read_text(), re.MULTILINE)
    uses = {}
    for command, told in commands.items():
        for entry in told.lists["Options"]:
            uses.setdefault(f"{entry.names[-1]} {entry.value}".strip(), []).append((command, entry))
    differing = {option for option, *_ in rows} ^ set(uses) - {"--help"}
    assert not differing, f"docs/REPORT.md: {sorted(differing)} in one of the table and the helps alone"
    for option, *cells in rows:
        wanted = row(uses[option], commands)
        assert all(want in (None, cell) for cell, want in zip(cells, wanted)), f"docs/REPORT.md: {option} is {wanted}"
    print(f"docs/REPORT.md: {len(rows)} options, as in the helps")


# THE VERSION

def check_version(folder, program):
    ran = subprocess.run([folder / program, "--version"], capture_output=True, text=True, timeout=3600, check=True)
    version = ran.stdout.removeprefix(f"{program} ").strip()
    head = shlex.split((TOP / "docs" / f"{program}.1").read_text().splitlines()[0])
    assert head == [".TH", program.upper(), "1", "", f"dw {version}", "User commands"], (version, head)
    newest = re.search(r"^## (\d+\.\d+\.\d+)\b", CHANGES.read_text(), re.MULTILINE)[1]
    assert newest == version, f"CHANGELOG.md begins with {newest}, and {program} is {version}"
    print(f"{program} {version}: so docs/{program}.1 and CHANGELOG.md")


# THE COMPLETION

def completed(words, folder):
    """What bash offers for the last of these words, of which the first is a program."""
    script = f"""source "{completion(words[0])}"
        COMP_WORDS=("$@") COMP_CWORD=$(($# - 1)) && _{words[0].replace("-", "_")}
        [ ${{#COMPREPLY[@]}} = 0 ] || printf '%s\\n' "${{COMPREPLY[@]}}\""""
    ran = subprocess.run(["bash", "-c", script, "bash", *words], cwd=folder, capture_output=True, text=True, timeout=60,
                         check=False)
    assert (ran.returncode, ran.stderr) == (0, ""), (words, ran)
    return ran.stdout.splitlines()


def check_completion(program, top, commands, folder):
    (folder / "a file.fen").touch()
    named = [*commands, "help"]
    assert completed([program, ""], folder) == named, completed([program, ""], folder)
    assert completed([program, "help", ""], folder) == named
    for begun in {name[: 1 + name.startswith("mo")] for name in named}:
        wanted = [name for name in named if name.startswith(begun)]
        assert completed([program, begun], folder) == wanted, begun
    assert set(completed([program, "-"], folder)) == options_in(top), completed([program, "-"], folder)
    count = 0
    for command, told in commands.items():
        offered = completed([program, command, "-"], folder)
        assert len(offered) == len(set(offered)) and set(offered) == options_in(told), (command, offered)
        assert [entry.names for entry in told.lists["Arguments"]] == [("FILE",)], command
        files = completed([program, command, "a"], folder)
        assert files == ["a file.fen"], (command, files)
        for option in options_in(told):
            assert completed([program, command, option], folder)[0].startswith(option), (command, option)
        for entry in told.lists["Options"]:
            if not entry.value:
                continue
            option, values = entry.names[-1], list(entry.values)
            assert completed([program, command, option, ""], folder) == values, (command, option, values)
            assert completed([program, command, option, "=", ""], folder) == values, (command, option, values)
            for value in values:
                assert completed([program, command, option, value[:1]], folder) == [value], (command, option, value)
            count += len(values)
    print(f"docs/{program}.bash: {len(commands)} commands, their options and {count} values, as in the helps")


def main():
    words = argparse.ArgumentParser(description="Compares the man pages and the bash completions with the helps.")
    words.add_argument("--write", action="store_true", help="write what the man pages say of commands and options anew")
    words.add_argument("--programs", type=pathlib.Path, default=TOP, metavar="FOLDER", help="where the programs are")
    given = words.parse_args()
    for program in PROGRAMS:
        top = help_of(given.programs / program)
        commands = {entry.head: help_of(given.programs / program, entry.head) for entry in top.lists["Commands"]
                    if entry.head != "help"}
        assert commands, top
        check_version(given.programs, program)
        check_man(program, top, commands, given.write)
        if program == "dw":
            check_report(commands)
        with tempfile.TemporaryDirectory() as name:
            check_completion(program, top, commands, pathlib.Path(name))


if __name__ == "__main__":
    main()
