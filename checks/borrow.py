#!/usr/bin/env python3
"""borrow.py: tries uses that the borrow checker must refuse.

    checks/borrow.py

They are files checks/edits/CRATE/NAME.borrow, in the form of an edit. Each is put into a copy of the tracked files, and
`rt check --only=` runs in its crate. It stops before any proof, so nothing needs to be built. Each error must come from
the borrow checker, at a line that the edit changed.
"""
import pathlib
import re
import subprocess
import tempfile

from edits import EDITS, copy_tracked, with_edit

ERROR = re.compile(r"^(\S+?):(\d+):\d+: error(\[[\w-]+\])?", re.MULTILINE)


def changed(old, new):
    """The numbers of the lines in which two texts of as many lines differ."""
    old, new = old.splitlines(), new.splitlines()
    assert len(old) == len(new), "a use that must not compile stands in one line"
    return {number for number, (before, after) in enumerate(zip(old, new), 1) if before != after}


def refusal(room, edit):
    """What the borrow check says of the edit, put into the copy."""
    folder = room / "crates" / edit.parent.name
    file, text = with_edit(edit, folder)
    kept = file.read_text(encoding="utf-8")
    file.write_text(text, encoding="utf-8")
    ran = subprocess.run(["rt", "check", "--only="], cwd=folder, stdout=subprocess.PIPE, stderr=subprocess.STDOUT,
                         text=True, check=False, timeout=600)
    file.write_text(kept, encoding="utf-8")
    errors = ERROR.findall(ran.stdout)
    assert errors and ran.returncode != 0, f"{edit.name} was not refused: {ran.stdout[-1000:]}"
    for name, line, kind in errors:
        assert kind.startswith("[borrow-"), f"{edit.name}: another error: {ran.stdout[-1000:]}"
        assert folder / name == file and int(line) in changed(kept, text), f"{edit.name}: elsewhere: {name}:{line}"
    return f"{len(errors)} in line {errors[0][1]} of {errors[0][0]}, {errors[0][2]}"


def main():
    edits = sorted(EDITS.glob("*/*.borrow"))
    assert edits, f"there is no use to try in {EDITS}"
    with tempfile.TemporaryDirectory(prefix="dw-borrow-") as name:
        room = pathlib.Path(name)
        copy_tracked(room)
        for edit in edits:
            print(f"{edit.parent.name}/{edit.name}: refused, {refusal(room, edit)}", flush=True)


if __name__ == "__main__":
    main()
