#!/usr/bin/env python3
"""gate.py: runs `./check` in copies whose `rt ci` and checks only print numbers, and compares its last line, its
status, and its message if a Debian package is missing.

    checks/gate.py

Each row has the last lines and statuses of `rt ci` and checks/all.py, and the right result of `./check`. Missing
packages that cannot be installed must be named, and nothing runs then. Others are installed by an `apt-get` that only
records its arguments, after an update if the first try fails, and no server may start. checks/packages.txt must have
names of packages only.
"""
import os
import pathlib
import re
import stat
import subprocess
import tempfile

TOP = pathlib.Path(__file__).resolve().parent.parent
# What `rt ci` says and how it ends, the same of the checks, and the last line and the end of `./check`.
ROWS = [
    ("7 passed, 0 failed", 0, "5 passed, 0 failed", 0, "12 passed, 0 failed", 0),
    ("7 passed, 0 failed", 0, "4 passed, 1 failed", 1, "11 passed, 1 failed", 1),
    ("6 passed, 1 failed", 1, "5 passed, 0 failed", 0, "6 passed, 2 failed", 1),
    ("7 passed, 0 failed", 0, "killed", 137, "7 passed, 1 failed", 1),
    ("7 passed, 0 failed", 0, "5 passed, 0 failed", 3, "12 passed, 1 failed", 1),
    ("7 passed, 0 failed", 2, "5 passed, 0 failed", 0, "7 passed, 2 failed", 1),
    ("no such command", 127, "5 passed, 0 failed", 0, "0 passed, 2 failed", 1),
]
SAYS = "#!/bin/sh\necho some words\necho \"$0 $*\" >>{room}/called\necho '{said}'\nexit {status}\n"
QUERY = "#!/bin/sh\nfor name; do :; done\ngrep -qx \"$name\" {room}/installed && printf installed\n"
# The file that keeps servers from being started.
POLICY = "/usr/sbin/policy-rc.d"
# It knows the packages only after an update.
APT = """#!/bin/sh
echo "$*, servers: $(sh {room}/policy; echo $?)" >>{room}/called
[ "$1" = update ] && touch {room}/updated && exit 0
[ -e {room}/updated ] || exit 100
shift 3
printf '%s\\n' "$@" >>{room}/installed
"""


def write_program(path, text):
    path.write_text(text)
    path.chmod(path.stat().st_mode | stat.S_IXUSR)


def copy(room, first, first_status, second, second_status):
    """A copy of `check` with commands that only say something."""
    for name in ("copy/checks", "path", "copy/crates/dw/out"):
        (room / name).mkdir(parents=True)
    text = (TOP / "check").read_text()
    assert text.count(POLICY) == 1, "check names another file"
    write_program(room / "copy/check", text.replace(POLICY, f"{room}/policy"))
    (room / "copy/checks/packages.txt").write_text("gcc\nparallel\n")
    (room / "installed").write_text("gcc\nparallel\n")
    write_program(room / "path/rt", SAYS.format(room=room, said=first, status=first_status))
    write_program(room / "path/python3", SAYS.format(room=room, said=second, status=second_status))
    write_program(room / "path/dpkg-query", QUERY.format(room=room))
    write_program(room / "path/apt-get", APT.format(room=room))
    write_program(room / "path/id", "#!/bin/sh\necho 0\n")


def call(room, *words):
    environment = os.environ | {"PATH": f"{room / 'path'}{os.pathsep}{os.environ['PATH']}"}
    ran = subprocess.run([room / "copy/check", *words], env=environment, stdin=subprocess.DEVNULL, capture_output=True,
                         text=True, timeout=60, check=False)
    called = room / "called"
    said = [line.removeprefix(f"{room}/path/") for line in called.read_text().splitlines()] if called.exists() else []
    return ran, said


def sums():
    for *how, last, status in ROWS:
        with tempfile.TemporaryDirectory(prefix="dw-gate-") as name:
            room = pathlib.Path(name)
            copy(room, *how)
            ran, called = call(room, "--slow")
            assert (ran.stdout.splitlines()[-1], ran.returncode) == (last, status), (how, ran)
            wanted = ["rt ci"] + ["python3 checks/all.py --slow"] * (how[0].endswith(" 0 failed") and how[1] == 0)
            assert called == wanted, (how, called)
    with tempfile.TemporaryDirectory(prefix="dw-gate-") as name:
        room = pathlib.Path(name)
        copy(room, *ROWS[0][:4])
        for words in (["--help"], ["--slow", "x"], ["docs"]):
            ran, called = call(room, *words)
            assert (ran.returncode, ran.stderr, called) == (2, "Usage: ./check [--slow]\n", []), (words, ran, called)
    print(f"{len(ROWS)} rows of what the gate and the checks may say: added up as stated")


def packages():
    with tempfile.TemporaryDirectory(prefix="dw-gate-") as name:
        room = pathlib.Path(name)
        copy(room, *ROWS[0][:4])
        (room / "installed").write_text("gcc\n")
        write_program(room / "path/id", "#!/bin/sh\necho 1000\n")
        write_program(room / "path/sudo", "#!/bin/sh\nexit 1\n")
        ran, called = call(room)
        assert ran.returncode == 1 and ran.stdout.splitlines()[-1] == "0 passed, 1 failed", ran
        assert "could not be installed: parallel\n" in ran.stdout and not called, (ran, called)
    with tempfile.TemporaryDirectory(prefix="dw-gate-") as name:
        room = pathlib.Path(name)
        copy(room, *ROWS[0][:4])
        (room / "installed").write_text("gcc\n")
        ran, called = call(room)
        assert (ran.stdout.splitlines()[-1], ran.returncode) == (ROWS[0][4], 0), ran
        asked = "install -y --no-install-recommends parallel, servers: 101"
        assert called == [asked, "update, servers: 101", asked, "rt ci", "python3 checks/all.py"], called
        assert not (room / "policy").exists(), "the file that keeps servers from being started is left"
    print("a package that is missing: installed behind an update, or named if it may not be")


def main():
    names = (TOP / "checks/packages.txt").read_text().splitlines()
    assert names == sorted(set(names)) and all(re.fullmatch(r"[a-z0-9][a-z0-9+.-]+", name) for name in names), names
    sums()
    packages()


if __name__ == "__main__":
    main()
