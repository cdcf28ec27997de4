#!/usr/bin/env python3
"""first_answer.py: asks a fresh clone for its first answer, without the toolchain and without a network.

    checks/first_answer.py [--times N]

The clone lies in a folder whose name has blanks. `./dw` answers the README's first command by the package, if node is
there, and leaves no file behind. Without node and toolchain it says in one line what is needed. How long the answers
take by the clock is printed, and not tested.
"""
import argparse
import os
import pathlib
import re
import statistics
import subprocess
import tempfile
import time

TOP = pathlib.Path(__file__).resolve().parent.parent
PROBLEM, WORDS = b"W:W27,32,38:B18\n", ["judge", "-n", "2"]
NODE = ("node", "nodejs")
NEEDED = re.compile(rb"dw: no node 18 or newer .* and no Rattle toolchain .*\n")


def tools(folder, left_out=()):
    """A folder with what a plain system has, but for some names. The toolchain is not among it."""
    folder.mkdir()
    for tool in pathlib.Path("/usr/bin").iterdir():
        if tool.name not in left_out:
            (folder / tool.name).symlink_to(tool)
    assert not (folder / "rt").exists(), "the toolchain stands in /usr/bin"
    return folder


def without_network():
    """The words before a command that take the network from it, where the system allows that."""
    words = ["unshare", "--net", "--map-root-user"]
    allowed = subprocess.run([*words, "true"], capture_output=True, check=False).returncode == 0
    return words if allowed else []


def ask(clone, path, before):
    """What `./dw` answers with only these tools, and after how many seconds."""
    begun = time.monotonic()
    ran = subprocess.run([*before, "./dw", *WORDS], cwd=clone, input=PROBLEM, capture_output=True, check=False,
                         env={"PATH": str(path), "HOME": str(clone.parent)})
    return ran, time.monotonic() - begun


def main():
    words = argparse.ArgumentParser()
    words.add_argument("--times", type=int, default=3)
    given = words.parse_args()
    before = without_network()
    with tempfile.TemporaryDirectory(prefix="dw first answer ") as name:
        folder = pathlib.Path(name)
        clone = folder / "a fresh clone"
        subprocess.run(["git", "clone", "--quiet", TOP, clone], check=True)
        took, all_tools = [], tools(folder / "tools")
        for _ in range(given.times):
            ran, seconds = ask(clone, all_tools, before)
            assert (ran.returncode, ran.stderr) == (0, b"") and ran.stdout.startswith(b"problem 1: "), ran
            took.append(seconds)
        left = subprocess.run(["git", "status", "--short", "--ignored"], cwd=clone, capture_output=True, check=True)
        assert not left.stdout, left.stdout
        ran, _ = ask(clone, tools(folder / "fewer tools", NODE), before)
        assert (ran.returncode, ran.stdout) == (3, b"") and NEEDED.fullmatch(ran.stderr), ran
    told = f"{statistics.median(took):.2f} s, at most {max(took):.2f} s, {given.times} times"
    network = " and network" if before else ""
    print(f"a fresh clone without toolchain{network}: answers after {told}; load {os.getloadavg()[0]:.1f}")


if __name__ == "__main__":
    main()
