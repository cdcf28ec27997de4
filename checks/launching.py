#!/usr/bin/env python3
"""launching.py: runs the launcher `./dw` in copies with a toolchain that only writes files: again, twice at once,
interrupted, and with a failing proof.

    checks/launching.py

A copy has the launcher, crates.txt and a source of each crate. Its `rt` names a kit whose prover writes a library of
two files, one after another, or a program that prints how often it was built. So nothing is proved, and a build takes
seconds. A file records each call of the prover.
"""
import contextlib
import os
import pathlib
import shutil
import signal
import stat
import subprocess
import tempfile
import time

TOP = pathlib.Path(__file__).resolve().parent.parent
PATIENCE = 60  # seconds that anything may take here
PROGRAMS = ("dw", "dw_desk")
SIGNALS = (signal.SIGINT, signal.SIGTERM, signal.SIGHUP, signal.SIGKILL)
# A prover's call: it waits, writes half of what is asked for, waits once more, and writes the rest. The file `fails`
# names a crate that is not proved, and `slow` one for which it takes long.
PROVER = """#!/bin/sh
kit=$(dirname "$(dirname "$0")")
while [ $# -gt 0 ]; do
    case $1 in
        --crate-name) crate=$2; shift ;;
        -o) made=$2; shift ;;
    esac
    shift
done
echo "$crate" >>"$kit/asked"
wait=0.05
[ "$(cat "$kit/slow" 2>/dev/null)" = "$crate" ] && wait=30
case $made in
    *.rlib) mkdir "$made" && echo half >"$made/half" ;;
    *) echo half >"$made" ;;
esac
[ $wait = 0.05 ] || touch "$kit/waits"
sleep $wait
[ "$(cat "$kit/fails" 2>/dev/null)" = "$crate" ] && echo "src/lib.rt:1:1: error: not so" && exit 1
case $made in
    *.rlib) echo whole >"$made/whole" ;;
    *) echo whole >"$made" ;;
esac
"""
LINKER = """#!/bin/sh
kit=$(dirname "$(dirname "$0")")
while [ "$1" != -o ]; do shift; done
[ "$(cat "$3")" = whole ] || exit 1
{ echo '#!/bin/sh'; echo "echo program $(wc -l <"$kit/asked") \\"\\$@\\""; } >"$2"
chmod +x "$2"
"""
RT = """#!/bin/sh
case $1 in
    doc) echo "{kit}/START-HERE.md" ;;
    version) cat "{kit}/version" ;;
    *) exit 2 ;;
esac
"""


def heed_signals():
    """Takes back that these signals are ignored, as they are in what nohup or a shell's `&` started."""
    for number in SIGNALS[:-1]:
        signal.signal(number, signal.SIG_DFL)


def write_program(path, text):
    path.parent.mkdir(parents=True, exist_ok=True)
    path.write_text(text)
    path.chmod(path.stat().st_mode | stat.S_IXUSR)


class Copy:
    """A copy of the repository's skeleton, with a kit of its own."""

    def __init__(self, room):
        self.top, self.kit = room / "copy", room / "kit"
        self.crates = [line.partition(":")[0].split()[0] for line in (TOP / "crates.txt").read_text().splitlines()]
        for crate in self.crates:
            source = self.top / "crates" / crate / "src" / ("main.rt" if crate in PROGRAMS else "lib.rt")
            source.parent.mkdir(parents=True)
            source.write_text("")
        shutil.copy2(TOP / "crates.txt", self.top)
        for name in ("dw", "dw-desk", "build", "board"):
            shutil.copy2(TOP / name, self.top, follow_symlinks=False)
        write_program(self.kit / "bin/rattle", PROVER)
        write_program(self.kit / "bin/rattle-link", LINKER)
        write_program(room / "path/rt", RT.format(kit=self.kit))
        (self.kit / "version").write_text("kit 1\n")
        # What a call that was killed leaves goes with the copy.
        (room / "temporary").mkdir()
        self.environment = os.environ | {"PATH": f"{room / 'path'}{os.pathsep}{os.environ['PATH']}",
                                         "TMPDIR": str(room / "temporary")}
        self.program = self.top / "crates/dw/out/dw"

    def start(self, *words, name="dw"):
        """A call of the launcher by one of its names, in a process group of its own."""
        return subprocess.Popen([self.top / name, *words], env=self.environment, stdin=subprocess.DEVNULL,
                                stdout=subprocess.PIPE, stderr=subprocess.PIPE, text=True, start_new_session=True,
                                preexec_fn=heed_signals)

    def call(self, *words, name="dw"):
        process = self.start(*words, name=name)
        out, complained = process.communicate(timeout=PATIENCE)
        return process.returncode, out, complained

    def asked(self):
        """What the prover was asked for since this was called last."""
        path = self.kit / "asked"
        said = path.read_text().split() if path.exists() else []
        path.unlink(missing_ok=True)
        return said

    def libraries(self):
        return sorted(path.name for path in self.top.glob("crates/*/out/statements/*"))

    def is_whole(self):
        """Whether each library that counts as made has both of its files."""
        made = self.top.glob("crates/*/out/statements/*.rlib")
        return all((path / "half").exists() and (path / "whole").exists() for path in made)


@contextlib.contextmanager
def copy():
    with tempfile.TemporaryDirectory(prefix="dw-launching-") as name:
        yield Copy(pathlib.Path(name))


def below(pid):
    """The processes that this one started, and those that they started."""
    parents = {}
    for path in pathlib.Path("/proc").glob("[0-9]*/stat"):
        with contextlib.suppress(OSError):
            parents.setdefault(int(path.read_text().rpartition(")")[2].split()[1]), []).append(int(path.parent.name))
    found = [pid]
    for process in found:
        found += parents.get(process, [])
    return found[1:]


def end(processes):
    """Ends processes by their numbers, if they still run."""
    for process in processes:
        with contextlib.suppress(ProcessLookupError):
            os.kill(process, signal.SIGKILL)


def processes_of(folder):
    """The processes whose arguments name something in this folder."""
    for path in pathlib.Path("/proc").glob("[0-9]*/cmdline"):
        with contextlib.suppress(OSError):
            if str(folder).encode() + b"/" in path.read_bytes():
                yield int(path.parent.name)


def end_all(folder):
    """Ends the processes of this folder, and those that they start meanwhile."""
    while found := list(processes_of(folder)):
        end(found)
        time.sleep(0.02)


def until(holds):
    last = time.monotonic() + PATIENCE
    while not holds():
        assert time.monotonic() < last, "it did not come to that"
        time.sleep(0.02)


def stands_on(crate):
    """A crate and all those of the repository that it stands on."""
    lines = (line.partition(":") for line in (TOP / "crates.txt").read_text().splitlines())
    named = {name.split()[0]: libraries.split() for name, _, libraries in lines}
    return {crate}.union(*(stands_on(name) for name in named[crate] if name in named))


ALL = len(stands_on("dw"))  # crates that make `dw`


def builds():
    """The first call builds, the next ones run; a new source or another kit builds again what stands on it."""
    with copy() as made:
        status, out, complained = made.call("judge", "-n", "2", "a b")
        asked = made.asked()
        assert (status, out) == (0, f"program {ALL} judge -n 2 a b\n"), (status, out, complained)
        assert len(asked) == ALL and asked[-1] == "dw", asked
        assert all(stands_on(crate) <= set(asked[:i]) for i, crate in enumerate(asked, 1)), asked
        assert "dw: built" in complained, complained
        assert made.libraries() == sorted(f"{crate}.rlib" for crate in asked[:-1]) and made.is_whole()
        assert made.call("x") == (0, f"program {ALL} x\n", "") and not made.asked()
        status, out, complained = made.call("find", name="dw-desk")
        more = sorted(stands_on("dw_desk") - stands_on("dw"))
        assert (status, out) == (0, f"program {len(more)} find\n"), (status, out, complained)
        assert "dw-desk: built" in complained and sorted(made.asked()) == more, "what dw stands on is proved again"
        later = time.time() + 1
        os.utime(made.top / "crates/dw_solve/src/lib.rt", (later, later))
        time.sleep(1.2)
        assert made.call()[0] == 0
        assert sorted(made.asked()) == sorted(name for name in stands_on("dw") if "dw_solve" in stands_on(name))
        os.utime(made.top / "crates/dw_bench/src/lib.rt")
        assert made.call()[2] == "" and not made.asked(), "a crate that the program does not stand on"
        # As after `rt ci`: the program alone, newer than all sources.
        for path in made.top.glob("crates/*/out/statements"):
            shutil.rmtree(path)
        assert made.call()[2] == "" and not made.asked(), "the program of the gate is not taken"
        (made.kit / "version").write_text("kit 2\n")
        os.utime(made.top / "crates/dw/src/main.rt")
        assert made.call()[0] == 0 and len(made.asked()) == ALL
    print("a first call, later ones, a newer source, the gate's program, another kit: as stated")


def fails():
    """A crate that is not proved ends the call with 3, and nothing of it counts as made."""
    with copy() as made:
        (made.kit / "fails").write_text("dw_list")
        status, out, complained = made.call()
        assert (status, out) == (3, "") and "dw_list could not be proved and built" in complained, (status, complained)
        assert "src/lib.rt:1:1: error: not so" in complained, complained
        assert "dw_list.rlib" not in made.libraries() and not made.program.exists() and made.is_whole()
        (made.kit / "fails").unlink()
        made.asked()
        assert made.call()[0] == 0
        assert stands_on("dw_list").intersection(made.asked()) == {"dw_list"}, "what was proved is proved again"
    with copy() as made:
        status, out, complained = made.call("nonsense", "dw", name="build")
        assert (status, out) == (3, "") and "nonsense could not be proved and built" in complained, (status, complained)
    with copy() as made:
        made.environment["PATH"] = "/usr/bin:/bin"
        status, out, complained = made.call()
        assert (status, out) == (3, "") and "rt is not on the PATH" in complained, (status, complained)
    print("a crate that is not proved, no toolchain: status 3, and nothing half made")


def interrupted(number):
    """A call that gets this signal leaves no half library, and the next one builds the rest."""
    with copy() as made:
        (made.kit / "slow").write_text("dw_moves")
        process = made.start()
        until((made.kit / "waits").exists)
        os.kill(process.pid, number)
        process.wait(timeout=PATIENCE)
        assert process.returncode != 0 and made.is_whole() and "dw_moves.rlib" not in made.libraries()
        # Of a call that was killed the provers go on beside the next one.
        (made.kit / "slow").unlink()
        (made.kit / "waits").unlink()
        assert made.call()[0] == 0 and made.is_whole()
        end_all(made.top.parent)
        asked = made.asked()
        assert asked.count("dw_moves") == 2 and asked.count("dw_board") == 1, asked
        os.utime(made.top / "crates/dw/src/main.rt")
        assert made.call()[0] == 0 and made.asked() == ["dw"] and made.is_whole()
        left = list(made.top.glob("crates/*/out/**/new.*"))
        assert not left, f"what was begun still lies there: {left}"
    print(f"a call ended by {signal.Signals(number).name}: no half library, and the next call builds the rest")


def unread():
    """A call ends if nobody reads any more what it says, and its provers with it."""
    with copy() as made:
        (made.kit / "slow").write_text("dw_memo")
        process = made.start()
        while "dw_memo: being proved" not in process.stderr.readline():
            pass
        until((made.kit / "waits").exists)
        process.stderr.close()
        assert process.wait(timeout=PATIENCE) == 3 and made.is_whole()
        until(lambda: not any(processes_of(made.kit)))
        assert not list((made.top.parent / "temporary").iterdir()), "its logs are left"
    print("a call whose messages are not read: ended, with its provers")


def at_once():
    """Of two calls one builds. The other says that it waits, and builds nothing."""
    with copy() as made:
        first = made.start("first")
        until((made.kit / "asked").exists)
        second = made.start("second")
        ends = [process.communicate(timeout=PATIENCE) for process in (first, second)]
        assert (first.returncode, second.returncode) == (0, 0), ends
        assert (ends[0][0], ends[1][0]) == (f"program {ALL} first\n", f"program {ALL} second\n"), ends
        assert ends[1][1] == "dw: another call builds the program; waiting for it\n", ends[1]
        assert len(made.asked()) == ALL
    with copy() as made:
        source = made.top / "crates/dw_tests/src"
        (source / "lib.rt").rename(source / "main.rt")
        named = ("dw_tests", "dw")
        assert made.call(*named, name="build")[:2] == (0, "")
        assert len(made.asked()) == len(stands_on("dw") | stands_on("dw_tests"))
        assert (source.parent / "out/dw_tests").exists() and made.program.exists()
        assert made.call(*named, name="build") == (0, "", "")
        assert made.call("-x", name="build") == (2, "", "build: usage: ./build [CRATE ..]\n")
    print("two programs that ./build is to make: built once, and none is run")
    with copy() as made:
        (made.kit / "slow").write_text("dw_board")
        first = made.start()
        until((made.kit / "waits").exists)
        second = made.start()
        line = second.stderr.readline()
        assert "waiting for it" in line, line
        (made.kit / "slow").unlink()
        os.kill(first.pid, signal.SIGTERM)
        first.communicate(timeout=PATIENCE)
        out, complained = second.communicate(timeout=PATIENCE)
        assert (first.returncode, second.returncode) == (3, 0) and out.startswith("program "), (out, complained)
    print("two calls at once: one builds and the other waits; if the first is ended, the other builds")


def without_build():
    """Where no native program stands, the package's one runs, if node and a module of the present sources are there."""
    with copy() as made:
        package, log = made.top / "package", made.top.parent / "node"
        for folder in (package / "bin", made.top / "web"):
            folder.mkdir(parents=True)
        for name in ("dw.wasm", "engine.js", "worker.js", "workers.js"):
            (package / name).write_text("")
        write_program(made.top.parent / "path/node", f"#!/bin/sh\n[ \"$1\" = --version ] && echo v18.2.0 && exit\n"
                      f"echo \"$@\" >>{log}; exit 7\n")
        sources = subprocess.run([made.top / "board", "--checksum"], capture_output=True, text=True, check=True).stdout
        (package / "dw.wasm.sources").write_text(f"sources {sources}version x\n")
        assert made.call("judge", "-n", "2") == (7, "", "") and not made.asked()
        assert made.call("find", name="dw-desk")[0] == 7
        assert log.read_text().splitlines() == [f"{package}/bin/dw.js judge -n 2", f"{package}/bin/dw-desk.js find"]
        source = made.top / "crates/dw_solve/src/lib.rt"
        source.write_text("// another source\n")
        assert made.call("x")[:2] == (0, f"program {ALL} x\n"), "a module of other sources is taken"
        source.write_text("")
        os.utime(source, (1, 1))
        assert made.call("y") == (0, f"program {ALL} y\n", ""), "a native program is not taken"
        write_program(made.top.parent / "path/node", "#!/bin/sh\necho v16.1.0\n")
        made.program.unlink()
        made.asked()
        assert made.call()[0] == 0 and made.asked() == ["dw"], "a node too old is taken"
    print("without a native program: the package's one in node, if it is current and node new enough")


def main():
    builds()
    without_build()
    fails()
    for number in SIGNALS:
        interrupted(number)
    unread()
    at_once()


if __name__ == "__main__":
    main()
