#!/usr/bin/env python3
"""board_making.py: calls `./board` where nothing is built, with a toolchain that only writes files, and reads what it
says: each step of a page that is made, and each reason for which none is.

    checks/board_making.py

A copy has the launcher, `board`, the page's sources and a source of each crate. Its kit's prover, clang and linker, and
its `wasm-opt`, write files without looking at what they are given. So no proof is made here. A step that fails ends the
call with 3 and one line that says why, and no page is left.
"""
import contextlib
import hashlib
import pathlib
import re
import shutil
import tempfile

import launching

TOP = pathlib.Path(__file__).resolve().parent.parent
# As the launcher's, and of a static library it hands the kit's clang a module, as the real one does.
PROVER = launching.PROVER.replace("        -o) made=$2; shift ;;\n",
                                  "        -o) made=$2; shift ;;\n        --toolchain) tools=$2; shift ;;\n") \
    + 'case $made in *.a) echo module >"$made.bc" && "$tools/bin/clang" "$made.bc" ;; esac\n'
MODULE = """source_filename = "dw_web"
target datalayout = "e-m:e"
target triple = "x86_64-unknown-linux-gnu"
attributes #0 = { "probe-stack"="inline-asm" "stack-probe-size"="4096" "target-cpu"="x86-64" }
"""
# A tool that writes something where it is told to, unless a file with its name in the kit says that it fails.
TOOL = """#!/bin/sh
case "$*" in
    *-emit-llvm*) step=lowers ;;
    *"-x ir web.ll"*) step=compiles ;;
    *) step={name} ;;
esac
[ ! -e "{kit}/$step" ] || exit 1
while [ $# -gt 0 ] && [ "$1" != -o ]; do shift; done
[ $# = 0 ] || {{ [ "$step" = lowers ] && cat "{kit}/module.ll" || echo made; }} >"$2"
"""


class Copy(launching.Copy):
    """A copy that can make a page."""

    def __init__(self, room):
        super().__init__(room)
        shutil.copytree(TOP / "web", self.top / "web")
        shutil.copytree(TOP / "package", self.top / "package")
        options = "crates/dw_arguments/src/options.rt"
        shutil.copy2(TOP / options, self.top / options)
        launching.write_program(self.kit / "bin/rattle", PROVER)
        for place, name in ((self.kit / "toolchain/bin", "clang"), (self.kit / "toolchain/bin", "ld.lld"),
                            (room / "path", "wasm-opt")):
            launching.write_program(place / name, TOOL.format(kit=self.kit, name=name))
        launching.write_program(self.kit / "toolchain/bin/llvm-ar", "#!/bin/sh\necho library >whole.a\n")
        (self.kit / "toolchain/lib").mkdir()
        (self.kit / "module.ll").write_text(MODULE)
        self.page = room / "page/board.html"

    def make(self):
        """What `./board` says, without the time and the crates that were on their way."""
        status, out, said = self.call(self.page, name="board")
        assert out == "", out
        return status, [re.sub(r" \(\d+:\d\d\)$", "", line) for line in said.splitlines()]


@contextlib.contextmanager
def copy():
    with tempfile.TemporaryDirectory(prefix="dw-board-") as name:
        yield Copy(pathlib.Path(name))


def makes():
    """Each step is said; a second call packs what is there, and a newer source makes the module again."""
    crates = launching.stands_on("dw_web")
    steps = ["board: writing the proved crate for WebAssembly", "board: linking", "board: packing"]
    with copy() as made:
        status, said = made.make()
        assert status == 0 and made.page.exists(), said
        assert said[0] == f"board: proving and building dw_web, {len(crates)} crates; the first time takes some minutes"
        proofs = said[1:said.index("board: built")]
        begun = {line for line in proofs if ": being proved" in line}
        assert begun == {f"board: {name}: being proved" for name in crates}, begun
        assert [line for line in proofs if ": proved, 0 left" in line] == ["board: dw_web: proved, 0 left"], proofs
        *last, written = said[said.index("board: built") + 1:]
        assert last == steps and re.fullmatch(rf"board: {re.escape(str(made.page))} \(\d+ kB\)", written), said
        assert sorted(made.asked()) == sorted(crates)
        text = made.page.read_text()
        assert re.search(r'<p id="version">dw \d+\.\d+\.\d+, kit 1, sources [0-9a-f]{16}</p>', text), text[-300:]
        status, said = made.make()
        assert (status, said) == (0, ["board: packing", written]) and made.page.read_text() == text, said
        status, _, said = made.call("--all", name="board")
        assert status == 0 and (made.top / "docs/board.html").read_text() == text, said
        module, notes = (made.top / "package" / name for name in ("dw.wasm", "dw.wasm.sources"))
        assert module.read_text() == "made\n", "the module of the package"
        sources = re.search(r"sources ([0-9a-f]{16})", text)[1]
        version, wanted = re.search(r"dw ([0-9.]+),", text)[1], hashlib.sha256(module.read_bytes()).hexdigest()
        assert notes.read_text().splitlines() == [f"sources {sources}", f"version {version}", "kit kit 1",
                                                  f"module sha256 {wanted}"], notes.read_text()
        (made.top / "web/heap.c").touch()
        status, said = made.make()
        assert (status, said) == (0, [*steps, written]) and made.page.read_text() == text, said
    print("a page is made where nothing is built, step by step; a second call packs what is there")


def fails():
    """What a step says that fails."""
    with copy() as made:
        (made.kit / "fails").write_text("dw_list")
        status, said = made.make()
        assert status == 3 and said[-1] == "board: dw_list could not be proved and built", said
        assert "src/lib.rt:1:1: error: not so" in said and not made.page.exists(), said
        (made.kit / "fails").unlink()
        for change, wanted in (
                ({"module.ll": MODULE.replace("x86_64", "aarch64")}, "the toolchain's module is not for x86-64"),
                ({"module.ll": MODULE + "call void @llvm.x86.sse2.pause()\n"},
                 "the toolchain's module has code for x86-64 alone"),
                ({"module.ll": MODULE, "compiles": ""}, "clang does not take the toolchain's module for WebAssembly"),
                ({"ld.lld": ""}, "the module calls what it does not have")):
            for name, content in change.items():
                (made.kit / name).write_text(content)
            status, said = made.make()
            assert status == 3 and said[-1] == f"board: {wanted}" and not made.page.exists(), said
            for name in change.keys() - {"module.ll"}:
                (made.kit / name).unlink()
        assert made.make()[0] == 0 and made.page.exists(), "what failed once is not made later"
    for missing, wanted in (("wasm-opt", "wasm-opt is not on the PATH; it is in Debian's package binaryen"),
                            ("rt", "the Rattle toolchain's command rt is not on the PATH")):
        with copy() as made:
            path = pathlib.Path(made.environment["PATH"].partition(":")[0])
            (path / missing).unlink()
            for name in ("bash", "dirname", "readlink", "realpath"):
                (path / name).symlink_to(shutil.which(name))
            made.environment["PATH"] = str(path)
            assert made.make() == (3, [f"board: {wanted}"]), made.make()
    print("a proof, a module, a compiler and a linker that fail, missing tools: each is named, and no page is left")


if __name__ == "__main__":
    makes()
    fails()
