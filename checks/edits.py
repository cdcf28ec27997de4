#!/usr/bin/env python3
"""edits.py: tries edits that plant a bug. The prover must refuse each.

    checks/edits.py [--all] [--jobs N] [CRATE | CRATE/EDIT ..]

The edits are files checks/edits/CRATE/EDIT.edit. A line `file:` names a file of the crate, and in each pair of lines
the text after `old:`, which must stand there once, is replaced by that after `new:`. Each edit is put into a copy of
its crate, and the prover checks the functions that it changes, over the libraries that are built. That takes 15 to
60 s. An edit is refused if the prover says that such a function is not proved. An edit that does not compile counts as
not refused, and so does one that the prover gives up.

Without names this tries the edits that GATE names, with --all every edit, else those of the named crates.
"""
import argparse
import concurrent.futures
import dataclasses
import os
import pathlib
import re
import shutil
import subprocess
import sys
import tempfile
import time

TOP = pathlib.Path(__file__).resolve().parent.parent
EDITS = TOP / "checks" / "edits"
GATE = EDITS / "gate"
MEMORY_EACH = 2_500_000  # kB
FUNCTION = re.compile(r"(\s*)(?:pub(?:\([a-z ]+\))? )?(?:const )?(?:unsafe )?(?:extern \"C\" )?fn (\w+)")
HEADER = re.compile(r"(?:impl|(?:pub(?:\([a-z ]+\))? )?trait)\b")
# What a proof says that names something that the edit took away: then no clause was tried.
LOST_NAME = re.compile(r"(?:\./)?proofs/\S+: error.*(?:has no field|is not in scope|has no `|was not admitted)")
ERROR = re.compile(r"\S+:\d+:\d+: error")


def copy_tracked(room):
    listed = subprocess.run(["git", "ls-files", "-z"], cwd=TOP, stdout=subprocess.PIPE, text=True, check=True).stdout
    for name in filter(None, listed.split("\0")):
        if (TOP / name).is_file():
            (room / name).parent.mkdir(parents=True, exist_ok=True)
            shutil.copy2(TOP / name, room / name)


@dataclasses.dataclass
class Edit:
    path: pathlib.Path
    # The file of the crate, and the texts to be replaced with the new ones.
    file: str
    pairs: list

    @classmethod
    def read(cls, path):
        lines = path.read_text(encoding="utf-8").splitlines()
        told = {word: [line[len(word):] for line in lines if line.startswith(word)] for word in ("file: ", "old: ")}
        new = [line.removeprefix("new:").removeprefix(" ") for line in lines if line.startswith("new:")]
        if len(told["file: "]) != 1 or len(told["old: "]) != len(new) or not new:
            raise ValueError(f"{path}: it has no line `file:`, or a line `old:` without `new:`")
        return cls(path, told["file: "][0], list(zip(told["old: "], new)))

    @property
    def crate(self):
        return self.path.parent.name

    @property
    def name(self):
        return f"{self.crate}/{self.path.stem}"

    def apply(self, text):
        """The text with the edit, and the places in it that changed."""
        places = []
        for old, new in self.pairs:
            if text.count(old) != 1:
                raise ValueError(f"{self.name}: `{old.strip()}` is in {self.file} {text.count(old)} times")
            places.append(text.index(old))
            text = text.replace(old, new)
        return text, places


def with_edit(path, folder):
    """The file that an edit changes in a copy of its crate, and its text with the edit."""
    edit = Edit.read(path)
    file = folder / edit.file
    return file, edit.apply(file.read_text(encoding="utf-8"))[0]


def function_at(text, place, module):
    """The name that the prover gives to the function at a place of a file; the module, if there is none."""
    above = text[: text.find("\n", place) + 1].splitlines()
    for number in reversed(range(len(above))):
        found = FUNCTION.match(above[number])
        if found:
            owner = owner_of(above[:number]) if found[1] else ""
            return "::".join(filter(None, [module, owner, found[2]]))
    return module


def owner_of(above):
    """The type and the trait of the `impl` block that these lines end in, as the prover joins them."""
    header = next((line for line in reversed(above) if HEADER.match(line)), "")
    header = re.sub(r"^(?:impl|(?:pub(?:\([a-z ]+\))? )?trait)\b", "", header)
    while "<" in header:
        header = re.sub(r"<[^<>]*>", "", header.replace("->", "  "))
    trait, _, kind = header.split("{")[0].split(" where ")[0].strip().rpartition(" for ")
    last = [name.strip().split(":")[0] if "::" not in name else name.rsplit("::", 1)[1] for name in (kind, trait)]
    return "".join(last)


def module_of(file):
    parts = pathlib.PurePath(file).with_suffix("").parts[1:]
    return "::".join(() if parts[-1] in ("lib", "main") else parts)


def libraries():
    """The libraries that each crate names in crates.txt."""
    lines = (line.split(":") for line in (TOP / "crates.txt").read_text().splitlines() if ":" in line)
    return {name.split()[0]: used.split() for name, used in lines}


def crates_below(crate):
    """The crates of the repository that a crate stands on."""
    named, found = libraries(), set()
    left = list(named[crate])
    while left:
        name = left.pop()
        if name in named and name not in found:
            found.add(name)
            left += named[name]
    return sorted(found)


def call_of(crate, kit):
    """The prover's call for a crate, with the libraries that the crate stands on."""
    below = crates_below(crate)
    call = [f"{kit}/bin/rattle", "check", "--crate-name", crate, "--jobs", "1",
            "--antt-project", f"{kit}/rattle/logic/antt-project.json", "--logic-built", f"{kit}/logic_built",
            "-L", f"dependency={kit}/rlibs"]
    if f"{crate} staticlib:" in (TOP / "crates.txt").read_text():
        call += ["--crate-type", "staticlib"]
    for name in ["std", *libraries()[crate]]:
        ours = TOP / f"crates/{name}/out/statements/{name}.rlib"
        call += ["--extern", f"{name}={ours if name in below else f'{kit}/rlibs/{name}.rlib'}"]
    for name in below:
        call += ["-L", f"dependency={TOP}/crates/{name}/out/statements"]
    return call


def build(crates):
    """Builds the libraries that these crates stand on, if they are not built."""
    below = sorted({name for crate in crates for name in crates_below(crate)})
    subprocess.run([TOP / "build", *below], check=True)


def checked(edit, call, only):
    """What the prover says of functions in a copy of the crate with the edit."""
    with tempfile.TemporaryDirectory(prefix="dw-edit-") as name:
        room = pathlib.Path(name)
        for part in ("src", "specs", "proofs"):
            if (TOP / "crates" / edit.crate / part).is_dir():
                shutil.copytree(TOP / "crates" / edit.crate / part, room / part)
        file, text = with_edit(edit.path, room)
        file.write_text(text, encoding="utf-8")
        top = "src/main.rt" if (room / "src/main.rt").is_file() else "src/lib.rt"
        words = [word for path in only for word in ("--only", path)]
        return subprocess.run([*call, *words, top], cwd=room, stdin=subprocess.DEVNULL, stdout=subprocess.PIPE,
                              stderr=subprocess.STDOUT, text=True, errors="replace", check=False)


def result(edit, kit):
    """Whether the edit is refused, and what to say of it."""
    text, places = edit.apply((TOP / "crates" / edit.crate / edit.file).read_text(encoding="utf-8"))
    module, call, started = module_of(edit.file), call_of(edit.crate, kit), time.monotonic()
    only = sorted({function_at(text, place, module) for place in places} - {""})
    ran = checked(edit, call, only)
    if ran.returncode == 2 and only != [module]:
        only = [module] if module else []
        ran = checked(edit, call, only)
    lines = ran.stdout.splitlines()
    refused = [line for line in lines if re.match(rf"fn {edit.crate}::.*: (?:not proved|no proof)\b", line)]
    errors = [line for line in lines if ERROR.match(line)]
    at = f"{edit.name} ({', '.join(only)}), {time.monotonic() - started:.0f} s"
    if ran.returncode == 1 and refused and not (errors and all(map(LOST_NAME.match, errors))):
        return True, f"{at}: refused"
    if ran.returncode == 0:
        return False, f"{at}: NOT REFUSED"
    why = errors[0] if errors else lines[-1] if lines else "nothing was said"
    return False, f"{at}: NOT TRIED, status {ran.returncode}: {why[:300]}"


def side_by_side():
    free = int(re.search(r"MemAvailable:\s+(\d+)", pathlib.Path("/proc/meminfo").read_text()).group(1))
    return max(1, min(len(os.sched_getaffinity(0)), free // MEMORY_EACH))


def chosen(given):
    known = {f"{path.parent.name}/{path.stem}": path for path in sorted(EDITS.glob("*/*.edit"))}
    names = known if given.all else given.names or GATE.read_text().split()
    found = {name: path for name, path in known.items() if name in names or name.split("/")[0] in names}
    unknown = [name for name in names if name not in found and not any(one.startswith(f"{name}/") for one in found)]
    if unknown:
        sys.exit(f"edits.py: there is no edit and no crate with edits {', '.join(unknown)}")
    return [Edit.read(path) for path in found.values()]


def main():
    words = argparse.ArgumentParser(description="Tries edits that plant a bug.")
    words.add_argument("--all", action="store_true", help="every edit")
    words.add_argument("--jobs", type=int, default=side_by_side(), help="how many are tried side by side")
    words.add_argument("names", nargs="*", metavar="CRATE | CRATE/EDIT", help="just these")
    given = words.parse_args()
    edits = chosen(given)
    kit = pathlib.Path(subprocess.check_output(["rt", "doc"], text=True).strip()).parent
    build({edit.crate for edit in edits})
    failed = 0
    with concurrent.futures.ThreadPoolExecutor(max(given.jobs, 1)) as pool:
        for is_refused, told in pool.map(lambda edit: result(edit, kit), edits):
            failed += not is_refused
            print(told, flush=True)
    print(f"{len(edits) - failed} of {len(edits)} edits refused")
    return 1 if failed else 0


if __name__ == "__main__":
    sys.exit(main())
