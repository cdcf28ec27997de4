#!/usr/bin/env python3
"""package.py: runs the package under node as the native programs run, and calls it from JavaScript and TypeScript.

    checks/package.py [--module FILE]

The package is packed and installed in an empty folder, without a network, with the module of the present sources. Its
programs write the same bytes, messages and exit statuses as the native ones: on all commands, files, standard input, a
closed pipe, a full disk, a folder, a missing file. Each call answers the rows that the native programs write, calls run
side by side, a call is ended, memory is refused, a module is damaged or missing. The types fit an example.
"""
import argparse
import functools
import hashlib
import http.server
import json
import os
import pathlib
import random
import re
import shlex
import shutil
import subprocess
import tempfile
import threading

import browsers
from web import COMMANDS, GAMES, PROBLEMS, WORDS

TOP = pathlib.Path(__file__).resolve().parent.parent
PACKAGE = TOP / "package"
NOTE = b"""
This is the program as WebAssembly. It writes its output when it is done, not line by line. Its progress
line shows the time alone. Its input has at most 1 GB.
"""
LARGEST, MOST_INPUT = 1_500_000, 1_000_000_000  # bytes of the package, and of an input
ROW = re.compile(r"^\| `([^`]+)` \| `(dw(?:-desk)? [^`]+)` \|$", re.MULTILINE)
SEED, RANDOM = 5, 60
# A module in whose place the real one stands: it traps if the arguments have 12 bytes, and else writes nothing.
TRAPPING = """(module
  (memory (export "memory") 40)
  (global $top (mut i64) (i64.const 0))
  (func (export "web_begin") (param i64 i64) (global.set $top (i64.const 64)))
  (func (export "web_alloc") (param i64) (result i64)
    (global.set $top (i64.add (global.get $top) (local.get 0)))
    (i64.sub (global.get $top) (local.get 0)))
  (func (export "web_used") (result i64) (global.get $top))
  (func (export "dw_web_run") (param i64 i64 i64 i64 i64 i64 i64 i64 i64)
    (if (i64.eq (local.get 1) (i64.const 12)) (then (unreachable)))))
"""
TRAPS = """
import { Desk } from 'dw-draughts';

const desk = await Desk.open({ workers: 1 });
console.log(await desk.run(['dw', '123456789']).catch((error) => `${error.status} ${error.message}`));
console.log((await desk.run(['dw'])).status);
desk.close();
"""
EXAMPLE = """
import { Desk, DeskError, type Judged } from 'dw-draughts';

const desk = await Desk.open({ workers: 2 });
const rows = await desk.find(['W:W27,32:B18', 'W:W3:B20'], { most: 8 });
const [first, second] = rows;
if ('verdict' in first && first.verdict !== 'undecided') {
    const judged: Judged = first;
    console.log(judged.keys.join(), 'refused' in second);
}
try {
    await desk.judge('W:W27,32:B18', { n: 99 });
} catch (error) {
    if (error instanceof DeskError) console.log(error.status);
}
for await (const line of desk.list('W:W27,32:B18', { n: 2 })) console.log(line);
desk.close();
"""
CALLS = """
import { Desk, DeskError } from 'dw-draughts';

const desk = await Desk.open({ workers: 3 }), fen = 'W:W27,32:B18', hard = HARD;
const say = (value) => console.log(JSON.stringify(value));
say(await desk.find(fen));
say(await desk.find([fen, 'W:W3:B20'], { most: 1 }));
say(await desk.judge(fen, { n: 3 }));
say(await desk.moves(fen, { n: 2 }));
say(await desk.check(`[FEN "${fen}"] 1. 32-28 18-22 2. 27x18 2-0`));
say(await desk.solution(new TextEncoder().encode(`${fen}\\n`), { n: 2 }));
say((await desk.mend(fen, { n: 2 })).at(-1));
say(await desk.same([fen, 'B:W33:B19,24', fen]));
say(await desk.show('W:W22:B18', { board: 8 }));
say(await desk.legal('W:W32:B28'));
const lines = [];
for await (const line of desk.list(fen, { n: 2 })) lines.push(line);
say(lines);
say((await desk.certify(fen, { n: 2 })).split('\\n')[3]);
say((await desk.page(fen, { most: 3 })).startsWith('<!DOCTYPE html>'));
const many = Array.from({ length: 12 }, (_, i) => desk.judge(fen, { n: 2 + (i % 3) }));
say((await Promise.all(many)).map(([row]) => row.n));
const ends = new AbortController(), long = desk.judge(hard, { n: 20, signal: ends.signal });
setTimeout(() => ends.abort(), 200);
say(await long.catch((error) => error.name));
say(await desk.judge(hard, { n: 20, signal: AbortSignal.abort() }).catch((error) => error.name));
say(await desk.find(fen, { most: 0 }).catch((error) => [error instanceof DeskError, error.status]));
say((await desk.find(fen))[0].n);
const small = await Desk.open({ workers: 1, memory: 3_000_000 });
say(await small.find(hard, { most: 20 }).catch((error) => [error.status, error.message]));
say(await small.show(fen));
say(await small.show(Array(40_000).fill(fen)).catch((error) => [error.status, error.message]));
small.close();
desk.close();
"""
PAGE = """<!DOCTYPE html>
<meta charset="utf-8">
<meta http-equiv="Content-Security-Policy" content="default-src 'none'; script-src 'self' 'wasm-unsafe-eval';
  worker-src 'self'; connect-src 'self'; img-src data:">
<link rel="icon" href="data:,">
<script type="module" src="page.js"></script>
"""
PAGE_SCRIPT = """
import { Desk } from './node_modules/dw-draughts/index.js';
const desk = await Desk.open({ workers: 1 }), [row] = await desk.find('W:W27,32:B18', { most: 8 });
document.title = `${row.verdict} in ${row.n}: ${row.keys}`;
desk.close();
"""
HARD = "W:W26,28,32,33,34,37,38,39,40,43,48:B8,9,12,13,14,16,18,19,20,24,25"


def native(words, text, **more):
    ran = subprocess.run([TOP / words[0], *words[1:]], input=text, capture_output=True, check=False, **more)
    return ran.returncode, ran.stdout, ran.stderr


def sign(folder):
    """Writes the checksum of the module that lies in a folder beside it."""
    sum_of = hashlib.sha256((folder / "dw.wasm").read_bytes()).hexdigest()
    (folder / "dw.wasm.sources").write_text(f"sources x\nmodule sha256 {sum_of}\n")


class Installed:
    """The package in a folder of its own."""

    def __init__(self, folder, module):
        packed = folder / "packed"
        shutil.copytree(PACKAGE, packed, ignore=shutil.ignore_patterns("test"))
        shutil.copy2(module, packed / "dw.wasm")
        sign(packed)
        self.home = folder / "with a blank"
        self.place = self.home / "node_modules" / "dw-draughts"
        self.home.mkdir()
        if shutil.which("npm"):
            npm = functools.partial(subprocess.run, check=True, stdout=subprocess.DEVNULL,
                                    env=os.environ | {"HOME": str(folder)})
            npm(["npm", "pack", "--offline", "--silent", packed], cwd=folder)
            (self.home / "package.json").write_text("{}")
            npm(["npm", "install", "--offline", "--no-audit", "--no-fund", next(folder.glob("dw-draughts-*.tgz"))],
                cwd=self.home)
        else:
            shutil.copytree(packed, self.place)

    def run(self, words, text, **more):
        program = self.place / "bin" / f"{words[0]}.js"
        ran = subprocess.run(["node", program, *words[1:]], input=text, capture_output=True, check=False, **more)
        return ran.returncode, ran.stdout, ran.stderr

    def script(self, text, name="script.mjs"):
        file = self.home / name
        file.write_text(text)
        ran = subprocess.run(["node", file], capture_output=True, text=True, check=False, cwd=self.home)
        assert ran.returncode == 0 and not ran.stderr, ran.stderr
        return ran.stdout


def check_size(made):
    files = [path for path in made.place.rglob("*") if path.is_file()]
    size = sum(path.stat().st_size for path in files)
    assert size <= LARGEST, size
    print(f"the package: {len(files)} files, {size / 1e6:.2f} MB")


def check_programs(made):
    """All commands, and random words, as the native programs."""
    source, count = random.Random(SEED), 0
    asked = [(line.split(" "), (GAMES if is_pdn else PROBLEMS).encode("latin-1")) for line, is_pdn in COMMANDS]
    for _ in range(RANDOM):
        words = [source.choice(("dw", "dw-desk")), *source.choices(WORDS, k=source.randint(0, 5))]
        asked.append((words, PROBLEMS.encode()[:source.randint(0, 80)]))
    for words, text in asked:
        status, out, message = native(words, text)
        if status == 0 and any(word in words for word in ("--help", "-h", "help")):
            out += NOTE
        said = made.run(words, text)
        assert said == (status, out, message), (words, said, (status, out, message))
        count += 1
    print(f"{count} calls of the programs: report, message and status of the native ones")


def check_examples(made):
    """The answers in examples/, by their commands."""
    rows = ROW.findall((TOP / "examples/README.md").read_text())
    for answer, command in rows:
        program, *words = shlex.split(command)
        status, out, message = made.run([program, *words], b"", cwd=TOP / "examples")
        assert (out, message) == ((TOP / "examples" / answer).read_bytes(), b"") and status <= 1, (command, message)
    assert len(rows) > 10, rows
    print(f"{len(rows)} answers in examples/")


def check_streams(made, folder):
    """Files, folders, a missing file, a pipe that closes, a disk that is full."""
    file = folder / "some problems.fen"
    file.write_text(PROBLEMS)
    for words in (["dw", "judge", "-n", "2", file], ["dw-desk", "find", file], ["dw", "show", folder],
                  ["dw", "show", folder / "nothing"], ["dw", "list", "-n", "2", "--after", "zz", folder / "nothing"],
                  ["dw-desk", "find", "--", file]):
        words = [str(word) for word in words]
        assert made.run(words, b"") == native(words, b""), words
    many = folder / "many.fen"
    many.write_text("W:W31-50:B1-20\n" * 20_000)
    for program in ([TOP / "dw"], ["node", made.place / "bin" / "dw.js"]):
        with subprocess.Popen([*program, "show", many], stdout=subprocess.PIPE, stderr=subprocess.PIPE) as process:
            process.stdout.readline()
            process.stdout.close()
            said = process.stderr.read()
        assert (process.returncode, said) == (3, b"dw: write failed\n"), (program, process.returncode, said)
        with open("/dev/full", "wb") as full:
            ran = subprocess.run([*program, "show", many], stdout=full, stderr=subprocess.PIPE, check=False)
        assert (ran.returncode, ran.stderr) == (3, b"dw: write failed\n"), (program, ran)
    words = ["dw", "show", str(many)]
    assert made.run(words, b"") == native(words, b""), "several megabytes"
    with many.open("wb") as file:
        file.truncate(MOST_INPUT + 1)
    told = (3, b"", f"dw: the input has more than {MOST_INPUT} bytes\n".encode())
    assert made.run(["dw", "show", many], b"") == told
    with many.open("rb") as file:
        ran = subprocess.run(["node", made.place / "bin/dw.js", "show"], stdin=file, capture_output=True, check=False)
    assert (ran.returncode, ran.stdout, ran.stderr) == told, ran
    print("files, folders, a missing file, a closed pipe, a full disk, several megabytes: as the native programs; "
          "more than 1 GB: told")


def check_calls(made):
    """Each call, beside the rows of the native programs."""
    said = [json.loads(line) for line in made.script(CALLS.replace("HARD", json.dumps(HARD))).splitlines()]

    def rows(*words, text="W:W27,32:B18\n"):
        return [json.loads(line) for line in native(words, text.encode())[1].splitlines()]
    game = '[FEN "W:W27,32:B18"] 1. 32-28 18-22 2. 27x18 2-0'
    listed = native(["dw", "list", "-n", "2"], b"W:W27,32:B18\n")[1].decode().splitlines()[1:-1]
    wanted = [
        rows("dw-desk", "find", "--json"),
        rows("dw-desk", "find", "--json", "--most", "1", text="W:W27,32:B18\nW:W3:B20\n"),
        rows("dw-desk", "find", "--json", "-n", "3"), rows("dw-desk", "moves", "--json", "-n", "2")[0],
        rows("dw-desk", "check", "--json", text=game), rows("dw-desk", "solution", "--json", "-n", "2"),
        rows("dw-desk", "mend", "--json", "-n", "2")[-1],
        rows("dw-desk", "same", "--json", text="W:W27,32:B18\nB:W33:B19,24\nW:W27,32:B18\n"),
        rows("dw", "show", "--json", "--board", "8", text="W:W22:B18\n"),
        rows("dw", "moves", "--json", text="W:W32:B28\n"), listed, "win in 2", True, [2, 3, 4] * 4, "AbortError",
        "AbortError", [True, 2], 2,
    ]
    assert said[:len(wanted)] == wanted, [pair for pair in zip(said, wanted) if pair[0] != pair[1]][:1]
    refused, shown, large = said[len(wanted):]
    assert refused[0] == 3 and "memory" in refused[1] and shown == [{"problem": 1, "fen": "W:W27,32:B18"}], refused
    assert large == [3, "the report is too large: open with more memory"], large
    print(f"{len(said)} calls from JavaScript, side by side, ended, without memory")


def check_readme(made):
    """The example of the package's own text, in node."""
    text = (made.place / "README.md").read_text()
    script = re.search(r"^    (import .*\n(?:    .*\n)+)", text, re.MULTILINE)[1].replace("\n    ", "\n")
    lines = made.script(script).splitlines()
    listed = native(["dw", "list", "-n", "2"], b"W:W27,32:B18\n")[1].decode().splitlines()[1:-1]
    assert lines == [re.search(r"// (.*)", script)[1], *listed], lines
    print(f"the example of its README: {len(lines)} lines")


def check_types(made):
    """An example in TypeScript."""
    (made.home / "example.mts").write_text(EXAMPLE)
    subprocess.run(["tsc", "--strict", "--target", "es2022", "--module", "nodenext", "--lib", "es2022,dom",
                    "example.mts"], cwd=made.home, check=True)
    ran = subprocess.run(["node", "example.mjs"], cwd=made.home, capture_output=True, text=True, check=True)
    assert ran.stdout.splitlines()[:2] == ["32-28 true", "2"] and len(ran.stdout.splitlines()) == 5, ran.stdout
    print("an example in TypeScript")


def check_page(made):
    """An example in a page that Chromium opens from a server on this machine."""
    (made.home / "page.html").write_text(PAGE)
    (made.home / "page.js").write_text(PAGE_SCRIPT)
    handler = functools.partial(http.server.SimpleHTTPRequestHandler, directory=made.home)
    http.server.SimpleHTTPRequestHandler.log_message = lambda *_: None
    with http.server.ThreadingHTTPServer(("127.0.0.1", 0), handler) as server:
        threading.Thread(target=server.serve_forever, daemon=True).start()
        with browsers.Chromium() as browser:
            browser.goto(f"http://127.0.0.1:{server.server_port}/page.html")
            browser.wait("document.title !== ''", 30)
            assert browser.run("document.title") == "dual in 2: 32-28", browser.run("document.title")
            assert not browser.errors, browser.errors
        server.shutdown()
    print("an example in a page, from a server, under its policy")


def check_damage(made):
    """A module that is damaged or missing is told, and does not run."""
    module = made.place / "dw.wasm"
    bytes_of = module.read_bytes()
    module.write_bytes(bytes_of[:-1] + b"x")
    status, out, message = made.run(["dw", "show"], b"W:W27:B18\n")
    assert (status, out) == (3, b"") and b"dw.wasm is damaged" in message, message
    module.unlink()
    status, out, message = made.run(["dw", "show"], b"W:W27:B18\n")
    assert (status, out) == (3, b""), (status, out)
    assert message.startswith(b"dw: the module failed: ") and b"dw.wasm" in message, message
    print("a module that is damaged or missing: told, with status 3")


def check_old_node(made):
    """A node that is too old is told."""
    old = "Object.defineProperty(process, 'versions', { value: { ...process.versions, node: '16.20.0' } });"
    for program in ("dw", "dw-desk"):
        place = (made.place / "bin" / f"{program}.js").as_uri()
        ran = subprocess.run(["node", "-e", f"{old} import({json.dumps(place)})"], capture_output=True, check=False)
        told = f"{program}: node 18 or newer is needed; this is node 16.20.0\n"
        assert (ran.returncode, ran.stdout, ran.stderr) == (3, b"", told.encode()), ran
    print("a node too old: told, with status 3")


def check_trap(made):
    """A module that traps is told, and the next call works."""
    text = made.home / "trapping.wat"
    text.write_text(TRAPPING)
    subprocess.run(["wasm-as", text, "-o", made.place / "dw.wasm"], check=True)
    sign(made.place)
    said = made.script(TRAPS).splitlines()
    assert said == ["3 the module failed: RuntimeError: unreachable", "0"], said
    status, out, message = made.run(["dw", "123456789"], b"")
    assert (status, out, message) == (3, b"", b"dw: the module failed: RuntimeError: unreachable\n"), message
    print("a trap in the module: told, with status 3, and the next call works")


def main():
    words = argparse.ArgumentParser()
    words.add_argument("--module", type=pathlib.Path, default=TOP / "crates/dw_web/out/dw_web.wasm")
    given = words.parse_args()
    with tempfile.TemporaryDirectory(prefix="dw-package-") as name:
        folder = pathlib.Path(name)
        made = Installed(folder, given.module)
        check_size(made)
        check_programs(made)
        check_examples(made)
        check_streams(made, folder)
        check_calls(made)
        check_readme(made)
        check_types(made)
        check_page(made)
        check_old_node(made)
        check_damage(made)
        check_trap(made)


if __name__ == "__main__":
    main()
