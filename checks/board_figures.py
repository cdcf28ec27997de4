#!/usr/bin/env python3
"""board_figures.py: measures board.html in Chromium and Firefox, and the programs in it beside the native ones.

    checks/board_figures.py [--page FILE] [--problems FOLDER] [--native FILE]

It says how large the page is, how soon it is usable, how long a file of 1,000 problems takes and which pause of the
page is the longest, then and during a search. For each set of problems NAME.fen in the folder, whose number of moves
stands in NAME.n, it says how long `dw judge` takes in a worker of the page, and natively, one after the other. The
figures mean something on a machine that does nothing else; the load before and after is said.
"""
import argparse
import json
import os
import pathlib
import random
import resource
import statistics
import subprocess
import tempfile
import time

from board_page import browsers_asked, call, made_page, open_page
from draughts import Board, fen
from wins import drawn

TRIES, MANY, SEARCHED = 5, 1000, 5  # times that each is done, problems of a file, seconds of a search
LONG = "W:W26,28,32,33,34,37,38,39,40,43,48:B8,9,12,13,14,16,18,19,20,24,25"
# A worker with the module, as the page makes it, that is asked once.
WORKER = """(async () => {
    const text = (id) => document.getElementById(id).textContent;
    const packed = Uint8Array.from(atob(text('module')), (letter) => letter.charCodeAt(0));
    const stream = new Blob([packed]).stream().pipeThrough(new DecompressionStream('deflate'));
    const module = await WebAssembly.compile(await new Response(stream).arrayBuffer());
    const worker = new Worker(URL.createObjectURL(new Blob([text('worker')], { type: 'text/javascript' })));
    worker.postMessage({ module });
    const ask = (words, input) => new Promise((resolve) => {
        worker.onmessage = ({ data }) => resolve(data.answer);
        worker.postMessage({ number: 1, words, input });
    });
    await ask(['dw', 'show'], 'W:W32:B28\\n');
    const begun = performance.now();
    const { status, report, message } = await ask(WORDS, INPUT);
    const took = (performance.now() - begun) / 1000;
    worker.terminate();
    return [took, status, new TextDecoder().decode(report), message];
})()"""


def load():
    return f"load {os.getloadavg()[0]:.1f} on {os.cpu_count()} processors"


def usable(browser, page):
    took = []
    for _ in range(TRIES):
        browser.goto("about:blank")
        browser.goto(page.as_uri())
        took.append(browser.run("""new Promise((resolve) => {
            const look = () => (document.documentElement?.dataset.ready ? resolve(performance.now())
                : setTimeout(look, 1));
            look();
        })""") / 1000)
    print(f"{browser.name}: usable after {statistics.median(took):.2f} s, at most {max(took):.2f} s")


def tasks(browser, page, folder):
    """The longest tasks of the page's own thread, in the processor's time: other work on the machine adds little."""
    many = folder / "many.fen"

    def start():
        browser.goto("about:blank")
        open_page(browser, page)

    def listing():
        browser.upload("#file", many)
        browser.wait(f"t.at('#list').dataset.count === '{MANY}' && t.at('#list').dataset.state === 'done'", 60)

    def search():
        browser.run(call("read", LONG))
        browser.run("t.at('#tab-solve').click(); t.set('#most', '20'); t.at('#solve').click()")
        time.sleep(SEARCHED)
        browser.run("t.at('#stop').click()")
    took = {}
    for act in (start, listing, search):
        each = []
        for _ in range(TRIES):
            each.append(browser.longest_task(act))
            browser.run("t.empty()")
        took[act.__name__] = f"{statistics.median(each):.0f} ({min(each):.0f} to {max(each):.0f})"
    print(f"{browser.name}: the longest task of the page's thread, in milliseconds of the processor, median and range "
          f"of {TRIES}: {took}")


def pauses(browser, page, folder):
    open_page(browser, page)
    browser.run("t.empty()")
    source, board = random.Random(3), Board(10)
    many = folder / "many.fen"
    many.write_text("".join(f"{fen(drawn(source, board), 'W')}\n" for _ in range(MANY)))
    browser.run("t.listen()")
    begun = time.monotonic()
    browser.upload("#file", many)
    browser.wait(f"t.at('#list').dataset.count === '{MANY}' && t.at('#list').dataset.state === 'done'", 60)
    took, longest = time.monotonic() - begun, browser.run("t.heard()")
    browser.run("t.empty()")
    browser.run(call("read", LONG))
    browser.run("t.listen(); t.at('#tab-solve').click(); t.set('#most', '20'); t.at('#solve').click()")
    time.sleep(SEARCHED)
    searching = browser.run("t.heard()")
    browser.run("t.at('#stop').click()")
    print(f"{browser.name}: {MANY:,} problems listed in {took:.2f} s, longest pause {longest:.0f} ms; during a search "
          f"of {SEARCHED} s {searching:.0f} ms")


def native_time(program, words, text):
    """The user's time that a program takes, and what it writes."""
    before = resource.getrusage(resource.RUSAGE_CHILDREN).ru_utime
    ran = subprocess.run([program, *words], input=text, capture_output=True, text=True, check=False)
    return resource.getrusage(resource.RUSAGE_CHILDREN).ru_utime - before, ran.stdout


def judged(browser, page, problems, native):
    open_page(browser, page)
    for file in sorted(problems.glob("*.fen")):
        if file.with_suffix(".args").exists() or file.name.startswith("large"):
            continue
        words, text = ["judge", "-n", file.with_suffix(".n").read_text().strip()], file.read_text()
        script = WORKER.replace("WORDS", json.dumps(["dw", *words])).replace("INPUT", json.dumps(text))
        took, status, report, message = browser.run(script)
        assert status <= 1 and not message, (file, status, message)
        beside = ""
        if native:
            alone, wanted = native_time(native, words, text)
            assert report == wanted, file
            beside = f", natively {alone:.2f} s, {took / max(alone, 0.001):.1f} times"
        print(f"{browser.name}: {file.stem}: {took:.2f} s{beside}", flush=True)


def main():
    words = argparse.ArgumentParser()
    words.add_argument("--page", help="a page that is there; without it one is made")
    words.add_argument("--browser", choices=("chromium", "firefox"))
    words.add_argument("--problems", type=pathlib.Path, help="a folder with sets of problems")
    words.add_argument("--native", type=pathlib.Path, help="the program `dw`, if it is to be measured too")
    given = words.parse_args()
    with tempfile.TemporaryDirectory() as name:
        folder = pathlib.Path(name)
        page = made_page(given.page, folder)
        print(f"{page.stat().st_size:,} bytes; {load()}")
        for kind in browsers_asked(given.browser):
            with kind() as browser:
                usable(browser, page)
                pauses(browser, page, folder)
                if browser.name == "chromium":
                    tasks(browser, page, folder)
                if given.problems:
                    judged(browser, page, given.problems, given.native)
        print(load())


if __name__ == "__main__":
    main()
