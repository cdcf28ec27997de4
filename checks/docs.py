#!/usr/bin/env python3
"""docs.py: compares the documents with the repository: links, definitions, the headline, examples with their answers.

    checks/docs.py

Every link must lead to a file and a heading, and every named file must exist. The contract in docs/PROVED.md must be
that of `run`, word for word, the quoted contracts in docs/CONTRACTS.md must stand in their files, and each definition
in docs/DEFINITIONS.md in its file. `dw show` must give the answers to the FEN texts of docs/FORMATS.md. The program in
docs/LIBRARY.md must be the crate `dw_example`. The problems in docs/REPORT.md must have the verdicts, tries and
diagrams that stand there. Each call `$ echo FEN | ./PROGRAM WORDS` in README.md, docs/DESK.md, docs/JSON.md and
docs/COMPOSERS.md must give the answer below it. docs/diagram.svg must be the diagram that `dw-desk page` draws. Each
function on the ways in docs/ARCHITECTURE.md must be in its file, and each crate must be named there, with files that it
has.
"""
import pathlib
import re
import shlex
import subprocess

TOP = pathlib.Path(__file__).resolve().parent.parent
DW = TOP / "dw"
TEXTS = [*(TOP / name for name in ("README.md", "CONTRIBUTING.md", "CHANGELOG.md", "examples/README.md")),
         *sorted((TOP / "docs").glob("*.md"))]
README, PROVED, DEFINITIONS, FORMATS, REPORT, DESK, JSON, COMPOSERS = TOP / "README.md", *(
    TOP / f"docs/{name}.md" for name in ("PROVED", "DEFINITIONS", "FORMATS", "REPORT", "DESK", "JSON", "COMPOSERS"))
RUN = TOP / "crates/dw_report/src/run.rt"
CONTRACTS = TOP / "docs/CONTRACTS.md"
ARCHITECTURE, LIBRARY, EXAMPLE = TOP / "docs/ARCHITECTURE.md", TOP / "docs/LIBRARY.md", TOP / "crates/dw_example"
DIAGRAM = TOP / "docs/diagram.svg"
LINK = re.compile(r"\[[^\]]*\]\(([^)\s]+)\)")


def anchors(text):
    """The headings of a text, as links name them."""
    heads = re.findall(r"^#+ (.*)$", re.sub(r"^```.*?^```", "", text, flags=re.MULTILINE | re.DOTALL), re.MULTILINE)
    plain = (LINK.sub(lambda link: link[0][1 : link[0].index("]")], head) for head in heads)
    return {re.sub(r"[^\w\- ]", "", head.lower()).strip().replace(" ", "-") for head in plain}


def check_links():
    count = 0
    for path in TEXTS:
        for link in LINK.findall(path.read_text()):
            if "://" in link:
                continue
            file, _, anchor = link.partition("#")
            target = (path.parent / file).resolve() if file else path
            assert target.exists(), f"{path.name}: there is no {link}"
            assert not anchor or anchor in anchors(target.read_text()), f"{path.name}: no heading for {link}"
            count += 1
    print(f"{len(TEXTS)} documents, {count} links: each leads somewhere")


def check_paths():
    """The files that are named without a link, as `dw_board/specs/Fen.antt` and `checks/all.py`."""
    count = 0
    for path in TEXTS:
        for name in re.findall(r"`((?:crates/|dw/|dw_\w+/|checks/|docs/|examples/)[\w./-]*)`", path.read_text()):
            if re.search(r"[A-Z]{2}|/out/", name):
                continue  # a pattern, or what a build leaves
            assert (TOP / name).exists() or (TOP / "crates" / name).exists(), f"{path.name}: there is no {name}"
            count += 1
    print(f"{count} files named, each is there")


def check_headline():
    code = RUN.read_text()
    start = code.index("pub fn run<")
    contract = code[start : code.index("\n{\n", start)].split()
    block = re.search(r"^```\n(.*?)^```", PROVED.read_text(), re.MULTILINE | re.DOTALL)[1].split()
    differing = [pair for pair in zip(contract, block) if pair[0] != pair[1]]
    assert contract == block, f"docs/PROVED.md has another contract of run: {differing[:1]}"
    print(f"the contract of run: {len(block)} words, the same")


def check_quotes():
    """Each line that docs/CONTRACTS.md quotes stands in the file that the text before it links to last."""
    text, count = CONTRACTS.read_text(), 0
    for block in re.finditer(r"^```\n(.*?)^```", text, re.MULTILINE | re.DOTALL):
        link = [name for name in LINK.findall(text[: block.start()]) if name.endswith((".rt", ".antt"))][-1]
        lines = (TOP / "docs" / link).read_text().splitlines()
        for line in block[1].splitlines():
            assert line in lines, f"docs/CONTRACTS.md: {link} has no line {line}"
            count += 1
    assert count > 10, count
    print(f"docs/CONTRACTS.md: {count} lines, each in its file")


def blocks(text):
    """The headings, paragraphs and items of lists, each in one line."""
    found = []
    for line in text.splitlines():
        if not line.strip() or line.startswith(("- ", "#")) or not found:
            found.append(line)
        elif found[-1].startswith("#") or not found[-1]:
            found.append(line)
        else:
            found[-1] += " " + line.strip()
    return found


def named(text):
    """Each definition of the page, with the files in which it may stand."""
    files = []
    for block in blocks(text):
        if not block.startswith("- "):
            files = LINK.findall(block) or files
            continue
        # What stands before the colon: names, and maybe a file of their own.
        before = re.match(r"- (.*?):(?: |$)", block)[1]
        for name in re.findall(r"`([^`]+)`", re.sub(r"\(.*", "", LINK.sub("", before))):
            yield name, LINK.findall(before) or files


def check_definitions():
    text = DEFINITIONS.read_text()
    count = 0
    for name, files in named(text[: text.index("## Types of the code")]):
        word = rf"(?:{re.escape(name)}|◌{re.escape(name)}◌)(?![\w'])"
        defined = rf"^(?:(?:abbrev|unfoldable) )?pub (?:(?:record|data) )?{word}"
        stands = [file for file in files if re.search(defined, (TOP / "docs" / file).read_text(), re.MULTILINE)]
        assert stands, f"docs/DEFINITIONS.md: {name} is not in {files}"
        count += 1
    assert count >= 200, f"docs/DEFINITIONS.md: {count} definitions"
    print(f"docs/DEFINITIONS.md: {count} definitions, each in its file")


def check_fen_texts():
    row = r"^\| `([^`]*)` \| (?:`(\d+ [a-z ]+ at \d+)`|read as `([^`]*)`) \|$"
    rows = re.findall(row, FORMATS.read_text(), re.MULTILINE)
    assert len(rows) >= 10, rows
    for text, fault, written in rows:
        ran = subprocess.run([DW, "show"], input=text.encode() + b"\n", capture_output=True, timeout=3600, check=False)
        wanted = f"refused: 1 fen: {fault}" if fault else written
        first = ran.stdout.decode().splitlines()[0]
        assert first == f"problem 1: {wanted}" and ran.stderr == b"", (text, first, wanted)
    print(f"docs/FORMATS.md: {len(rows)} FEN texts, as told")


def answer(words, fen):
    ran = subprocess.run([DW, *words], input=fen.encode() + b"\n", capture_output=True, timeout=3600, check=False)
    assert (ran.returncode, ran.stderr) == (0, b""), (words, fen, ran)
    return ran.stdout.decode().splitlines()


def check_verdicts():
    """A problem's diagram stands on the left, if it has one, and what `dw judge` says on the right."""
    asked = r"^\*\*\w+\.\*\* `([^`]+)`, with `judge -n (\d+)`:\n\n((?: {4}.*\n)+)"
    problems = re.findall(asked, REPORT.read_text(), re.MULTILINE)
    assert len(problems) >= 4, problems
    for fen, n, block in problems:
        lines = [line[4:] for line in block.splitlines()]
        drawn = [line[:12] for line in lines if line.startswith("|")]
        assert drawn in ([], answer(["show"], fen)[1:]), fen
        said = [line[12:].strip() if line.startswith("|") else line for line in lines]
        assert [line for line in said if line] == answer(["judge", "-n", n], fen)[1:], (fen, said)
    print(f"{len(problems)} problems in docs/REPORT.md, as told")


def check_calls():
    """What a page shows a program to answer to a FEN text is what it answers."""
    for page in (README, DESK, JSON, COMPOSERS):
        called = r"^ {4}\$ echo (\S+) \| \./(\S+) (.*)\n((?: {4}[^$\n].*\n|\n(?= {4}[^$.\n]))+)"
        calls = re.findall(called, page.read_text(), re.MULTILINE)
        assert len(calls) >= 2, calls
        for fen, program, words, block in calls:
            ran = subprocess.run([TOP / program, *shlex.split(words)], input=fen.encode() + b"\n", capture_output=True,
                                 timeout=3600, check=False)
            wanted = [line[4:] for line in block.splitlines()]
            said = ran.stdout.decode().rstrip("\n").splitlines()
            assert ran.returncode < 2 and said == wanted, (fen, program, words, ran)
        print(f"{page.name}: {len(calls)} calls, with the answers that it has")


def check_diagram():
    """The marks, the pictures and the style of the diagram are those of a page with the same position."""
    text = DIAGRAM.read_text()
    fen = re.search(r'aria-label="([^"]*)"', text)[1]
    ran = subprocess.run([TOP / "dw-desk", "page", "-n", "1", "--solutions", "none"], input=fen.encode() + b"\n",
                         capture_output=True, timeout=3600, check=True)
    page = ran.stdout.decode()
    for what in (r"<g><use .*?</g>", r'<g id="(?!numbers)\w+">.*?</g>'):
        drawn, wanted = (re.findall(what, source, re.DOTALL) for source in (text, page))
        assert drawn and drawn == wanted, f"docs/diagram.svg is not what dw-desk page draws: {what}"
    style = re.search(r"<style>\n(.*?)</style>", text, re.DOTALL)[1].splitlines()
    assert style and set(style) <= set(page.splitlines()), "docs/diagram.svg has another style than the page"
    print(f"docs/diagram.svg: the marks of {fen}, as `dw-desk page` draws them")


def check_ways():
    """Each function on the way of a problem stands in the file that is named for it."""
    ways = ARCHITECTURE.read_text().split("\n### The way of a solution")
    for way, most in zip(ways, (30, 45), strict=True):
        rows = re.findall(r"^\d+\. `([\w:]+)` \(`([\w/.]+)`\) ", way, re.MULTILINE)
        assert 20 < len(rows) <= most, f"ARCHITECTURE.md: {len(rows)} functions on a way"
        for function, file in rows:
            name = function.split("::")[-1]
            code = (TOP / "crates" / file).read_text()
            assert re.search(rf"\bfn {name}\b", code), f"ARCHITECTURE.md: {file} has no function {function}"
        print(f"{len(rows)} functions on a way, each is in its file")


def check_crates():
    """The map names each crate, and what it names of a crate is there."""
    text = ARCHITECTURE.read_text()
    crates = [path.name for path in sorted((TOP / "crates").iterdir())]
    missing = [crate for crate in crates if f"`{crate}`" not in text]
    assert not missing, f"ARCHITECTURE.md lacks {' '.join(missing)}"
    count = 0
    for item in (block for block in blocks(text) if re.match(r"- `dw\w*`: ", block)):
        crate = TOP / "crates" / re.match(r"- `(\w+)`", item)[1]
        for name in re.findall(r"`([\w/]+\.(?:rt|antt))`", item):
            assert any(crate.glob(f"**/{name}")), f"ARCHITECTURE.md: {crate.name} has no {name}"
            count += 1
    print(f"ARCHITECTURE.md: {len(crates)} crates, each named, and {count} of their files")


def check_example():
    """The program of docs/LIBRARY.md and what it prints are those of the crate that the gate runs."""
    blocks = dict(re.findall(r"^```(\w+)\n(.*?)^```", LIBRARY.read_text(), re.MULTILINE | re.DOTALL))
    code = (EXAMPLE / "src/main.rt").read_text()
    assert blocks["rust"] == code[code.index("use ") :], "LIBRARY.md: the program is not that of dw_example"
    assert blocks["text"] == (EXAMPLE / "stdout").read_text(), "LIBRARY.md: what it prints is not that of dw_example"
    print("LIBRARY.md: the program is that of dw_example, and prints the same")


def main():
    check_links()
    check_paths()
    check_ways()
    check_crates()
    check_example()
    check_headline()
    check_quotes()
    check_definitions()
    check_fen_texts()
    check_verdicts()
    check_calls()
    check_diagram()


if __name__ == "__main__":
    main()
