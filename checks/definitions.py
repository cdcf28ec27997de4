#!/usr/bin/env python3
"""definitions.py: counts the definitions of the main contracts, and compares docs/PROVED.md and docs/DEFINITIONS.md.

    checks/definitions.py [--list] [--write]      with --list it prints the names, file by file

A contract names definitions of specs/, these name others, and so on. All of them count, with their comments, without
imports and blank lines. The table in docs/PROVED.md must have the same numbers. docs/DEFINITIONS.md has those of `run`
with their comments, as reading_order.py makes it; --write writes it again.

No public contract of a layer may lead to a definition of specs/inner, and every other definition must be reached by
some public contract. The exception is a sealed definition, as its comment says: contracts name it and state everything
that is known of it, so it is not followed, and no other crate may unfold it. Definitions of public contracts name only
public types of the code, and no crate cites the proofs of another one.
"""
import dataclasses
import pathlib
import re
import sys
import textwrap

import reading_order

TOP = pathlib.Path(__file__).resolve().parent.parent
CRATES, PROVED = TOP / "crates", TOP / "docs/PROVED.md"
NAME = r"[\w'◌>=-]+"
STRING = re.compile(r'"(?:\\.|[^"\\])*"')
USE = re.compile(r"(?:ghost )?use (Rattle\.[\w.]+)\.\{(.*)\};?$")
ALIAS = re.compile(r"(?:ghost )?use (Rattle\.[\w.]+) as (\w+);?$")
BLOCK = re.compile(r"impl(?:<.*?>)? (?:(\w+).*? for )?(\w+)|(?:pub(?:\(\w+\))? )?(?:struct|enum|trait) (\w+)")
STARTS = re.compile(rf"(?:(?:abbrev|unfoldable) )?pub (?:(record|data) )?({NAME})(?: |$)")


@dataclasses.dataclass(eq=False)
class Definition:
    name: str
    kind: str  # "record", "data" or ""
    lines: list  # with the comment above it
    file: "File"

    def is_sealed(self):
        return any(line.startswith("-- Sealed: ") for line in self.lines)

    def text(self):
        """Without comments, and without the names of fields, which are no definitions."""
        text = "\n".join(line for line in self.lines if not line.lstrip().startswith(("--", "infix")))
        text = re.sub(r"^  pub [\w']+ :", "  :", text, flags=re.MULTILINE)
        return re.sub(r"([{;]\s*)[\w']+ =", r"\1 =", text)

    def bound(self):
        """The names that it binds itself: of its arguments, and after a lambda."""
        text = self.text()
        names = set(re.findall(r"λ \(?([\w']+)", text))
        for group in re.findall(r"[({]([\w' ]+) : ", text):
            names |= set(group.split())
        for line in text.splitlines():
            head = re.match(rf"{re.escape(self.name)} (.*?) =(?: |$)", line)
            names |= set(re.findall(r"[a-z][\w']*", head[1])) if head else set()
        return names


class Imports:
    """What the names in a file stand for: names of modules, and modules by another name."""

    def __init__(self, text):
        self.names, self.modules = {}, {}
        for line in map(str.strip, text.splitlines()):
            if use := USE.match(line):
                for word in re.split(r",\s*(?![^(]*\))", use[2]):
                    old, _, new = word.strip().partition(" as ")
                    self.names[new or old] = use[1], old
            elif alias := ALIAS.match(line):
                self.modules[alias[2]] = alias[1]


class File(Imports):
    """A file of specs/: its definitions, each with the comment above it."""

    def __init__(self, path):
        super().__init__(path.read_text())
        self.path, self.definitions, self.cases = path, {}, {}
        crate, *inside = path.relative_to(CRATES).with_suffix("").parts
        self.module = ".".join(["Rattle", crate, *inside])
        # Definitions that name one another stand in a block, each as it would stand alone.
        text = re.sub(r"^abbrev mutual\n((?:(?:  .*)?\n)+)", lambda block: textwrap.dedent(block[1]), path.read_text(),
                      flags=re.MULTILINE)
        for block in re.split(r"\n(?:\s*\n)+", text):
            self.read([line for line in block.splitlines() if not line.startswith("use ")])

    def read(self, block):
        above, current = [], None
        for line in block:
            if start := STARTS.match(line):
                current = Definition(start[2], start[1] or "", [*above, line], self)
                self.definitions[current.name], above = current, []
            elif current is None:
                above.append(line)
            else:
                current.lines.append(line)
                case = re.match(r"  ([\w']+) :", line)
                if current.kind == "data" and case:
                    self.cases[case[1]] = current

    def find(self, name):
        return self.definitions.get(name) or self.definitions.get(f"◌{name}◌") or self.cases.get(name)


SPECS = map(File, sorted(CRATES.glob("*/specs/**/*.antt")))
FILES = {file.module: file for file in SPECS if file.path.stem not in ("Lib", "inner")}


def named(text, imports):
    """The definitions that a text names, read with these imports."""
    for word in set(re.findall(r">>=|[\w'][\w'.]*", STRING.sub("", text))):
        head, _, rest = word.partition(".")
        own = imports.find(head) if isinstance(imports, File) else None
        module, name = imports.names.get(head) or imports.names.get(f"◌{head}◌") or ("", "")
        if rest and head in imports.modules:
            module, name, own = imports.modules[head], rest.split(".")[0], None
        found = own or (module in FILES and FILES[module].find(name))
        if found:
            yield head, found


def reached(texts):
    """All definitions that texts with their imports lead to."""
    waiting = [found for text, imports in texts for _, found in named(text, imports)]
    seen = []
    while waiting:
        definition = waiting.pop()
        if definition not in seen and not definition.is_sealed():
            seen.append(definition)
            bound = definition.bound()
            waiting += [found for head, found in named(definition.text(), definition.file) if head not in bound]
    return seen


def contract(file, start, clause=""):
    """The contract of a function, or one of its clauses, with the imports of its file."""
    text = (CRATES / file).read_text()
    whole = re.split(r"\n *\{\n", text[text.index(start) :])[0]
    if clause:
        whole = re.search(rf"(?:requires|ensures) {clause} \{{.*?(?=\n\s*(?:requires|ensures)|\Z)", whole, re.DOTALL)[0]
    return whole, Imports(text)


def source_text(path):
    """A source. Nothing stands on a program: there what all its modules may name is public."""
    text = path.read_text()
    is_of_program = (CRATES / path.relative_to(CRATES).parts[0] / "src/main.rt").exists()
    return text.replace("pub(crate) ", "pub ") if is_of_program else text


def public_text(path, left_out):
    """What a file's public items say: no private functions, no methods of private types, and no items left out."""
    text = source_text(path)
    named_here = re.findall(r"^(?:pub\((?:crate|super)\) )?(?:struct|enum|trait) (\w+)", text, re.MULTILINE)
    private = set(named_here) | PRIVATE_TRAITS
    kept, impl, lines = [], "", iter(text.splitlines())
    for line in lines:
        start = BLOCK.match(line)
        impl = line if start else impl
        if start and private & set(start.groups()):
            skip(lines, line, "}")
        elif function := re.match(r"( *)(pub |pub\((?:crate|super)\) |)(?:const )?fn ", line):
            head = list(function_head(function[1], line, lines))
            skip(lines, head[-1], function[1] + "}")
            if function[2] == "pub " or function[1] and (" for " in impl or "trait" in impl):
                kept += head
        elif re.match(left_out, line):
            skip(lines, line, "};", str.endswith)
        elif not re.match(r"\s*((ghost )?use |//|#\[)", line):
            kept.append(line)
    return "\n".join(kept), Imports(text)


def function_head(indent, line, lines):
    """The lines of a function up to the one that opens its body, or to the semicolon in its place."""
    is_contract = False
    while True:
        yield line
        if line in (indent + "{", indent + "{}") or line.endswith("};" if is_contract else ("{", "{}", ";")):
            return
        line = next(lines)
        is_contract = is_contract or re.match(r"\s*(requires|ensures)\b", line) is not None


def skip(lines, line, end, ends=str.__eq__):
    """Leaves out the rest of an item that begins with this line, if it has more lines."""
    if not line.endswith((";", "}")):
        next(line for line in lines if ends(line, end))


# Ghost items that are proofs, which nobody has to believe, and those that say how a public type is kept.
PROOF = r"\s*ghost (laws|total|matches_\w+|respects_eq|inverse|inverse_ok|numbers|shifts|word_is) ="
KEPT = PROOF.replace("(", "(view|invariant|")
NO_LAYER = r"dw_(tests|bench|example)"
NAMES = re.findall(r"^\w+", (TOP / "crates.txt").read_text(), re.M)
LAYERS = [name for name in NAMES if not re.fullmatch(NO_LAYER, name)]
SOURCES = [path for layer in LAYERS for path in sorted((CRATES / layer).glob("src/**/*.rt"))]
PRIVATE_TRAITS = {
    name for path in SOURCES for name in re.findall(r"^pub\(crate\) trait (\w+)", source_text(path), re.M)
}


def private_types(definition):
    """The types of the code that a definition names and that are not public, each by its module."""
    for word in set(re.findall(r"[\w'][\w'.]*", definition.text())) - definition.bound():
        module, name = definition.file.names.get(word) or (definition.file.modules.get(word.split(".")[0], ""), "")
        parts = module.removesuffix(".TheVariants").split(".")
        if "declared" not in parts or parts[-1] == "TheConstants" or not (CRATES / parts[1]).is_dir():
            continue
        inside = parts[parts.index("declared") + 1 : -1]
        source = (CRATES / parts[1] / "src" / "/".join(inside or ["lib"])).with_suffix(".rt")
        if not re.search(rf"^pub (struct|enum|trait) {parts[-1]}\b", source_text(source), re.M):
            yield f"{module} in {definition.name}"


def check_citations():
    """No crate cites the proofs of another crate of the repository, or unfolds what is sealed there."""
    definitions = [definition for file in FILES.values() for definition in file.definitions.values()]
    sealed = {d.name: d.file.module.split(".")[1] for d in definitions if d.is_sealed()}
    crates = {path.name for path in CRATES.iterdir()}
    kinds = ("specs/**/*.antt", "proofs/**/*.antt", "src/**/*.rt")
    for path in sorted(path for kind in kinds for path in CRATES.glob(f"*/{kind}")):
        crate, text = path.relative_to(CRATES).parts[0], path.read_text()
        cited = set(re.findall(r"Rattle\.(\w+)\.proofs\b", text)) & crates - {crate}
        opened = {name for name in re.findall(r"unfolding[ (:\w]*\b(\w+)", text) if sealed.get(name, crate) != crate}
        assert not cited | opened, f"{path.relative_to(TOP)}: cites the proofs of {cited}, or unfolds {opened}"
    print("specs and proofs: no crate cites the proofs of another one")


def check_inner():
    """specs/inner has what no public contract leads to, and the rest of specs nothing else."""
    seen = reached([public_text(path, PROOF) for path in SOURCES])
    known = {id(definition) for definition in seen}
    for file in FILES.values():
        if file.path.relative_to(CRATES).parts[0] in LAYERS:
            wrong = [n for n, d in file.definitions.items() if (id(d) in known) == ("inner" in file.path.parts)]
            assert not wrong, f"{file.path.relative_to(TOP)}: {' '.join(wrong)}"
    print(f"specs: the public contracts lead to {len(seen)} definitions, none of them in specs/inner")
    promised = reached([public_text(path, KEPT) for path in SOURCES])
    private = sorted({name for definition in promised for name in private_types(definition)})
    assert not private, f"definitions of public contracts name types that are not public: {' '.join(private)}"


def rows():
    """The rows of the table: what stands in its first column, and what is reached."""
    wins, legal, play = "dw_solve/src/solver.rt", "dw_moves/src/legal.rt", "dw_moves/src/play.rt"
    yield "`run`", [contract("dw_report/src/run.rt", "pub fn run<")]
    yield "`Job::run`, the report of `dw`", [contract("dw_commands/src/report.rt", "pub fn run<")]
    yield "`run_on`, all commands of `dw-desk`", [contract("dw_desk_commands/src/desk.rt", "pub fn run_on<")]
    yield "`dw_web_run`, both programs and their boards", [contract("dw_web/src/call.rt", "fn dw_web_run(")]
    yield "`Solver::wins`, its answer (clause `answer`)", [contract(wins, "pub fn wins", "answer")]
    yield "`Solver::wins`, all of its clauses", [contract(wins, "pub fn wins")]
    yield "`legal`, the rules of the game", [contract(legal, "pub fn legal<")]
    yield "`legal` and `play`", [contract(legal, "pub fn legal<"), contract(play, "pub fn play<")]


def check_page(definitions, is_written_anew):
    """The page of the definitions is the one that their comments make."""
    page = reading_order.page(definitions)
    if is_written_anew:
        reading_order.PAGE.write_text(page)
    stands = reading_order.PAGE.exists() and reading_order.PAGE.read_text() == page
    assert stands, "docs/DEFINITIONS.md is not what the comments make: run checks/definitions.py --write"
    print(f"docs/DEFINITIONS.md: {len(definitions)} definitions, as their comments say")


def main(words):
    check_page(reached(next(rows())[1]), "--write" in words)
    told = PROVED.read_text()
    for title, texts in rows():
        seen = reached(texts)
        files = sorted({definition.file.path for definition in seen})
        lines = sum(len(definition.lines) for definition in seen)
        row = f"| {title} | {len(seen)} | {len(files)} | {lines:,} |"
        print(row)
        for path in files if "--list" in words else []:
            names = sorted(definition.name for definition in seen if definition.file.path == path)
            print(f"    {path.relative_to(CRATES)}: {' '.join(names)}")
        assert row in told.splitlines(), f"docs/PROVED.md has no line {row}"
        if title == "`run`":
            whole = sum(len(path.read_text().splitlines()) for path in files)
            assert f"files of `run` have {whole:,} lines" in " ".join(told.split()), f"{whole:,} lines in all"
    check_inner()
    check_citations()


if __name__ == "__main__":
    main(sys.argv[1:])
