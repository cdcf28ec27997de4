"""reading_order.py: makes the page docs/DEFINITIONS.md from the comments on the definitions of a contract.

checks/definitions.py writes the page, and compares it. Each definition has the comment above it in specs/, file by
file. The types and constants of the code that definitions name follow.
"""
import pathlib
import re
import textwrap

TOP = pathlib.Path(__file__).resolve().parent.parent
CRATES, PAGE = TOP / "crates", TOP / "docs/DEFINITIONS.md"
WIDTH = 120
HEAD = [
    "These are all definitions that the contract of `run` names, directly or through others. "
    "[PROVED.md](PROVED.md#how-much-there-is-to-believe) counts them. They go from the report down to boards. Within a "
    "file each definition comes after those that it uses. `g` is a board, `p` or `q` are its pieces and the side to "
    "move, `n` is a number of moves, `m` a move, `s` a square.",
    "Each sentence is the comment above the definition in its file. `checks/definitions.py --write` makes this page.",
]
TYPES = "Definitions and contracts also name these plain types and constants of the code."
# The files in reading order, each with its heading.
FILES = {
    "dw_report/specs/Running.antt": "How a run ends",
    "dw_report/specs/Request.antt": "Requests",
    "dw_notation/specs/Streams.antt": "Bytes read and written",
    "dw_notation/specs/Writes.antt": "Written text",
    "dw_report/specs/Report.antt": "The report",
    "dw_report/specs/Refusals.antt": "Reasons for a refusal",
    "dw_report/specs/JsonRows.antt": "Rows of show and moves",
    "dw_json/specs/Rows.antt": "Rows of JSON",
    "dw_report/specs/JudgedText.antt": "The text of a verdict",
    "dw_report/specs/ListedText.antt": "The text of a list",
    "dw_verdict/specs/Verdict.antt": "Verdicts and tries",
    "dw_list/specs/Places.antt": "Lists that are no lines",
    "dw_solve/specs/Lines.antt": "Lines of play",
    "dw_list/specs/Tokens.antt": "Tokens",
    "dw_solve/specs/Wins.antt": "Forced wins",
    "dw_solve/specs/Facts.antt": "Facts of a cache",
    "dw_memo/specs/Content.antt": "Content of a cache",
    "dw_notation/specs/Text.antt": "The texts of moves and lines",
    "dw_moves/specs/Order.antt": "The order of moves",
    "dw_moves/specs/Moves.antt": "The rules",
    "dw_notation/specs/Problems.antt": "Problems of a byte text",
    "dw_notation/specs/TextLines.antt": "Problems in lines",
    "dw_notation/specs/WholeTexts.antt": "Problems in PDN",
    "dw_notation/specs/Tags.antt": "Sections of PDN",
    "dw_board/specs/FenGrammar.antt": "FEN texts",
    "dw_board/specs/FenFaults.antt": "The earliest fault",
    "dw_board/specs/FenTokens.antt": "The tokens of a FEN text",
    "dw_board/specs/FenText.antt": "The written FEN",
    "dw_board/specs/Diagram.antt": "Diagrams",
    "dw_board/specs/Placement.antt": "Positions",
    "dw_board/specs/Geometry.antt": "Boards",
    "dw_board/specs/Lists.antt": "Lists",
}
SOURCES = [
    "dw_report/src/settings.rt", "dw_solve/src/stop.rt", "dw_memo/src/bounds.rt", "dw_notation/src/problems.rt",
    "dw_board/src/piece.rt", "dw_board/src/board.rt", "dw_board/src/fen/fault.rt",
]


def link(file):
    return f"[{file}](../crates/{file})"


def joined(lines, mark):
    """The lines of a comment as one text."""
    return " ".join(line.strip().removeprefix(mark).strip() for line in lines)


def filled(text, begin="", rest=""):
    """A text in lines, none of which begins with what would be a mark of a list or of a heading."""
    bound = re.sub(r" (?=(?:\d+[.)]|[-+*#>=]+) )", "\0", text)
    lines = textwrap.wrap(bound, WIDTH, initial_indent=begin, subsequent_indent=rest, break_long_words=False,
                          break_on_hyphens=False)
    return "\n".join(lines).replace("\0", " ")


def entry(names, text):
    text = text if text.endswith(".") else text + "."
    return filled(f"{', '.join(f'`{name}`' for name in names)}: {text}", "- ", "  ")


def comment(definition):
    """The comment above a definition, without a heading of a part of its file."""
    return joined([line for line in definition.lines if re.match(r"-- (?!----)", line)], "--")


def is_constant(definition):
    return any(line.endswith(f"{definition.name} : ℕ") for line in definition.lines)


def entries(file, definitions):
    """The definitions of a file in its order, each with its text."""
    rows, before = [], None
    for definition in sorted(definitions, key=list(file.definitions.values()).index):
        text = comment(definition)
        if not text and before and is_constant(before) and is_constant(definition):
            rows[-1][0].append(definition.name)
        else:
            assert text, f"{file.path.relative_to(TOP)}: {definition.name} has no comment"
            rows.append(([definition.name], text))
        before = definition
    return "\n".join(entry(names, text) for names, text in rows)


def introduction(path):
    """The comment at the very front of a file."""
    return joined(re.match(r"(?:--.*\n)+", path.read_text())[0].splitlines(), "--")


def named_types(definitions):
    """The files of the code that definitions name, each with its types and constants."""
    found = {}
    for definition in definitions:
        for word in set(re.findall(r"[\w'][\w'.]*", definition.text())) - definition.bound():
            module, name = definition.file.names.get(word, ("", ""))
            parts = module.removesuffix(".TheVariants").split(".")
            if "declared" in parts:
                inside = "/".join(parts[parts.index("declared") + 1 : -1])
                kind = name if parts[-1] == "TheConstants" else parts[-1]
                found.setdefault(f"{parts[1]}/src/{inside}.rt", set()).add(kind)
    return found


def documented(file):
    """The public items of a source: their names, the texts above them, and the values of constants."""
    items = r"((?:^///.*\n)+)(?:^#\[.*\n)*^pub (?:struct|enum|const|fn) (\w+)(?:: \w+ = ([\d_]+))?"
    for above, name, value in re.findall(items, (CRATES / file).read_text(), re.MULTILINE):
        text = joined(above.splitlines(), "///")
        yield name, text + (f" It is {int(value):,}." if value else "")


def source_entries(file, names):
    """The items of a source in its order that have these names."""
    rows = [row for row in documented(file) if row[0] in names]
    assert {name for name, _ in rows} == names, f"{file}: no comment on some of {names}"
    return "\n".join(entry([name], text) for name, text in rows)


def page(definitions):
    """The whole page."""
    files = {str(d.file.path.relative_to(CRATES)): d.file for d in definitions}
    assert set(files) == set(FILES), f"reading_order.py: FILES lacks, or has too much: {set(files) ^ set(FILES)}"
    parts = ["# Definitions", *map(filled, HEAD)]
    for name, title in FILES.items():
        file = files[name]
        here = [definition for definition in definitions if definition.file is file]
        parts += [f"## {title}: {link(name)}", filled(introduction(file.path)), entries(file, here)]
    types = named_types(definitions)
    assert set(types) == set(SOURCES), f"reading_order.py: SOURCES lacks, or has too much: {set(types) ^ set(SOURCES)}"
    parts += ["## Types of the code", TYPES]
    for name in SOURCES:
        parts += [f"{link(name)}:", source_entries(name, types[name])]
    return "\n\n".join(parts) + "\n"
