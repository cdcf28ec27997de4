#!/usr/bin/env python3
"""prose.py: looks for sentences that are hard to read, in the documents, the comments and the help texts.

    checks/prose.py

In the documents: no sentence has more than 35 words. There and in the comments of the code: no `can not`, no `behind`
where `after` is meant, and none of the other words in WORDS. The comment of a function begins with a verb in the third
person, as `Returns`; a law is a statement and may begin as it likes. No line has more than 120 columns, also in proofs,
in checks and in the page. EXCEPTIONS has the places that may stay.
"""
import pathlib
import re
import sys

TOP = pathlib.Path(__file__).resolve().parent.parent
DOCUMENTS = [*(TOP / name for name in ("README.md", "CONTRIBUTING.md", "CHANGELOG.md", "examples/README.md")),
             *sorted((TOP / "docs").glob("*.md"))]
GENERATED = {"DEFINITIONS.md", "CALLS.md"}
COLUMNS, SENTENCE = 120, 35
WRITTEN = ("crates/*/src/**/*.rt", "crates/*/specs/**/*.antt", "crates/*/proofs/**/*.antt", "checks/*.py",
           "web/**/*.*", "docs/dw*")
# A word, and the better one.
WORDS = {
    r"can not": "cannot",
    r"behind": "after",
    r"so many": "a number",
    r"with which it is": "so that it is",
    r"slip of the pen": "typing mistake",
    r"come to lie": "are",
}
# Parts of lines that may stay, each with the file.
EXCEPTIONS = {
    ("docs/DECISIONS.md", "Large pages"),
}
COMMENT = re.compile(r"\s*(?:///|//!|//|--)(?: |$)(.*)")
FUNCTION = re.compile(r"\s*(?:pub(?:\(\w+\))? )?(?:const )?(?:unsafe )?(?:extern \"C\" )?fn (\w+)")
VERB = re.compile(r"[A-Z][a-z]+(?:s|es)\b")
NO_VERBS = {"This", "Its", "As", "Less", "Always", "Bounds", "Moves", "Lines", "Positions", "Is", "Yes", "Pieces"}


def sentences(text):
    """The sentences of a Markdown text, without code, tables and headings."""
    text = re.sub(r"^```.*?^```", "", text, flags=re.MULTILINE | re.DOTALL)
    lines = [line for line in text.splitlines() if not re.match(r"(?: {4,}\S|\||#|!\[|\[!\[)", line)]
    for block in re.split(r"\n\s*\n|\n(?=\s*(?:- |\d+\. ))", "\n".join(lines)):
        block = re.sub(r"\[([^\]]*)\]\([^)]*\)", r"\1", " ".join(block.split()))
        block = re.sub(r"`[^`]*`", "Code", block)
        yield from re.split(r"(?<=[.!?:;])\**\s+(?=[A-Z\[*])", block)


def allowed(path, line):
    name = str(path.relative_to(TOP))
    return any(file == name and part in line for file, part in EXCEPTIONS)


def look_at_words(path, number, text, found):
    for word, better in WORDS.items():
        if re.search(rf"\b{word}\b", text) and not allowed(path, text):
            found.append(f"{path.relative_to(TOP)}:{number}: `{word}`, better `{better}`: {text.strip()}")


def look_at_width(path, found):
    for number, line in enumerate(path.read_text().splitlines(), 1):
        if len(line) > COLUMNS:
            found.append(f"{path.relative_to(TOP)}:{number}: over {COLUMNS} columns")


def look_at_document(path, found):
    text = path.read_text()
    look_at_width(path, found)
    for number, line in enumerate(text.splitlines(), 1):
        look_at_words(path, number, re.sub(r"`[^`]*`", "", line), found)
    for sentence in sentences(text) if path.name not in GENERATED else []:
        count = len([word for word in sentence.split() if re.search(r"\w", word)])
        if count > SENTENCE and not allowed(path, sentence):
            found.append(f"{path.relative_to(TOP)}: {count} words: {sentence[:100]}")


def look_at_code(path, found):
    """The comments of a file of src or specs. A function's comment stands right above it and its attributes."""
    first = None
    for number, line in enumerate(path.read_text().splitlines(), 1):
        if comment := COMMENT.match(line):
            look_at_words(path, number, re.sub(r"`[^`]*`", "", comment[1]), found)
            if "///" in line[: len(line) - len(comment[1])] and first is None:
                first = (number, comment[1])
        elif not re.match(r"\s*#\[", line):
            if first and FUNCTION.match(line) and "laws" not in str(path):
                verb = VERB.match(first[1])
                if not verb or verb[0] in NO_VERBS:
                    found.append(f"{path.relative_to(TOP)}:{first[0]}: begins with no verb: {first[1]}")
            first = None


def main():
    found = []
    for path in DOCUMENTS:
        look_at_document(path, found)
    code = [*TOP.glob("crates/*/src/**/*.rt"), *TOP.glob("crates/*/specs/*.antt")]
    for path in sorted(code):
        look_at_code(path, found)
    for path in sorted(path for pattern in WRITTEN for path in TOP.glob(pattern)):
        look_at_width(path, found)
    if found:
        sys.exit("\n".join([*found, f"{len(found)} places to mend"]))
    print(f"{len(DOCUMENTS)} documents and {len(code)} files of code: nothing that is known to be hard to read")


if __name__ == "__main__":
    main()
