#!/usr/bin/env python3
"""pack.py: packs the page into one file.

    web/pack.py MODULE VERSION OUTPUT

MODULE is the WebAssembly module, which is compressed, VERSION the line at the foot of the page. Those scripts that run
the module stand in package/, the others in js/. They stand one after another in one block, those that others import
first; the names at their top level have to differ. early.js comes before them, in front of the module. The page's
policy names the checksums of its scripts and of its style, so that nothing else runs, and nothing is fetched. Comments
on lines of their own are left out.
"""
import base64
import hashlib
import pathlib
import re
import sys
import zlib

HERE = pathlib.Path(__file__).resolve().parent
PACKAGE = HERE.parent / "package"
IMPORT = re.compile(r"^import \{[^}]*\} from '(?:\./|\.\./\.\./package/)(\w+)\.js';\n", re.MULTILINE)
DECLARED = re.compile(r"^(?:export )?(?:async )?(?:function\*?|class|const|let) (\w+)", re.MULTILINE)
# A comment of its own lines.
COMMENT = re.compile(r"^[ \t]*/\*\*(?:[^*]|\*(?!/))*\*/\n", re.MULTILINE)
POLICY = "default-src 'none'; script-src '{early}' '{script}' 'wasm-unsafe-eval'; style-src '{style}'; " \
    "worker-src blob:; img-src data:; base-uri 'none'; form-action 'none'"


def text_of(name):
    """The script of this name: one of the page, or one that the package has too."""
    own = HERE / "js" / f"{name}.js"
    return (own if own.exists() else PACKAGE / f"{name}.js").read_text()


def in_order(name, seen):
    """The names of a script and of those that it imports, these first."""
    if name in seen:
        return []
    seen.add(name)
    text = text_of(name)
    return [other for needed in IMPORT.findall(text) for other in in_order(needed, seen)] + [name]


def bundle(name, call):
    """One script of all that are needed, which calls one of their functions."""
    parts, names = [], {}
    for part in in_order(name, set()):
        text = text_of(part)
        several = "".join(re.findall(r"^const (\w+ = [^;=(]*, \w+ = [^;]*);", text, re.MULTILINE))
        for declared in DECLARED.findall(text) + re.findall(r", (\w+) = ", several):
            assert declared not in names, f"{declared} stands in {names[declared]}.js and in {part}.js"
            names[declared] = part
        text = IMPORT.sub("", text)
        assert not re.search(r"^import ", text, re.MULTILINE), f"{part}.js: an import of another form"
        text = COMMENT.sub("", text)
        parts.append(re.sub(r"^export ", "", text, flags=re.MULTILINE).strip())
    script = "'use strict';\n{\n" + "\n".join(parts) + f"\n{call}\n}}\n"
    assert "</script" not in script and "<!--" not in script
    return script


def checksum(text):
    return "sha256-" + base64.b64encode(hashlib.sha256(text.encode()).digest()).decode()


def page(module, version):
    style, script = (HERE / "style.css").read_text(), bundle("main", "void start();")
    early = (HERE / "js" / "early.js").read_text()
    parts = {
        "policy": POLICY.format(early=checksum(early), script=checksum(script), style=checksum(style)),
        "style": style,
        "early": early,
        "version": version,
        "module": base64.b64encode(zlib.compress(module, 9)).decode(),
        "worker": bundle("worker", "work();"),
        "script": script,
    }
    text = (HERE / "index.html").read_text()
    return re.sub(r"\{(\w+)\}", lambda found: parts[found[1]], text)


def main():
    module, version, output = sys.argv[1:]
    pathlib.Path(output).write_text(page(pathlib.Path(module).read_bytes(), version))


if __name__ == "__main__":
    main()
