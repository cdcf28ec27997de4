"""man_pages.py: makes the parts of the man pages with commands and options, from the help texts of the programs.

checks/options.py writes these parts, and compares them. Each stands between two comment lines. The synopsis has each
command with its options, required ones first. A command comes with its help, without the examples. An option comes
once; if it does not belong to all commands, or differs among them, the commands are named.
"""
import dataclasses
import itertools
import re
import textwrap

WIDTH = 120
BEGIN = '.\\" What follows is made of the helps, by checks/options.py --write\n'
END = '.\\" That was made of the helps\n'
MADE = re.compile(f"{re.escape(BEGIN)}.*?{re.escape(END)}", re.DOTALL)
LISTS = ("Commands", "Arguments", "Options")
OPTION = re.compile(r"(?<![\w-])--?[A-Za-z][\w-]*")
DEFAULT, VALUES = re.compile(r"\s*\[default: ([^\]]*)\]"), re.compile(r"\s*\[possible values: ([^\]]*)\]")


# THE HELPS

@dataclasses.dataclass
class Entry:
    """A command, argument or option in a help, as `--board <ROWS>`, and what stands behind it."""
    head: str
    text: str

    @property
    def names(self):
        """The names of an option, or that of an argument."""
        return tuple(OPTION.findall(self.head)) or (self.head.strip("[]<>."),)

    @property
    def value(self):
        """The name of an option's value, if it has one."""
        return self.head[self.head.index("<") + 1 : -1] if "<" in self.head else ""

    @property
    def values(self):
        """The values that it may have, if these are listed."""
        found = VALUES.search(self.text)
        return tuple(found[1].split(", ")) if found else ()

    @property
    def default(self):
        found = DEFAULT.search(self.text)
        return found[1] if found else ""

    @property
    def what(self):
        """The text without the default and the values."""
        return VALUES.sub("", DEFAULT.sub("", self.text))


@dataclasses.dataclass
class Help:
    about: str
    usage: str
    # The entries of each list.
    lists: dict
    # The paragraphs behind the lists, without the examples.
    rest: list

    def asks_for(self, option):
        """Whether an option has to be given."""
        return option.head in self.usage


def entries(lines):
    """The entries of a list. They begin further left than their texts."""
    found = []
    for line in lines:
        if re.match(r" {2}( {4})?\S", line):
            head, *text = re.split(r"  +", line.strip(), maxsplit=1)
            found.append(Entry(head, "".join(text)))
        else:
            found[-1].text = f"{found[-1].text}\n{line.strip()}".strip()
    return found


def read(text):
    """A help that a program printed."""
    about, usage, *paragraphs = text.strip("\n").split("\n\n")
    lists, rest = {name: [] for name in LISTS}, []
    for paragraph in paragraphs:
        first, *lines = paragraph.split("\n")
        if first.strip(":") in LISTS:
            lists[first.strip(":")] = entries(lines)
        elif first != "Examples:":
            rest.append(paragraph)
    return Help(about, usage, lists, rest)


# TEXTS IN ROFF

def escaped(text):
    return text.replace("\\", "\\e").replace("-", "\\-")


def roff(text, values=()):
    """A text in which options and what stands in backquotes are bold, and these names of values italic."""
    option, value = r"(?<![\w-])(?:\\-){1,2}[A-Za-z](?:\w|\\-)*", "|".join(values) or "(?!)"
    return re.sub(rf"`([^`]*)`|({option})|\b({value})\b",
                  lambda found: f"\\fI{found[3]}\\fR" if found[3] else f"\\fB{found[1] or found[2]}\\fR", escaped(text))


def filled(text):
    """The lines of a text. None begins as a macro does."""
    lines = textwrap.wrap(text, WIDTH - 2, break_long_words=False, break_on_hyphens=False)
    return [f"\\&{line}" if line[0] in ".'" else line for line in lines]


def explained(paragraph):
    """A paragraph of a help. Lines that are further in are a list of words, each with its text."""
    lines = re.sub(r"\n {3,}", " ", paragraph).splitlines()
    for is_list, some in itertools.groupby(lines, key=lambda line: line.startswith(" ")):
        if not is_list:
            yield from [".PP", *filled(roff(" ".join(some)))]
            continue
        for line in some:
            word, text = re.split(r"  +", line.strip(), maxsplit=1)
            yield from [".TP 12", f".B {escaped(word)}", *filled(roff(text))]


def shown(entry):
    """An option with its value, or an argument."""
    if not entry.head.startswith("-"):
        return f"\\fI{entry.names[0]}\\fR"
    names = ", ".join(f"\\fB{escaped(name)}\\fR" for name in entry.names)
    return f"{names}\\ \\fI{escaped(entry.value)}\\fR" if entry.value else names


# THE PARTS

def synopsis(program, commands):
    yield ".SH SYNOPSIS"
    for name, told in commands.items():
        options = [entry for entry in told.lists["Options"] if "--help" not in entry.names]
        yield f'.SY "{program} {name}"'
        yield from [shown(entry) for entry in options if told.asks_for(entry)]
        yield from [f"[{shown(entry)}]" for entry in options if not told.asks_for(entry)]
        yield from [f"[{shown(entry)}]" for entry in told.lists["Arguments"]]
        yield ".YS"
    yield from [f'.SY "{program} help"', "[\\fICOMMAND\\fR]", ".YS", f'.SY "{program} \\-\\-version"', ".YS"]


def all_commands(top, commands):
    yield ".SH COMMANDS"
    for entry in top.lists["Commands"]:
        yield from [f".SS {entry.head}", *filled(roff(entry.text))]
        for paragraph in commands[entry.head].rest if entry.head in commands else []:
            yield from explained(paragraph)


def alike(uses):
    """The uses of an option, those together that differ in their default at most."""
    found = {}
    for command, entry in uses:
        found.setdefault((entry.what, entry.values, entry.value, not entry.default), []).append((command, entry))
    return list(found.values())


def default_and_values(uses):
    """What is taken if an option is not given, that of most commands first, and the values that it may have."""
    commands, values = {}, uses[0][1].values
    for command, entry in uses:
        commands.setdefault(entry.default, []).append(command)
    first, *others = sorted(commands, key=lambda default: -len(commands[default]))
    if first:
        others = "".join(f"; for {' and '.join(commands[default])}: {default}" for default in others)
        yield f"[default: {first}{others}]"
    if values:
        yield f"[possible values: {', '.join(values)}]"


def lines_on(uses, is_named):
    """The lines of text on an option of some commands, in front of which these are named or not."""
    names = ", ".join(f"`{command}`" for command, _ in uses) + ": "
    first, *others = uses[0][1].what.split("\n")
    end = " ".join(default_and_values(uses))
    lines = [f"{names if is_named else ''}{first}", *others]
    lines = [*lines, end] if others else [f"{lines[0]} {end}"]
    return [roff(line, re.findall(r"\w+", uses[0][1].value)) for line in lines if line.strip()]


def told_option(uses, is_of_all):
    """An option, with a text for each group of commands in which it is the same."""
    yield from [".TP", ", ".join(dict.fromkeys(shown(entry) for _, entry in uses))]
    groups = alike(uses)
    lines = [line for some in groups for line in lines_on(some, len(groups) > 1 or not is_of_all)]
    for number, line in enumerate(lines):
        yield from [*([".br"] if number else []), *filled(line)]


def all_options(top, commands):
    """Each argument and option once, those of the whole program last."""
    uses = {}
    for command, told in [*commands.items(), ("", top)]:
        for entry in [*told.lists["Arguments"], *told.lists["Options"]]:
            uses.setdefault(entry.names, []).append((command, entry))
    last = [entry.names for entry in top.lists["Options"]]
    yield ".SH OPTIONS"
    for names in sorted(uses, key=lambda names: names in last):
        has = {command for command, _ in uses[names]}
        yield from told_option(uses[names], names in last or has == set(commands))


def parts(program, top, commands):
    """The parts of a man page in their order, of the helps of a program and of its commands."""
    for lines in (synopsis(program, commands), [*all_commands(top, commands), *all_options(top, commands)]):
        yield "".join(f"{line}\n" for line in lines)


def page(stands, made):
    """A man page in which these parts stand in place of those that it has."""
    made, pieces = list(made), MADE.split(stands)
    assert len(pieces) == len(made) + 1, f"{len(pieces) - 1} parts stand between comment lines, and not {len(made)}"
    return pieces[0] + "".join(BEGIN + part + END + piece for part, piece in zip(made, pieces[1:]))


def by_hand(stands):
    """What of a man page is not made, without fonts and with dashes."""
    return re.sub(r"\\f[A-Z]", "", MADE.sub("", stands)).replace("\\-", "-")
