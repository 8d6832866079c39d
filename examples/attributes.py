"""Compares the documents with the program and with the sources. Usage: attributes.py PROGRAM

In the code blocks of docs/ATTRIBUTES.md a line behind `$` is a definition. Behind the definitions stands what is printed
for each of them: the impls, or the message. A line that begins with a blank continues the one before.
"""

import re
import subprocess
import sys
from pathlib import Path

ROOT = Path(__file__).resolve().parent.parent
ATTRIBUTES = ROOT / "docs" / "ATTRIBUTES.md"
README = ROOT / "README.md"
TABLES = ROOT / "crates" / "educe_bound_classes" / "src" / "tables.rt"
LINTER = ROOT / "crates" / "educe_linter" / "src" / "lib.rt"

# The constants of tables.rt, and the traits whose rows they are.
TRAITS = {
    "CLONE": ["Clone"],
    "COPY": ["Copy"],
    "DEBUG": ["Debug"],
    "EQUALITY": ["PartialEq", "Eq"],
    "ORDER": ["PartialOrd", "Ord"],
    "HASH": ["Hash"],
    "DEFAULT": ["Default"],
}


def printed(program, definition):
    """What the program prints for a definition: the impls, or the message."""
    run = subprocess.run([program, "expand"], input=definition, capture_output=True, text=True)
    return run.stdout if run.returncode == 0 else run.stderr


def joined(lines):
    """The lines, each with those that continue it."""
    items = []
    for line in lines:
        if line.startswith(" ") and items:
            items[-1] += " " + line.strip()
        else:
            items.append(line)
    return items


def blocks(text, language):
    """The lines of each code block of this language."""
    return [block.splitlines() for block in re.findall(rf"^```{language}\n(.*?)^```$", text, re.M | re.S)]


def examples(lines):
    """The definitions of a block, each with what has to be printed for it."""
    definitions, expected = [], []
    for line in [*lines, "$ "]:
        if line.startswith("$ "):
            if expected:
                yield from ((definition, joined(expected)) for definition in definitions)
                definitions, expected = [], []
            definitions.append(line[2:])
        else:
            expected.append(line)


def check_examples(program):
    """The examples whose output differs, and how many there are."""
    found = [it for lines in blocks(ATTRIBUTES.read_text(), "text") for it in examples(lines)]
    wrong = [definition for definition, expected in found
             if joined(printed(program, definition + "\n").splitlines()) != expected]
    return wrong, len(found)


def table(text, heading):
    """A table of docs/ATTRIBUTES.md, found by the heading of its second column: the names of each trait."""
    rows = re.search(rf"^\| trait \| {heading} \|\n\|---\|---\|\n((?:\|.*\n)+)", text, re.M).group(1)
    by_trait = {}
    for row in rows.splitlines():
        traits, names = (re.findall(r"`([^`]*)`", cell) for cell in row.strip("|").split("|"))
        by_trait.update((trait, names) for trait in traits)
    return by_trait


def strings(source):
    """The string literals of a source."""
    return re.findall(r'"(\w+)"', source)


def source_tables(source):
    """Both tables by tables.rt."""
    lists = {name: strings(body) for name, body in re.findall(r"^const (\w+): &\[&str\] = &\[(.*?)\];", source, re.M | re.S)}
    unconditional, forwarding = {}, {}
    for name, body in re.findall(r"^pub const BOUND_EXCEPTIONS_(\w+): BoundExceptions = BoundExceptions \{(.*?)^\};", source, re.M | re.S):
        fields = dict(re.findall(r"(\w+):\s*(&\[.*?\]|\w+),", body, re.S))
        needless, handing = (
            lists[value] if value in lists else strings(value)
            for value in (fields["unconditional_types"], fields["forwarding_types"])
        )
        reference = ["&T"] if fields["shared_reference_is_unconditional"] == "true" else []
        for trait in TRAITS[name]:
            unconditional[trait] = reference + needless
            forwarding[trait] = handing
    return unconditional, forwarding


def check_tables():
    """The tables that differ from tables.rt."""
    text = ATTRIBUTES.read_text()
    headings = ["types that need nothing", "types that hand the question on"]
    return [heading for heading, by_source in zip(headings, source_tables(TABLES.read_text()))
            if table(text, heading) != by_source or len(by_source) != 9]


def check_first_example(program):
    """Whether the README's first example has, at the right, what the program prints for the left side."""
    lines = blocks(README.read_text(), "text")[0]
    column = lines[0].index("#[automatically_derived]")
    left = "".join(line[:column].rstrip() + "\n" for line in lines)
    right = "".join(line[column:] for line in lines)
    definition = left[left.index("#[derive"):]
    return "".join(right.split()) == "".join(printed(program, definition).split())


def check_linter():
    """Whether the README's linter is the crate's."""
    return "\n".join(blocks(README.read_text(), "rust")[0]) + "\n" == LINTER.read_text()


def main(program):
    wrong, count = check_examples(program)
    faults = [f"OTHERWISE: {definition}" for definition in wrong]
    faults += [f"NOT AS IN tables.rt: {heading}" for heading in check_tables()]
    if not check_first_example(program):
        faults.append("OTHERWISE: the first example of README.md")
    if not check_linter():
        faults.append("NOT AS IN educe_linter: the linter of README.md")
    print(*faults, f"{count} definitions, 2 tables", sep="\n")
    sys.exit(1 if faults or count == 0 else 0)


if __name__ == "__main__":
    main(sys.argv[1])
