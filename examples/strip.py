"""Rust source text without its `educe` attributes, and with the impls that they ask for.

usage: strip.py FILE [PROGRAM]

Prints the file without its attributes `#[educe(..)]`, without the derive `Educe` and without `use educe::Educe;`. A line
that has nothing else goes. With the program `educe`, its impls follow behind each definition that had attributes. The place
of a message is that in the file.
"""
import re
import subprocess
import sys

from derives import paths_of
from rust_source import attributes_of, definitions_in, place_of, replaced

MACRO = ("Educe", "educe::Educe", "::educe::Educe")

def joined(places):
    """Places in order; those that overlap or touch are one."""
    found = []
    for start, end in sorted(places):
        if found and start <= found[-1][1]:
            found[-1] = (found[-1][0], max(end, found[-1][1]))
        else:
            found.append((start, end))
    return found

def derives_only_macro(attribute):
    """Whether an attribute is a derive of `Educe` and of nothing else."""
    return attribute.path == "derive" and all(path in MACRO for path in paths_of(attribute))

def removals(text, attributes):
    """The places to remove, so that no line is left that had nothing but attributes of the macro."""
    macro = [a for a in attributes if a.path == "educe" or derives_only_macro(a)]
    own = joined((a.start, re.compile(r"[ \t]*").match(text, a.end).end()) for a in macro)
    found = []
    for start, end in own:
        line_start = text.rfind("\n", 0, start) + 1
        whole = not text[line_start:start].strip() and text[end:end + 1] in ("\n", "")
        found.append((line_start, min(end + 1, len(text))) if whole else (start, end))
    return found

def other_derives(attributes):
    """Derives of `Educe` and of others, without `Educe`."""
    for attribute in attributes:
        if attribute.path == "derive" and any(path in MACRO for path in paths_of(attribute)) and not derives_only_macro(attribute):
            others = [path for path in paths_of(attribute) if path not in MACRO]
            yield attribute.start, attribute.end, f"#[derive({', '.join(others)})]"

def changes_of(text, attributes):
    """What has to be replaced so that nothing of the macro is left at these attributes."""
    return [(start, end, "") for start, end in removals(text, attributes)] + list(other_derives(attributes))

def imports_of(text):
    """The lines that import the macro."""
    return [(line.start(), line.end(), "") for line in re.finditer(r"^[ \t]*use (?:::)?educe::Educe;[ \t]*(?:\n|$)", text, re.M)]

def stripped(text):
    """The text without what belongs to the macro."""
    return replaced(text, changes_of(text, attributes_of(text)) + imports_of(text))

def impls_of(definition, program):
    """What the program prints for a definition, or its message."""
    try:
        answer = subprocess.run([program, "expand"], input=definition.encode(), capture_output=True)
    except OSError as error:
        sys.exit(f"{program}: {error.strerror}")
    if answer.returncode == 0:
        return answer.stdout.decode(), None
    return None, answer.stderr.decode().rstrip() or f"the program ended with status {answer.returncode}"

def located(message, text, start):
    """The message with its place in the file."""
    place = re.match(r"(\d+):(\d+): ", message)
    if not place:
        return "{}:{}: {}".format(*place_of(text, start), message)
    line, column = map(int, place.groups())
    first_line, first_column = place_of(text, start)
    column += first_column - 1 if line == 1 else 0
    return f"{first_line + line - 1}:{column}: {message[place.end():]}"

def expanded(text, program):
    """The text without what belongs to the macro and with the impls; and the messages."""
    changes, messages = imports_of(text), []
    for item in definitions_in(text):
        if not any(attribute.path == "educe" for attribute in item.attributes):
            continue
        items, message = impls_of(text[item.start:item.end], program)
        if message:
            messages.append(located(message, text, item.start))
        else:
            changes.append((item.end, item.end, "\n\n" + items.rstrip("\n")))
        changes += changes_of(text, item.attributes + item.inner)
    return replaced(text, changes), messages

def main():
    if len(sys.argv) not in (2, 3):
        sys.exit("usage: strip.py FILE [PROGRAM]")
    try:
        with open(sys.argv[1], encoding="utf-8", newline="") as file:
            text = file.read()
    except OSError as error:
        sys.exit(f"{sys.argv[1]}: {error.strerror}")
    if len(sys.argv) == 2:
        sys.stdout.write(stripped(text))
        return
    result, messages = expanded(text, sys.argv[2])
    for message in messages:
        print(f"{sys.argv[1]}:{message}", file=sys.stderr)
    if messages:
        sys.exit(1)
    sys.stdout.write(result)

if __name__ == "__main__":
    main()
