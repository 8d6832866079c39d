"""Which definitions of published crates the program expands.

usage: real.py FOLDER PROGRAM

The structs and enums of the `.rs` files below FOLDER that derive one of the nine traits, each text once, with `educe`
attributes in place of these derives, are given to the program. The files of tests are left out, and so are the bodies of
`macro_rules!`.
"""
import collections
import concurrent.futures
import os
import re
import subprocess
import sys

from derives import definitions_of, with_attributes
from rust_source import place_of

LEFT_OUT = {"tests", "test", "benches", "examples", "testdata", "test_data", "fuzz"}

def files_of(folder):
    """The Rust files below a folder, in order."""
    for path, folders, names in os.walk(folder):
        folders[:] = sorted(name for name in folders if name not in LEFT_OUT)
        for name in sorted(names):
            if name.endswith(".rs"):
                yield os.path.join(path, name)

def definitions_at(path):
    """The definitions of a file, with their places."""
    try:
        with open(path, encoding="utf-8") as file:
            text = file.read()
    except UnicodeDecodeError:
        return []
    return [(path, place_of(text, found.start)[0], with_attributes(text, found)) for found in definitions_of(text)]

def message_of(program, definition):
    """The message with which the program rejects a definition; nothing if it expands it."""
    answer = subprocess.run([program, "expand"], input=definition.encode(), capture_output=True)
    if answer.returncode == 0 and answer.stdout:
        return None
    return answer.stderr.decode().split("\n")[0] or f"status {answer.returncode}"

def reason_of(message):
    """A message without its place and names."""
    return re.sub(r"`[^`]*`", "`..`", re.sub(r"^\d+:\d+: ", "", message))

def main():
    folder, program = sys.argv[1:]
    with concurrent.futures.ProcessPoolExecutor() as readers:
        found = [item for items in readers.map(definitions_at, files_of(folder), chunksize=16) for item in items]
    once = list({text: (path, line, text) for path, line, text in reversed(found)}.values())[::-1]
    with concurrent.futures.ThreadPoolExecutor(os.cpu_count()) as runners:
        messages = list(runners.map(lambda item: message_of(program, item[2]), once))
    rejected = [(item, message) for item, message in zip(once, messages) if message]
    for (path, line, _), message in rejected:
        print(f"{os.path.relpath(path, folder)}:{line}: {message}")
    for reason, count in collections.Counter(reason_of(message) for _, message in rejected).most_common():
        print(f"{count:5} {reason}")
    crates = {os.path.relpath(path, folder).split(os.sep)[0] for path, _, _ in once}
    print(f"{len(once) - len(rejected)} of {len(once)} definitions from {len(crates)} crates expand, {len(rejected)} are rejected")

if __name__ == "__main__":
    main()
