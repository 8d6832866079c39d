"""The examples of the documentation of the crate educe 0.8.1, each as a program of a Cargo package.

usage: cargo_documentation.py PROGRAM DERIVE LIST DOCUMENTATION FOLDER

PROGRAM is the program `educe`, DERIVE the folder of the macro, FOLDER a temporary one. DOCUMENTATION is the file `src/lib.rs`
of that crate, whose first comment has the examples. Each is built and run. LIST has a line for each that is not built, with
its number and the reason; the results have to be as it says.
"""
import os
import re
import subprocess
import sys

def blocks(text):
    """The code blocks of the first documentation comment, with the heading above each."""
    found, block, heading = [], None, ""
    for line in text[text.index("/*!") + 3:text.index("*/")].split("\n"):
        if block is not None and line.startswith("```"):
            found.append((heading, language, block))
            block = None
        elif block is not None:
            block.append(line)
        elif line.startswith("```"):
            block, language = [], line[3:]
        elif re.match(r"#+ ", line):
            heading = line.lstrip("# ")
    return found

def program_of(block):
    """The program that a code block shows. What asks for a feature of the crate is left out."""
    lines = [re.sub(r"^# ?", "", line) if re.match(r"#( |$)", line) else line for line in block]
    code = "\n".join(line for line in lines if not re.match(r" *#!?\[cfg\(.*feature.*\)\]$", line))
    if "fn main" not in code:
        code = "fn main() {\n" + code + "\n}"
    return "#![allow(dead_code, unused)]\n" + code + "\n"

def write_package(folder, derive, examples):
    """A package with a program for each example."""
    programs = os.path.join(folder, "src", "bin")
    os.makedirs(programs)
    with open(os.path.join(folder, "Cargo.toml"), "w") as manifest:
        manifest.write('[package]\nname = "documentation"\nversion = "0.1.0"\nedition = "2021"\n\n'
                       f'[dependencies]\neduce = {{ path = "{derive}" }}\n')
    for name, _, code in examples:
        with open(os.path.join(programs, name + ".rs"), "w", encoding="utf-8") as file:
            file.write(code)

def build(folder, program):
    """Builds all that can be built, and returns the messages."""
    environment = dict(os.environ, EDUCE=program, CARGO_TARGET_DIR=os.path.join(folder, "target"))
    command = ["cargo", "build", "--offline", "--keep-going", "--bins", "--message-format", "short"]
    return subprocess.run(command, cwd=folder, env=environment, capture_output=True, text=True).stderr

def runs(folder, name):
    """Whether the example was built, and whether it ends as it should; `None` if it was not built."""
    path = os.path.join(folder, "target", "debug", name)
    if not os.path.exists(path):
        return None
    return subprocess.run([path], capture_output=True).returncode == 0

def read_list(path):
    """The examples that are not built, with their reasons."""
    with open(path) as file:
        lines = [line.rstrip("\n") for line in file if line.strip() and not line.startswith("#")]
    return dict(line.split(" ", 1) for line in lines)

def main():
    program, derive, list_path, documentation, folder = sys.argv[1:]
    with open(documentation, encoding="utf-8") as file:
        found = blocks(file.read())
    shown = [(heading, block) for heading, language, block in found if language == "rust" and any("Educe" in line for line in block)]
    examples = [(f"example_{number:02}", heading, program_of(block)) for number, (heading, block) in enumerate(shown, 1)]
    write_package(folder, derive, examples)
    messages = build(folder, program)
    left_out = read_list(list_path)
    results = {name: runs(folder, name) for name, _, _ in examples}
    wrong = [name for name, result in results.items() if result != (None if name in left_out else True)]
    wrong += [name for name in left_out if name not in results]
    for name in wrong:
        print(f"{name}: OTHERWISE: {'not built' if results.get(name) is None else 'built'}")
        print("\n".join(line for line in messages.split("\n") if f"/{name}.rs" in line))
    count = sum(result is True for result in results.values())
    print(f"{count} of {len(results)} examples of the documentation compile and run; {len(left_out)} need what is left out")
    sys.exit(bool(wrong))

if __name__ == "__main__":
    main()
