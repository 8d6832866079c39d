"""What the derive macro reports where something is wrong.

usage: cargo_faults.py PROGRAM DERIVE FAULTS FOLDER

DERIVE is the folder of the macro, FAULTS that of the faulty files, FOLDER a temporary one. The files are built with the
given program. Behind `//~` stands the error of the line, as `COLUMN: MESSAGE`; each has to be reported, and no other.
Then one definition is built with programs that give no answer: the error has to name the program and what failed.
"""
import os
import re
import shutil
import stat
import subprocess
import sys

ADVICE = "install `educe` on the search path, or set the variable EDUCE to its path"
DEFINITION = "use educe::Educe;\n\n#[derive(Educe)]\n#[educe(Debug)]\npub struct Point {\n    pub x: i32,\n}\n"
ERROR = re.compile(r"^src/(\S+?\.rs):(\d+):(\d+): error(?:\[\w+\])?: (.*)$", re.M)

def make_package(folder, name, derive):
    """A package that depends on the macro, without sources."""
    os.makedirs(os.path.join(folder, "src", "bin"))
    with open(os.path.join(folder, "Cargo.toml"), "w") as manifest:
        manifest.write(f'[package]\nname = "{name}"\nversion = "0.1.0"\nedition = "2021"\n\n'
                       f'[dependencies]\neduce = {{ path = "{derive}" }}\n')

def errors(folder, environment):
    """The errors of a build, as file, line, column and message, and all that was written."""
    command = ["cargo", "build", "--offline", "--keep-going", "--message-format", "short"]
    made = subprocess.run(command, cwd=folder, env=environment, capture_output=True, text=True)
    found = [(file, int(line), int(column), message) for file, line, column, message in ERROR.findall(made.stderr)]
    return made.returncode, sorted(found), made.stderr

def with_program(program):
    """The environment in which the macro asks this program."""
    return dict(os.environ, EDUCE=program)

def marked(path):
    """The errors that a file says it has."""
    with open(path, encoding="utf-8") as file:
        for number, line in enumerate(file, 1):
            mark = re.search(r"//~ (\d+): (.*)$", line)
            if mark:
                yield number, int(mark.group(1)), mark.group(2)

def check_files(program, derive, faults, folder):
    """Builds the faulty files, and compares the errors with those that they say."""
    make_package(folder, "faults", derive)
    wanted = []
    for name in sorted(os.listdir(faults)):
        shutil.copy(os.path.join(faults, name), os.path.join(folder, "src", "bin", name))
        wanted += [(f"bin/{name}", *error) for error in marked(os.path.join(faults, name))]
    _, found, written = errors(folder, with_program(program))
    wrong = sorted(set(wanted) ^ set(found))
    for error in wrong:
        print("NOT REPORTED:" if error in wanted else "NOT EXPECTED:", *error)
    print(f"{len(wanted)} errors of definitions, {len(wrong)} wrong")
    if wrong:
        print(written)
    return bool(wanted) and not wrong

def fake(folder, name, script, mode=0o755):
    """A program that is a shell script."""
    path = os.path.join(folder, name)
    with open(path, "w") as file:
        file.write(f"#!/bin/sh\n{script}\n")
    os.chmod(path, mode)
    return path

def fakes(folder):
    """Programs that give no answer, and what is said of each."""
    readable = stat.S_IRUSR | stat.S_IWUSR
    yield os.path.join(folder, "missing"), "was not found"
    yield fake(folder, "plain", "", readable), "could not be started: Permission denied (os error 13)"
    yield fake(folder, "signal", "kill -9 $$"), "ended with signal: 9 (SIGKILL)"
    yield fake(folder, "nothing", "cat > /dev/null"), "printed no items"
    yield fake(folder, "older", "echo usage >&2; exit 2"), "does not know the command `expand`: it is another program"
    yield fake(folder, "silent", "exit 1"), "ended with exit status: 1"
    yield fake(folder, "memory", "exit 7"), "ended with exit status: 7"
    yield fake(folder, "bytes", r"printf '\377'"), "printed bytes that are not UTF-8"
    yield fake(folder, "brackets", "echo 'impl {'"), "printed what are no Rust tokens"

def check_fakes(derive, folder):
    """Builds one definition with each of these programs."""
    make_package(folder, "programs", derive)
    with open(os.path.join(folder, "src", "lib.rs"), "w") as source:
        source.write(DEFINITION)
    good = True
    for program, text in fakes(folder):
        status, found, written = errors(folder, with_program(program))
        front = f"the program `{program}` {text}"
        reported = [(file, line, column, message.startswith(front) and message.endswith("; " + ADVICE))
                for file, line, column, message in found]
        right = status != 0 and reported == [("lib.rs", 3, 10, True)]
        print(f"{os.path.basename(program)}: {text if right else 'OTHERWISE: ' + written}")
        good &= right
    return good

def check_unread(derive, folder):
    """A program that reads nothing of a definition that is longer than a pipe holds must not end the compiler."""
    make_package(folder, "unread", derive)
    with open(os.path.join(folder, "src", "lib.rs"), "w") as source:
        source.write(DEFINITION.replace("pub x", f"/// {'x' * 200000}\n    pub x"))
    program = fake(folder, "deaf", "exec 0<&-\nexit 0")
    _, found, written = errors(folder, with_program(program))
    right = [error[3] for error in found] == [f"the program `{program}` printed no items; {ADVICE}"]
    print(f"deaf: {'printed no items' if right else 'OTHERWISE: ' + written}")
    return right

def check_path(program, derive, folder):
    """Without `EDUCE` the program is the one on the search path."""
    make_package(folder, "path", derive)
    with open(os.path.join(folder, "src", "lib.rs"), "w") as source:
        source.write(DEFINITION)
    tools = os.path.join(folder, "tools")
    os.mkdir(tools)
    os.symlink(program, os.path.join(tools, "educe"))
    environment = {name: value for name, value in os.environ.items() if name != "EDUCE"}
    environment["PATH"] = tools + os.pathsep + environment["PATH"]
    status, _, written = errors(folder, environment)
    print("search path:", "found" if status == 0 else written)
    return status == 0

def main():
    program, derive, faults, folder = sys.argv[1:]
    os.environ["CARGO_TARGET_DIR"] = os.path.join(folder, "target")
    good = check_files(program, derive, faults, os.path.join(folder, "faults"))
    good &= check_fakes(derive, os.path.join(folder, "programs"))
    good &= check_unread(derive, os.path.join(folder, "unread"))
    good &= check_path(program, derive, os.path.join(folder, "path"))
    sys.exit(not good)

if __name__ == "__main__":
    main()
