"""How the program ends where memory, a read, a write or a device fails, and in a small stack.

usage: faults.py PROGRAM LIBRARY FOLDER

LIBRARY is the one that faults.sh compiles, FOLDER a temporary one.
"""

import errno
import itertools
import os
import subprocess
import sys
from collections import namedtuple
from pathlib import Path

Case = namedtuple("Case", "name words given status")
Ending = namedtuple("Ending", "status out err")

READ_FAULT, WRITE_FAULT, NO_ARGUMENTS = (Ending(status, b"", b"") for status in (3, 4, 8))
LIMIT = 131_072

SMALL = "#[educe(PartialEq)] struct S { a: u8 }"
NINE = "Debug, Clone, Copy, PartialEq, Eq, PartialOrd, Ord, Hash, Default"

TEXT = Case("a struct of one field", ["expand"], SMALL.encode(), 0)
SAMPLE = Case("a sample", ["sample", "3"], b"", 0)
CASES = [
    TEXT,
    SAMPLE,
    Case("a rejected text", ["expand"], b"#[educe] struct S;", 1),
    Case("an empty text", ["expand"], b"", 1),
    Case("no command", ["expnd"], b"", 2),
    Case("a text past the limit", ["expand"], b" " * (LIMIT + 1), 5),
    Case("bytes that are no text", ["expand"], b"struct S\xff;", 6),
]


def definitions():
    """The definitions of the examples, and one with all nine traits and many settings."""
    for path in sorted(Path(__file__).resolve().parent.glob("*.rs")):
        yield Case(path.name, ["expand"], path.read_bytes(), 0)
    traits = NINE.replace("Default", "Default(new)")
    first = "#[educe(Debug(name = x), Clone(method(c)), PartialEq(method(e)), Ord(rank = 2, reverse))] a: Vec<T>"
    second = "#[educe(Debug(method(d)), Hash(ignore), Default = 3)] b: Box<Self>"
    variants = f"A, #[educe(Default)] B {{ {first}, {second} }}, C(&'a T, (T, u8)) = 7"
    text = f"#[educe({traits})] #[allow(x)] enum E<'a, T: 'a> {{ {variants} }}"
    yield Case("all nine traits", ["expand"], text.encode(), 0)


class Runs:
    """The program and the library, how many runs there were, and how many of them ended wrongly."""

    def __init__(self, program, library, folder):
        self.program, self.library, self.folder = program, library, Path(folder)
        self.mark = os.open(self.folder / "mark", os.O_WRONLY | os.O_CREAT | os.O_APPEND)
        self.count = self.wrong = 0

    def run(self, case, shell=None, **how):
        """How the program ends over a case. A shell command, if there is one, starts it, as "$0" "$@"."""
        command = [self.program, *case.words] if shell is None else ["sh", "-c", shell, self.program, *case.words]
        path = self.folder / "given"
        path.write_bytes(case.given)
        with open(path, "rb") as given:
            devices = {"stdin": given, "stdout": subprocess.PIPE, "stderr": subprocess.PIPE}
            try:
                ran = subprocess.run(command, **{**devices, **how}, timeout=300)
            except subprocess.TimeoutExpired:
                return Ending("none in 300 seconds", b"", b"")
        return Ending(ran.returncode, ran.stdout or b"", ran.stderr or b"")

    def check(self, case, fault, ended, is_right):
        """Counts a run, and prints how it ended where that is wrong."""
        self.count += 1
        if not is_right:
            self.wrong += 1
            written = f"{ended.out[:100]!r}, {ended.err[:300]!r}"
            print(f"WRONG: {case.name}, {fault}: status {ended.status}, {written}", flush=True)

    def right(self, case):
        """How the program ends over a case without a fault."""
        ended = self.run(case)
        silent = ended.err if case.status == 0 else ended.out
        if ended.status != case.status or silent:
            self.check(case, "without a fault", ended, False)
        return ended

    def with_faults(self, case, **faults):
        """How the program ends over a case where the library makes calls fail, and whether one did."""
        environment = {**os.environ, "LD_PRELOAD": self.library, "FAULT_MARK": str(self.mark)}
        environment.update({f"FAULT_{name}": str(value) for name, value in faults.items()})
        before = os.fstat(self.mark).st_size
        ended = self.run(case, env=environment, pass_fds=(self.mark,))
        return ended, os.fstat(self.mark).st_size > before


def numbers():
    """The numbers of calls: each up to 2,000, and then about a hundred for each doubling."""
    number = 1
    while True:
        yield number
        number += 1 if number < 2_000 else number // 140


def in_turn(runs, case, is_right, kind, error, step=0, on=False):
    """Has one call after the other fail, alone or with all later ones, until none comes any more. The first one comes,
    but a read only where the command reads."""
    right = runs.right(case)
    calls = kind != "read" or case.words == ["expand"]
    for number in numbers():
        last = 10**9 if on else number
        ended, came = runs.with_faults(case, KIND=kind, FIRST=number, LAST=last, ERROR=error, STEP=step)
        fault = f"{kind} {number}{' and all later ones' if on else ''}: {errno.errorcode[error]}, step {step}"
        if not came:
            is_last = number > 1 or not calls
            runs.check(case, f"{fault}, which does not come", ended, ended == right and is_last)
            return
        runs.check(case, fault, ended, is_right(ended, right, number))


def is_front(ended, right):
    """Whether no more is written than the front of what is written without a fault."""
    return right.out.startswith(ended.out) and right.err.startswith(ended.err)


def survives(ended, right, _):
    """Whether a refused allocation is out of memory, behind a front of the answer, or changes nothing."""
    return ended in (right, NO_ARGUMENTS) or (ended.status == 7 and is_front(ended, right))


def check_memory(runs):
    """Each allocation is refused, alone and with all later ones."""
    for case in [*CASES, *definitions()]:
        in_turn(runs, case, survives, "memory", errno.ENOMEM)
        in_turn(runs, case, survives, "memory", errno.ENOMEM, on=True)


def check_reads(runs):
    """Each read moves few bytes, and fails."""
    for case in CASES:
        right = runs.right(case)
        for step in (7, 1_000):
            ended, _ = runs.with_faults(case, KIND="read", STEP=step)
            runs.check(case, f"reads of at most {step} bytes", ended, ended == right)
        step = 7 if len(case.given) < 1_000 else 1_000
        in_turn(runs, case, lambda ended, *_: ended == READ_FAULT, "read", errno.EIO, step)
        in_turn(runs, case, lambda ended, *_: ended == READ_FAULT, "read", errno.EAGAIN)
        in_turn(runs, case, lambda ended, right, _: ended in (right, READ_FAULT), "read", errno.EINTR, step)


def check_writes(runs):
    """Each write moves few bytes, and fails: what the writes before it moved is written."""
    for case in [*CASES, *definitions()]:
        right = runs.right(case)
        written = len(right.out) + len(right.err)
        for step in (7, 100):
            ended, _ = runs.with_faults(case, KIND="write", STEP=step)
            runs.check(case, f"writes of at most {step} bytes", ended, ended == right)

        def is_right(ended, right, number):
            moved = len(ended.out) + len(ended.err)
            return ended.status == 4 and is_front(ended, right) and moved == (number - 1) * step

        for step, error in itertools.product((7 if written < 1_000 else 100, written), (errno.EIO, errno.ENOSPC)):
            in_turn(runs, case, is_right, "write", error, step)


def check_outputs(runs):
    """Standard output or standard error is full, closed, a broken pipe, or a full pipe that does not wait."""
    for case in CASES:
        right = runs.right(case)
        used = 1 if case.status == 0 else 2
        for stream, name in (1, "stdout"), (2, "stderr"):
            ends = WRITE_FAULT if stream == used else right
            with open("/dev/full", "wb") as full:
                ended = runs.run(case, **{name: full})
            runs.check(case, f"{name} is full", ended, ended == ends)
            ended = runs.run(case, f'exec "$0" "$@" {stream}>&-')
            runs.check(case, f"{name} is closed", ended, ended == ends)
            for restores in (True, False):
                reading, writing = os.pipe()
                os.close(reading)
                ended = runs.run(case, restore_signals=restores, **{name: writing})
                os.close(writing)
                signal = "as usual" if restores else "ignored"
                runs.check(case, f"{name} is a broken pipe, SIGPIPE {signal}", ended, ended == ends)
            reading, writing = os.pipe2(os.O_NONBLOCK)
            os.write(writing, b"x" * 10**6)
            ended = runs.run(case, **{name: writing})
            os.close(reading)
            os.close(writing)
            runs.check(case, f"{name} is a full pipe that does not wait", ended, ended == ends)


def check_inputs(runs):
    """Standard input is a directory, closed, for writing alone, or an empty pipe that does not wait."""
    for case in CASES:
        ends = READ_FAULT if case.words == ["expand"] else runs.right(case)
        folder = os.open("/", os.O_RDONLY)
        ended = runs.run(case, stdin=folder)
        os.close(folder)
        runs.check(case, "stdin is a directory", ended, ended == ends)
        for shell in ('exec "$0" "$@" <&-', 'exec "$0" "$@" 0>/dev/null'):
            ended = runs.run(case, shell)
            runs.check(case, f"stdin of {shell}", ended, ended == ends)
        reading, writing = os.pipe2(os.O_NONBLOCK)
        ended = runs.run(case, stdin=reading)
        os.close(reading)
        os.close(writing)
        runs.check(case, "stdin is an empty pipe that does not wait", ended, ended == ends)


def check_arguments(runs):
    """An argument is no text."""
    for words in ([b"\xff"], [b"expand", b"\xff"], [b"\xffexpand"]):
        case = TEXT._replace(words=words)
        ended = runs.run(case)
        runs.check(case, f"arguments {words}", ended, ended == NO_ARGUMENTS)


# Around what nests: a type that each trait uses, the value of a field, and the value of a discriminant.
METHODS = "Clone(method(c)), Debug(method(d)), Default(expression = b)"
TYPE = f"#[educe({NINE})] struct S<'a, T> {{ #[educe({METHODS})] a: _ }}"
VALUE = "#[educe(Default)] struct S { #[educe(Default = _)] a: u8 }"
NUMBER = "#[educe(PartialOrd, Ord)] enum E { A = _, B }"

# How often a part may stand in itself or behind itself, the part, what stands inside, and what is around it.
DEEP = [
    (127, "(_)", "Self", TYPE),
    (127, "(_,)", "T", TYPE),
    (127, "[_]", "T", TYPE),
    (127, "[_; 1]", "T", TYPE),
    (127, "&'a _", "T", TYPE),
    (127, "*const _", "T", TYPE),
    (127, "Box<_>", "Self", TYPE),
    (127, "W<u8, _>", "T", TYPE),
    (127, "<_>::A", "T", TYPE),
    (127, "<_ as A>::B", "T", TYPE),
    (127, "fn(_)", "T", TYPE),
    (127, "fn() -> _", "T", TYPE),
    (127, "F(_)", "T", TYPE),
    (63, "dyn F() -> _", "T", TYPE),
    (63, "dyn F<A = _>", "T", TYPE),
    (63, "W<{ 1 as _ }>", "T", TYPE),
    (128, "&_", "T", "#[educe(PartialEq)] struct S<T> where _: A;"),
    (128, "A<_>", "T", "#[educe(Eq)] struct S<T> where T: _;"),
    (128, "&_", "T", "#[educe(Clone(bound(_: A)))] struct S<T>;"),
    (128, "&_", "T", '#[educe(Hash(bound = "_: A"))] struct S<T>;'),
    (127, "A<_>", "T", "#[educe(Ord)] struct S<T>(#[educe(Ord(method(a::<_>)))] T);"),
    (125, "(_)", "1", VALUE),
    (125, "(-_)", "1", VALUE),
    (125, "f(_)", "1", VALUE),
    (125, "a[_]", "1", VALUE),
    (125, "A { b: _ }", "1", VALUE),
    (125, "A { .._ }", "1", VALUE),
    (64, "a::<{ _ }>", "1", VALUE),
    (128, "-_", "1", VALUE),
    (128, "!_", "1", VALUE),
    (128, "*_", "a", VALUE),
    (128, "&mut _", "a", VALUE),
    (128, "_.b", "a", VALUE),
    (128, "_ .0", "a", VALUE),
    (128, "_.b::<u8>", "a", VALUE),
    (128, "_()", "f", VALUE),
    (128, "_[0]", "a", VALUE),
    (128, "_ + 1", "1", VALUE),
    (128, "_ && a", "a", VALUE),
    (128, "_ << 1", "1", VALUE),
    (128, "_ as u8", "1", VALUE),
    (127, "(_)", "1", NUMBER),
    (128, "-_", "1", NUMBER),
    (128, "_.b", "a", NUMBER),
    (128, "_ * 2", "1", NUMBER),
    (127, "(_)", "", "#[educe(Ord)] enum E { A = m!_, B }"),
    (127, "{_}", "", "#[educe(Ord)] #[a _] struct S;"),
]

# What stands as often as fits: a front, a part, what ends each part behind all of them, and a back.
LONG = [
    ("", "/*", "*/", SMALL),
    ("", "// a\n", "", SMALL),
    ("", "/// a\n", "", SMALL),
    ("", "#[a(b)]", "", SMALL),
    ("", "#[allow(a)]", "", SMALL),
    ("", "#[educe()]", "", SMALL),
    ("#[educe(PartialEq)] struct S(", "u8,", "", ");"),
    ("#[educe(Eq)] struct S<T>(", "W<T>,", "", ");"),
    ("#[educe(PartialEq)] struct S(A", "::A", "", ");"),
    ("#[educe(PartialEq)] struct S<T> where ", "T:A,", "", ";"),
    ("#[educe(Default)] struct S(#[educe(Default = f(", "1,", "", "))] u8);"),
    ("#[educe(Ord)] enum E { A = m!(", "a ", "", "), B }"),
]


def nested(times, part, inside, outer):
    """A part so often in itself, or behind itself, in the place of the `_` of an outer text."""
    start, stop = part.split("_")
    before, behind = outer.split("_")
    return before + start * times + inside + stop * times + behind


def in_small_stack(runs, case):
    """How the program ends over a case in a stack of 512 KiB, which is how it ends in a larger one."""
    right = runs.right(case)
    ended = runs.run(case, 'ulimit -s 512 && exec "$0" "$@"')
    runs.check(case, "a stack of 512 KiB", ended, ended == right)
    return right


def check_stack(runs):
    """The deepest texts of each kind, texts one level deeper, and the longest ones are read in a small stack."""
    for times, part, inside, outer in DEEP:
        row = (part, inside, outer)
        in_small_stack(runs, Case(f"{times} times {part}", ["expand"], nested(times, *row).encode(), 0))
        most = (LIMIT - len(inside + outer)) // (len(part) - 1)
        for past in (times + 1, most):
            case = Case(f"{past} times {part}", ["expand"], nested(past, *row).encode(), 1)
            ended = in_small_stack(runs, case)
            runs.check(case, "nesting", ended, ended.err.endswith(b": nested too deeply\n"))
    for front, part, end, back in LONG:
        most = (LIMIT - len(front + back)) // len(part + end)
        text = front + part * most + end * most + back
        in_small_stack(runs, Case(f"{most} times {part}", ["expand"], text.encode(), 0))
    in_small_stack(runs, Case("the largest sample", ["sample", "1000"], b"", 0))


PARTS = [
    ("faults of memory", check_memory),
    ("faults of reads", check_reads),
    ("faults of writes", check_writes),
    ("faults of standard output and standard error", check_outputs),
    ("faults of standard input", check_inputs),
    ("faults of arguments", check_arguments),
    ("texts in a small stack", check_stack),
]


def main():
    runs = Runs(*sys.argv[1:])
    for name, check in PARTS:
        count, wrong = runs.count, runs.wrong
        check(runs)
        print(f"{runs.count - count} {name}, {runs.wrong - wrong} wrong", flush=True)
    print(f"{runs.count} tried, {runs.wrong} wrong")
    sys.exit(1 if runs.wrong else 0)


if __name__ == "__main__":
    main()
