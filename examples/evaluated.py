"""Prints the enums of enums.py, or the definitions of clones.py, as worked examples: what each function answers on all
pairs of a few values.

Usage: evaluated.py PROGRAM FOLDER enums|clones > TABLE

See answers.sh, which calls it. The tables have the form of those in crates/educe_vectors/src/value_examples, so the
evaluator can be asked what compiled code is asked by pairs.py and clones.py. Its values are fewer: a variant with fields
has two or three. Definitions without values have no rows. Where the whole value is copied, there is no `clone_from`.
"""

import itertools
import re
import sys

import clones
from clones import CLONES, Meaning, cloned, cloned_from
from definitions import FUNCTIONS, cases, compiled, expanded, traits_of
from enums import ENUMS
from pairs import meant, program_of

ANSWERS = {"y": "true", "n": "false", "<": "Less", "=": "Equal", ">": "Greater"}
ANSWERS |= {"P" + x: f"Some({ANSWERS[x]})" for x in "<=>"}
ANSWERS["P?"] = "None"

# What the methods of enums.py answer.
METHODS = {
    "same_digit": lambda x, y: "ny"[x % 10 == y % 10],
    "never": lambda x, y: "n",
    "by_digit": lambda x, y: order(x % 10, y % 10),
    "part_by_digit": lambda x, y: "P" + order(x % 10, y % 10),
    "no_order": lambda x, y: "P?",
    "backwards": lambda x, y: order(y, x),
    "discriminant": lambda x, y: order(y, x),
    "other :: this": lambda x, y: order(y, x),
}

HEAD = """//! Worked examples on all pairs of a few values (documentation of `educe`, PartialEq; PartialOrd; Ord; Clone; Copy).
//! examples/evaluated.py prints them.

use crate::tables::check_table;
use std::test::Fail;
"""


def order(first, second):
    """A letter for the order of two numbers."""
    return "<=>"[(first > second) - (first < second) + 1]


def values_of(definition):
    """A few values of each case: no field, or all fields 1, the first 2, the last 11."""
    found = []
    for case, (_, _, fields) in enumerate(cases(definition)):
        ones = (1,) * len(fields)
        found += [(case, x) for x in dict.fromkeys([ones, (2, *ones[1:])[:len(fields)], (*ones[:-1], 11)[:len(fields)]])]
    return found


def told(impls):
    """Lines for what methods answer."""
    paths = [path for path in METHODS if re.search(rf"(?<!:: )\b{path} \( _+s_", impls)]
    return [
        f": method {path}({x}, {y}) -> {ANSWERS[METHODS[path](x, y)]}"
        for path in paths for x, y in itertools.product((1, 2, 11), repeat=2)
    ]


def numbers_of(definition, impls, discriminants):
    """Lines for the numbers of the expressions that are no literals."""
    written = re.findall(r"Self :: (\S+) [^=]*=> const \{ (?!let )(.*?) \} ,", impls)
    names = [path.split("::")[-1] for path, _, _ in cases(definition)]
    found = {text: discriminants[names.index(name)] for name, text in written if not re.fullmatch(r"(- )?\d\w*", text)}
    return [f": const {text} -> {number}" for text, number in found.items()]


def shown(letter, trait):
    """An outcome."""
    return ANSWERS["P" + letter] if trait == "PartialOrd" else ANSWERS[letter]


def held(value):
    """A value as the table writes it."""
    return f"{value[0]}({', '.join(map(str, value[1]))})"


def rows(program, folder, enum):
    """The rows of an enum, one for each of its traits."""
    name, definition, variants = enum
    impls, values = expanded(program, definition), values_of(definition)
    discriminants = [int(number) for number in compiled(folder, program_of(definition, impls, []))().split("\n")[0].split()]
    for trait in traits_of(impls) if values else ():
        answered = [
            f": {FUNCTIONS[trait]} {held(x)} {held(y)} = {shown(meant(trait, variants[trait], discriminants, x, y), trait)}"
            for x, y in itertools.product(values, repeat=2)
        ]
        yield "\n".join([f"{name}, {trait}", definition, *(told(impls) or numbers_of(definition, impls, discriminants)), *answered])


# What `Clone` makes of a whole value is this more than the place of its variant.
WHOLE = 500


def answer_of(call):
    """The line for what a call of `clone`, of `clone_from` or of a method makes of a field."""
    path, *given = call.split(" ") if call.startswith("clone_from ") else call.rsplit(" ", 1)
    numbers = [int(number) for number in given]
    if path == "clone_from":
        return f": CloneFrom {', '.join(given)} -> {cloned_from(*numbers)}"
    if path == "clone":
        return f": Clone {given[0]} -> {cloned(*numbers)}"
    return f": method {path}({given[0]}) -> {clones.METHODS[path](*numbers)}"


def clone_rows(example):
    """The row of a definition with `Clone`; a field that is a `PhantomData` has a number here."""
    name, definition, how = example
    meaning = Meaning(definition, [["" if x == "phantom" else x for x in fields] for fields in how])
    values, lines, answered = values_of(definition), [], []
    for value in values:
        made, calls = meaning.clone(*value)
        lines += map(answer_of, calls)
        answered.append(f": clone {held(value)} = {held((value[0], made))}")
    for this, other in itertools.product([] if meaning.copied else values, repeat=2):
        if this[0] == other[0]:
            made, calls = meaning.clone_from(this, other)
            lines += map(answer_of, calls)
            outcome = held(made)
        else:
            lines.append(f": CloneWhole {other[0]} -> {WHOLE + other[0]}")
            outcome = f"whole {WHOLE + other[0]}"
        answered.append(f": clone_from {held(this)} {held(other)} = {outcome}")
    if values:
        yield "\n".join([name, definition, *dict.fromkeys(lines), *answered])


def main(program, folder, which):
    """Prints the tables."""
    print(HEAD)
    tables = [rows(program, folder, enum) for enum in ENUMS] if which == "enums" else map(clone_rows, CLONES)
    for place, found in enumerate(map("\n\n".join, tables)):
        if found:
            print(f'static TABLE_{place}: &str = r##"\n{found}\n"##;\n')
            print(f"#[test]\nfn table_{place}_is_evaluated(rt: HostRuntime) -> Result<(), Fail> {{ check_table(rt.alloc(), TABLE_{place}) }}\n")


main(*sys.argv[1:])
