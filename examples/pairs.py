"""Compiles and runs what the program prints for the enums of enums.py, on all pairs of a few values.

Usage: pairs.py PROGRAM FOLDER [NAME..]

See answers.sh, which calls it. The answers are compared with what the traits mean: values are equal where
they are of one variant and each compared field is equal; they are ordered by their discriminants, which
rustc computes for an enum of the same variants without fields, and then by the compared fields. Prints a
line for each enum, or for those that are named, and fails where one is rejected, is not compiled, or is
answered otherwise.
"""

import itertools
import sys

from definitions import FUNCTIONS, LEXEME, added, bare, cases, compiled, discriminant_type, expanded, made, plain, traits_of
from enums import DECLARED, ENUMS

def numbers(count):
    """The numbers of the fields of a few values of a case."""
    if count <= 2:
        return list(itertools.product((1, 2, 11), repeat=count))
    return [tuple(1 + (place == changed) for place in range(count)) for changed in range(count + 1)]


def compared(places, fields, other):
    """The two keys of each compared field; nothing in the place of keys that are never equal and have no order."""
    at = 0
    while at < len(places):
        place, sign = int(places[at], 16), places[at + 1:at + 2]
        first, second = fields[place], other[place]
        at += 1 + (sign in ("%", "-", "!"))
        if sign == "!":
            yield None
        elif sign == "%":
            yield first % 10, second % 10
        else:
            yield (second, first) if sign == "-" else (first, second)


def meant(trait, variants, discriminants, this, other):
    """What a trait's function is to answer for two values: a letter."""
    ordered = trait != "PartialEq"
    if this[0] != other[0]:
        return "<>"[discriminants[this[0]] > discriminants[other[0]]] if ordered else "n"
    for keys in compared(variants[this[0]], this[1], other[1]):
        if keys is None:
            return "?" if ordered else "n"
        if keys[0] != keys[1]:
            return "<>"[keys[0] > keys[1]] if ordered else "n"
    return "=" if ordered else "y"


SHOWN = {
    "PartialEq": 'if {} { "y" } else { "n" }',
    "PartialOrd": 'match {} { ::core::option::Option::None => "?", ::core::option::Option::Some(order) => letter(order) }',
    "Ord": "letter({})",
}

LETTER = """fn letter(order: ::core::cmp::Ordering) -> &'static str {
    match order { ::core::cmp::Ordering::Less => "<", ::core::cmp::Ordering::Equal => "=", ::core::cmp::Ordering::Greater => ">" }
}"""


def program_of(definition, impls, values):
    """The program that prints the discriminants, and for each trait the answers on all pairs of the values."""
    declared = [text for word, text in DECLARED.items() if word in LEXEME.findall(definition.replace('"', " "))]
    lines = [plain(definition), impls, *declared, LETTER, *added(impls)]
    names = [path.split("::")[-1] for path, _, _ in cases(definition)]
    if names:
        lines.append(bare(definition, "Bare"))
    lines.append("fn main() {")
    lines += [f'    ::std::print!("{{}} ", Bare::{name} as {discriminant_type(definition)});' for name in names]
    name = cases(definition)[0][0].split("::")[0] if names else "u8"
    lines.append(f"    let values: [{name}; {len(values)}] = [{', '.join(made(definition, *value) for value in values)}];")
    for trait in traits_of(impls):
        call = f"::core::cmp::{trait}::{FUNCTIONS[trait]}(this, other)"
        lines.append('    ::std::println!();')
        lines.append(f'    for this in &values {{ for other in &values {{ ::std::print!("{{}}", {SHOWN[trait].replace("{}", call, 1)}); }} }}')
    return "\n".join([*lines, "}", ""])


def tried(program, folder, enum):
    """What comes of an enum."""
    _, definition, variants = enum
    impls = expanded(program, definition)
    if impls is None:
        return "rejected"
    fields = [fields for _, _, fields in cases(definition)]
    values = [(case, own) for case, names in enumerate(fields) for own in numbers(len(names))]
    run = compiled(folder, program_of(definition, impls, values))
    if run is None:
        return "NOT COMPILED"
    printed = run()
    if printed is None:
        return "WRONG: it does not end well"
    first, *answers = printed.split("\n")
    discriminants = [int(number) for number in first.split()]
    traits = list(traits_of(impls))
    for trait, found in zip(traits, answers):
        wanted = "".join(meant(trait, variants[trait], discriminants, *pair) for pair in itertools.product(values, repeat=2))
        if found != wanted:
            at = next(at for at, (x, y) in enumerate(zip(found, wanted)) if x != y)
            pair = [values[at // len(values)], values[at % len(values)]]
            return f"WRONG: {trait} of {pair} is {found[at]} and not {wanted[at]}"
    return f"answered {len(traits)} times {len(values)} times {len(values)}"


def main(program, folder, *names):
    """Tries each enum, and answers the exit status."""
    enums = [enum for enum in ENUMS if not names or enum[0] in names]
    status = 0
    for enum in enums:
        answer = tried(program, folder, enum)
        print(f"{enum[0]}: {answer}", flush=True)
        status = status if answer.startswith("answered") else 1
    print(f"{len(enums)} enums")
    return status


if __name__ == "__main__":
    sys.exit(main(*sys.argv[1:]))
