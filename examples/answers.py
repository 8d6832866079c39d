"""Compiles and runs what the program prints for the definitions of tables of worked examples.

Usage: answers.py PROGRAM FOLDER TABLE..

See answers.sh, which calls it. Prints a line for each definition, and fails where one is rejected, is not
compiled, or is answered otherwise than its rows say.
"""

import json
import re
import sys

from definitions import FUNCTIONS, added, cases, compiled, discriminant_type, expanded, made, plain

# ---- the tables

TABLE = re.compile(r'^static \w+: &str = r(#+)"\n(.*?)\n"\1;', re.S | re.M)
VALUE = re.compile(r"(\d+)\(([^)]*)\)")
TRAITS = {"eq": "PartialEq", "partial_cmp": "PartialOrd", "cmp": "Ord", "hash": "Hash", "default": "Default", "new": "Default"}

# The expression by which `new` makes what `default` makes.
OWN_DEFAULT = "< Self as :: core :: default :: Default > :: default ( )"


def numbers(text):
    """The numbers of a list without brackets."""
    return tuple(int(number) for number in text.split(", ") if number)


def values(text):
    """The values that a text names: the variant, and the numbers of its fields."""
    return [(int(case), list(numbers(fields))) for case, fields in VALUE.findall(text)]


class Row:
    """A call of a trait's function or of `new`: what methods, constants and expressions answer, the values, and the outcome."""

    def __init__(self, name, definition, told, line):
        self.name, self.definition = name, definition
        self.calls = [told_call(rest) for word, rest in told if word == "method"]
        self.constants = [tuple(rest.rsplit(" -> ", 1)) for word, rest in told if word == "const"]
        expressions = [rest.rsplit(" -> ", 1) for word, rest in told if word == "value"]
        self.wholes = {f"whole {number}": text for text, number in expressions}
        call, self.outcome = line.split(" = ", 1)
        if self.wholes.get(self.outcome) == OWN_DEFAULT:
            self.outcome = dict(told)["default"].removeprefix("= ")
        self.word, self.values = call.split(" ")[0], values(call)
        self.trait = TRAITS[self.word]

    def asserted(self):
        """What holds of the call, as an expression of Rust."""
        name = cases(self.definition)[0][0].split("::")[0]
        if self.trait == "Hash":
            return f"fed::<{name}>(&{made(self.definition, *self.values[0])}) == {self.outcome}"
        if self.trait == "Default":
            call = f"<{name}>::new()" if self.word == "new" else f"<{name} as ::core::default::Default>::default()"
            return f"::core::matches!({call}, {self.pattern()})"
        given = ", ".join("&" + made(self.definition, *value) for value in self.values)
        return f"::core::cmp::{self.trait}::{FUNCTIONS[self.trait]}({given}) == {rust(self.outcome)}"

    def pattern(self):
        """The value that is made, as a pattern; of the whole type, the expression itself, which has to be one."""
        if not VALUE.fullmatch(self.outcome):
            return self.wholes[self.outcome]
        [(case, own)] = values(self.outcome)
        return made(self.definition, case, [f"N({number})" if "N<" in self.definition else number for number in own])


def told_call(text):
    """What a method answers: its path, the arguments, and the answer."""
    call, answer = text.rsplit(" -> ", 1)
    path, arguments = call.removesuffix(")").rsplit("(", 1)
    return path, numbers(arguments), answer


def rows_of(row):
    """The calls of functions in a row of a table, but for those that have no value."""
    front, *lines = row.split("\n: ")
    name, _, definition = front.partition("\n")
    told = [(word, rest) for word, _, rest in (line.partition(" ") for line in lines)]
    calls = [Row(name, definition, told, line) for line in lines if line.split(" ")[0] in TRAITS]
    return [call for call in calls if call.outcome != "stuck"]


def rows(text):
    """The calls of functions in the tables of a file."""
    tables = [body for _, body in TABLE.findall(text)]
    if len(tables) != len(re.findall("^static ", text, re.M)) or not tables:
        sys.exit("the tables are not read to their end")
    return [call for body in tables for row in body.split("\n\n") for call in rows_of(row)]


def rust(answer):
    """What a method or a function answers, as an expression."""
    ordered = re.sub(r"\b(Less|Equal|Greater)\b", r"::core::cmp::Ordering::\1", answer)
    return re.sub(r"\b(Some|None)\b", r"::core::option::Option::\1", ordered)


def kind_of(answer):
    """The kind of what a method answers."""
    if answer[0] == "[":
        return "Part"
    return "Truth" if answer in ("true", "false") else "PartialOrder" if answer[:4] in ("Some", "None") else "Order"


TYPES = {
    "Truth": "bool",
    "Order": "::core::cmp::Ordering",
    "PartialOrder": "::core::option::Option<::core::cmp::Ordering>",
}

# What a hasher is fed, and a type with a default value.
DECLARED = """struct Recorder(::std::vec::Vec<i128>);
impl ::core::hash::Hasher for Recorder {
    fn finish(&self) -> u64 { 0 }
    fn write(&mut self, _: &[u8]) { ::core::panic!("bytes") }
    fn write_u8(&mut self, x: u8) { self.0.push(x as i128) }
    fn write_u16(&mut self, x: u16) { self.0.push(x as i128) }
    fn write_u32(&mut self, x: u32) { self.0.push(x as i128) }
    fn write_i128(&mut self, x: i128) { self.0.push(x) }
    fn write_usize(&mut self, x: usize) { self.0.push(x as i128) }
}
fn fed<T: ::core::hash::Hash>(value: &T) -> ::std::vec::Vec<i128> {
    let mut recorder = Recorder(::std::vec::Vec::new());
    value.hash(&mut recorder);
    recorder.0
}
pub struct N<const D: i128>(pub i128);
impl<const D: i128> ::core::default::Default for N<D> { fn default() -> Self { N(D) } }
pub const X: u8 = 7;"""

# ---- the compiled code

FUNCTION = """pub fn {name}<T: ::core::marker::Copy + ::core::convert::Into<i128>>(first: &T, second: &T) -> {type} {{
    let numbers: (i128, i128) = ((*first).into(), (*second).into());
    match numbers {{ {arms} _ => ::core::panic!("{name} is called on {{numbers:?}}") }}
}}"""

FEEDING = """pub fn {name}<T: ::core::marker::Copy + ::core::convert::Into<i128>, H: ::core::hash::Hasher>(value: &T, state: &mut H) {{
    let number: i128 = (*value).into();
    state.write_i128(match number {{ {arms} _ => ::core::panic!("{name} is called on {{number}}") }})
}}"""

def names_of(path):
    """The names of a path, without arguments and where it begins."""
    return [x for x in re.sub(r"<.*>", "", path).replace(":", " ").split() if x not in ("self", "crate")]


def in_modules(names, text):
    """An item in the modules of its path."""
    for module in reversed(names[:-1]):
        text = f"pub mod {module} {{\n{text}\n}}"
    return text


def method(path, answers):
    """A function of this path that answers so, and panics where it is not to be called.

    It has the type of its first answer: a call that an answer of another type decides has no value."""
    names = names_of(path)
    kind = kind_of(next(iter(answers.values())))
    if kind == "Part":
        arms = "".join(f"{number} => {part[1:-1]}, " for (number,), part in answers.items())
        return in_modules(names, FEEDING.format(name=names[-1], arms=arms))
    arms = "".join(f"({a}, {b}) => {rust(answer)}, " for (a, b), answer in answers.items() if kind_of(answer) == kind)
    return in_modules(names, FUNCTION.format(name=names[-1], type=TYPES[kind], arms=arms))


def methods(own):
    """The functions that the rows of a definition call."""
    answers = {}
    for row in own:
        for path, arguments, answer in row.calls:
            if answers.setdefault(path, {}).setdefault(arguments, answer) != answer:
                sys.exit(f"{path} answers one call in two ways")
    return [method(path, table) for path, table in answers.items()]


def constants(own):
    """The constants that are discriminants."""
    ty = discriminant_type(own[0].definition)
    named = [(names_of(path), number) for path, number in own[0].constants]
    return [in_modules(names, f"pub const {names[-1]}: {ty} = {number};") for names, number in named if all(x.isidentifier() for x in names)]


def program_of(definition, impls, own):
    """The program that asserts the outcome of each row of a definition."""
    lines = [plain(definition), impls, *methods(own), *constants(own), *declared(own), *added(impls), "fn main() {"]
    for row in own:
        lines.append(f'    ::core::assert!({row.asserted()}, "{{}}", {json.dumps(row.name, ensure_ascii=False)});')
    return "\n".join([*lines, "}", ""])


def declared(own):
    """What rows of other traits than comparisons rest on."""
    return [DECLARED] if own[0].trait in ("Hash", "Default") else []


def tried(program, folder, own):
    """What comes of a definition."""
    definition = own[0].definition
    impls = expanded(program, definition)
    if impls is None:
        return "rejected"
    if compiled(folder, "\n".join([plain(definition), *constants(own), *declared(own), "fn main() {}"]), quietly=True) is None:
        return LEFT_OUT
    run = compiled(folder, program_of(definition, impls, own))
    if run is None:
        return "NOT COMPILED"
    return "WRONG" if run() is None else f"answered {len(own)}"


LEFT_OUT = "left out: rustc does not take the definition"


def is_possible(row):
    """Whether the values of the row are some of the definition."""
    held = cases(row.definition)
    return all(case < len(held) and len(fields) == len(held[case][2]) for case, fields in row.values)


def main(program, folder, *tables):
    """Tries each definition, and answers the exit status."""
    definitions, answers = {}, []
    for table in tables:
        with open(table, encoding="utf-8") as source:
            for row in filter(is_possible, rows(source.read())):
                definitions.setdefault((row.definition, str(row.constants)), []).append(row)
    for own in definitions.values():
        answers.append(tried(program, folder, own))
        print(f"{own[0].name}: {answers[-1]}", flush=True)
    answered = [own for own, answer in zip(definitions.values(), answers) if answer.startswith("answered")]
    others = [own for own in answered if declared(own)]
    print(f"{len(answered)} definitions, {sum(map(len, answered))} calls; {answers.count(LEFT_OUT)} definitions left out")
    print(f"of Hash and Default: {len(others)} definitions, {sum(map(len, others))} calls")
    return 0 if len(answered) + answers.count(LEFT_OUT) == len(answers) else 1


sys.exit(main(*sys.argv[1:]))
