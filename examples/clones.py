"""Compiles and runs what the program prints for `Clone` and `Copy` of the definitions below, on all pairs of a few values.

Usage: clones.py PROGRAM FOLDER [NAME..]

See answers.sh, which calls it. The fields have a type whose `clone` adds 100 to its number, and whose `clone_from`
multiplies the number that is there by 1000 and adds that of the source; the methods are those of METHODS. What is
made, and which functions are called on which numbers, is compared with what `Clone` means. A definition without
values is compiled alone. Prints a line for each definition, or for those that are named, and fails where one is
rejected, is not compiled, or is answered otherwise.
"""

import itertools
import sys

from definitions import cases, compiled, expanded, made, plain

# What the methods make of a number.
METHODS = {"twice": lambda x: 2 * x, "own :: made": lambda x: -x, "source": lambda x: x + 7, "_d_0": lambda x: x + 8, "thrice ::< Self >": lambda x: 3 * x}


def cloned(own):
    """What `clone` of a field makes."""
    return own + 100


def cloned_from(own, source):
    """What a field becomes by `clone_from`."""
    return own * 1000 + source


DECLARED = """thread_local! { static CALLS: ::std::cell::RefCell<::std::vec::Vec<::std::string::String>> = ::std::cell::RefCell::new(::std::vec::Vec::new()); }
fn called(call: ::std::string::String) { CALLS.with(|calls| calls.borrow_mut().push(call)) }
#[derive(::std::marker::Copy)] pub struct N(pub i128);
impl ::core::clone::Clone for N {
    fn clone(&self) -> Self { called(::std::format!("clone {}", self.0)); N(self.0 + 100) }
    fn clone_from(&mut self, source: &Self) { called(::std::format!("clone_from {} {}", self.0, source.0)); self.0 = self.0 * 1000 + source.0; }
}
pub fn twice(value: &N) -> N { called(::std::format!("twice {}", value.0)); N(2 * value.0) }
pub mod own { pub fn made(value: &crate::N) -> crate::N { crate::called(::std::format!("own :: made {}", value.0)); crate::N(-value.0) } }
pub fn source(value: &N) -> N { called(::std::format!("source {}", value.0)); N(value.0 + 7) }
pub fn _d_0(value: &N) -> N { called(::std::format!("_d_0 {}", value.0)); N(value.0 + 8) }
pub fn thrice<T>(value: &N) -> N { called(::std::format!("thrice ::< Self > {}", value.0)); N(3 * value.0) }
type Of<T, U> = <(T, U) as First>::Is; trait First { type Is; } impl<T, U> First for (T, U) { type Is = T; }
fn taken() -> ::std::string::String { CALLS.with(|calls| ::core::mem::take(&mut *calls.borrow_mut()).join(", ")) }"""

TWICE = "#[educe(Clone(method = twice))]"
MADE = "#[educe(Clone(method(\"own::made\")))]"

# A name, a definition, and how each field of each case is cloned: by its type, by a method, or where the whole value is
# copied, not at all. A field that is a `PhantomData` stands behind the others of its case.
CLONES = [
    # Structs.
    ("named fields", "#[educe(Clone)] struct S { a: N, b: N }", [["", ""]]),
    ("fields without names", "#[educe(Clone)] struct S(N, N, N);", [["", "", ""]]),
    ("no fields", "#[educe(Clone)] struct S;", [[]]),
    ("empty brackets", "#[educe(Clone)] struct S {}", [[]]),
    ("empty round brackets", "#[educe(Clone)] struct S();", [[]]),
    ("methods", f"#[educe(Clone)] struct S {{ {TWICE} a: N, b: N, {MADE} c: N }}", [["twice", "", "own :: made"]]),
    ("one method alone", f"#[educe(Clone)] struct S({TWICE} N);", [["twice"]]),
    ("raw names", f"#[educe(Clone)] struct r#Struct {{ r#type: N, {TWICE} r#fn: N }}", [["", "twice"]]),
    ("a packed struct", "#[educe(Clone)] #[repr(packed)] struct S { a: N, b: N }", [["", ""]]),
    ("a packed struct with a method", f"#[educe(Clone)] #[repr(C, packed(2))] struct S(N, {MADE} N);", [["", "own :: made"]]),
    ("a packed struct without fields", "#[educe(Clone)] #[repr(packed)] struct S;", [[]]),
    ("a packed struct with a parameter", "#[educe(Clone)] #[repr(packed)] struct S<T>(T, N);", [["", ""]]),
    ("a parameter", "#[educe(Clone)] struct S<T> { a: T, b: N }", [["", ""]]),
    ("parameters of two kinds, and a where clause", "#[educe(Clone)] struct S<'a, T, U> where T: 'a { a: T, b: U, c: ::core::marker::PhantomData<&'a T> }", [["", "", "phantom"]]),
    ("a method of a field with a parameter", f"#[educe(Clone)] struct S<T: Copy> {{ a: T, {TWICE} b: N }}", [["", "twice"]]),
    ("`Self` in a method", f"#[educe(Clone)] struct S<T: Copy> {{ a: T, #[educe(Clone(method = thrice::<Self>))] b: N, {TWICE} c: N }}", [["", "thrice ::< Self >", "twice"]]),
    ("`Self` in the type of a field with a method", f"#[educe(Clone)] struct S<T: Copy>({TWICE} Of<N, Self>, T);", [["twice", ""]]),
    ("bounds that are written", "#[educe(Clone(bound(T: ::core::clone::Clone)))] struct S<T>(T, N);", [["", ""]]),
    ("bounds of every parameter", "#[educe(Clone(bound(*)))] struct S<T>(N, T);", [["", ""]]),
    ("names that generated code would declare", "#[educe(Clone)] struct S { source: N, #[educe(Clone(method(source)))] educe__value: N, __educe_clone_method_used: N }", [["", "source", ""]]),
    # Enums.
    ("units", "#[educe(Clone)] enum E { A, B, C }", [[], [], []]),
    ("one variant", "#[educe(Clone)] enum E { A(N, N) }", [["", ""]]),
    ("each form", "#[educe(Clone)] enum E { A, B(N, N), C { x: N }, D(), F {} }", [[], ["", ""], [""], [], []]),
    ("methods of variants", f"#[educe(Clone)] enum E {{ A({TWICE} N, N), B {{ x: N, {MADE} y: N }}, C }}", [["twice", ""], ["", "own :: made"], []]),
    ("`Self` in a method of a variant", "#[educe(Clone)] enum E<T> { A(T), B(#[educe(Clone(method = thrice::<Self>))] N, T) }", [[""], ["thrice ::< Self >", ""]]),
    ("a method whose name is a variable's", "#[educe(Clone)] enum E { A(#[educe(Clone(method(_d_0)))] N), B(N) }", [["_d_0"], [""]]),
    ("fields that are named as variables are", "#[educe(Clone)] enum E { A { _s_: N, _d_: N, source: N }, B { _s_a: N } }", [["", "", ""], [""]]),
    ("discriminants", "#[educe(Clone)] #[repr(i8)] enum E { A(N) = 7, B = -3, C { x: N } }", [[""], [], [""]]),
    ("an enum with a parameter", "#[educe(Clone)] enum E<T> { A(T), B { x: N, y: T }, C }", [[""], ["", ""], []]),
    ("no variants", "#[educe(Clone)] enum E {}", []),
    ("an enum of raw names", f"#[educe(Clone)] enum r#Enum {{ r#fn, r#B {{ r#type: N, {TWICE} x: N }} }}", [[], ["", "twice"]]),
    # `Copy`.
    ("copied as a whole", "#[educe(Clone, Copy)] struct S { a: N, b: N }", [["copied", "copied"]]),
    ("an enum that is copied as a whole", "#[educe(Copy, Clone)] enum E { A, B(N), C { x: N, y: N } }", [[], ["copied"], ["copied", "copied"]]),
    ("a copied struct with a lifetime", "#[educe(Clone, Copy)] struct S<'a>(N, ::core::marker::PhantomData<&'a u8>);", [["copied", "phantom"]]),
    ("a method keeps from copying", f"#[educe(Clone, Copy)] struct S({TWICE} N, N);", [["twice", ""]]),
    ("a parameter keeps from copying", "#[educe(Clone, Copy)] struct S<T>(T, N);", [["", ""]]),
    ("predicates of `Copy` keep from copying", "#[educe(Clone, Copy(bound(N: ::core::marker::Copy)))] struct S<'a>(N, ::core::marker::PhantomData<&'a u8>);", [["", "phantom"]]),
    ("no variants, copied", "#[educe(Clone, Copy)] enum E {}", []),
    ("a packed struct that is copied", "#[educe(Clone, Copy)] #[repr(packed)] struct S(N, N);", [["copied", "copied"]]),
    ("an enum with a parameter that can be copied", "#[educe(Clone, Copy)] enum E<T> { A(T), B(N) }", [[""], [""]]),
    # Beside other traits.
    ("beside the comparisons", f"#[educe(Clone, PartialEq, Eq, PartialOrd, Ord, Hash)] struct S {{ #[educe(PartialEq(ignore), Ord(ignore), Hash(ignore))] {TWICE} a: N, #[educe(PartialEq(ignore), Ord(ignore), Hash(ignore))] b: N }}", [["twice", ""]]),
    ("lint attributes", f"#[deny(unused)] #[educe(Clone)] #[allow(dead_code)] enum E {{ A({TWICE} N), B }}", [["twice"], []]),
]


def numbers(count):
    """The numbers of the fields of a few values of a case."""
    if count <= 2:
        return list(itertools.product((1, 2, 11), repeat=count))
    return [tuple(1 + (place == changed) for place in range(count)) for changed in range(count + 1)]


class Meaning:
    """What `clone` and `clone_from` of a definition make, and what they call."""

    def __init__(self, definition, how):
        self.how, self.packed = how, "packed" in definition and "repr" in definition
        self.copied = any("copied" in fields for fields in how)

    def clone(self, case, own):
        """The numbers of a clone, and the calls."""
        if self.copied:
            return own, []
        found = [self.one(how, x) for how, x in zip(self.how[case], own)]
        return tuple(x for x, _ in found), [call for _, call in found]

    @staticmethod
    def one(how, x):
        """The clone of one field, and the call."""
        return (METHODS[how](x), f"{how} {x}") if how else (cloned(x), f"clone {x}")

    def clone_from(self, this, other):
        """The case and the numbers that a value becomes, and the calls."""
        if self.copied or this[0] != other[0]:
            found, calls = self.clone(*other)
            return (other[0], found), calls
        found = [
            self.one(how, y) if how or self.packed else (cloned_from(x, y), f"clone_from {x} {y}")
            for how, x, y in zip(self.how[this[0]], this[1], other[1])
        ]
        return (this[0], tuple(x for x, _ in found)), [call for _, call in found]


def shown(case, own, calls):
    """A line for a value and calls."""
    return f"{case} {list(own)} {', '.join(calls)}".rstrip()


def value_of(definition, case, own):
    """The expression of a value; a field without a number is a `PhantomData`."""
    _, _, fields = cases(definition)[case]
    parts = [f"N({x})" for x in own] + ["::core::marker::PhantomData"] * (len(fields) - len(own))
    return made(definition, case, parts)


def reading(definition, counts):
    """The function that shows a value."""
    lines = []
    for case, ((path, bracket, fields), count) in enumerate(zip(cases(definition), counts)):
        keys = [f"{key}: x{place}" for place, key in enumerate(fields[:count])]
        pattern = path + (f" {{ {', '.join(keys)}{', ' if keys else ''}.. }}" if bracket else "")
        read = ", ".join(f"{{ x{place} }}.0" for place in range(count))
        lines.append(f"{pattern} => ({case}, ::std::vec![{read}]),")
    return lines


def program_of(definition, impls, values, counts):
    """The program that prints what is made of each value, and of each pair."""
    arms = " ".join(reading(definition, counts))
    shows = f"match $value {{ {arms} }}"
    lines = [plain(definition), impls, DECLARED]
    lines.append("macro_rules! show { ($value:expr) => {{ let (case, own): (usize, ::std::vec::Vec<i128>) = " + shows
                 + '; ::std::println!("{}", ::std::format!("{} {:?} {}", case, own, taken()).trim_end()) }} }')
    lines.append("fn main() {")
    lines.append(f"    let values = || [{', '.join(value_of(definition, *value) for value in values)}];")
    lines.append("    for value in values() { let made = ::core::clone::Clone::clone(&value); show!(made); }")
    lines.append("    for i in 0..values().len() { for other in values() { let mut this = values().into_iter().nth(i).unwrap(); ::core::clone::Clone::clone_from(&mut this, &other); show!(this); } }")
    return "\n".join([*lines, "}", ""])


def tried(program, folder, example):
    """What comes of a definition."""
    _, definition, how = example
    impls = expanded(program, definition)
    if impls is None:
        return "rejected"
    held = [[x for x in fields if x != "phantom"] for fields in how]
    counts = [len(fields) for fields in held]
    values = [(case, own) for case, count in enumerate(counts) for own in numbers(count)]
    if not values:
        return "compiled" if compiled(folder, "\n".join([plain(definition), impls, "fn main() {}"])) else "NOT COMPILED"
    run = compiled(folder, program_of(definition, impls, values, counts))
    if run is None:
        return "NOT COMPILED"
    printed = run()
    if printed is None:
        return "WRONG: it does not end well"
    meaning = Meaning(definition, held)
    wanted = [shown(case, *meaning.clone(case, own)) for case, own in values]
    for this, other in itertools.product(values, repeat=2):
        (case, own), calls = meaning.clone_from(this, other)
        wanted.append(shown(case, own, calls))
    for at, (found, line) in enumerate(zip(printed.split("\n"), wanted)):
        if found != line:
            return f"WRONG: line {at} is {found!r} and not {line!r}"
    return f"cloned {len(values)}, and {len(values)} times {len(values)}"


def main(program, folder, *names):
    """Tries each definition, and answers the exit status."""
    examples = [example for example in CLONES if not names or example[0] in names]
    status = 0
    for example in examples:
        answer = tried(program, folder, example)
        print(f"{example[0]}: {answer}", flush=True)
        status = status if answer.startswith(("cloned", "compiled")) else 1
    print(f"{len(examples)} definitions with `Clone`")
    return status


if __name__ == "__main__":
    sys.exit(main(*sys.argv[1:]))
