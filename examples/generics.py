"""Compiles and runs what the program prints for definitions with generic parameters, bounds and packed structs.

Usage: generics.py PROGRAM FOLDER [NAME..]

See generics.sh, which calls it. A program is a definition without its `educe` attributes, what is printed for it, and
a use of the impls at one type: its values, which are in ascending order, are compared with each other. Prints a line
for each definition, or for those that are named, and fails where one is rejected, is not compiled, or is answered
otherwise. The last definitions are those of docs/DIFFERENCES.md that rustc rejects, with the code or the words of its error.
"""

import sys

from definitions import FUNCTIONS, LEXEME, added, compiled, errors, expanded, plain, traits_of

USED = """#![allow(unused_imports)]
use std::cell::RefCell;
use std::cmp::Reverse;
use std::collections::{BTreeMap, BTreeSet, HashMap, HashSet, LinkedList, VecDeque};
use std::marker::PhantomData;
use std::mem::{Discriminant, discriminant};
use std::num::{Saturating, Wrapping};
use std::ptr::{NonNull, null};
use std::rc::Rc;
use std::sync::Arc;"""

# What is declared beside a definition that has the word, or whose values have it.
DECLARED = {
    "Opaque": "#[derive(Clone, Copy)] struct Opaque;",
    "Wrapper": "#[derive(Clone, Copy, PartialEq, Eq, PartialOrd, Ord)] struct Wrapper<T>(T);",
    "Length": "#[derive(PartialEq, Eq, PartialOrd, Ord)] struct Length<const N: usize>([u8; N]);",
    "ByText": """struct ByText<T>(T);
impl<T: ToString> PartialEq for ByText<T> { fn eq(&self, other: &Self) -> bool { self.0.to_string() == other.0.to_string() } }
impl<T: ToString> PartialOrd for ByText<T> { fn partial_cmp(&self, other: &Self) -> Option<std::cmp::Ordering> { self.0.to_string().partial_cmp(&other.0.to_string()) } }
struct Shown(u8);
impl std::fmt::Display for Shown { fn fmt(&self, f: &mut std::fmt::Formatter<'_>) -> std::fmt::Result { write!(f, "{}", 9 - self.0) } }""",
    "Family": "trait Family { type Item; } struct Bytes; impl Family for Bytes { type Item = u8; }",
    "Shape": """trait Shape<T> { fn size(&self) -> u8; }
impl<T> Shape<T> for u8 { fn size(&self) -> u8 { *self } }
impl<T> PartialEq for dyn Shape<T> { fn eq(&self, other: &Self) -> bool { self.size() == other.size() } }
impl<T> PartialOrd for dyn Shape<T> { fn partial_cmp(&self, other: &Self) -> Option<std::cmp::Ordering> { self.size().partial_cmp(&other.size()) } }""",
    "Near": "trait Near: PartialEq {} impl Near for u8 {}",
    "same": "fn same<T>(_: &T, _: &T) -> bool { true }",
    "level": "fn level<T>(_: &T, _: &T) -> std::cmp::Ordering { std::cmp::Ordering::Equal }",
    "backwards": "fn backwards<T: Ord>(first: &T, second: &T) -> std::cmp::Ordering { second.cmp(first) }",
    "opaque": "fn opaque(_: Opaque) -> u8 { 1 }",
    "Forest": "#[derive(PartialEq)] struct Forest<T>(Vec<Grove<T>>);",
}

EACH = "#[educe(PartialEq, Eq, PartialOrd, Ord)] "
UNCHECKED = "#[educe(PartialEq, PartialOrd, Ord)] "
PARTLY = "#[educe(PartialEq, PartialOrd)] "
EQUAL = "#[educe(PartialEq)] "

# Names, definitions, and values of one type in ascending order; `Opaque` is never compared.
DEFINITIONS = [
    # What nothing is asked of.
    ("a marker", EACH + "struct S<T> { a: u8, b: PhantomData<T> }", "S<Opaque>", ["S { a: 1, b: PhantomData }", "S { a: 2, b: PhantomData }"]),
    ("raw pointers", EACH + "struct S<T>(*const T, *mut Vec<T>, u8);", "S<Opaque>", [f"S(null(), null::<Vec<Opaque>>() as *mut _, {n})" for n in (1, 2)]),
    ("function pointers", EACH + "struct S<T, U>(u8, fn(T) -> U);", "S<Opaque, u8>", ["S(1, opaque)", "S(2, opaque)"]),
    ("a pointer that is never null", EACH + "struct S<T>(NonNull<T>, u8);", "S<Opaque>", ["S(NonNull::dangling(), 1)", "S(NonNull::dangling(), 2)"]),
    ("a discriminant", EQUAL + "struct S<T>(Discriminant<T>);", "S<Option<Opaque>>", ["S(discriminant(&None))", "S(discriminant(&Some(Opaque)))"]),
    ("no type with a parameter", EACH + "struct S<T> { a: [u8; 2], b: Option<Box<Self>>, c: PhantomData<T> }", "S<Opaque>", ["S { a: [1, 1], b: None, c: PhantomData }", "S { a: [1, 1], b: Some(Box::new(S { a: [1, 1], b: None, c: PhantomData })), c: PhantomData }"]),
    # What hands on what is asked.
    ("containers of containers", EACH + "struct S<T>(Vec<Option<Box<T>>>, BTreeMap<u8, T>);", "S<u8>", ["S(vec![], [(1, 1)].into())", "S(vec![None], [].into())", "S(vec![Some(Box::new(1))], [].into())"]),
    ("two parts", EACH + "struct S<T, U: ?Sized>(Result<T, Rc<U>>);", "S<u8, str>", ["S(Ok(1))", 'S(Err("a".into()))', 'S(Err("b".into()))']),
    ("shared values and cells", EACH + "struct S<T>(Arc<T>, RefCell<T>);", "S<u8>", ["S(Arc::new(1), RefCell::new(2))", "S(Arc::new(1), RefCell::new(3))"]),
    ("wrappers", EACH + "struct S<T>(Wrapping<T>, Saturating<T>, Reverse<T>);", "S<u8>", ["S(Wrapping(1), Saturating(1), Reverse(2))", "S(Wrapping(1), Saturating(1), Reverse(1))"]),
    ("lists and sets", EACH + "struct S<T>(VecDeque<T>, LinkedList<T>, BTreeSet<T>);", "S<u8>", ["S([1].into(), [].into(), [3].into())", "S([1].into(), [1].into(), [].into())"]),
    ("a container behind `::`", EACH + "struct S<T>(::std::vec::Vec<T>);", "S<u8>", ["S(vec![])", "S(vec![1])"]),
    # What mentions the definition.
    ("a list", EACH + "struct List<T> { head: T, tail: Option<Box<List<T>>> }", "List<u8>", ["List { head: 1, tail: None }", "List { head: 1, tail: Some(Box::new(List { head: 1, tail: None })) }"]),
    ("a tree", EACH + "enum Tree<T> { Leaf, Node(Box<(Tree<T>, T, Tree<T>)>) }", "Tree<u8>", ["Tree::Leaf", "Tree::Node(Box::new((Tree::Leaf, 1, Tree::Leaf)))", "Tree::Node(Box::new((Tree::Leaf, 2, Tree::Leaf)))"]),
    ("parameters that are passed over", EACH + "struct S<T, U>(Option<(Box<S<T, u8>>, T, *const U)>, PhantomData<U>);", "S<u8, Opaque>", ["S(None, PhantomData)", "S(Some((Box::new(S(None, PhantomData)), 1, null())), PhantomData)"]),
    ("`Self` beside a parameter", EACH + "struct S<T>(T, Option<Box<(Self, T)>>);", "S<u8>", ["S(1, None)", "S(1, Some(Box::new((S(1, None), 1))))"]),
    # What is asked itself.
    ("a type with a bound of its own", PARTLY + "struct S<T>(ByText<T>);", "S<Shown>", ["S(ByText(Shown(2)))", "S(ByText(Shown(1)))"]),
    ("associated types", EACH + "struct S<T: Family>(T::Item, Vec<<T as Family>::Item>);", "S<Bytes>", ["S(1, vec![])", "S(1, vec![1])"]),
    ("tuples, arrays and slices", EACH + "struct S<T>((T, u8), [T; 2], Box<[T]>);", "S<u8>", ["S((1, 1), [1, 2], Box::new([]))", "S((1, 1), [1, 3], Box::new([]))"]),
    ("a trait object", PARTLY + "struct S<T>(Box<dyn Shape<T>>);", "S<Opaque>", ["S(Box::new(1u8))", "S(Box::new(2u8))"]),
    ("a map", EQUAL + "struct S<K, V>(HashMap<K, V>);", "S<u8, u8>", ["S([].into())", "S([(1, 1)].into())"]),
    ("a map with a hasher", EQUAL + "struct S<K, H>(HashSet<K, H>);", "S<u8, std::collections::hash_map::RandomState>", ["S([].into())", "S([1].into())"]),
    ("a function in a wrapper", EACH + "struct S<T>(Wrapper<fn(T) -> u8>, T);", "S<u8>", ["S(Wrapper(u8::reverse_bits), 1)", "S(Wrapper(u8::reverse_bits), 2)"]),
    ("references", UNCHECKED + "struct S<'a, T: ?Sized>(&'a T, u8);", "S<'static, str>", ['S("a", 2)', 'S("b", 1)']),
    ("references to mutable values", EACH + "struct S<'a, T: 'a>(&'a mut T, &'a [T]);", "S<'static, u8>", ["S(Box::leak(Box::new(1)), &[])", "S(Box::leak(Box::new(1)), &[1])"]),
    # Headers.
    ("constants", EACH + "struct S<T, const N: usize> { a: [T; N], b: Length<N>, c: Length<{ 1 + 1 }> }", "S<u8, 1>", ["S { a: [1], b: Length([1]), c: Length([1, 1]) }", "S { a: [1], b: Length([2]), c: Length([1, 1]) }"]),
    ("an enum with a lifetime, a type and a constant", UNCHECKED + "enum E<'a, T, const N: usize> { A(&'a T), B { x: [T; N] }, C(Vec<E<'a, T, N>>) }", "E<'static, u8, 2>", ["E::A(&1)", "E::A(&2)", "E::B { x: [1, 1] }", "E::C(vec![])", "E::C(vec![E::A(&1)])"]),
    ("defaults", EACH + "struct S<T: Clone = u8, const N: usize = 2, U = ()>(T, [u8; N], Option<U>);", "S", ["S(1, [1, 2], None)", "S(1, [1, 2], Some(()))"]),
    ("a where clause", EACH + "struct S<'a, T> where T: Clone + 'a, [T; 1]: Sized, for<'b> &'b T: Copy, Self: Sized, { a: Vec<T>, b: &'a u8 }", "S<'static, u8>", ["S { a: vec![], b: &1 }", "S { a: vec![1], b: &0 }"]),
    ("a predicate that is declared already", EACH + "struct S<T: PartialEq>(T) where T: ::core::cmp::PartialEq;", "S<u8>", ["S(1)", "S(2)"]),
    ("a parameter named as a container", EACH + "struct S<Vec, r#type>(Vec, Option<r#type>);", "S<u8, u8>", ["S(1, None)", "S(1, Some(1))"]),
    # Modes.
    ("no bounds", "#[educe(PartialEq(bound = false), PartialOrd(bound = false), Ord(bound(false)))] struct S<T: Ord>(T);", "S<u8>", ["S(1)", "S(2)"]),
    ("a bound for each parameter", "#[educe(PartialEq(bound(*)), PartialOrd(bound(*)), Ord(bound(*)))] struct S<'a, T, U>(&'a T, Wrapper<U>);", "S<'static, u8, u8>", ["S(&1, Wrapper(1))", "S(&1, Wrapper(2))"]),
    ("listed predicates", '#[educe(PartialEq(bound(T: Ord)), PartialOrd(bound = "T: Ord"), Ord(bound("T: Ord")))] struct S<T>(Wrapper<T>);', "S<u8>", ["S(Wrapper(1))", "S(Wrapper(2))"]),
    ("a recursion through another type", "#[educe(PartialEq(bound(*)))] struct Grove<T>(T, Vec<Forest<T>>);", "Grove<u8>", ["Grove(1, vec![])", "Grove(1, vec![Forest(vec![])])"]),
    ("inherited predicates", "#[educe(PartialEq(bound(T: Near)), PartialOrd, Ord)] struct S<T>(T);", "S<u8>", ["S(1)", "S(2)"]),
    # Fields that ask nothing.
    ("ignored fields", EACH + "struct S<T, U> { #[educe(PartialEq(ignore), Ord(ignore))] a: T, b: U }", "S<Opaque, u8>", ["S { a: Opaque, b: 1 }", "S { a: Opaque, b: 2 }"]),
    ("fields with methods", EACH + "enum E<T, U> { A(#[educe(PartialEq(method = same), Ord(method = level))] T, U), B(#[educe(Ord(method(backwards::<u8>)))] u8) }", "E<Opaque, u8>", ["E::A(Opaque, 1)", "E::A(Opaque, 2)", "E::B(2)", "E::B(1)"]),
    ("ranks", EACH + "struct S<T, U> { #[educe(Ord(rank = 2))] a: Vec<T>, #[educe(Ord(rank = 1))] b: Wrapper<U> }", "S<u8, u8>", ["S { a: vec![1], b: Wrapper(1) }", "S { a: vec![], b: Wrapper(2) }"]),
    # Packed structs.
    ("a packed struct", EACH + "#[repr(packed)] struct S<T>(u8, T, [T; 2]);", "S<u32>", ["S(1, 1, [1, 2])", "S(1, 2, [1, 1])"]),
    ("packed by two", UNCHECKED + "#[repr(C, packed(2))] struct S<'a, T, U>(u8, Option<T>, &'a U, *const U);", "S<'static, u64, u8>", ["S(1, None, &1, null())", "S(1, Some(1), &0, null())", "S(1, Some(1), &1, null())"]),
    ("a packed struct under a bound for each parameter", "#[educe(PartialEq(bound(*)), PartialOrd(bound(*)), Ord(bound(*)))] #[repr(packed)] struct S<T>(u8, Wrapper<T>);", "S<u32>", ["S(1, Wrapper(1))", "S(1, Wrapper(2))"]),
    ("a packed struct under listed predicates", "#[educe(PartialEq(bound(T: Copy + Ord)), PartialOrd, Ord)] #[repr(packed)] struct S<T>(u8, T);", "S<u32>", ["S(1, 1)", "S(1, 2)"]),
    ("a packed struct with a method", EACH + "#[repr(packed)] struct S<T, U>(#[educe(PartialEq(method = same), Ord(method = level))] T, #[educe(Ord(rank = -1))] U);", "S<Opaque, u32>", ["S(Opaque, 1)", "S(Opaque, 2)"]),
    ("a packed struct with a field that is no copy", EACH + "#[repr(packed)] struct S<T>(u32, #[educe(PartialEq(ignore), Ord(ignore))] Vec<T>);", "S<Opaque>", ["S(1, vec![])", "S(2, vec![Opaque])"]),
    ("a packed struct without parameters", EACH + "#[repr(packed)] struct S { a: u8, b: u64 }", "S", ["S { a: 1, b: 2 }", "S { a: 2, b: 1 }"]),
]

# Names, definitions, what is declared beside them, what is compared, and the code of the error, or its words.
REJECTED = [
    ("types that differ in lifetimes alone", EQUAL + "struct S<'a, 'b, T>(&'a T, &'b T);", "", "", "E0283"),
    ("types that mention each other", EQUAL + "struct A<T>(T, Vec<B<T>>);", "struct B<T>(T, Vec<A<T>>); impl<T: PartialEq> PartialEq for B<T> where Vec<A<T>>: PartialEq { fn eq(&self, other: &Self) -> bool { self.1 == other.1 } }", "A(1, vec![])", "E0275"),
    ("an alias that hides a mention", EQUAL + "struct S<T>(T, Alias<T>);", "type Alias<T> = Vec<S<T>>;", "S(1, vec![])", "E0275"),
    ("a mention that asks for more", EQUAL + "struct S<T>(HashMap<T, S<T>>);", "", "", "E0277"),
    ("a type of a standard name", EQUAL + "struct S<T>(my::Option<T>);", "mod my { pub struct Option<T>(T); impl<T: Copy> PartialEq for Option<T> { fn eq(&self, _: &Self) -> bool { true } } }", "", "E0277"),
    ("a raw name of a parameter", EQUAL + "struct S<T>(r#T);", "", "", "E0277"),
    ("a method that asks for something", EQUAL + "struct S<T>(#[educe(PartialEq(method = f))] T);", "fn f<T: Eq>(first: &T, second: &T) -> bool { first == second }", "", "E0277"),
    ("no bound where one is needed", "#[educe(PartialEq(bound = false))] struct S<T>(T);", "", "", "E0277"),
    ("a bound for each parameter that is too little", "#[educe(PartialEq(bound(*)))] struct S<T>(HashMap<T, u8>);", "", "", "E0277"),
    ("an order whose bound is too little", "#[educe(PartialEq, PartialOrd(bound(T: A)))] struct S<T>(T);", "trait A {}", "", "E0277"),
    ("a reference to a parameter, under a check", "#[educe(PartialEq, Eq)] struct S<'a, T> { a: &'a T }", "", "", "E0309"),
    ("a reference to a type with a lifetime, under a check", "#[educe(PartialEq, Eq)] struct S<'a, 'b>(&'a &'b u8);", "", "", "lifetime may not live long enough"),
    ("a reference to a parameter, beside a marker of `Debug`", "#[educe(Debug)] struct S<'a, T> { a: &'a T, #[educe(Debug(method = m))] b: u8 }", "fn m(_: &u8, _: &mut core::fmt::Formatter<'_>) -> core::fmt::Result { Ok(()) }", "", "E0309"),
    ("a tuple with a reference to a parameter, beside a marker of `Clone`", "#[educe(Clone)] struct S<'a, T> { a: (&'a T, u8), #[educe(Clone(method = m))] b: u8 }", "fn m(b: &u8) -> u8 { *b }", "", "E0309"),
    ("a parameter and a reference to it", "#[educe(Debug)] struct S<'a, T> { a: &'a T, b: T }", "", "", "lifetime may not live long enough"),
    ("a macro call in braces that begins a discriminant", "#[educe(PartialEq, PartialOrd)] enum E { A = m! {} + 1, B }", "macro_rules! m { () => { 1 } } use m;", "", "leading `+` is not supported"),
    ("a method on two traits", "#[educe(Debug)] struct S { a: u8, #[educe(Debug(method = m))] b: dyn A + Send }", "trait A {} fn m(_: &(dyn A + Send), _: &mut core::fmt::Formatter<'_>) -> core::fmt::Result { Ok(()) }", "", "ambiguous `+` in a type"),
    ("a declared type under a lint", "#[deny(non_camel_case_types)] #[educe(Debug(name = false))] struct S { a: u8 }", "", "", "type `Educe__RawString` should have an upper camel case name"),
    ("a box of a slice as a default value", "#[educe(Default)] struct S<T>(Box<[T]>);", "", "", "E0283"),
    ("a default value of another type", "#[educe(Default)] struct S(#[educe(Default = X)] u8);", "const X: u16 = 1;", "", "E0308"),
    ("a packed struct whose bound does not say `Copy`", "#[educe(PartialEq(bound(T: PartialEq)))] #[repr(packed)] struct S<T>(T);", "", "", "E0507"),
    ("a packed struct with a field that cannot be copied", EQUAL + "#[repr(packed)] struct S(String);", "", "", "E0507"),
]

# What two values answer by their places.
MEANT = {"PartialEq": "i == j", "PartialOrd": "i.partial_cmp(j)", "Ord": "i.cmp(j)"}


def program_of(definition, impls, of, values):
    """The program that compares the values with each other."""
    words = LEXEME.findall(" ".join([definition, of, *values]))
    declared = [text for word, text in DECLARED.items() if word in words]
    numbered = ", ".join(f"({place}, {value})" for place, value in enumerate(values))
    lines = [USED, *declared, plain(definition), impls, *added(impls), "fn main() {"]
    lines.append(f"    let values: [(usize, {of}); {len(values)}] = [{numbered}];")
    for trait in traits_of(impls):
        answer = f"::core::cmp::{trait}::{FUNCTIONS[trait]}(this, other)"
        lines.append(f"    for (i, this) in &values {{ for (j, other) in &values {{ ::core::assert_eq!({answer}, {MEANT[trait]}); }} }}")
    return "\n".join([*lines, "}", ""])


def tried(program, folder, example):
    """What comes of a definition."""
    _, definition, of, values = example
    impls = expanded(program, definition)
    if impls is None:
        return "NOT EXPANDED"
    run = compiled(folder, program_of(definition, impls, of, values))
    if run is None:
        return "NOT COMPILED"
    return "WRONG" if run() is None else f"answered {len(traits_of(impls))} times {len(values)} times {len(values)}"


def rejected_by_rustc(program, folder, example):
    """What comes of a definition that rustc rejects with what is printed for it, and not by itself."""
    _, definition, declared, value, code = example
    impls = expanded(program, definition)
    if impls is None:
        return "NOT EXPANDED"
    alone = "\n".join([USED, declared, plain(definition)])
    if errors(folder, alone + "\nfn main() {}") is not None:
        return "WRONG: rustc does not take the definition"
    compared = f"let _ = {value} == {value};" if value else ""
    found = errors(folder, "\n".join([alone, impls, *added(impls), f"fn main() {{ {compared} }}"]))
    return f"rejected with {code}" if code in (found or ()) else f"WRONG: {found}"


def main(program, folder, *names):
    """Tries each definition, and answers the exit status."""
    status, count = 0, 0
    for examples, attempt in ((DEFINITIONS, tried), (REJECTED, rejected_by_rustc)):
        for example in examples:
            if names and example[0] not in names:
                continue
            answer = attempt(program, folder, example)
            print(f"{example[0]}: {answer}", flush=True)
            status = status if answer.startswith(("answered", "rejected")) else 1
            count += 1
    print(f"{count} definitions")
    return status


sys.exit(main(*sys.argv[1:]))
