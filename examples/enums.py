"""Enums, and what each of their comparisons is to compare.

Each is a name, a definition, and for each trait the fields that are compared: for each variant their places in
the order in which they are compared. A sign behind a place is the method that compares them:

  %  the last digits       -  the other way round       !  never equal, and no order
"""

ORDER = "::core::cmp::Ordering"
PARTIAL = f"::core::option::Option<{ORDER}>"

# What is declared beside a definition that has the word.
DECLARED = {
    "same_digit": "fn same_digit(first: &u8, second: &u8) -> bool { first % 10 == second % 10 }",
    "by_digit": f"fn by_digit(first: &u8, second: &u8) -> {ORDER} {{ (first % 10).cmp(&(second % 10)) }}",
    "part_by_digit": f"fn part_by_digit(first: &u8, second: &u8) -> {PARTIAL} {{ (first % 10).partial_cmp(&(second % 10)) }}",
    "backwards": f"fn backwards(first: &u8, second: &u8) -> {ORDER} {{ second.cmp(first) }}",
    "never": "fn never(_: &u8, _: &u8) -> bool { false }",
    "no_order": f"fn no_order(_: &u8, _: &u8) -> {PARTIAL} {{ ::core::option::Option::None }}",
    "discriminant": f"fn discriminant(first: &u8, second: &u8) -> {ORDER} {{ second.cmp(first) }}",
    "other": f"mod other {{ pub fn this(first: &u8, second: &u8) -> {ORDER} {{ second.cmp(first) }} }}",
    "Of": "trait First { type Is; } impl<T, U> First for (T, U) { type Is = T; } type Of<T, U> = <(T, U) as First>::Is;",
    "SEVEN": "mod numbers { pub const SEVEN: isize = 7; }",
    "ordinal": "mod ordinal { pub const this: i16 = 300; pub const base: i16 = 20; pub const _s_0: i16 = -7; }",
}

EACH = "#[educe(PartialEq, PartialOrd, Ord)]"


def alike(*variants):
    """The same fields are compared by each trait."""
    return apart(variants, variants)


def apart(equal, ordered, partly=None):
    """The fields by which values are equal, those by which they are ordered, and those of `PartialOrd`."""
    return {"PartialEq": equal, "PartialOrd": partly or ordered, "Ord": ordered}


ENUMS = [
    # Variants without fields.
    ("three units", f"{EACH} enum E {{ A, B, C }}", alike("", "", "")),
    ("one unit", f"{EACH} enum E {{ A }}", alike("")),
    ("no variant", f"{EACH} enum E {{ }}", alike()),
    ("empty brackets", f"{EACH} enum E {{ A(), B {{}}, C, D {{ }} }}", alike("", "", "", "")),
    ("units with numbers", f"{EACH} enum E {{ A = 7, B, C = -3, D, F = 0x_1_0, G = 0b11 }}", alike(*[""] * 6)),
    # Variants with fields.
    ("one variant with fields", f"{EACH} enum E {{ A(u8, u8) }}", alike("01")),
    ("fields with names", f"{EACH} enum E {{ A {{ x: u8, y: u8 }}, B {{ y: u8 }} }}", alike("01", "0")),
    ("each form", f"{EACH} enum E {{ A, B(u8, u8), C {{ x: u8 }}, D(u8), F }}", alike("", "01", "0", "0", "")),
    ("types with arguments", f"{EACH} enum E {{ A(Of<u8, u8>, u8), B {{ f: Of<Of<u8, u8>, [u8; 2]>, #[educe(PartialEq(ignore), Ord(ignore))] g: u8 }} }}", alike("01", "0")),
    ("many fields", f"{EACH} enum E {{ A, B({', '.join(['u8'] * 12)}) }}", alike("", "0123456789ab")),
    # Discriminants of each type.
    ("u8", f"{EACH} #[repr(u8)] enum E {{ A = 255, B = 0, C, D(u8) = 100, F(u8) }}", alike("", "", "", "0", "0")),
    ("i8", f"{EACH} #[repr(i8)] enum E {{ A = 127, B = -128, C(u8), D = 0, F {{ x: u8 }} = -1 }}", alike("", "", "0", "", "0")),
    ("u16", f"{EACH} #[repr(u16)] enum E {{ A = 65535, B {{ x: u8 }} = 0, C }}", alike("", "0", "")),
    ("i16", f"{EACH} #[repr(i16)] enum E {{ A = 32767, B(u8) = -32768, C = -2, D, F, G }}", alike("", "0", "", "", "", "")),
    ("u32", f"{EACH} #[repr(u32)] enum E {{ A(u8) = 4_294_967_295u32, B = 0xff, C, D = 0o17 }}", alike("0", "", "", "")),
    ("i32", f"{EACH} #[repr(i32)] enum E {{ A = 2147483647, B(u8) = -2147483648, C }}", alike("", "0", "")),
    ("u64", f"{EACH} #[repr(u64)] enum E {{ A = 18446744073709551615, B = 9223372036854775807, C(u8), D = 0 }}", alike("", "", "0", "")),
    ("i64", f"{EACH} #[repr(i64)] enum E {{ A(u8) = 9223372036854775807, B = -9223372036854775808, C }}", alike("0", "", "")),
    ("u128", f"{EACH} #[repr(u128)] enum E {{ A = 340282366920938463463374607431768211455, B(u8) = 0, C = 170141183460469231731687303715884105727, D }}", alike("", "0", "", "")),
    ("i128", f"{EACH} #[repr(i128)] enum E {{ A = 170141183460469231731687303715884105727, B(u8) = -170141183460469231731687303715884105728, C }}", alike("", "0", "")),
    ("usize", f"{EACH} #[repr(usize)] enum E {{ A = 18446744073709551615, B(u8) = 3, C }}", alike("", "0", "")),
    ("isize", f"{EACH} #[repr(isize)] enum E {{ A = 9223372036854775807, B(u8) = -9223372036854775808, C = -1i8 as isize }}", alike("", "0", "")),
    ("as C lays it out", f"{EACH} #[repr(C)] #[repr(u8)] enum E {{ A(u8) = 2, B = 1, C = 7 }}", alike("0", "", "")),
    ("two words of one list", f"{EACH} #[repr(C, i16)] enum E {{ A(u8) = -2, B, D(u8) }}", alike("0", "", "0")),
    # Discriminants that are written otherwise.
    ("expressions", f"{EACH} #[repr(i16)] enum E {{ A(u8) = 1 << 9, B, C = (2 + 3) * -4, D {{ x: u8 }}, F = i16::MAX - 1, G, H = b'a' as i16, I }}", alike("0", "", "", "0", "", "", "", "")),
    ("a constant", f"{EACH} enum E {{ A = numbers::SEVEN, B, C = -numbers::SEVEN, D }}", alike("", "", "", "")),
    ("constants that are named as generated names are", f"{EACH} #[repr(i16)] enum E {{ A(u8) = ordinal::this, B, C = ordinal::base - 30, D = ordinal::this * 2, F(u8) = ordinal::_s_0 }}", alike("0", "", "", "", "0")),
    # Settings of fields.
    ("ranks", f"{EACH} enum E {{ A(#[educe(Ord(rank = 2))] u8, #[educe(Ord(rank = 1))] u8), B {{ #[educe(PartialOrd(rank = 1), Ord(rank = 1))] x: u8, y: u8 }} }}", apart(("01", "01"), ("10", "10"))),
    ("ranks below zero", f"{EACH} #[repr(i8)] enum E {{ A {{ #[educe(Ord(rank = -1))] x: u8, #[educe(Ord(rank = \"-3\"))] y: u8, #[educe(Ord(rank = -2))] z: u8 }} = 1, B = -1 }}", apart(("012", ""), ("120", ""))),
    ("ignored fields", f"{EACH} enum E {{ A(#[educe(PartialEq(ignore))] u8, u8), B {{ #[educe(Ord = false)] x: u8, y: u8 }}, C(#[educe(PartialEq = false, Ord(ignore))] u8) }}", apart(("1", "01", ""), ("01", "1", ""))),
    ("an ignored field with a rank", f"{EACH} enum E {{ A(#[educe(Ord(rank = 1, ignore))] u8, #[educe(Ord(rank = 1))] u8, #[educe(Ord(rank = 0))] u8) }}", apart(("012",), ("21",))),
    ("one rank in two variants", f"{EACH} enum E {{ A(#[educe(Ord(rank = 5))] u8, #[educe(Ord(rank(-9223372036854775808)))] u8), B(#[educe(Ord(rank = 5))] u8, u8) }}", apart(("01", "01"), ("10", "10"))),
    ("methods", f"{EACH} enum E {{ A(#[educe(PartialEq(method = same_digit), Ord(method = by_digit))] u8, u8), B {{ x: u8, #[educe(Ord(method = backwards, rank = -1))] y: u8 }} }}", apart(("0%1", "01"), ("0%1", "01-"))),
    ("a method of each order", "#[educe(PartialOrd, Ord)] enum E { A(#[educe(PartialOrd(method = no_order), Ord(method = backwards))] u8), B { #[educe(PartialOrd(method = \"part_by_digit\", rank = 1), Ord(rank = 1))] x: u8, y: u8 } }", apart((), ("0-", "10"), ("0!", "10%"))),
    ("reversed fields", f"{EACH} enum E {{ A(#[educe(Ord(reverse))] u8, u8), B {{ x: u8, #[educe(PartialOrd(reverse, rank = -1))] y: u8 }} }}", apart(("01", "01"), ("0-1", "01-"))),
    ("a reversed method", f"{EACH} enum E {{ A(#[educe(Ord(method = backwards, reverse))] u8), B }}", apart(("0", ""), ("0", ""))),
    ("a field that one order reverses", "#[educe(PartialOrd, Ord)] enum E { A(#[educe(PartialOrd = true, Ord(reverse))] u8), B(#[educe(PartialOrd(reverse), Ord(reverse = false))] u8) }", apart((), ("0-", "0"), ("0", "0-"))),
    ("never equal", "#[educe(PartialEq)] enum E { A(#[educe(PartialEq(method(never)))] u8), B, C { x: u8 } }", alike("0!", "", "0")),
    # Names.
    ("fields that are named as generated names are", f"{EACH} enum E {{ A {{ other: u8, this: u8 }}, B {{ discriminant: u8, base: u8 }}, C {{ _other: u8, __this: u8 }} }}", alike("01", "01", "01")),
    ("words that begin as prefixes do", f"{EACH} enum E {{ A {{ _s_0: u8, _s_: u8 }}, B(u8), C {{ _o_s: u8, __s_0: u8 }}, _s_1, _o_0(u8) }}", alike("01", "0", "01", "", "0")),
    ("methods that are named as generated names are", f"{EACH} enum E {{ A(#[educe(Ord(method(discriminant)))] u8), B(#[educe(Ord(method(other::this)))] u8) }}", apart(("0", "0"), ("0-", "0-"))),
    ("variants that are named as others are", f"{EACH} enum E {{ Self_, Ok(u8), Some {{ x: u8 }}, None, Equal, Less(u8), PartialEq, core }}", alike("", "0", "0", "", "", "0", "", "")),
    ("raw names", f"{EACH} enum r#Enum {{ r#fn, r#B {{ r#type: u8, x: u8 }}, r#if(u8) }}", alike("", "01", "0")),
    ("an enum that is named as an order is", f"{EACH} enum Ordering {{ Less(u8), Equal, Greater }}", alike("0", "", "")),
    ("letters of other scripts", f"{EACH} enum Перечень {{ Ä, β {{ ж: u8, é: u8 }}, 名(u8) }}", alike("", "01", "0")),
    # Other attributes, and traits alone.
    ("attributes of all kinds", f"/// An enum.\n#[allow(dead_code)] {EACH} #[deny(unused_must_use)] enum E {{ /// A variant.\n #[allow(unused)] A, #[doc = \"b\"] B {{ /** a field */ x: u8 }} /* = 3 */, }}", alike("", "0")),
    ("equality alone", "#[educe(PartialEq)] #[repr(i8)] enum E { A = 3, B(u8) = -3, C { x: u8 } }", alike("", "0", "0")),
    ("an order alone", "#[educe(Ord)] #[repr(i8)] enum E { A = 3, B(u8) = -3, C { x: u8 } }", alike("", "0", "0")),
    ("a partial order alone", "#[educe(PartialOrd)] #[repr(i8)] enum E { A = 3, B(u8) = -3, C { x: u8 } }", alike("", "0", "0")),
]
