#!/usr/bin/env bash
# How the program's time and memory grow with its input.
#
# Usage: bench/scale.sh PROGRAM [SHAPE..]
#
# Makes inputs of 16, 32, 64 and 128 KiB of each shape, or of those that are named, runs the built program on each, and
# prints a line for each: the bytes, the least seconds of five runs, with valgrind also the millions of instructions,
# the ratios to the line before, the peak memory in MB, and the bytes that are written. A ratio of instructions above
# 2.2, more than a second and more than a gigabyte are marked. Some shapes are texts that are rejected, once they have
# been read as tokens, or as definitions with attributes; for these nothing is written. `NAME_nine` is the shape `NAME`
# with all nine traits.
set -eu
program=${1:?usage: bench/scale.sh PROGRAM [SHAPE..]}
shift
folder=$(mktemp -d)
trap 'rm -rf "$folder"' EXIT

python3 - "$folder" "$@" > "$folder/names" <<'PY'
import re
import sys

folder, *names = sys.argv[1:]

def filled(size, traits, field):
    """A struct of as many fields as fit, each of which its number makes."""
    head, tail, parts, used = f"#[educe({traits})] struct S {{", "}", [], 0
    while True:
        part = field(len(parts))
        if len(head) + used + len(part) + len(tail) > size:
            return head + "".join(parts) + tail
        parts.append(part)
        used += len(part)

def fields(size):
    return filled(size, "PartialEq", lambda n: f"f{n}:u8,")

def long_names(size):
    return filled(size, "PartialEq", lambda n: f"{'x' * 1000}{n}:u8,")

def ranked(traits):
    """Fields of which each has a rank, the last one the least."""
    own = traits.split(",")[-1]
    return lambda size: filled(size, traits, lambda n: f"#[educe({own}(rank=-{n}))]f{n}:u8,")

def settings(n):
    """A field with settings for three traits."""
    return f"#[educe(PartialEq(ignore=false),PartialOrd(rank={n}))]#[educe(Ord(ignore=false,rank=\"-{n}\"))]f{n}:u8,"

def methods(n):
    """A field that two traits compare by methods; the third takes one of them."""
    return f"#[educe(PartialEq(method(e{n})),Ord(method = \"o{n}\"))]f{n}:u8,"

def blanks(size):
    """A small struct behind blanks."""
    text = "#[educe(PartialEq)] struct S { a: u8 }"
    return " " * (size - len(text)) + text

def repeated(front, part, back):
    """As many equal parts as fit, between a front and a back."""
    def make(size):
        room = size - len((front + back).encode())
        return front + part * (room // len(part.encode())) + back
    return make

def numbered(front, part, back):
    """As many parts as fit, each of which its number makes, between a front and a back."""
    def make(size):
        parts, used = [], len(front + back)
        while used + len(part(len(parts))) <= size:
            used += len(part(len(parts)))
            parts.append(part(len(parts)))
        return front + "".join(parts) + back
    return make

def paired(front, first, between, second, back):
    """As many pairs of parts as fit, each of which its number makes: the first ones, and behind them the second ones."""
    def make(size):
        firsts, seconds, used = [], [], len(front + between + back)
        while used + len(first(len(firsts)) + second(len(firsts))) <= size:
            used += len(first(len(firsts)) + second(len(firsts)))
            seconds.append(second(len(firsts)))
            firsts.append(first(len(firsts)))
        return front + "".join(firsts) + between + "".join(seconds) + back
    return make

def enum(front, variant):
    """An enum with the three comparisons and as many variants as fit, each of which its number makes."""
    return numbered("#[educe(PartialEq,PartialOrd,Ord)] " + front + "enum E {", variant, "}")

def one_variant(field):
    """An enum of which one variant has as many fields as fit, each of which its number makes."""
    return numbered("#[educe(PartialEq,PartialOrd,Ord)] enum E {A,B{", field, "}}")

SMALL = "#[educe(PartialEq)] struct S { a: u8 }"
THREE = "#[educe(PartialEq,PartialOrd,Ord)] struct S { a: u8 }"

EACH = "#[educe(PartialEq,PartialOrd,Ord)] "

def type_of(n):
    """A type with a parameter: of each class but the mentioning one."""
    return (f"W<T{n}>", f"Vec<T{n}>", f"T{n}", f"[T{n};N]")[n % 4]

def nested_types(size):
    """Fields whose types nest as deep as fit: 128 with the brace of the struct."""
    def field(n):
        outer = ("Vec<", "Option<", "W<")[n % 3]
        return f"f{n}:" + outer * 126 + "T" + ">" * 126 + ","
    return numbered(EACH + "struct S<T> {", field, "}")(size)

def at_a_field(front, part, back):
    """A field whose attributes hold as many equal parts as fit."""
    return repeated("#[educe(Ord)] struct S { " + front, part, back + " a: u8 }")

def script_names(size):
    """Long names in another script."""
    return filled(size // 2, "PartialEq", lambda n: f"{'ж' * 1000}{n}:u8,")

def deep_type(size):
    """A type of 127 levels around a list of as many types as fit: 128 with the brace of the struct."""
    front, back = SMALL[:-1] + ", b: " + "Box<" * 126 + "(", ")" + ">" * 126 + "}"
    return repeated(front, "u8,", back)(size)

def chain(n):
    """A variant with 128 prefixes, 128 calls and fields behind an operand, and 128 operators."""
    return f"V{n}=" + "-" * 128 + "a" + ".b()" * 64 + "+a.b()" * 128 + ","

def all_settings(n):
    """A field with settings for each trait that has some."""
    debug, clone, default = f"Debug(name=a{n},method(d{n}))", f"Clone(method(c{n}))", f"Default(expression={n})"
    equal, feed = f"PartialEq(ignore=false,method(e{n}))", f"Hash(ignore=false,method(h{n}))"
    partly, order = f"PartialOrd(ignore=false,rank={n},method(p{n}))", f"Ord(ignore=false,rank=\"-{n}\",method(o{n}))"
    return f"#[educe({debug},{clone},{equal})]#[educe({partly},{order},{feed},{default})]f{n}:u8,"

TRAITS = ("Debug", "Clone", "Copy", "PartialEq", "Eq", "PartialOrd", "Ord", "Hash", "Default")
NINE = ",".join(TRAITS)
EIGHT = NINE.replace("Copy,", "")

def with_nine(make):
    """The shape with all nine traits: those that it does not list are listed in front, but `Copy` only where it has no
    `Box` and no `Vec`. `Default` makes the variant with thousands of fields, where there is one, or else the first."""
    def made(size):
        text = make(size - len(f"#[educe({NINE})] #[educe(Default)]"))
        listed = re.match(r".*?\b(?:struct|enum)\b", text, re.S).group()
        copied = not re.search(r"\b(?:Box|Vec)<", text)
        added = [x for x in TRAITS if not re.search(rf"\b{x}\b", listed) and (x != "Copy" or copied)]
        if "#[educe(Default)]" not in text:
            text = re.sub(r"enum E \{(A,(?=B))?", r"\g<0>#[educe(Default)]", text, count=1)
        return f"#[educe({','.join(added)})] " + text
    return made

shapes = [
    ("fields", fields),
    ("variants", numbered("#[educe(PartialEq)] enum E {", lambda n: f"V{n}{{a:u8,b:T}},", "}")),
    ("units", enum("", lambda n: f"V{n},")),
    ("unit_discriminants", enum("#[repr(i32)] ", lambda n: f"V{n}=-{n},")),
    ("data", enum("", lambda n: f"V{n}(u8,u8),")),
    ("data_discriminants", enum("#[repr(i32)] ", lambda n: f"V{n}(u8)=-{n},")),
    ("one_discriminant", enum("#[repr(i32)] ", lambda n: f"V{n}," if n else "V0=a::b,")),
    ("long_discriminant", repeated("#[educe(Ord)] enum E {A=a!(", "b ", "),B}")),
    ("variant_fields", one_variant(lambda n: f"f{n}:u8,")),
    ("variant_ranks", one_variant(lambda n: f"#[educe(Ord(rank=-{n}))]f{n}:u8,")),
    ("variant_settings", one_variant(settings)),
    ("prefixed", one_variant(lambda n: f"_s_{n}:u8,")),
    ("prefixes", one_variant(lambda n: f"{'_' * n}_s_:u8,")),
    ("deep_type", deep_type),
    ("generics", numbered("#[educe(PartialEq)] struct S<", lambda n: f"T{n}:A<B>+'a,", "> { a: u8 }")),
    ("predicates", numbered("#[educe(PartialEq)] struct S where ", lambda n: f"T{n}:for<'a>A<'a,B=C>,", "{ a: u8 }")),
    ("chains", numbered("#[educe(PartialEq)] enum E {", chain, "}")),
    ("attributes", repeated("", "#[a(b = c, d)] ", SMALL)),
    ("own", numbered("#[educe(PartialEq)] struct S {", lambda n: f"#[serde(rename = \"x\")]#[educe(PartialEq(ignore))]/// of x\nf{n}:Vec<u8>,", "}")),
    ("ord", ranked("Ord")),
    ("partial_ord", ranked("PartialOrd")),
    ("all", ranked("PartialEq,PartialOrd,Ord")),
    ("fallbacks", ranked("PartialOrd,Ord")),
    ("settings", lambda size: filled(size, "PartialEq,PartialOrd,Ord", settings)),
    ("equal_ranks", lambda size: filled(size, "Ord", lambda n: f"#[educe(Ord(rank=1))]f{n}:u8,")),
    ("lints", repeated("", "#[expect(a, b::c)] ", THREE)),
    ("lists", repeated("", "#[educe()] ", THREE)),
    ("field_lists", at_a_field("", "#[educe()]", "#[educe(Ord(rank=1))]")),
    ("repr", repeated("#[repr(C,", "align(8),", "C)]" + SMALL)),
    ("type_list", repeated("#[educe(", "Ord(a = b),", "Ord)] struct S;")),
    ("type_path", repeated("#[educe(a", "::a", ")] struct S;")),
    ("params", at_a_field("#[educe(Ord(", "ignore,rank=1,", "))]")),
    ("other_param", at_a_field("#[educe(Ord(a", "::a", "=1))]")),
    ("value", at_a_field("#[educe(Ord(rank=f(", "1,", ")))]")),
    ("zeros", at_a_field("#[educe(Ord(rank=\"", "0", "1\"))]")),
    ("digits", at_a_field("#[educe(Ord(rank=\"", "9", "\"))]")),
    ("last_word", at_a_field("#[educe(Ord(", "rank=1,", "bound))]")),
    ("last_fault", at_a_field("#[educe(Ord(", "rank=1,", ";))]")),
    ("long_names", long_names),
    ("blanks", blanks),
    ("small_tokens", repeated("", "a+1;'b\"\".", "")),
    ("comment", repeated("/*", " * / ", "*/" + SMALL)),
    ("nested", repeated(SMALL, "/*", "")),
    ("string", repeated('"', "a\\n", '"')),
    ("raw_string", repeated('r##"', '"#a', '"##')),
    ("brackets", repeated("", "([{" * 40 + "}])" * 40, "")),
    ("script", script_names),
    ("methods", lambda size: filled(size, "PartialEq,PartialOrd,Ord", methods)),
    ("method_path", at_a_field("#[educe(Ord(method(a", "::a", ")))]")),
    ("string_path", at_a_field("#[educe(Ord(method = \"a", "::a", "\"))]")),
    ("underscored", numbered("#[educe(PartialEq)] struct S {", lambda n: f"{'_' * n}other:u8,", "}")),
    ("underscores", repeated("#[educe(PartialEq)] struct S { ", "_", "other: u8 }")),
    ("words", repeated("/// ", "other ", "\n" + THREE)),
    ("param_fields", paired(EACH + "struct S<const N:usize,", lambda n: f"T{n},", "> {", lambda n: f"f{n}:{type_of(n)},", "}")),
    ("one_generic", numbered(EACH + "struct S<T> {", lambda n: f"f{n}:W<T>,", "}")),
    ("nested_types", nested_types),
    ("where_clause", numbered(EACH + "struct S<T> where ", lambda n: f"T:A{n}<T>,", "{ a: T }")),
    ("listed_bounds", numbered("#[educe(PartialEq(bound(", lambda n: f"T:A{n}<T>,", ")),PartialOrd,Ord)] struct S<T> { a: T }")),
    ("mentioned_params", paired(EACH + "struct S<", lambda n: f"T{n},", "> { a: (u8, S<", lambda n: f"T{n},", ">) }")),
    ("mentioning_fields", paired(EACH + "struct S<", lambda n: f"T{n},", "> {", lambda n: f"f{n}:W<S<T{n}>>,", "}")),
    ("packed_fields", paired(EACH + "#[repr(packed)] struct S<const N:usize,", lambda n: f"T{n},", "> {", lambda n: f"f{n}:{type_of(n)},", "}")),
    ("hash_fields", lambda size: filled(size, "Hash", lambda n: f"f{n}:u8,")),
    ("hash_data", numbered("#[educe(Hash)] enum E {", lambda n: f"V{n}(u8,u8),", "}")),
    ("default_fields", lambda size: filled(size, "Default", lambda n: f"f{n}:u8,")),
    ("default_values", lambda size: filled(size, "Default", lambda n: f"#[educe(Default={n})]f{n}:u8,")),
    ("default_data", numbered("#[educe(Default)] enum E {#[educe(Default)]A(u8),", lambda n: f"V{n}(u8,u8),", "}")),
    ("default_variant", numbered("#[educe(Default)] enum E {A,#[educe(Default)]B{", lambda n: f"f{n}:u8,", "}}")),
    ("eq_fields", lambda size: filled(size, "PartialEq,Eq", lambda n: f"f{n}:u8,")),
    ("eq_data", numbered("#[educe(PartialEq,Eq)] enum E {", lambda n: f"V{n}(u8,u8),", "}")),
    ("eq_generic", numbered("#[educe(PartialEq,Eq)] struct S<T> {", lambda n: f"f{n}:W<T>,", "}")),
    ("eq_selves", numbered("#[educe(PartialEq,Eq)] struct S<T> {", lambda n: f"f{n}:Box<Self>,", "}")),
    ("all_six", lambda size: filled(size, "PartialEq,Eq,PartialOrd,Ord,Hash,Default", lambda n: f"f{n}:u8,")),
    ("clone_fields", lambda size: filled(size, "Clone", lambda n: f"f{n}:u8,")),
    ("clone_data", numbered("#[educe(Clone)] enum E {", lambda n: f"V{n}(u8,u8),", "}")),
    ("clone_variant", numbered("#[educe(Clone)] enum E {A,B{", lambda n: f"f{n}:u8,", "}}")),
    ("clone_units", numbered("#[educe(Clone)] enum E {", lambda n: f"V{n},", "}")),
    ("clone_methods", lambda size: filled(size, "Clone", lambda n: f"#[educe(Clone(method(m{n})))]f{n}:u8,")),
    ("clone_generic", paired("#[educe(Clone)] struct S<const N:usize,", lambda n: f"T{n},", "> {", lambda n: f"f{n}:{type_of(n)},", "}")),
    ("clone_packed", lambda size: "#[repr(packed)]" + filled(size - 15, "Clone", lambda n: f"f{n}:u8,")),
    ("copied", lambda size: filled(size, "Clone,Copy", lambda n: f"f{n}:u8,")),
    ("copied_generic", numbered("#[educe(Clone,Copy)] struct S<T> {", lambda n: f"f{n}:W<T>,", "}")),
    ("debug_fields", lambda size: filled(size, "Debug", lambda n: f"f{n}:u8,")),
    ("debug_data", numbered("#[educe(Debug)] enum E {", lambda n: f"V{n}(u8,u8),", "}")),
    ("debug_variant", numbered("#[educe(Debug)] enum E {A,B{", lambda n: f"f{n}:u8,", "}}")),
    ("debug_units", numbered("#[educe(Debug)] enum E {", lambda n: f"V{n},", "}")),
    ("debug_map", numbered("#[educe(Debug(name=false))] struct S {", lambda n: f"f{n}:u8,", "}")),
    ("debug_methods", lambda size: filled(size, "Debug", lambda n: f"#[educe(Debug(method(m{n})))]f{n}:u8,")),
    ("nine_settings", lambda size: filled(size, NINE, all_settings)),
    ("eight_fields", lambda size: filled(size, EIGHT, lambda n: f"f{n}:u8,")),
    ("eight_data", numbered(f"#[educe({EIGHT})] enum E {{#[educe(Default)]A,", lambda n: f"V{n}(u8,u8),", "}")),
]

# The shapes that are tried with all nine traits too. The others have no definition, list them already, or differ from
# one of these only in the traits that they list.
widened = """fields variants units unit_discriminants data data_discriminants one_discriminant long_discriminant variant_fields
variant_ranks variant_settings prefixed prefixes deep_type generics predicates chains attributes own ord partial_ord
settings equal_ranks lints lists field_lists repr type_list type_path params other_param value zeros digits last_word
last_fault long_names blanks comment script methods method_path string_path underscored underscores words param_fields
one_generic nested_types where_clause listed_bounds mentioned_params mentioning_fields packed_fields default_values
default_data eq_selves clone_methods clone_packed debug_map debug_methods""".split()
shapes += [(f"{name}_nine", with_nine(dict(shapes)[name])) for name in widened]

missing = set(names) - set(dict(shapes))
if missing:
    sys.exit(f"no such shape: {', '.join(sorted(missing))}")
for name, make in shapes:
    if not names or name in names:
        print(name)
        for kib in (16, 32, 64, 128):
            with open(f"{folder}/{name}.{kib}", "w", encoding="utf-8") as out:
                out.write(make(kib * 1024))
PY

# The ratio of two numbers; one above the bound, if there is one, is marked.
ratio() {
  awk -v now="$1" -v before="$2" -v bound="${3:-}" 'BEGIN { if (before > 0) { r = now / before; printf "%.2f%s", r, (bound != "" && r > bound ? "!" : "") } else printf "-" }'
}

# A number by a unit, with so many digits behind the point; one above the bound, if there is one, is marked.
measure() {
  awk -v now="$1" -v unit="$2" -v digits="$3" -v bound="${4:-}" 'BEGIN { n = now / unit; printf "%.*f%s", digits, n, (bound != "" && n > bound ? "!" : "") }'
}

printf '%-24s %7s %8s %7s %10s %7s %9s %10s\n' shape bytes seconds ratio 'Minstr' ratio 'peak MB' written
while read -r name; do
  seconds_before=0
  count_before=0
  for kib in 16 32 64 128; do
    input=$folder/$name.$kib
    for _ in 1 2 3 4 5; do
      /usr/bin/env time -f '%e %M' -o "$folder/cost" "$program" expand < "$input" > "$folder/text" 2> "$folder/notes" || true
      tail -n 1 "$folder/cost"
    done | sort -n > "$folder/costs"
    read -r seconds memory < "$folder/costs"
    count=0
    if command -v valgrind > /dev/null; then
      valgrind --tool=callgrind --callgrind-out-file=/dev/null "$program" expand < "$input" 2> "$folder/counts" > /dev/null || true
      count=$(sed -n 's/.*Collected *: *\([0-9]*\).*/\1/p' "$folder/counts")
    fi
    printf '%-24s %7d %8s %7s %10s %7s %9s %10d\n' "$name" "$(stat -c %s "$input")" "$(measure "$seconds" 1 3 1)" \
      "$(ratio "$seconds" "$seconds_before")" "$(measure "${count:-0}" 1000000 1)" \
      "$(ratio "${count:-0}" "$count_before" 2.2)" "$(measure "$memory" 1024 1 1024)" "$(stat -c %s "$folder/text")"
    seconds_before=$seconds
    count_before=${count:-0}
  done
done < "$folder/names"
