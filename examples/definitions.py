"""Definitions, the values that they have, and programs of what is printed for them; for answers.py, pairs.py and generics.py."""

import re
import subprocess
import sys

# ---- the definition

LEXEME = re.compile(r'//[^\n]*|/\*.*?\*/|"(?:\\.|[^"\\])*"|r#\w+|b?\'(?:\\.|[^\\])\'|\'?\w+|->|.', re.S)


def closed(lexemes, at):
    """The index behind the bracket that closes the one at an index."""
    depth = 0
    while True:
        depth += (lexemes[at] in "([{") - (lexemes[at] in ")]}")
        at += 1
        if depth == 0:
            return at


def without_attributes(lexemes, only=None):
    """Lexemes without attributes, or without those of this name."""
    kept, at = [], 0
    while at < len(lexemes):
        if lexemes[at] == "#" and (only is None or lexemes[at + 2] == only):
            at = closed(lexemes, at + 1)
        else:
            kept.append(lexemes[at])
            at += 1
    return kept


def plain(definition):
    """The definition without its `educe` attributes."""
    return "".join(without_attributes(LEXEME.findall(definition), "educe"))


def lexemes_of(definition):
    """The lexemes of a definition without attributes, blanks and comments."""
    return [x for x in without_attributes(LEXEME.findall(definition)) if x.strip() and x[:2] not in ("//", "/*")]


def listed(lexemes, opening="<"):
    """The items of a bracketed list; a comma in brackets, or in an angle list where those open one, ends none."""
    items, at, angles = [[]], 1, 0
    while at < len(lexemes) - 1:
        end = closed(lexemes, at) if lexemes[at] in ("(", "[", "{") else at + 1
        if opening:
            angles += (lexemes[at] == opening) - (lexemes[at] == ">")
        if lexemes[at] == "," and angles == 0:
            items.append([])
        else:
            items[-1] += lexemes[at:end]
        at = end
    return [item for item in items if item]


def fields_of(lexemes):
    """Where the lexemes begin with the fields of a struct or a variant: the bracket, and the names or places."""
    if not lexemes or lexemes[0] not in ("(", "{"):
        return "", []
    items = listed(lexemes[:closed(lexemes, 0)])
    if lexemes[0] == "(":
        return "(", [str(place) for place in range(len(items))]
    return "{", [next(x for x, after in zip(item, item[1:]) if after == ":") for item in items]


def behind_header(lexemes, at):
    """The index behind the generic parameters at an index, and behind a where clause that follows them."""
    depth = 0
    while lexemes[at] == "<" or depth > 0:
        depth += (lexemes[at] == "<") - (lexemes[at] == ">")
        at += 1
    if lexemes[at] == "where":
        while lexemes[at] not in ("{", ";"):
            at = closed(lexemes, at) if lexemes[at] in ("(", "[") else at + 1
    return at


def cases(definition):
    """The cases of a definition, which are the variants of an enum or the one of a struct: path, bracket, fields."""
    lexemes = lexemes_of(definition)
    if "struct" in lexemes:
        at = lexemes.index("struct") + 1
        return [(lexemes[at], *fields_of(lexemes[behind_header(lexemes, at + 1):]))]
    at = lexemes.index("enum") + 1
    variants = listed(lexemes[behind_header(lexemes, at + 1):], opening=None)
    return [(f"{lexemes[at]}::{variant[0]}", *fields_of(variant[1:])) for variant in variants]


def made(definition, case, numbers):
    """The expression of a value of a case whose fields have these numbers."""
    path, bracket, fields = cases(definition)[case]
    if len(fields) != len(numbers):
        sys.exit(f"not one number for each field: {definition}")
    if bracket == "(":
        return f"{path}({', '.join(map(str, numbers))})"
    return path + (f" {{ {', '.join(f'{f}: {n}' for f, n in zip(fields, numbers))} }}" if bracket else "")


INTEGERS = {sign + width for sign in "iu" for width in ("8", "16", "32", "64", "128", "size")}


def reprs(definition):
    """The `repr` attributes of a definition, as lists of lexemes."""
    lexemes = LEXEME.findall(definition)
    return [lexemes[at:closed(lexemes, at + 1)] for at, x in enumerate(lexemes) if x == "#" and lexemes[at + 2] == "repr"]


def discriminant_type(definition):
    """The type of the discriminants of an enum."""
    return ([word for attribute in reprs(definition) for word in attribute if word in INTEGERS] or ["isize"])[-1]


def joined(lexemes):
    """Lexemes as a text: a blank stands before a word that would else be one with what is before it."""
    text = ""
    for lexeme in lexemes:
        text += " " * (bool(re.match(r"\w", lexeme)) and bool(re.search(r"[\w'\"]$", text))) + lexeme
    return text


def bare(definition, name):
    """The enum of this name whose variants have the names and the discriminants of a definition, and no fields."""
    lexemes = lexemes_of(definition)
    kept = []
    for variant in listed(lexemes[lexemes.index("enum") + 2:], opening=None):
        behind = closed(variant, 1) if variant[1:2] in (["("], ["{"]) else 1
        kept.append(joined([variant[0], *variant[behind:]]))
    return f"{' '.join(map(''.join, reprs(definition)))} #[derive(Clone, Copy)] enum {name} {{ {', '.join(kept)} }}"


# ---- what is printed for it, and programs

FUNCTIONS = {"PartialEq": "eq", "PartialOrd": "partial_cmp", "Ord": "cmp"}

ADDED = {
    "PartialEq": "impl {0}::core::cmp::PartialEq for {1} {{ fn eq(&self, _: &Self) -> bool {{ ::core::unreachable!() }} }}",
    "PartialOrd": "impl {0}::core::cmp::PartialOrd for {1} {{ fn partial_cmp(&self, _: &Self) -> ::core::option::Option<::core::cmp::Ordering> {{ ::core::unreachable!() }} }}",
    "Eq": "impl {0}::core::cmp::Eq for {1} {{}}",
}
NEEDED = {"PartialEq": [], "Eq": ["PartialEq"], "PartialOrd": ["PartialEq"], "Ord": ["PartialEq", "PartialOrd", "Eq"]}

# The head of an impl: its parameters, the trait, and what the trait is implemented for, with a where clause.
HEAD = re.compile(r"^.*? impl (.*?):: core :: cmp :: (\w+) for (.*?) \{ (?:fn (?:eq|partial_cmp|cmp) \(|\}$)", re.M)


def heads_of(impls):
    """The heads of the impls that are printed, under their traits: parameters, and the type with the where clause."""
    return {trait: (params, rest) for params, trait, rest in HEAD.findall(impls)}


def traits_of(impls):
    """The traits that compare of the impls that are printed, and the name of the type."""
    return {trait: rest.split(" ")[0] for trait, (_, rest) in heads_of(impls).items() if trait in FUNCTIONS}


def added(impls):
    """The impls that those which are printed ask for, each with the head of the first one that does."""
    printed = heads_of(impls)
    needed = {}
    for which, head in printed.items():
        for trait in NEEDED[which]:
            needed.setdefault(trait, head)
    return [ADDED[trait].format(*head) for trait, head in needed.items() if trait not in printed]


def expanded(program, definition):
    """What the program prints for a definition; nothing where it rejects it."""
    run = subprocess.run([program, "expand"], input=definition.encode(), stdout=subprocess.PIPE, check=False)
    return run.stdout.decode() if run.returncode == 0 else None


def built(folder, text, stderr=None, lints="allow"):
    """The run of rustc on a program; lints count at most so much."""
    with open(f"{folder}/example.rs", "w", encoding="utf-8") as out:
        out.write(text)
    return subprocess.run(["rustc", "--edition", "2021", "--cap-lints", lints, "-o", f"{folder}/example", f"{folder}/example.rs"], stderr=stderr, check=False)


def errors(folder, text):
    """The codes of the errors of rustc in a program, or their words where they have none; nothing where it compiles."""
    run = built(folder, text, subprocess.PIPE, "deny")
    found = re.findall(r"^error(?:\[(E\d+)\])?: (.*)$", run.stderr.decode(), re.MULTILINE)
    return None if run.returncode == 0 else sorted({code or words for code, words in found})


def compiled(folder, text, quietly=False):
    """A function that runs a program and answers what it prints, or nothing where it fails; nothing where rustc does."""
    if built(folder, text, subprocess.DEVNULL if quietly else None).returncode != 0:
        return None

    def run():
        ended = subprocess.run([f"{folder}/example"], stdout=subprocess.PIPE, check=False)
        return ended.stdout.decode() if ended.returncode == 0 else None
    return run
