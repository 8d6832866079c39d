"""The attributes of Rust source text, and its structs, enums and unions."""
import re
from typing import NamedTuple

STRING = r"""[bc]?"(?:[^"\\]|\\.)*" """.strip()
RAW = r"""[bc]?r(?P<marks>\#*)" """.strip()
CHARACTER = r"""b?'(?:[^'\\\n]|\\(?:u\{[^}]*\}|x..|.))'"""

TOKEN = re.compile(rf"""
    (?P<blank>\s+|//[^\n]*)
  | (?P<block>/\*)
  | (?P<raw>{RAW})
  | (?P<literal>{STRING}|{CHARACTER}|\d\w*)
  | (?P<word>'?(?:r\#)?[^\W\d]\w*)
  | (?P<mark>.)
""", re.X | re.S)

# What decides where attributes stand: comments and literals, in which there are none, and their first characters. Each
# alternative begins with a character of its own, so that a search passes over all others quickly.
LANDMARK = re.compile(r"""
    /(?P<blank>/[^\n]*)
  | /(?P<block>\*)
  | r(?P<raw>(?:(?<!\wr)|(?<=\b[bc]r))(?P<marks>\#*)")
  | "(?P<text>(?:[^"\\]|\\.)*")
  | '(?P<character>(?:[^'\\\n]|\\(?:u\{[^}]*\}|x..|.))')
  | \#(?P<attribute>\s*\[)
  | m(?P<macro>(?<!\wm)acro_rules\s*!\s*\w+\s*(?=[(\[{]))
""", re.X | re.S)

CLOSING = {"(": ")", "[": "]", "{": "}"}

class Token(NamedTuple):
    """A token that is neither blank nor comment, and where it stands in the text."""
    kind: str
    text: str
    start: int
    end: int

class Attribute(NamedTuple):
    """An attribute `#[path ..]`: its path, what stands in its round brackets, and where it stands."""
    path: str
    content: str
    start: int
    end: int

class Definition(NamedTuple):
    """A struct, an enum or a union with attributes, and where it stands; and the attributes of its variants and fields."""
    keyword: str
    name: str
    start: int
    end: int
    attributes: list
    inner: list

def end_of(piece):
    """Where a piece of the text ends: block comments nest, and raw strings end with as many marks as they began."""
    text, end = piece.string, piece.end()
    if piece.lastgroup == "block":
        depth = 0
        for mark in re.compile(r"/\*|\*/").finditer(text, piece.start()):
            depth += 1 if mark.group() == "/*" else -1
            if depth == 0:
                return mark.end()
        return len(text)
    if piece.group("raw") is not None:
        close = text.find('"' + piece.group("marks"), end)
        return len(text) if close < 0 else close + 1 + len(piece.group("marks"))
    return end

END = Token("end", "", 0, 0)

class Reader:
    """The tokens of a text from a place on, read as far as they are asked for."""

    def __init__(self, text, start):
        self.text = text
        self.place = start
        self.tokens = []

    def token(self, index):
        """The token at an index."""
        while len(self.tokens) <= index and self.place < len(self.text):
            piece = TOKEN.match(self.text, self.place)
            kind, end = piece.lastgroup, end_of(piece)
            if kind not in ("blank", "block"):
                self.tokens.append(Token(kind, self.text[self.place:end], self.place, end))
            self.place = end
        return self.tokens[index] if index < len(self.tokens) else END

    def mark(self, index):
        """The text of a token, which is no literal."""
        token = self.token(index)
        return "" if token.kind in ("literal", "raw") else token.text

    def behind_group(self, index):
        """The index behind the group that begins at an index; nothing if it is not closed."""
        expected = []
        while True:
            mark = self.mark(index)
            if mark in CLOSING:
                expected.append(CLOSING[mark])
            elif mark in CLOSING.values() and expected.pop() != mark or self.token(index) is END:
                return None
            index += 1
            if not expected:
                return index

    def attribute(self, index):
        """The attribute that begins at an index, and the index behind it."""
        behind = self.behind_group(index + 1) if (self.mark(index), self.mark(index + 1)) == ("#", "[") else None
        if behind is None:
            return None
        path_end = next((i for i in range(index + 2, behind) if self.mark(i) in ("(", "=", "{", "]")), behind - 1)
        path = "".join(self.mark(i) for i in range(index + 2, path_end))
        content = ""
        if self.mark(path_end) == "(":
            content = self.text[self.token(path_end).end:self.token(self.behind_group(path_end) - 1).start]
        return Attribute(path, content, self.token(index).start, self.token(behind - 1).end), behind

    def attributes(self, index):
        """The attributes that stand together from an index on, and the index behind them."""
        found = []
        while attribute := self.attribute(index):
            found.append(attribute[0])
            index = attribute[1]
        return found, index

    def behind_definition(self, index):
        """The index behind the definition whose generics or body begins at an index."""
        angles = 0
        while self.token(index) is not END:
            mark = self.mark(index)
            if mark in CLOSING:
                behind = self.behind_group(index)
                if behind is None or mark == "{" and angles <= 0:
                    return behind
                index = behind
                continue
            if mark == ";" and angles <= 0:
                return index + 1
            angles += (mark == "<") - (mark == ">" and self.mark(index - 1) not in ("-", "="))
            index += 1
        return None

    def definition(self):
        """The definition whose attributes stand in front."""
        found, head = self.attributes(0)
        index = head + (self.mark(head) == "pub")
        if index > head and self.mark(index) == "(":
            index = self.behind_group(index) or index
        keyword, name = self.mark(index), self.token(index + 1)
        if not found or keyword not in ("struct", "enum", "union") or name.kind != "word":
            return None
        behind = self.behind_definition(index + 2)
        if behind is None:
            return None
        inner = [attribute[0] for attribute in map(self.attribute, range(head, behind)) if attribute]
        return Definition(keyword, name.text, found[0].start, self.token(behind - 1).end, found, inner)

def landmarks(text):
    """The attributes' beginnings and the declarations of macros, in order."""
    place = 0
    while piece := LANDMARK.search(text, place):
        if piece.lastgroup in ("attribute", "macro"):
            yield piece
        place = end_of(piece)

def attributes_of(text):
    """All attributes of a text, in order."""
    found = (Reader(text, piece.start()).attribute(0) for piece in landmarks(text) if piece.lastgroup == "attribute")
    return [attribute[0] for attribute in found if attribute]

def definitions_in(text):
    """All structs, enums and unions that have attributes, in order."""
    behind = 0
    for piece in landmarks(text):
        if piece.lastgroup == "attribute" and piece.start() >= behind:
            reader = Reader(text, piece.start())
            definition = reader.definition()
            if definition:
                yield definition
                behind = definition.end
            else:
                behind = max([attribute.end for attribute in reader.attributes(0)[0]], default=behind)

def macro_bodies(text):
    """Where the bodies of `macro_rules!` stand."""
    for piece in landmarks(text):
        if piece.lastgroup == "macro":
            reader = Reader(text, piece.end())
            behind = reader.behind_group(0)
            if behind:
                yield piece.end(), reader.token(behind - 1).end

def place_of(text, offset):
    """The line and the column of an offset, counted from 1."""
    return text.count("\n", 0, offset) + 1, offset - (text.rfind("\n", 0, offset) + 1) + 1

def replaced(text, changes):
    """The text with other texts at some places, given as start, end and text."""
    for start, end, new in sorted(changes, reverse=True):
        text = text[:start] + new + text[end:]
    return text
