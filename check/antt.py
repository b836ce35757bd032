"""Reads a file of definitions: its `use` lines, and each definition and statement as a tree.

A tree is a tuple whose first part says what it is:
    ("name", text, line)         ("field", tree, text)            ("apply", tree, [tree, ..])
    ("number", n)                ("text", text)                   ("tuple", [tree, ..])
    ("list", [tree, ..], tree)   the first elements, and the rest or None for []
    ("operator", text, tree, tree, line)                          ("function", [name, ..], tree)    for λ
    ("choice", tree, tree, tree) ("naming", name, tree, tree)     for `if` and for `let`
    ("record", tree or None, [(field, tree), ..])
    ("quantified", [name, ..], type, tree, line)                  for all or some of a type

Operators bind as the kit declares them (LEVELS); application binds closest.
What is not understood is refused by file and line.
"""
import re
from dataclasses import dataclass, field
from pathlib import Path

# How closely an operator binds, and whether it associates to the left, to the right, or not at all.
LEVELS = {
    "^": (75, "right"), "*": (70, "left"), "/": (70, "left"), "%": (70, "left"), "∷": (67, "right"), "+": (65, "left"),
    "-": (65, "left"), "++": (65, "left"), "with": (60, "left"), "<": (50, "none"), "≤": (50, "none"),
    "==": (40, "none"), "&&": (35, "left"), "||": (30, "left"), "≡": (4, "none"), "≢": (4, "none"), "×": (2, "right"),
    "⊎": (1, "right"), "→": (0, "right"),
}
TOKEN = re.compile(
    r'"[^"]*"|\d+|==|\+\+|\|\||&&|[λ∷×→≡≢≤<⊤⊥⊎ℕℤ(){}\[\],;:=]|[-+*/%^]|◌[^\s◌:]+◌(?:[^\s◌:]+◌)?'
    r"|[A-Za-z_][\w'-]*(?<!-)(?:\.\w+)*|\.\w+|\."
)
# What ends an argument list.
STOPS = set(LEVELS) | {")", "}", "]", ",", ";", ":", "=", "then", "else", "in", "."}


class Refused(Exception):
    """What the files say is not understood; the message names the file and the line."""


@dataclass
class Token:
    text: str
    line: int
    # A space stands before it.
    apart: bool


@dataclass
class Definition:
    """A word that is defined by clauses, or a statement that is claimed."""

    name: str
    line: int
    # The names that its module's clauses share, and which module that is.
    shared: list
    module: int
    type: list
    # Of each clause the patterns and the body, as tokens.
    clauses: list = field(default_factory=list)


@dataclass
class Source:
    """A file: what its words stand for (by `use`), what it passes on (by `pub use`), its definitions, its statements,
    and its records with parameters."""

    path: Path
    title: str
    used: dict = field(default_factory=dict)
    passed_on: dict = field(default_factory=dict)
    definitions: dict = field(default_factory=dict)
    statements: dict = field(default_factory=dict)
    records: dict = field(default_factory=dict)
    constructors: set = field(default_factory=set)


def tokens_of(text, line, title):
    """The tokens of a text that begins in this line."""
    found, place = [], 0
    while place < len(text):
        if text[place].isspace():
            line += text[place] == "\n"
            place += 1
            continue
        match = TOKEN.match(text, place)
        if match is None:
            raise Refused(f"{title} line {line}: {text[place:place + 20]!r} is not understood")
        found.append(Token(match[0], line, place > 0 and text[place - 1].isspace()))
        place = match.end()
    return found


def items_of(text):
    """The parts of a file, each from its first line to the last that is indented more: (line, indentation, text)."""
    items, inside = [], False
    for number, line in enumerate(text.split("\n"), 1):
        code = re.sub(r"--.*$", "", line).rstrip()
        if not code:
            continue
        indentation = len(code) - len(code.lstrip())
        inside = indentation > 0 and inside or code.startswith("module _")
        first = indentation == 0 or inside and indentation == 2
        if first and code.lstrip()[0] not in "})∷→":
            items.append([number, indentation, code])
        else:
            items[-1][2] += "\n" + code
    return items


def read_file(path, title):
    """The parts of a file by their kinds."""
    source = Source(path, title)
    shared, module, current = [], 0, None
    for line, indentation, text in items_of(path.read_text()):
        tokens = tokens_of(text, line, title)
        words = [token.text for token in tokens]
        if indentation == 0:
            shared = []
        if words[0] == "module":
            module += 1
            shared = parameters(tokens)
        elif words[0] == "use":
            source.used.update(used_words(text, f"{title} line {line}"))
        elif words[:2] == ["pub", "use"] or words[:3] == ["unfoldable", "pub", "use"]:
            source.passed_on.update(used_words(text[text.index("use "):], f"{title} line {line}"))
        elif words[0] in ("abbrev", "unfoldable") or words[0] == "pub" and words[1] not in ("record", "data", "mod"):
            current = signature(tokens, shared, module if shared else 0)
            kept = source.definitions if words[0] != "pub" else source.statements
            if current.name in kept:
                raise Refused(f"{title} line {line}: {current.name} is defined twice")
            kept[current.name] = current
        elif words[0] == "pub":
            add_type(source, tokens, words)
        elif words[0] not in ("infixl", "infixr", "infix", "unfolding"):
            if current is None:
                raise Refused(f"{title} line {line}: a clause of no word")
            current.clauses.append(tokens)
    return source


def used_words(text, where):
    """What a `use` line brings: each word, and the path and the name that it stands for; a file itself has no name."""
    text = " ".join(text.split())
    listed = re.fullmatch(r"use ([\w.]+)\.\{(.*)\}", text)
    named = re.fullmatch(r"use ([\w.]+) as (\w+)", text)
    if named:
        return {named[2]: (named[1], None)}
    if not listed:
        raise Refused(f"{where}: {text!r} is not understood")
    found = {}
    for word in listed[2].split(","):
        name, _, other = word.strip().partition(" as ")
        found[(other or name).strip("◌")] = (listed[1], name.strip("◌"))
    return found


def parameters(tokens):
    """The names in the parentheses of a header: `(a b : T) (c : U)`; those in braces are left out."""
    found, place = [], 0
    while place < len(tokens):
        if tokens[place].text == "(":
            end = place + 1
            while tokens[end].text != ":":
                found.append(tokens[end].text)
                end += 1
            place = closing(tokens, place)
        place += 1
    return found


def closing(tokens, place):
    """The place of the bracket that closes the one at a place."""
    depth = 0
    for at in range(place, len(tokens)):
        depth += {"(": 1, "{": 1, "[": 1, ")": -1, "}": -1, "]": -1}.get(tokens[at].text, 0)
        if depth == 0:
            return at
    return len(tokens)


def signature(tokens, shared, module):
    """The definition that `[unfoldable] [pub] name : type` begins."""
    colon = next(at for at, token in enumerate(tokens) if token.text == ":")
    name = tokens[colon - 1]
    return Definition(name.text.strip("◌"), name.line, shared, module, tokens[colon + 1:])


def add_type(source, tokens, words):
    """A record with parameters states that all its fields hold; a `data` has constructors;
    of others nothing is kept."""
    if words[1] == "data":
        source.constructors |= {tokens[at - 1].text for at, word in enumerate(words) if word == ":" and at > 3}
    if words[1] == "record" and words[3] == "(":
        where = words.index("where")
        starts = [at for at in range(where, len(words)) if words[at] == "pub"] + [len(words)]
        fields = [(tokens[a + 1].text, tokens[a + 3:b]) for a, b in zip(starts, starts[1:])]
        source.records[words[2]] = (parameters(tokens[:where]), fields, tokens[0].line)


class Parser:
    """Reads tokens as a tree."""

    def __init__(self, tokens, title):
        self.tokens, self.title, self.place = tokens, title, 0

    def peek(self, ahead=0):
        at = self.place + ahead
        return self.tokens[at].text if at < len(self.tokens) else None

    def line(self):
        return self.tokens[min(self.place, len(self.tokens) - 1)].line

    def take(self, wanted=None):
        if self.peek() is None or wanted is not None and self.peek() != wanted:
            raise Refused(f"{self.title} line {self.line()}: {self.peek()!r} where {wanted or 'more'!r} is wanted")
        self.place += 1
        return self.tokens[self.place - 1].text

    def whole(self):
        """The tree of all tokens."""
        tree = self.expression()
        if self.peek() is not None:
            raise Refused(f"{self.title} line {self.line()}: {self.peek()!r} is not understood")
        return tree

    def expression(self, least=0):
        """A tree whose operators bind at least so closely."""
        left = self.opening() if self.peek() in ("λ", "let", "if") else self.quantified() or self.application()
        while self.peek() in LEVELS and LEVELS[self.peek()][0] >= least:
            line, operator = self.line(), self.take()
            level, side = LEVELS[operator]
            right = self.expression(level if side == "right" else level + 1)
            left = join(operator, left, right, line)
        return left

    def opening(self):
        """What reaches as far to the right as it can: a function, a `let`, an `if`."""
        word = self.take()
        if word == "λ":
            names = []
            while self.peek() != ".":
                names.append(self.take())
            self.take(".")
            return ("function", names, self.expression())
        if word == "let":
            name = self.take()
            while self.peek() != "=":
                self.take()
            self.take("=")
            value = self.expression()
            self.take("in")
            return ("naming", name, value, self.expression())
        test = self.expression()
        self.take("then")
        first = self.expression()
        self.take("else")
        return ("choice", test, first, self.expression())

    def quantified(self):
        """`(a b : T) → ..` or `(a : T) × ..`, if that stands here."""
        names = 1
        while self.peek(names) is not None and re.fullmatch(r"[a-z_]\w*", self.peek(names)):
            names += 1
        if self.peek() != "(" or names == 1 or self.peek(names) != ":":
            return None
        line, bound = self.line(), [self.peek(at) for at in range(1, names)]
        end = closing(self.tokens, self.place)
        kind = Parser(self.tokens[self.place + names + 1:end], self.title).whole()
        self.place = end + 1
        if self.peek() in ("→", "×"):
            self.take()
        return ("quantified", bound, kind, self.expression(), line)

    def application(self):
        head, arguments = self.atom(), []
        while self.peek() is not None and self.peek() not in STOPS:
            if self.peek() in ("λ", "let", "if"):
                arguments.append(self.opening())
                break
            arguments.append(self.atom())
        return ("apply", head, arguments) if arguments else head

    def atom(self):
        line, word = self.line(), self.take()
        if word == "(":
            parts = [self.expression()]
            while self.peek() == ",":
                self.take(",")
                parts.append(self.expression())
            self.take(")")
            return self.fields(parts[0] if len(parts) == 1 else ("tuple", parts))
        if word == "[":
            self.take("]")
            return ("list", [], None)
        if word == "record":
            return self.record()
        if word == "{":
            raise Refused(f"{self.title} line {line}: '{{' is not understood")
        if word.isdigit():
            return ("number", int(word))
        if word[0] == '"':
            return ("text", word[1:-1])
        if word == "Unit" and self.peek() == "{":
            self.place = closing(self.tokens, self.place) + 1
            return ("name", "⊤", line)
        first, *parts = word.split(".")
        tree = ("name", first, line)
        for part in parts:
            tree = ("field", tree, part)
        return self.fields(tree)

    def record(self):
        base = None if self.peek() == "{" else self.atom()
        self.take("{")
        fields = []
        while self.peek() != "}":
            name = self.take()
            self.take("=")
            fields.append((name, self.expression()))
            if self.peek() == ";":
                self.take(";")
        self.take("}")
        return self.fields(("record", base, fields))

    def fields(self, tree):
        """Fields that follow without a space."""
        while self.peek() is not None and re.fullmatch(r"\.\w+", self.peek()) and not self.tokens[self.place].apart:
            tree = ("field", tree, self.take()[1:])
        return tree


def join(operator, left, right, line):
    """Two trees joined; elements before a list of elements are one list."""
    if operator != "∷":
        return ("operator", operator, left, right, line)
    if right[0] == "list":
        return ("list", [left, *right[1]], right[2])
    return ("list", [left], right)


def clause_parts(tokens, name, title):
    """The patterns of a clause and its body; an operator's name stands between its two patterns."""
    depth = 0
    for place, token in enumerate(tokens):
        depth += {"(": 1, "{": 1, "[": 1, ")": -1, "}": -1, "]": -1}.get(token.text, 0)
        if token.text == "=" and depth == 0:
            break
    else:
        raise Refused(f"{title} line {tokens[0].line}: a clause without '='")
    named = [at for at in range(place) if tokens[at].text == name]
    if named[:1] not in ([0], [1]) and not (named and tokens[0].text == "("):
        raise Refused(f"{title} line {tokens[0].line}: a clause of another word than {name}")
    head = tokens[:named[0]] + tokens[named[0] + 1:place]
    patterns, parser = [], Parser(head, title)
    while parser.peek() is not None:
        patterns.append(parser.atom())
    return patterns, Parser(tokens[place + 1:], title).whole()
