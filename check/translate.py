"""Translates definitions, as trees, to Python: each word to a function,
each clause to a test of its patterns and a return.

A statement is translated like any other word: it is evaluated to True or False.
What ranges over all of a type cannot be; such a place is translated to a refusal, which is raised when it is reached.
"""
from functools import partial

from antt import Parser, Refused, clause_parts, read_file
from words import CONSTRUCTORS, NONE, VALUES, WORDS, Record, Variant

SIGNS = {
    "||": "or", "&&": "and", "==": "==", "≡": "==", "≢": "!=", "<": "<", "≤": "<=", "+": "+", "++": "+", "*": "*",
    "/": "//", "%": "%", "^": "**", "×": "and", "⊎": "or",
}

# Words that are asked the same again and again; what they return is kept until a command is done.
REMEMBERED = {"front_over", "moved", "changes", "changed", "step", "cut"}


def minus(a, b):
    """Subtraction stops at 0."""
    return a - b if a > b else 0


def curried(f, count, *given):
    """A function of several arguments as one that takes them one at a time."""
    if count == 1:
        return partial(f, *given)
    return lambda x: curried(f, count - 1, *given, x)


def refuse(message):
    raise Refused(message)


def remembered(f, answers):
    """The same function; for the very same arguments it returns again what it returned before."""
    def remembering(*arguments):
        key = tuple(map(id, arguments))
        found = answers.get(key)
        if found is None:
            # The arguments are kept, so that their identities stay theirs.
            found = answers[key] = (f(*arguments), arguments)
        return found[0]
    return remembering


class Program:
    """The words of a repository's definitions as Python functions, each translated when it is first asked for."""

    def __init__(self, top):
        self.top, self.sources, self.answers = top, {}, {}
        self.functions, self.waiting = {}, []
        self.world = {
            "Variant": Variant, "Record": Record, "NONE": NONE, "minus": minus, "curried": curried, "refuse": refuse,
        }
        self.world.update({f"std_{name}": f for name, (_, f) in WORDS.items()})

    def source(self, path):
        """The file of a path such as `street_base.specs.Motion`."""
        if path not in self.sources:
            crate, *folders, name = path.split(".")
            title = f"{crate}/{'/'.join(folders)}/{name}.antt"
            self.sources[path] = read_file(self.top / "crates" / title, title)
        return self.sources[path]

    def origin(self, path, name):
        """The path and the name of a word where it is defined: files that pass it on are followed."""
        while path.startswith("Rattle.street_") and ".declared." not in path:
            passed_on = self.source(path.removeprefix("Rattle.")).passed_on
            if name not in passed_on:
                break
            path, name = passed_on[name]
        return path, name

    def word(self, path, name):
        """The function of a word, or its value if it takes no argument."""
        function, arity = self.function(path, name)
        self.translate_waiting()
        return self.world[function] if arity else self.world[function]()

    def evaluated(self, path, tree, given):
        """The value of a tree with the words of a file, and given names."""
        code = Translator(self, path, set(given), None).code(tree)
        self.translate_waiting()
        names = ", ".join(f"v_{name}" for name in given)
        return eval(f"lambda {names}: {code}", self.world)(*given.values())

    def forget(self):
        """Drops what was remembered for speed."""
        for answers in self.answers.values():
            answers.clear()

    def function(self, path, name):
        """The Python name of a definition, and how many arguments it takes; it is translated soon."""
        if (path, name) not in self.functions:
            source = self.source(path)
            if name in source.definitions:
                arity = definition_arity(source.definitions[name], source.title)
            elif name in source.records:
                arity = len(source.records[name][0])
            else:
                raise Refused(f"{source.title}: {name} is not defined")
            self.functions[path, name] = (f"{path.replace('.', '_')}__{name}", arity)
            self.waiting.append((path, name))
        return self.functions[path, name]

    def translate_waiting(self):
        """Translates what was asked for, and all that it stands on."""
        while self.waiting:
            path, name = self.waiting.pop()
            source = self.source(path)
            definition = source.definitions.get(name)
            lines = self.definition(path, definition) if definition else self.record(path, name)
            exec(compile("\n".join(lines), f"{source.title}: {name}", "exec"), self.world)
            if name in REMEMBERED:
                function = self.functions[path, name][0]
                self.answers[function] = {}
                self.world[function] = remembered(self.world[function], self.answers[function])

    def definition(self, path, definition):
        """The lines of a function for a definition."""
        function, arity = self.functions[path, definition.name]
        title = self.source(path).title
        lines = [f"def {function}({', '.join(f'a{at}' for at in range(arity))}):"]
        lines += [f"  v_{name} = a{at}" for at, name in enumerate(definition.shared)]
        lines.append("  while True:")
        for tokens in definition.clauses:
            lines += self.clause(path, definition, tokens)
        return [*lines, f"    refuse({f'{title} line {definition.line}: no clause of {definition.name} fits'!r})"]

    def clause(self, path, definition, tokens):
        """The lines of a clause: what its patterns ask for, what they name, and what is returned."""
        source = self.source(path)
        patterns, body = clause_parts(tokens, definition.name, source.title)
        shared = len(definition.shared)
        if len(patterns) + shared != self.functions[path, definition.name][1]:
            raise Refused(
                f"{source.title} line {tokens[0].line}: clauses of {definition.name} differ in their arguments"
            )
        tests, names = [], {}
        translator = Translator(self, path, set(), definition)
        for at, pattern in enumerate(patterns):
            translator.fit(pattern, f"a{at + shared}", tests, names)
        translator.locals = {*names, *definition.shared}
        lines = [f"v_{name} = {value}" for name, value in names.items()] + translator.returning(body)
        if not tests:
            return ["    " + line for line in lines]
        return [f"    if {' and '.join(tests)}:"] + ["      " + line for line in lines]

    def record(self, path, name):
        """The lines of a function for a record with parameters: all its fields hold, each over those before."""
        function, _ = self.functions[path, name]
        title = self.source(path).title
        names, fields, _ = self.source(path).records[name]
        translator = Translator(self, path, set(names), None)
        codes = [translator.code(Parser(tokens, title).whole()) for _, tokens in fields]
        return [
            f"def {function}({', '.join(f'v_{name}' for name in names)}):",
            f"  return {' and '.join(f'({code})' for code in codes)}",
        ]


def definition_arity(definition, title):
    """How many arguments a definition takes, with those of its module."""
    if not definition.clauses:
        raise Refused(f"{title} line {definition.line}: {definition.name} has no clause")
    return len(definition.shared) + len(clause_parts(definition.clauses[0], definition.name, title)[0])


class Translator:
    """Translates the trees of one definition, with the words of its file."""

    def __init__(self, program, path, names, definition):
        self.program, self.path, self.locals, self.definition = program, path, names, definition
        self.used = program.source(path).used
        self.title = program.source(path).title

    def code(self, tree):
        """Python for the value of a tree."""
        return getattr(self, tree[0])(*tree[1:])

    def returning(self, tree):
        """Lines that return the value of a tree. A word that ends with itself goes round again,
        so that long lists need no deep calls."""
        if tree[0] == "choice":
            return [
                f"if {self.code(tree[1])}:",
                *("  " + line for line in self.returning(tree[2])),
                *self.returning(tree[3]),
            ]
        if tree[0] == "apply" and tree[1][:2] == ("name", self.definition.name) and self.goes_round(tree[2]):
            names = ", ".join(f"a{at}" for at in range(len(tree[2])))
            return [f"{names} = {', '.join(map(self.code, tree[2]))}", "continue"]
        return [f"return {self.code(tree)}"]

    def goes_round(self, arguments):
        """Whether a word may be a loop: it is called with all its arguments, and none of its functions
        could see a name change."""
        if self.definition.shared or self.definition.name in self.locals:
            return False
        has_functions = any(token.text == "λ" for tokens in self.definition.clauses for token in tokens)
        return not has_functions and len(arguments) == self.program.functions[self.path, self.definition.name][1]

    # ---- words

    def meaning(self, name, line):
        """What a word is: ("function", Python name, arity, first arguments), ("variant", name), ("value",
        Python) or ("kind", name of a type)."""
        if name in self.locals:
            return ("value", f"v_{name}")
        source = self.program.source(self.path)
        if name in source.definitions or name in source.records:
            return self.defined(self.path, name)
        if name in source.constructors:
            return ("variant", name)
        if name not in self.used:
            if name in VALUES:
                return ("value", VALUES[name])
            raise Refused(f"{self.title} line {line}: {name} is not known")
        path, original = self.program.origin(*self.used[name])
        if ".declared." in path or original is None:
            return self.declared(path, original)
        if path.startswith("Rattle.street_"):
            return self.imported(path.removeprefix("Rattle."), original)
        if original in VALUES:
            return ("value", VALUES[original])
        if original in CONSTRUCTORS:
            return ("variant", original)
        if original in WORDS:
            return ("function", f"std_{original}", WORDS[original][0], [])
        raise Refused(f"{self.title} line {line}: {path}.{original} is not known")

    def defined(self, path, name):
        """A word of a file; in its own module the words of a module share their first arguments."""
        function, arity = self.program.function(path, name)
        source = self.program.source(path)
        definition = source.definitions.get(name)
        inside = (
            self.definition is not None
            and definition is not None
            and path == self.path
            and definition.module == self.definition.module > 0
        )
        return ("function", function, arity, [f"v_{shared}" for shared in definition.shared] if inside else [])

    def imported(self, path, name):
        if name in self.program.source(path).constructors:
            return ("variant", name)
        return self.defined(path, name)

    def declared(self, path, name):
        """A type of the code, and its constructors: `..Reply.TheVariants.{Taken}` is Reply.Taken."""
        if path.endswith(".TheVariants"):
            kind = path.split(".")[-2]
            return ("variant", f"{kind}.{name}") if name else ("kind", kind)
        return ("kind", name)

    def name(self, text, line):
        return self.applied(self.meaning(text, line), [], text, line)

    def apply(self, head, arguments):
        codes = [self.code(argument) for argument in arguments]
        if head[0] == "name":
            return self.applied(self.meaning(head[1], head[2]), codes, head[1], head[2])
        return self.code(head) + "".join(f"({code})" for code in codes)

    def applied(self, meaning, codes, name, line):
        """A word with arguments: with all of them it is called, with fewer it waits for the rest."""
        if meaning[0] == "variant":
            held = f", ({''.join(code + ', ' for code in codes)})" if codes else ""
            found, codes = f"Variant({meaning[1]!r}{held})", []
        elif meaning[0] == "value":
            found = meaning[1]
        elif meaning[0] == "function":
            _, function, arity, given = meaning
            codes = [*given, *codes]
            if len(codes) < arity:
                return f"curried({', '.join([function, str(arity - len(codes)), *codes])})"
            found, codes = f"{function}({', '.join(codes[:arity])})", codes[arity:]
        else:
            raise Refused(f"{self.title} line {line}: {name} is a type, and no value")
        return found + "".join(f"({code})" for code in codes)

    def field(self, tree, name):
        if tree[0] == "name" and tree[1] not in self.locals and tree[1] in self.used:
            meaning = self.meaning(tree[1], tree[2])
            if meaning[0] == "kind":
                return f"Variant({f'{meaning[1]}.{name}'!r})"
        return f"{self.code(tree)}[{name}]" if name.isdigit() else f"{self.code(tree)}.v_{name}"

    # ---- values

    def number(self, n):
        return str(n)

    def text(self, text):
        return repr(text)

    def tuple(self, parts):
        return f"({', '.join(map(self.code, parts))})"

    def list(self, first, rest):
        codes = [self.code(tree) for tree in first]
        if rest is not None:
            codes.append("*" + self.code(rest))
        return f"[{', '.join(codes)}]"

    def record(self, base, fields):
        names = [name for name, _ in fields]
        if len(names) > len(set(names)):
            raise Refused(f"{self.title}: a record with one field twice: {' '.join(names)}")
        body = "{" + ", ".join(f"{f'v_{name}'!r}: {self.code(tree)}" for name, tree in fields) + "}"
        return f"{self.code(base)}.updated({body})" if base else f"Record({body})"

    # ---- forms

    def operator(self, sign, left, right, line):
        if sign == "→":
            return f"(not {self.code(left)} or {self.code(right)})"
        if sign == "-":
            return f"minus({self.code(left)}, {self.code(right)})"
        if sign not in SIGNS:
            return self.applied(self.meaning(sign, line), [self.code(left), self.code(right)], sign, line)
        return f"({self.code(left)} {SIGNS[sign]} {self.code(right)})"

    def within(self, names, tree):
        """A tree in which more names are known."""
        outside, self.locals = self.locals, {*self.locals, *names}
        code = self.code(tree)
        self.locals = outside
        return code

    def function(self, names, body):
        return "(" + "".join(f"lambda v_{name}: " for name in names) + self.within(names, body) + ")"

    def choice(self, test, first, second):
        return f"({self.code(first)} if {self.code(test)} else {self.code(second)})"

    def naming(self, name, value, body):
        return f"(lambda v_{name}: {self.within([name], body)})({self.code(value)})"

    def quantified(self, names, kind, body, line):
        return f"refuse({f'{self.title} line {line}: a statement about all or some {names} is not evaluated'!r})"

    # ---- patterns

    def fit(self, pattern, value, tests, names):
        """Adds what a pattern asks of a value, and what it names in it."""
        kind = pattern[0]
        if kind == "list":
            first, rest = pattern[1], pattern[2]
            tests.append(f"len({value}) {'==' if rest is None else '>='} {len(first)}")
            for at, part in enumerate(first):
                self.fit(part, f"{value}[{at}]", tests, names)
            if rest is not None:
                self.fit(rest, f"{value}[{len(first)}:]", tests, names)
        elif kind == "tuple":
            for at, part in enumerate(pattern[1]):
                self.fit(part, f"{value}[{at}]", tests, names)
        elif kind == "apply" and pattern[1][1] == "suc":
            tests.append(f"{value} > 0")
            self.fit(pattern[2][0], f"({value} - 1)", tests, names)
        elif kind == "apply":
            tests.append(f"{value}.name == {self.constructor(pattern[1])!r}")
            for at, part in enumerate(pattern[2]):
                self.fit(part, f"{value}.parts[{at}]", tests, names)
        else:
            self.fit_word(pattern, value, tests, names)

    def fit_word(self, pattern, value, tests, names):
        """A word in a pattern is a constructor, or else names the value."""
        if pattern[0] == "field":
            tests.append(f"{value}.name == {self.constructor(pattern)!r}")
            return
        word = pattern[1]
        _, original = self.stands_for(word)
        if original in ("true", "false", "zero"):
            tests.append({"true": f"{value} is True", "false": f"{value} is False", "zero": f"{value} == 0"}[original])
        elif original == "None":
            tests.append(f"{value} is NONE")
        elif self.is_constructor(word):
            tests.append(f"{value}.name == {self.constructor(pattern)!r}")
        elif word != "_":
            names[word] = value

    def is_constructor(self, word):
        path, original = self.stands_for(word)
        if path.startswith("Rattle.street_") and ".declared." not in path:
            return original in self.program.source(path.removeprefix("Rattle.")).constructors
        return path.endswith(".TheVariants") or original in CONSTRUCTORS

    def stands_for(self, word):
        """The path and the name of a word of this file, where it is defined; no name where it is not used."""
        here = (f"Rattle.{self.path}", word) if word in self.program.source(self.path).constructors else ("", None)
        return self.program.origin(*self.used[word]) if word in self.used else here

    def constructor(self, tree):
        """The name of a constructor that a pattern names."""
        if tree[0] == "field":
            kind = self.meaning(tree[1][1], tree[1][2])
            return f"{kind[1]}.{tree[2]}"
        meaning = self.meaning(tree[1], tree[2])
        if meaning[0] != "variant":
            raise Refused(f"{self.title} line {tree[2]}: {tree[1]} is no constructor")
        return meaning[1]
