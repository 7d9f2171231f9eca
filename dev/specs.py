"""Reads the definitions of specs/: the modules with their imports, the equations of definitions, and terms as trees.

It is the only reader of the language: dev/evaluator.py evaluates its trees, dev/trusted follows the names, and
dev/definition_changes.py changes the texts.

A tree is a tuple whose first item says what it is: ("name", word), ("number", value), ("text", text), ("field", tree,
name), ("record", base or None, [(field, tree)..]), ("function", names, body), ("apply", head, arguments), ("operator",
sign, operands..), where the sign of a pair is a comma, or ("binder", sign, names, type, body), which says that there
are such values (×) or speaks of all of them (→).
"""

import functools
import itertools
import re


class CannotEvaluate(Exception):
    """Something can't be evaluated; the text says why."""


class Malformed(CannotEvaluate):
    """A text isn't in the language of the definitions."""


def cannot(why, sort=CannotEvaluate):
    raise sort(why)


# A token is a text, a bracket or separator, or whatever has none of these and no blanks. Comments are no tokens. A
# field after a closing bracket is a token that begins with a dot.
TOKEN = re.compile(r'\s+|--(?= |\n|$)[^\n]*|("(?:[^"\\]|\\.)*"|[(){},;"]|[^\s(){},;"]+)')
NUMBER = re.compile(r"(0x[0-9a-fA-F][0-9a-fA-F_]*|[0-9][0-9_]*)$")
NAME = re.compile(r"[\w']+$")
ESCAPED = {"n": "\n", "t": "\t", "r": "\r"}
# How strongly each operator binds, and to which side it groups.
OPERATORS = {sign: (strength, side) for strength, side, signs in (
    (0, "right", "→"), (0, "", "↔"), (1, "right", "⊎"), (2, "right", "×"), (4, "", "≡ ≢"), (5, "right", "∷ ++"),
    (10, "left", ">>="), (30, "left", "||"), (35, "left", "&&"), (40, "", "=="), (50, "", "≤ <"), (65, "left", "+ -"),
    (70, "left", "* / %"), (75, "right", "^")) for sign in signs.split()}
ENDS = {")", "}", ";", ",", "then", "else", "in", "=", None}


def lex(text):
    """Returns the tokens of a text, and None as their end."""
    return [*filter(None, TOKEN.findall(text)), None]


class Parser:
    """Reads tokens as a tree."""

    def __init__(self, tokens):
        self.tokens, self.place = tokens, 0

    def peek(self):
        return self.tokens[self.place]

    def next(self, *expected):
        word = self.peek()
        if word is None or expected and word not in expected:
            cannot(f"{word or 'the end'} is where {' or '.join(expected) or 'a word'} is expected", Malformed)
        self.place += 1
        return word

    def whole(self):
        tree = self.term()
        return tree if self.peek() is None else cannot(f"{self.peek()} follows a term", Malformed)

    def term(self, least=-1):
        """Reads a term in which the operators outside of brackets bind at least so strongly."""
        match self.peek():
            case "(" if names := self.bound():
                return self.binder(names)
            case "λ":
                names, word = [], self.next()
                while not word.endswith("."):
                    word = self.next()
                    if word == "(":  # λ (NAME : TYPE).
                        names, _, _, _ = [*names, self.next()], self.next(":"), self.term(), self.next(")")
                    elif word != ".":
                        names.append(word.rstrip("."))
                return ("function", names, self.term())
            case "let":
                _, name = self.next(), self.next()
                if self.next("=", ":") == ":":
                    self.term()
                    self.next("=")
                value, _ = self.term(), self.next("in")
                return ("apply", ("function", [name], self.term()), [value])
            case "if":
                _, condition, _ = self.next(), self.term(), self.next("then")
                yes, _ = self.term(), self.next("else")
                return ("operator", "if", condition, yes, self.term())
        left = self.application()
        while self.peek() in OPERATORS:
            strength, side = OPERATORS[self.peek()]
            if strength < least or strength == least and side != "right":
                break
            left = ("operator", self.next(), left, self.term(strength))
        return left

    def bound(self):
        """Returns the names in brackets here, if they are names with a type."""
        names = list(itertools.takewhile(NAME.match, self.tokens[self.place + 1:-1]))
        return names if self.tokens[self.place + 1 + len(names)] == ":" else []

    def binder(self, names):
        """Names with a type and the term after them: there are such values (×), or for all such values (→)."""
        first = self.place + 2 + len(names)
        self.place = first
        self.term()
        kind, _ = " ".join(word for word in self.tokens[first:self.place] if word not in "(){}"), self.next(")")
        sign = self.next("×", "→") if self.peek() != "(" else None
        body = self.term(1 if sign == "×" else 0)
        return ("binder", sign or body[1], names, kind, body)

    def application(self):
        head, args = self.atom(), []
        while self.peek() not in ENDS and self.peek() not in OPERATORS:
            if self.peek() == "{":
                self.skip_braces()
            else:
                args.append(self.term() if self.peek() in ("λ", "let", "if") else self.atom())
        return ("apply", head, args) if args else head

    def skip_braces(self):
        """Passes over an argument that the prover finds by itself."""
        depth = len(self.next("{"))
        while depth:
            word = self.next()
            depth += (word == "{") - (word == "}")

    def atom(self):
        word = self.next()
        if word in ENDS or word in OPERATORS or word in '{"':
            cannot(f"{word} is where a term is expected", Malformed)
        if word == "(":
            parts = [("name", "tt")] if self.peek() == ")" else [self.term()]
            while self.next(",", ")") == ",":
                parts += [self.term()] if self.peek() != ")" else []
            tree = functools.reduce(lambda second, first: ("operator", ",", first, second), parts[-2::-1], parts[-1])
        elif word == "record":
            tree = self.record()
        elif word == "¬":
            tree = ("operator", "¬", self.application())
        elif word[0] == '"':
            tree = ("text", re.sub(r"\\(.)", lambda match: ESCAPED.get(match[1], match[1]), word[1:-1]))
        elif NUMBER.match(word):
            tree = ("number", int(word.replace("_", ""), 16 if word[:2] == "0x" else 10))
        else:
            tree = ("name", word)
        while re.match(r"\.\w", self.peek() or ""):
            tree = functools.reduce(lambda tree, field: ("field", tree, field), self.next()[1:].split("."), tree)
        return tree

    def record(self):
        base, fields = None if self.peek() == "{" else self.atom(), []
        self.next("{")
        while (name := self.next()) != "}":
            if name in dict(fields):
                cannot(f"{name} is given twice", Malformed)
            _, value = self.next("="), self.term()
            fields.append((name, value))
            _ = self.peek() == "}" or self.next(";")
        return ("record", base, fields)


BEGINS = re.compile(r"( *)(abbrev pub|unfoldable pub|pub record|pub data|pub) ([^\s:({]+)")
IMPORT = re.compile(r"\s*(?:ghost )?(?:pub )?use (?:Rattle\.)?([\w.]+?)(?:\.\{(.*)\}| as (\w+));?$")
PASSED_OVER = re.compile(r"\s*(--|((pub|ghost) )*use |pub mod |infix|unfolding\b|$)")
EXPLICIT = re.compile(r"\(([\w' ]+) :")  # the names of parameters that calls give


def with_whole_lines(text):
    """Returns the text of a module, as long as it is, with each `module _ .. where` on one line."""
    return re.sub(r"(?m)^(module [^\n]*)(?<!where)\n(?= )", r"\1 ", text)


class Definition:
    """A definition as it is in its file. `part` is the line `module _ .. where` of the part of the module that it is
    in, whose parameters are `outer`. `lines` are its lines without comments, and `offsets` say where they begin in the
    text of the module."""

    def __init__(self, name, kind, depth, part):
        self.name, self.kind, self.depth, self.part, self.lines, self.offsets = name, kind, depth, part, [], []
        self.outer = " ".join(EXPLICIT.findall(part)).split()

    def add(self, line, offset):
        """Adds a line."""
        self.lines.append(line)
        self.offsets.append(offset)

    @property
    def span(self):
        """Where the definition begins and ends in the text of the module."""
        return self.offsets[0], self.end_of(len(self.lines))

    def end_of(self, number):
        """Returns where the line before the one of this number ends, with its line feed."""
        return self.offsets[number - 1] + len(self.lines[number - 1]) + 1

    @functools.cached_property
    def sides(self):
        """The patterns and the right side of each equation, which are read when they are first needed."""
        return self.statement() if self.kind == "record" else self.equations() if self.kind == "function" else []

    @functools.cached_property
    def arity(self):
        """The number of arguments, or None if the definition is a type or malformed."""
        try:
            return len(self.outer) + len(self.sides[0][0]) if self.sides else None
        except Malformed:
            return None

    def equations(self):
        return [*map(self.equation, self.texts(self.depth))] or cannot(f"{self.name} has no equation", Malformed)

    def equation(self, text):
        """Divides an equation at its first `=` outside of brackets, and the left side into patterns."""
        tokens = lex(text)
        depths = itertools.accumulate((word in ("(", "{")) - (word in (")", "}")) for word in tokens)
        equals = next((place for place, depth in enumerate(depths) if not depth and tokens[place] == "="), 0)
        left, right = Parser([*tokens[:equals], None]).whole(), Parser(tokens[equals + 1:]).whole()
        return (left[2:] if "◌" in self.name else left[2] if left[0] == "apply" else []), right

    def statement(self):
        """Returns a record with parameters as an equation: its fields are statements that hold. A field that other
        fields name, or that is a list, is a value that there is. A record without parameters is a type."""
        params = " ".join(EXPLICIT.findall(" ".join(self.lines).split(" : Type")[0])).split()
        fields = {text.split()[1]: lex(text.partition(" : ")[2]) for text in self.texts(self.depth + 2)}
        if not params or not fields:
            return []
        words = itertools.chain(*map(itertools.pairwise, fields.values()))
        used = {word.split(".")[0] for word, after in words if after != "="} - {*params}
        used |= {name for name, tokens in fields.items() if tokens[0] == "List"}
        values = [name for name in fields if name in used]
        parts = [Parser(tokens).whole() for name, tokens in fields.items() if name not in used]
        body = functools.reduce(lambda later, part: ("operator", "×", part, later), parts[-2::-1], parts[-1])
        body = ("binder", "×", values, "value", body) if values else body
        return [([("name", name) for name in params], body)]

    def parts(self, depth):
        """Divides the lines of the definition after the first at those that are this far in. Yields the number of the
        first line of each part, and that of the line after it."""
        places = [place for place, line in enumerate(self.lines) if place and re.match(f" {{{depth}}}[^\\s)}}]", line)]
        return itertools.pairwise([*places, len(self.lines)])

    def texts(self, depth):
        """Returns the texts of these parts, without comments."""
        return ["\n".join(self.lines[first:after]).strip() for first, after in self.parts(depth)]

    def spans(self, depth):
        """Returns where these parts begin and end in the text of the module."""
        return [(self.offsets[first], self.end_of(after)) for first, after in self.parts(depth)]


class Module:
    """A module specs/NAME.antt: the names and the modules that it imports, and its definitions."""

    def __init__(self, key, path, text):
        self.key, self.path, self.text = key, path, text
        self.names, self.modules, self.definitions, self.constructors = {}, {}, {}, {}
        for match in filter(None, map(IMPORT.match, text.split("\n"))):
            self.modules |= {match[3]: match[1]} if match[3] else {}
            for item in filter(None, re.split(r",\s*", match[2] or "")):
                there, _, here = item.partition(" as ")
                self.names[here or there] = (match[1], there)

    def read(self):
        """Divides the text into definitions. The parameters of a line `module _ .. where` are first arguments of those
        that are further in."""
        current, part, offset, after = None, "", 0, 0
        for line in with_whole_lines(self.text).split("\n"):
            offset, after = after, after + len(line) + 1
            depth, begins = len(line) - len(line.lstrip()), BEGINS.match(line)
            if PASSED_OVER.match(line):
                continue
            if line.lstrip().startswith("module "):
                current, part = None, " ".join(line.split())
            elif begins and not (current and current.kind != "function" and depth > current.depth):
                kind = {"pub record": "record", "pub data": "data"}.get(begins[2], "function")
                current = self.definitions[begins[3]] = Definition(begins[3], kind, depth, part if depth else "")
                current.add(line, offset)
            elif current:
                current.add(line, offset)
                if current.kind == "data" and " :" in line:
                    name = line.split(" :")[0].strip()
                    self.constructors[name] = f"{self.key}.{current.name}.{name}"
        return self
