"""Reads a program's text for tools/lint and tools/profile: the rules with their places, and nothing of names or classes
beyond what the text itself declares. It expects a text that the program accepts: run `dactl --check` first."""
import re

TOKEN = re.compile(
    r"(?P<blank>[ \t\r\n]+|\{[^}]*\})"
    r"|(?P<upper>[A-Z][A-Za-z0-9_]*)|(?P<lower>[a-z][A-Za-z0-9_]*)|(?P<integer>-?[0-9]+)"
    r"|(?P<sign>:=|=>|->|[\[\]();,|:=*#^+-])|(?P<character>'[ -~]')")
HEADER = "DACTL 2;"
RESERVED = set("MODULE ENDMODULE IMPORTS SYMBOL PATTERN RULE INITIAL PUBLIC REWRITABLE OVERWRITABLE CREATABLE ANY INT".split())
ARITHMETIC = ["IAdd", "ISub", "IMul", "IEq", "ILt"]


class NoProgram(Exception):
    """The text is no program; the answer of the program says why."""


class Token:
    def __init__(self, kind, text, place):
        self.kind, self.text, self.place = kind, text, place


class Pattern:
    """kind is any, int, char, integer, character, symbol, binder, + or -; parts are what stands below it."""
    def __init__(self, kind, name=None, parts=()):
        self.kind, self.name, self.parts = kind, name, list(parts)


class Term:
    """A new node (symbol, integer or character is given) or a mention (only name is given)."""
    def __init__(self, place, star, hashes, name, label, arguments):
        self.place, self.star, self.hashes, self.name = place, star, hashes, name
        self.label, self.arguments = label, arguments

    def is_new(self):
        return self.label is not None

    def below(self):
        """This term and all terms in its arguments."""
        yield self
        for argument in self.arguments:
            yield from argument.term.below()


class Argument:
    def __init__(self, place, waits, term):
        self.place, self.waits, self.term = place, waits, term


class Part:
    """left is the name before `:=`, or None."""
    def __init__(self, place, left, term):
        self.place, self.left, self.term = place, left, term


class Rule:
    """pattern is None for INITIAL."""
    def __init__(self, place, end, pattern, redirects, parts):
        self.place, self.end, self.pattern, self.redirects, self.parts = place, end, pattern, redirects, parts


class Text:
    """classes: each declared symbol's class. named: each named pattern. rules: those of the text, in order, from number 5.
    initial: the first graph as a rule without a pattern."""
    def __init__(self, text):
        self.tokens, self.at = list(tokens(text)), 0
        self.classes, self.named, self.rules, self.initial = {}, {}, [], None
        while self.peek().kind != "end":
            self.module()

    def peek(self, ahead=0):
        return self.tokens[min(self.at + ahead, len(self.tokens) - 1)]

    def take(self, due=None, kind=None):
        token = self.peek()
        if (due and token.text != due) or (kind and token.kind != kind):
            raise NoProgram(token.place)
        self.at += 1
        return token

    def has(self, text):
        if self.peek().text == text:
            self.at += 1
            return True
        return False

    def names(self):
        names = [self.take(kind="upper").text]
        while self.has(","):
            names.append(self.take(kind="upper").text)
        self.take(";")
        return names

    def module(self):
        self.take("MODULE")
        self.take(kind="upper")
        self.take(";")
        while not self.has("ENDMODULE"):
            self.item(self.take())
        self.take(kind="upper")
        self.take(";")

    def item(self, first):
        if first.text == "IMPORTS":
            self.names()
        elif first.text == "SYMBOL":
            kind = self.take().text
            if self.has("PUBLIC"):
                self.take()
            self.classes.update((name, kind) for name in self.names())
        elif first.text == "PATTERN":
            self.has("PUBLIC")
            name = self.take(kind="upper").text
            self.take("=")
            self.named[name] = self.pattern()
            self.take(";")
        elif first.text == "RULE":
            self.rules_of_item()
        elif first.text == "INITIAL":
            self.take("=>")
            parts = [self.part()]
            while self.has(","):
                parts.append(self.part())
            self.initial = Rule(first.place, self.take(";").place, None, False, parts)
        else:
            raise NoProgram(first.place)

    def rules_of_item(self):
        while True:
            self.rules.append(self.rule())
            if self.take().text == ";":
                token = self.peek()
                if token.kind in ("reserved", "end") and token.text not in ("ANY", "INT", "CHAR"):
                    return

    def rule(self):
        place = self.peek().place
        pattern = self.pattern()
        redirects = self.take().text == "=>"
        parts = [self.part()]
        while self.has(","):
            parts.append(self.part())
        return Rule(place, self.peek().place, pattern, redirects, parts)

    def pattern(self):
        left = self.piece()
        while self.peek().text in ("+", "-"):
            left = Pattern(self.take().text, parts=[left, self.piece()])
        return left

    def piece(self):
        if self.peek().kind != "lower":
            return self.base()
        name = self.take().text
        return Pattern("binder", name, [self.base() if self.has(":") else Pattern("any")])

    def base(self):
        token = self.take()
        if token.kind == "reserved" and token.text in ("ANY", "INT", "CHAR"):
            return Pattern(token.text.lower())
        if token.kind in ("integer", "character"):
            return Pattern(token.kind)
        if token.text == "(":
            inner = self.pattern()
            self.take(")")
            return inner
        if token.kind != "upper":
            raise NoProgram(token.place)
        parts = []
        if self.has("["):
            while not self.has("]"):
                parts.append(self.piece())
        return Pattern("symbol", token.text, parts)

    def part(self):
        place = self.peek().place
        if self.peek().kind == "lower" and self.peek(1).text == ":=":
            left = self.take().text
            self.take(":=")
            return Part(place, left, self.term())
        return Part(place, None, self.term())

    def term(self):
        place, star, hashes = self.peek().place, self.has("*"), 0
        while not star and self.has("#"):
            hashes += 1
        name = None
        if self.peek().kind == "lower":
            name = self.take().text
            if not self.has(":"):
                return Term(place, star, hashes, name, None, [])
        token = self.take()
        if token.kind not in ("integer", "character", "upper"):
            raise NoProgram(token.place)
        arguments = []
        if token.kind == "upper" and self.has("["):
            while not self.has("]"):
                begun = self.peek().place
                waits = self.has("^")
                arguments.append(Argument(begun, waits, self.term()))
        return Term(place, star, hashes, name, token.text, arguments)


def tokens(text):
    wide = text.startswith(HEADER)
    reserved = RESERVED | {"CHAR"} if wide else RESERVED
    at = len(HEADER) if wide else 0
    while at < len(text):
        found = TOKEN.match(text, at)
        if not found or (found.lastgroup == "character" and not wide):
            raise NoProgram(at)
        kind = found.lastgroup
        if kind != "blank":
            yield Token("reserved" if found[0] in reserved else kind, found[0], at)
        at = found.end()
    yield Token("end", "", at)


def line_of(text, place):
    """Line and column, both from 1, and the line itself."""
    line = text.count("\n", 0, place) + 1
    begun = text.rfind("\n", 0, place) + 1
    end = text.find("\n", place)
    return line, place - begun + 1, text[begun:] if end < 0 else text[begun:end]


def pointed(line, column):
    """The line with a caret below the column."""
    blank = "".join("\t" if sign == "\t" else " " for sign in line[:column - 1])
    return f"  {line}\n  {blank}^"
