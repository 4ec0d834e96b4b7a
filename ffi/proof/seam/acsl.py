"""Reads the contracts of ffi/proof/pkcs1.acsl.h: what is defined there, and the clauses of each call.

An expression is a tuple, whose first element says what it is. A location is an expression too: a `range` may stand in
it where an index or an offset does."""
import re
import subprocess
from collections import namedtuple

Named = namedtuple("Named", "kind result name labels params body")  # kind: predicate, logic, axiom
Call = namedtuple("Call", "result name params clauses")  # a clause: its kind, its name or None, its expression
TOKEN = re.compile(r"\s*(\\?[A-Za-z_]\w*|\d\w*|<==>|==>|\.\.|->|&&|\|\||[<>=!]=|.)")
LEVELS = [("<==>",), ("==>",), ("||",), ("&&",), ("==", "!=", "<", "<=", ">", ">="), ("+", "-"), ("*", "/", "%")]
BUILT_IN = {"\\true": ("true",), "\\false": ("false",), "\\null": ("null",), "\\result": ("name", "\\result"),
            "\\nothing": ("nothing",)}


def expanded(path):
    """The contracts in the file, in which macros are expanded, each in front of what it is the contract of."""
    text = re.sub(r"^#include .*", "", open(path, encoding="utf-8").read(), flags=re.M)
    plain = lambda it: "CONTRACT" + re.sub(r"//[^\n]*", "", it[1]).replace("\n  @", " ") + "OF"
    text = re.sub(r"/\*@(.*?)\*/", plain, text, flags=re.S)
    clang = ["clang", "-E", "-P", "-w", "-x", "c", "-"]
    return " ".join(subprocess.run(clang, input=text, capture_output=True, text=True, check=True).stdout.split())


class Reader:
    """Reads expressions from the front of a text."""

    def __init__(self, text):
        self.tokens = TOKEN.findall(text.strip()) + [""]
        self.at = 0

    def next(self, wanted=None):
        token = self.tokens[self.at]
        if wanted is not None and token != wanted:
            raise SyntaxError(f"{wanted} is missing in front of {' '.join(self.tokens[self.at:self.at + 9])}")
        self.at += 1
        return token

    def comes(self, *tokens):
        """Whether one of them is next. Then it's stepped over."""
        found = self.tokens[self.at] in tokens
        self.at += found
        return found

    def expression(self):
        left = self.operation(0)
        if not self.comes("?"):
            return left
        chosen = self.expression()
        self.next(":")
        return ("if", left, chosen, self.expression())

    def operation(self, level):
        if level == len(LEVELS):
            return self.prefixed()
        if level == 4:
            return self.comparison()
        left = self.operation(level + 1)
        while self.tokens[self.at] in LEVELS[level]:
            sign = self.next()
            right = self.operation(level if sign == "==>" else level + 1)  # an implication ends on the right
            left = ("do", sign, left, right)
        return left

    def comparison(self):
        """One or several: `0 <= i < n` is both of its comparisons."""
        sides, signs = [self.operation(5)], []
        while self.tokens[self.at] in LEVELS[4]:
            signs.append(self.next())
            sides.append(self.operation(5))
        pairs = [("do", sign, *pair) for sign, *pair in zip(signs, sides, sides[1:])]
        whole = pairs[0] if pairs else sides[0]
        for pair in pairs[1:]:
            whole = ("do", "&&", whole, pair)
        return whole

    def prefixed(self):
        if self.comes("\\forall", "\\exists"):
            return (self.tokens[self.at - 1], self.variables(";"), self.expression())
        for sign, kind in (("*", "star"), ("&", "address"), ("!", "not"), ("-", "minus")):
            if self.comes(sign):
                return (kind, self.prefixed())
        found = self.simple()
        while self.tokens[self.at] in (".", "->", "["):
            sign = self.next()
            found = ("index", found, self.bounds("]")) if sign == "[" else ("field", sign, found, self.next())
        return found

    def simple(self):
        token = self.next()
        if token == "(":
            return self.bounds(")")
        if token in BUILT_IN:
            return BUILT_IN[token]
        if token[0].isdigit():
            return ("number", token)
        labels = self.labels()
        return ("call", token, labels, self.list(")")) if self.comes("(") else ("name", token)

    def bounds(self, end):
        """An expression or a range, up to `end`."""
        if self.comes(".."):
            self.next(end)
            return ("range", None, None)
        low = self.expression()
        found = ("range", low, self.expression()) if self.comes("..") else low
        self.next(end)
        return found

    def labels(self):
        return self.list("}") if self.comes("{") else []

    def list(self, end):
        found = []
        while not self.comes(end):
            found.append(self.expression())
            self.comes(",")
        return found

    def variables(self, end):
        """Types and names, up to `end`. A type may stand in front of several names."""
        found, words = [], []
        while not self.comes(end):
            token = self.next()
            if token != "," and self.tokens[self.at] in (",", end):
                stars = [it for it in words if it == "*"]
                kind = [it for it in words if it not in ("*", "const")] or found[-1][0].split()[:-1] or [found[-1][0]]
                found.append((" ".join(kind + stars), token))
                words = []
            elif token != ",":
                words.append(token)
        return found


def read_named(text):
    """What a comment defines: predicates, functions and axioms."""
    reader = Reader(re.sub(r"\baxiomatic \w+ \{|\}\s*(?=$|axiomatic|predicate|logic|axiom)", " ", text))
    while reader.tokens[reader.at]:
        kind = reader.next()
        if kind in (";", "}", "type"):
            if kind == "type":
                reader.next(), reader.next(";")
            continue
        words = [] if kind != "logic" else [reader.next()]
        while kind == "logic" and reader.tokens[reader.at + 1] not in ("(", "{", ";"):
            words.append(reader.next())
        name, labels = reader.next(), [it[1] for it in reader.labels()]
        params = reader.variables(")") if reader.comes("(") else []
        if reader.comes("reads"):
            while reader.tokens[reader.at] != ";":
                reader.next()
        body = reader.expression() if reader.comes("=", ":") else None
        reader.comes(";")
        yield Named(kind, " ".join(words) or "truth", name, labels, params, body)


def read(path):
    """What is defined in the file, by name, and its calls."""
    named, calls = {}, {}
    for comment in expanded(path).split("CONTRACT")[1:]:
        contract, _, declared = comment.partition("OF ")
        if re.match(r"\s*(predicate|logic|axiom)", contract):
            named.update((it.name, it) for it in read_named(contract))
        found = re.match(r"((?:const |struct |static )*\w+ \*?)(\w+)\((.*?)\)(;| \{)", declared)
        if found and "assigns" in contract:
            params = [] if found[3] == "void" else Reader(found[3] + ")").variables(")")
            calls[found[2]] = Call(found[1].strip(), found[2], params, list(clauses_of(contract)))
    return named, calls


def clauses_of(contract):
    reader = Reader(contract)
    while reader.tokens[reader.at]:
        kind = reader.next()
        if kind == ";":
            continue
        name = None
        if kind == "ensures" and reader.tokens[reader.at + 1] == ":":
            name = reader.next()
            reader.next(":")
        expressions = [reader.expression()]
        while reader.comes(","):
            expressions.append(reader.expression())
        if reader.comes("\\from"):
            while reader.tokens[reader.at] not in (";", ""):
                reader.next()
        yield kind, name, expressions
