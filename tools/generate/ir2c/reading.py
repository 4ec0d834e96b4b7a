"""The text of LLVM IR, read a line at a time into tokens."""
import re

NAME = r'[%@](?:"[^"]*"|[-$.\w]+)'
TOKEN = re.compile(rf'\s*(?:(c"[^"]*"|{NAME}|"[^"]*"|\.\.\.|[#!]?[-$.\w]+|[][(){{}}<>,=*:|!])|(;.*)?$)')
METADATA = re.compile(r"(, ![.\w]+ ![.\w]+)+$")


class Refused(Exception):
    """What the translation doesn't know: a program that it can't say in C."""


class Line:
    """A line's tokens, taken from the left."""

    def __init__(self, text):
        self.text = METADATA.sub("", text)
        self.tokens, at = [], 0
        while at < len(self.text):
            found = TOKEN.match(self.text, at)
            if not found:
                raise Refused(f"no token of LLVM IR: {self.text[at:at + 60]}")
            if found[1]:
                self.tokens.append(found[1])
            at = found.end()
        self.at = 0

    def peek(self, ahead=0):
        """A token that isn't taken yet, or "" behind the last."""
        return self.tokens[self.at + ahead] if self.at + ahead < len(self.tokens) else ""

    def take(self):
        """Takes the next token."""
        if self.at == len(self.tokens):
            raise self.refused()
        self.at += 1
        return self.tokens[self.at - 1]

    def accept(self, *wanted):
        """Takes these tokens if they are next; tells whether they were."""
        if self.tokens[self.at : self.at + len(wanted)] != list(wanted):
            return False
        self.at += len(wanted)
        return True

    def expect(self, *wanted):
        """Takes these tokens, which must be next."""
        if not self.accept(*wanted):
            raise self.refused()

    def until_comma(self):
        """Takes what stands in front of the next comma outside of brackets, as a text."""
        taken, depth = [], 0
        while depth > 0 or self.peek() != ",":
            taken.append(self.take())
            depth += (taken[-1] in ("(", "[", "{")) - (taken[-1] in (")", "]", "}"))
        return " ".join(taken)

    def skip(self, words):
        """Takes all tokens that are next and among these, with what follows them in brackets."""
        while self.peek() in words:
            self.take()
            if self.peek() == "(":
                self.skip_brackets()

    def skip_flags(self, words):
        """Takes all tokens that are next and among these. Brackets after them stay: those of operands."""
        while self.peek() in words:
            self.take()

    def skip_brackets(self):
        """Takes what stands in brackets."""
        self.expect("(")
        depth = 1
        while depth:
            depth += {"(": 1, ")": -1}.get(self.take(), 0)

    def number(self):
        """Takes a number."""
        token = self.take()
        if not re.fullmatch(r"-?\d+", token):
            raise self.refused()
        return int(token)

    def end(self):
        """Nothing may be left but an alignment."""
        if self.accept(",", "align"):
            self.number()
        if self.at != len(self.tokens):
            raise self.refused()

    def refused(self):
        """The error that says at what the translation stops."""
        at = " ".join(self.tokens[self.at : self.at + 4]) or "the end"
        return Refused(f"not known: {at}  in: {self.text.strip()[:200]}")
