"""The tokens of a file in Rattle, and which bracket belongs to which."""
import re
from dataclasses import dataclass

TOKEN = re.compile(r"""
    (?P<space>\s+) | (?P<comment>//[^\n]*)
  | (?P<string>b?"(?:\\.|[^"\\])*") | (?P<char>b?'(?:\\x[0-9a-f]{2}|\\u\{[0-9a-f]+\}|\\.|[^\\'\n])')
  | (?P<lifetime>'[a-z_]\w*) | (?P<number>[0-9]\w*) | (?P<word>[^\W\d]\w*)
  | (?P<sign>::|->|=>|\.\.=|\.\.|\S)""", re.X | re.S)
CLOSER = {"(": ")", "[": "]", "{": "}"}


class Refused(Exception):
    """A text that no rule is for, and why."""


@dataclass(frozen=True)
class Token:
    """A token that isn't a comment, and where it stands in the text."""

    kind: str
    text: str
    begin: int
    end: int


@dataclass(frozen=True)
class Edit:
    """A part of the text, and what stands in its place."""

    begin: int
    end: int
    text: str = ""


class Code:
    """The text of a file, and its tokens."""

    def __init__(self, crate, text):
        self.crate, self.text = crate, text
        self.tokens = [Token(it.lastgroup, it[0], it.start(), it.end()) for it in TOKEN.finditer(text)
                       if it.lastgroup not in ("space", "comment")]
        self.closing, self.around = {}, {}
        self._match_brackets()

    def _match_brackets(self):
        """Notes where each bracket is closed, and which one each token stands in."""
        opened = []
        for at, token in enumerate(self.tokens):
            if token.kind == "sign" and token.text in CLOSER.values():
                if not opened or CLOSER[self.tokens[opened[-1]].text] != token.text:
                    raise Refused(f"line {self.line(at)}: a {token.text} closes nothing")
                self.closing[opened.pop()] = at
            self.around[at] = opened[-1] if opened else None
            if token.kind == "sign" and token.text in CLOSER:
                opened.append(at)
        if opened:
            raise Refused(f"line {self.line(opened[-1])}: a bracket isn't closed")

    def word(self, at):
        """The text of a token; of none, nothing."""
        return self.tokens[at].text if 0 <= at < len(self.tokens) else ""

    def reads(self, at, words):
        """Whether these words, which spaces part, stand here."""
        words = words.split()
        return [it.text for it in self.tokens[at:at + len(words)]] == words

    def begins_path(self, at):
        """Whether no path or value that this word would be a part of stands in front."""
        return self.word(at - 1) not in ("::", ".")

    def find(self, at, ends):
        """The first token from here on that is one of `ends` and stands in no bracket that opens from here on; or the
        bracket that closes the one around."""
        while at < len(self.tokens):
            if self.word(at) in ends or self.word(at) in CLOSER.values():
                return at
            at = self.closing.get(at, at) + 1
        raise Refused(f"nothing of {ends} follows")

    def clause_end(self, at):
        """The token after a clause, if one stands here."""
        if self.word(at) not in ("requires", "ensures"):
            return at
        brace = at + 1 + (self.word(at + 1) == "*")
        brace += self.word(brace) != "{"
        if self.word(brace) != "{":
            raise Refused(f"line {self.line(at)}: a clause without braces")
        end = self.closing[brace] + 1
        return self.closing[end + 1] + 1 if self.reads(end, "by {") else end

    def line(self, at):
        """The number of the token's line, for a message."""
        return self.text.count("\n", 0, self.tokens[at].begin) + 1
