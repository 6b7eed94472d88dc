"""Reads the `.elf` files of a library as far as scripts need it: the tokens of a text, the modules that stand in it, and which modules
each of them names. Nothing is judged here: that is done by the program.

A text is bytes, and a place in it is a number of bytes from its beginning. Texts that are no files of modules are read as far as it goes."""
import re
from dataclasses import dataclass, field

WHITE = rb"\t-\r "
RUN = rb"[^" + WHITE + rb":.()\[\]{}%\"]+"
ROW = re.compile(RUN + rb"(?:\." + RUN + rb")*")
WORD = re.compile(rb"%" + RUN)
SPACE = re.compile(rb"[" + WHITE + rb"]+")
LINE_COMMENT = re.compile(rb"%(?=[" + WHITE + rb"%]|\Z)[^\n]*")
COMMENT_EDGE = re.compile(rb"%\{|\}%")
RESERVED = (b"type", b"->", b"<-", b"=", b"_")


@dataclass
class Token:
    """A row of names, a percent word or a sign."""

    text: bytes
    start: int

    def is_name(self):
        return bool(ROW.fullmatch(self.text)) and self.text not in RESERVED

    def names(self):
        return [name.decode(errors="replace") for name in self.text.split(b".")]


@dataclass
class Module:
    """A module: whether it is a theory or a view, where its word and its name stand, and its tokens behind the name."""

    word: bytes
    name: str
    start: int
    name_start: int
    tokens: list = field(default_factory=list)
    # Where the brace was opened that is open where the module begins, or None.
    inside: int | None = None


def comment_end(text, start):
    """Where a comment in braces ends, which may have others in it; the end of the text where it is not closed."""
    depth = 0
    for edge in COMMENT_EDGE.finditer(text, start):
        depth += 1 if edge[0] == b"%{" else -1
        if depth == 0:
            return edge.end()
    return len(text)


def tokens(text):
    """The tokens of a text, up to its end or the sign `%.`."""
    at = 0
    while at < len(text):
        if text.startswith(b"%.", at):
            return
        if text.startswith(b"%{", at):
            at = comment_end(text, at)
        elif skipped := SPACE.match(text, at) or LINE_COMMENT.match(text, at):
            at = skipped.end()
        else:
            token = token_at(text, at)
            yield token
            at += len(token.text)


def token_at(text, at):
    """The token that begins at a place."""
    found = ROW.match(text, at) or WORD.match(text, at)
    if found:
        return Token(found[0], at)
    return Token(b":=" if text.startswith(b":=", at) else text[at : at + 1], at)


def modules(text):
    """The modules of a text: each begins with a word %sig or %view and a name, wherever that stands."""
    found, opened, waiting = [], [], None
    for token in tokens(text):
        if token.text in (b"%sig", b"%view"):
            waiting = token
            continue
        if waiting and token.is_name():
            name = ".".join(token.names())
            found.append(Module(waiting.text, name, waiting.start, token.start, inside=opened[-1] if opened else None))
        elif found:
            found[-1].tokens.append(token)
        waiting = None
        if token.text == b"{":
            opened.append(token.start)
        elif token.text == b"}" and opened:
            opened.pop()
    return found


def named_by(module):
    """The modules that a module names: what it includes, the domains of its structures, its ends, and the first names of its morphisms."""
    rows, own = [], module.name if module.word == b"%sig" else None
    row = list(module.tokens)
    if module.word == b"%view":
        rows += [(token, False) for token in row[: ends_at(row, b"=")] if token.is_name()]
    for at, token in enumerate(row):
        if token.text == b"%include":
            rows += [(it, True) for it in statement(row, at + 1)]
        elif token.text == b"%struct":
            rows += structure(row, at)
    # (a path that begins with the theory's own name is one of its own structures)
    return {token.names()[0] for token, is_word in rows if not (is_word and len(token.names()) > 1 and token.names()[0] == own)}


def structure(row, at):
    """What a declaration or an assignment of a structure names: the domain, or the words of the morphism."""
    behind = row[at + 2 : at + 3]
    if behind and behind[0].text == b":":
        return [(it, False) for it in row[at + 3 : at + 4] if it.is_name()]
    return [(it, True) for it in statement(row, at + 3)] if behind and behind[0].text == b":=" else []


def statement(row, at):
    """The names from a place up to the dot."""
    return [token for token in row[at : at + ends_at(row[at:], b".")] if token.is_name()]


def ends_at(row, sign):
    """How many tokens stand before a sign."""
    return next((at for at, token in enumerate(row) if token.text == sign), len(row))


def ends_of(module):
    """The names of the domain and the codomain of a view."""
    row = module.tokens[: ends_at(module.tokens, b"=")]
    return [".".join(token.names()) for token in row if token.is_name()] if module.word == b"%view" else []


def statements(module):
    """The declarations or assignments of a module, each as its tokens, without the dot."""
    depth, found = 0, [[]]
    for token in module.tokens:
        depth -= token.text == b"}"
        if depth > 0 and (depth > 1 or token.text != b"."):
            found[-1].append(token)
        elif depth == 1:
            found.append([])
        depth += token.text == b"{"
    return [row for row in found if row]


def constants(module):
    """The constants that a theory declares itself, each with whether it is defined."""
    rows = [row for row in statements(module) if len(row) > 1 and row[0].is_name() and row[1].text == b":"]
    return {".".join(row[0].names()): any(token.text == b"=" for token in row) for row in rows}


def assigned(module):
    """The constants that a view assigns."""
    return {".".join(row[0].names()) for row in statements(module) if len(row) > 1 and row[1].text == b":="}


def included(module):
    """The theories that a theory includes."""
    return [row[1].names()[0] for row in statements(module) if len(row) > 1 and row[0].text == b"%include" and row[1].is_name()]


class Lines:
    """Places of a text as lines and columns, counted from 1, columns in bytes."""

    def __init__(self, text):
        self.text, self.lines = text, text.split(b"\n")

    def start_of(self, line, column):
        """The place of a line and a column."""
        return sum(len(it) + 1 for it in self.lines[: line - 1]) + column - 1

    def place_of(self, at):
        """The line and the column of a place."""
        line = self.text.count(b"\n", 0, at) + 1
        return line, at - (self.text.rfind(b"\n", 0, at) + 1) + 1

    def line(self, number):
        return self.lines[number - 1] if 0 < number <= len(self.lines) else b""

    def token_at(self, line, column):
        """The token that begins at a place, or None where there is none."""
        at = self.start_of(line, column)
        return next(tokens(self.text[at:]), None) if at < len(self.text) else None
