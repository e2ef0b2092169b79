"""The packet language: bytes to tokens, and tokens to a tree, by the grammar in docs/FORMATS.md."""
import re
from dataclasses import dataclass

import tree

LONGEST_TEXT, LONGEST_NAME = 1 << 20, 32
MOST_BLOCKS, MOST_BRACKETS, MOST_OPERANDS = 64, 32, 64
RESERVED = frozenset(
    "nf ports chain lifetime map fixed free array on six get else find where new taken full if touch set forward flood "
    "drop index".split()
)
COMPARISONS = ("==", "!=", "<", "<=", ">", ">=")

BLANKS = re.compile(rb"(?:[ \t\r\n]+|#[^\n]*)*")
NAME = re.compile(rb"[A-Za-z_][A-Za-z0-9_]*")
NUMBER = re.compile(rb"[0-9][A-Za-z0-9_.]*")
SIGN = re.compile(rb"[=!<>]=|[{}()\[\];:,.=<>+\-*/%&]")
DECIMAL = re.compile(rb"0|[1-9][0-9]*")
HEXADECIMAL = re.compile(rb"0x[0-9a-f]{1,16}")


class Fault(Exception):
    """What is wrong with a text, and at which byte."""

    def __init__(self, kind, at):
        super().__init__(kind, at)
        self.kind, self.at = kind, at


def place_of(text, at):
    """The line and the column of a byte, both from 1."""
    return text.count(b"\n", 0, at) + 1, at - text.rfind(b"\n", 0, at)


# ---- tokens
@dataclass
class Token:
    """`kind` is name, number, field, end, or the word or the sign itself."""
    kind: str
    at: int
    value: object = None


def number_of(run):
    """The value of a number's bytes, or None where they have none of the three forms."""
    if DECIMAL.fullmatch(run):
        return int(run) if len(run) <= 20 and int(run) < 1 << 64 else None
    if HEXADECIMAL.fullmatch(run):
        return int(run, 16)
    parts = run.split(b".")
    if len(parts) == 4 and all(DECIMAL.fullmatch(part) and len(part) <= 3 and int(part) < 256 for part in parts):
        return int.from_bytes(bytes(map(int, parts)), "big")
    return None


def token_at(text, after):
    """The first token behind so many bytes, and where it ends."""
    at = BLANKS.match(text, after).end()
    if at == len(text):
        return Token("end", at), at
    if found := NAME.match(text, at):
        word = found[0].decode()
        if word in RESERVED:
            return Token(word, at), found.end()
        if word in tree.FIELDS:
            return Token("field", at, tree.Name(word, at)), found.end()
        if len(word) > LONGEST_NAME:
            raise Fault("S5", at)
        return Token("name", at, tree.Name(word, at)), found.end()
    if found := NUMBER.match(text, at):
        value = number_of(found[0])
        if value is None:
            raise Fault("S2", at)
        return Token("number", at, tree.Number(value, at)), found.end()
    if found := SIGN.match(text, at):
        return Token(found[0].decode(), at), found.end()
    raise Fault("S1", at)


# ---- the grammar
class Parser:
    """Reads one text. Each method reads what the grammar has under its name, and leaves the token behind it."""

    def __init__(self, text):
        self.text, self.after = text, 0
        self.blocks = self.brackets = self.operands = 0
        self.statements = {
            "get": self.get, "find": self.find, "new": self.new, "if": self.if_, "touch": self.touch,
            "free": self.free, "set": self.set, "name": self.assignment,
        }
        self.step()

    def step(self):
        self.token, self.after = token_at(self.text, self.after)

    def refuse(self):
        raise Fault("S4" if self.token.kind == "end" else "S3", self.token.at)

    def limit(self, reached):
        """Refuses the token where a limit is reached."""
        if reached:
            raise Fault("S5", self.token.at)

    def take(self, *kinds):
        """The token, which has to be of one of these kinds."""
        token = self.token
        if token.kind not in kinds:
            self.refuse()
        self.step()
        return token

    def name(self):
        return self.take("name").value

    def number(self):
        return self.take("number").value

    def separated(self, one):
        """One or more of a kind, with commas between them."""
        found = [one()]
        while self.token.kind == ",":
            self.step()
            found.append(one())
        return found

    def function(self):
        self.take("nf")
        name = self.name()
        self.take("{")
        self.take("ports")
        ports = self.number()
        self.take(";")
        declared, handlers = [], []
        while self.token.kind in ("chain", "array"):
            declared.append(self.chain() if self.token.kind == "chain" else self.array())
        while self.token.kind == "on":
            handlers.append(self.handler())
        end = self.take("}").at
        self.take("end")
        return tree.Function(name, ports, declared, handlers, end)

    def handler(self):
        at, port = self.take("on").at, self.number()
        six = self.token.kind == "six"
        if six:
            self.step()
        return tree.Handler(at, port, six, self.block())

    def chain(self):
        at, name, size = self.take("chain").at, self.name(), self.number()
        self.take("lifetime")
        lifetime = self.number()
        self.take("{")
        items = []
        while self.token.kind in ("map", "fixed", "free"):
            items.append(self.map() if self.token.kind == "map" else self.column())
        self.take("}")
        return tree.Chain(at, name, size, lifetime, items)

    def map(self):
        at, name = self.take("map").at, self.name()
        self.take("(")
        parts = self.separated(self.label)
        self.take(")")
        self.take(";")
        return tree.Map(at, name, parts)

    def label(self):
        name = self.name()
        self.take(":")
        return name, self.number()

    def column(self):
        word = self.take("fixed", "free")
        name, width = self.label()
        self.take(";")
        return tree.Column(word.at, word.kind, name, width)

    def array(self):
        at, name, size = self.take("array").at, self.name(), self.number()
        self.take(":")
        width, contents = self.number(), []
        if self.token.kind == "=":
            self.step()
            self.take("{")
            contents = self.separated(self.number)
            self.take("}")
        self.take(";")
        return tree.Array(at, name, size, width, contents)

    # ---- statements
    def block(self):
        self.limit(self.token.kind == "{" and self.blocks == MOST_BLOCKS)
        self.take("{")
        self.blocks += 1
        found = []
        while self.token.kind in self.statements:
            found.append(self.statements[self.token.kind]())
        if self.token.kind in ("forward", "flood", "drop"):
            found.append(self.action())
        self.take("}")
        self.blocks -= 1
        return found

    def block_after(self, word):
        """The block behind a word, empty where the word isn't there."""
        if self.token.kind != word:
            return []
        self.step()
        return self.block()

    def opening(self, word):
        """Where a `get`, `find` or `new` stands, its variable and its chain."""
        at, name = self.take(word).at, self.name()
        self.take("=")
        return at, name, self.name()

    def get(self):
        at, name, chain = self.opening("get")
        self.take(".")
        of = self.name()
        self.take("(")
        key = self.separated(self.expression)
        closing = self.take(")").at
        return tree.Get(at, name, chain, of, key, closing, self.block(), self.block_after("else"))

    def find(self):
        at, name, chain = self.opening("find")
        self.take("[")
        index, guard = self.expression(), []
        self.take("]")
        if self.token.kind == "where":
            self.step()
            self.take("(")
            guard = self.separated(self.give)
            self.take(")")
        return tree.Find(at, name, chain, index, guard, self.block(), self.block_after("else"))

    def new(self):
        at, name, chain = self.opening("new")
        self.take("(")
        gives = [] if self.token.kind == ")" else self.separated(self.give)
        closing = self.take(")").at
        body, taken, full = self.block(), self.block_after("taken"), self.block_after("full")
        return tree.New(at, name, chain, gives, closing, body, taken, full)

    def give(self):
        name = self.name()
        self.take("=")
        return name, self.expression()

    def if_(self):
        self.take("if")
        left, sign, right = self.expression(), self.take(*COMPARISONS).kind, self.expression()
        return tree.If(left, sign, right, self.block(), self.block_after("else"))

    def touch(self):
        self.take("touch")
        return self.ended(tree.Touch(self.name()))

    def free(self):
        self.take("free")
        return self.ended(tree.Free(self.name()))

    def set(self):
        self.take("set")
        field = self.take("field").value
        self.take("=")
        return self.ended(tree.Set(field, self.expression()))

    def assignment(self):
        """What is written into a column or a cell."""
        name = self.name()
        if self.take(".", "[").kind == ".":
            column = self.name()
            self.take("=")
            return self.ended(tree.Write(name, column, self.expression()))
        index = self.expression()
        self.take("]")
        self.take("=")
        return self.ended(tree.Store(name, index, self.expression()))

    def action(self):
        word = self.take("forward", "flood", "drop").kind
        if word == "forward":
            return self.ended(tree.Forward(self.expression()))
        return self.ended(tree.Flood() if word == "flood" else tree.Drop())

    def ended(self, statement):
        self.take(";")
        return statement

    # ---- expressions
    def expression(self):
        """An outermost sum, in which brackets and operands are counted."""
        self.brackets = self.operands = 0
        return self.sum()

    def sum(self):
        left = self.product()
        while self.token.kind in ("+", "-"):
            left = tree.Operation(self.take("+", "-").kind, left, self.product())
        return left

    def product(self):
        left = self.atom()
        while self.token.kind in ("*", "/", "%", "&"):
            left = tree.Operation(self.take("*", "/", "%", "&").kind, left, self.atom())
        return left

    def atom(self):
        if self.token.kind == "(":
            return self.bracketed("(", ")")
        if self.token.kind not in ("number", "field", "name"):
            self.refuse()
        self.limit(self.operands == MOST_OPERANDS)
        self.operands += 1
        token = self.take("number", "field", "name")
        if token.kind == "number":
            return token.value
        if token.kind == "field":
            return tree.Field(token.value)
        if self.token.kind == "[":
            return tree.Cell(token.value, self.bracketed("[", "]"))
        self.take(".")
        return tree.Read(token.value, self.take("name", "index").value)

    def bracketed(self, opening, closing):
        self.limit(self.brackets == MOST_BRACKETS)
        self.take(opening)
        self.brackets += 1
        inner = self.sum()
        self.take(closing)
        self.brackets -= 1
        return inner


def read(text):
    """The tree of a text's bytes. A `Fault` is raised where they are not of the grammar, at their first fault."""
    if len(text) > LONGEST_TEXT:
        raise Fault("S5", 0)
    return Parser(text).function()
