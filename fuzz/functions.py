"""Random functions: texts of the whole language, without a fault."""
import re
from dataclasses import dataclass, field

WIDTHS = (8, 16, 32, 48, 64, 128)
FIELDS = ("time", "length", "src_mac", "dst_mac", "src_ip", "dst_ip", "proto", "ttl", "src_port", "dst_port")
SETTABLE = ("src_mac", "dst_mac", "src_ip", "dst_ip", "ttl", "src_port", "dst_port")
# In nanoseconds. The packets' steps of time (in packets.py) reach them, and pass them by one.
LIFETIMES = (0, 5, 20, 1000, 2**64 - 1)
# Values that few packets differ in, so that keys are met again.
FEW = ("src_port % 3", "src_ip & 3", "dst_port", "src_ip", "dst_ip & 1", "7")
# An address, which handlers name by their version of IP.
ADDRESS = re.compile(r"\b(src|dst)_ip6?\b")
STATEMENTS = ("get", "get", "find", "find", "new", "new", "new", "if", "if", "touch", "free", "set", "write", "store")
DEEPEST = 5
# Of a handler: the language allows 32 and 16.
MOST_LOOKS, MOST_NEWS = 32, 16


def handler(port, six, block):
    """A handler's text, with addresses of its version of IP."""
    named = ADDRESS.sub(r"\1_ip6" if six else r"\1_ip", block)
    return f"on {port} {'six ' if six else ''}{named}"


@dataclass
class Chain:
    """A chain's names: its maps, each with its labels, all labels with what they mostly are, and its free columns."""
    name: str
    maps: dict = field(default_factory=dict)
    labels: dict = field(default_factory=dict)
    free: list = field(default_factory=list)


class Writer:
    """Writes one function. A scope is the list of its variables, each with its chain."""

    def __init__(self, random):
        self.random = random
        self.chains, self.arrays = [], []
        self.looks = self.news = 0
        self.statements = {
            "get": self.get, "find": self.find, "new": self.new, "if": self.if_, "touch": self.touch,
            "free": self.free, "set": self.set, "write": self.write, "store": self.store,
        }

    def chance(self, share):
        return self.random.random() < share

    def text(self):
        ports = self.random.randrange(1, 5)
        lines = [f"nf x {{ ports {ports};"]
        for number in range(self.random.choice((0, 1, 1, 2, 2, 3, 4))):
            lines.append(self.chain(number) if self.chance(0.7) else self.array(number))
        for port, six in self.doors(ports):
            self.looks = self.news = 0
            lines.append(handler(port, six, self.block([], 0)))
        return "\n".join([*lines, "}"]) + "\n"

    def doors(self, ports):
        """The handlers of a function in any order: one for IPv4 at each port, and at some one for IPv6."""
        share = self.random.choice((0, 0.3, 1))
        found = [(port, False) for port in range(ports)]
        found += [(port, True) for port in range(ports) if self.chance(share)]
        self.random.shuffle(found)
        return found

    def number(self):
        pick = self.random.randrange
        return self.random.choice((
            "0", str(pick(4)), str(pick(300)), str(pick(2**64)), str(2**64 - 1), hex(pick(2**32)), f"10.0.0.{pick(4)}",
        ))

    # ---- declarations
    def chain(self, number):
        chain, items = Chain(f"c{number}"), []
        width = self.random.choice
        for _ in range(self.random.randrange(1, 5)):
            kind = self.random.choice(("map", "map", "fixed", "free"))
            if kind == "map":
                # A map may have a label's name.
                name = f"l{len(chain.maps)}"
                chain.maps[name] = [self.label(chain) for _ in range(self.random.randrange(1, 4))]
                items.append(f"map {name}({', '.join(f'{label}: {width(WIDTHS)}' for label in chain.maps[name])});")
            elif kind == "fixed":
                items.append(f"fixed {self.label(chain)}: {width(WIDTHS)};")
            else:
                chain.free.append(f"f{len(chain.free)}")
                items.append(f"free {chain.free[-1]}: {width(WIDTHS)};")
        size, lifetime = self.random.choice((1, 2, 3, 7, 30)), self.random.choice(LIFETIMES)
        self.chains.append(chain)
        return f"chain {chain.name} {size} lifetime {lifetime} {{ {' '.join(items)} }}"

    def label(self, chain):
        """One more label of a chain."""
        name = f"l{len(chain.labels)}"
        chain.labels[name] = self.random.choice(FEW)
        return name

    def array(self, number):
        name, size, width = f"a{number}", self.random.choice((1, 3, 8)), self.random.choice(WIDTHS)
        self.arrays.append(name)
        contents = ""
        if self.chance(0.6):
            contents = f" = {{ {', '.join(self.number() for _ in range(self.random.randrange(1, size + 1)))} }}"
        return f"array {name} {size} : {width}{contents};"

    # ---- expressions
    def sum(self, scope, depth=0):
        text = self.atom(scope, depth)
        while self.chance(0.35 if depth < 2 else 0.1):
            text += f" {self.random.choice('+-*/%&')} {self.atom(scope, depth + 1)}"
        return text

    def atom(self, scope, depth):
        kind = self.random.random()
        if kind < 0.3:
            return self.random.choice(FIELDS)
        if kind < 0.55 or depth > 2:
            return self.number()
        if kind < 0.75 and scope:
            name, chain = self.random.choice(scope)
            return f"{name}.{self.random.choice([*chain.labels, *chain.free, 'index'])}"
        if kind < 0.88 and self.arrays:
            return f"{self.random.choice(self.arrays)}[{self.sum(scope, depth + 1)}]"
        return f"({self.sum(scope, depth + 1)})"

    def value(self, chain, label, scope):
        """A value of a label: mostly what it mostly is, so that keys and guards hold."""
        kind = self.random.random()
        return chain.labels[label] if kind < 0.6 else self.random.choice(FEW) if kind < 0.85 else self.sum(scope)

    def gives(self, chain, labels, scope):
        """Some labels with their values."""
        return ", ".join(f"{it} = {self.value(chain, it, scope)}" for it in self.random.sample(labels, len(labels)))

    # ---- statements: a text each, empty where there is nothing to write one of
    def block(self, scope, depth):
        parts = []
        for _ in range(self.random.choice((0, 1, 1, 2, 3)) if depth else self.random.randrange(1, 6)):
            kind = self.random.choice(STATEMENTS)
            if depth < DEEPEST or kind not in ("get", "find", "new", "if"):
                parts.append(self.statements[kind](scope, depth))
        if self.chance(0.5):
            parts.append(self.action(scope))
        return f"{{ {' '.join(part for part in parts if part)} }}"

    def maybe(self, word, scope, depth):
        return f" {word} {self.block(scope, depth + 1)}" if self.chance(0.55) else ""

    def look(self, chains, is_new=False):
        """One of these chains for a `get`, `find` or `new`, where the handler may have one more."""
        if not chains or self.looks == MOST_LOOKS or is_new and self.news == MOST_NEWS:
            return None
        self.looks += 1
        self.news += is_new
        return self.random.choice(chains)

    def inner(self, scope, chain):
        """A new variable's name, and the scope with it. Blocks side by side have the same names."""
        name = f"e{len(scope)}"
        return name, [*scope, (name, chain)]

    def get(self, scope, depth):
        chain = self.look([it for it in self.chains if it.maps])
        if not chain:
            return ""
        of, (name, inner) = self.random.choice(list(chain.maps)), self.inner(scope, chain)
        key = ", ".join(self.value(chain, label, scope) for label in chain.maps[of])
        body = self.block(inner, depth + 1)
        return f"get {name} = {chain.name}.{of}({key}) {body}{self.maybe('else', scope, depth)}"

    def find(self, scope, depth):
        chain = self.look(self.chains)
        if not chain:
            return ""
        name, inner = self.inner(scope, chain)
        known = [it for it, of in scope if of is chain]
        if known and self.chance(0.4):
            index = f"{self.random.choice(known)}.index"
        else:
            index = self.random.choice(("0", "1", "src_port % 3", self.sum(scope)))
        labels = self.random.sample(list(chain.labels), self.random.randrange(min(2, len(chain.labels)) + 1))
        guard = f" where ({self.gives(chain, labels, scope)})" if labels else ""
        body = self.block(inner, depth + 1)
        return f"find {name} = {chain.name}[{index}]{guard} {body}{self.maybe('else', scope, depth)}"

    def new(self, scope, depth):
        chain = self.look(self.chains, is_new=True)
        if not chain:
            return ""
        name, inner = self.inner(scope, chain)
        gives = self.gives(chain, list(chain.labels), scope)
        body = self.block(inner, depth + 1)
        ways = self.maybe("taken", scope, depth) + self.maybe("full", scope, depth)
        return f"new {name} = {chain.name}({gives}) {body}{ways}"

    def if_(self, scope, depth):
        sign = self.random.choice(("==", "!=", "<", "<=", ">", ">="))
        test = f"{self.sum(scope)} {sign} {self.sum(scope)}"
        return f"if {test} {self.block(scope, depth + 1)}{self.maybe('else', scope, depth)}"

    def touch(self, scope, depth):
        return f"touch {self.random.choice(scope)[0]};" if scope else ""

    def free(self, scope, depth):
        return f"free {self.random.choice(scope)[0]};" if scope else ""

    def set(self, scope, depth):
        return f"set {self.random.choice(SETTABLE)} = {self.sum(scope)};"

    def write(self, scope, depth):
        columns = [f"{name}.{column}" for name, chain in scope for column in chain.free]
        return f"{self.random.choice(columns)} = {self.sum(scope)};" if columns else ""

    def store(self, scope, depth):
        if not self.arrays:
            return ""
        index = self.random.choice(("0", "1", self.sum(scope)))
        return f"{self.random.choice(self.arrays)}[{index}] = {self.sum(scope)};"

    def action(self, scope):
        return self.random.choice((
            "drop;", "flood;", f"forward {self.random.randrange(5)};", "forward src_port % 4;",
            f"forward {self.sum(scope)};",
        ))


def function(random):
    """The text of a random function."""
    return Writer(random).text()
