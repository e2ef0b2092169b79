"""Random functions whose labels are mostly plain fields, so that they share state in all the ways that rules tell of.

Each label has a field that it mostly is; at some ports sources and destinations are turned. Some chains have no `new`,
some arrays no write, and some are used only where no path leads. Some handlers have many tests.
"""
from functions import DEEPEST, FEW, MOST_LOOKS, MOST_NEWS, SETTABLE, WIDTHS, Chain, Writer, handler

PORTS = {"src_port": 16, "dst_port": 16}
HASHED = {"src_ip": 32, "dst_ip": 32, **PORTS}
HASHED6 = {"src_ip6": 128, "dst_ip6": 128, **PORTS}
WIDTH_OF = {**HASHED, **HASHED6}
TURNED = {
    "src_ip": "dst_ip", "dst_ip": "src_ip", "src_ip6": "dst_ip6", "dst_ip6": "src_ip6",
    "src_port": "dst_port", "dst_port": "src_port",
}
BRANCHING = ("known", "get", "find", "new", "if")
STATEMENTS = ("known", "known", "get", "find", "find", "new", "if", "if", "touch", "free", "set", "write", "store")
# Tests of few texts, so that they come again, the same and the other way round.
TESTS = (
    "src_port == 1", "src_port != 1", "1 == src_port", "src_port == 2", "src_port != 2", "src_port < 3",
    "src_port >= 3", "dst_port == 1", "dst_port <= 2", "dst_port > 2", "proto == 6", "proto != 17", "length < time",
    "src_ip == 10.0.0.1", "src_ip == 10.0.0.2", "src_ip == dst_ip", "src_ip != dst_ip", "1 < 2", "ttl + 1 == 65",
)
# Two tests, of which the second never holds where the first did.
CLASHES = (
    ("src_port == 1", "src_port == 2"), ("dst_ip < src_ip", "dst_ip >= src_ip"), ("proto == 6", "proto != 6"),
    ("proto != 17", "proto == 17"), ("length == 0x10", "length == 17"), ("ttl <= 1", "(ttl) > 1"),
)


class Sharer(Writer):
    """Writes one function. `homes` has the field of each label and of each array's index, `found`
    the chains that a `find` may ask."""

    def __init__(self, random):
        super().__init__(random)
        # How often a value is something other than its field.
        self.noise = random.choice((0, 0, 0, 0.02, 0.1, 0.3))
        self.homes, self.kinds, self.found = {}, {}, set()
        # Which version of IP labels are mostly wide enough for: some functions share by ports alone, for both.
        self.six = self.chance(0.4)
        self.hashed = PORTS if self.chance(0.15) else HASHED6 if self.six else HASHED
        self.turned = self.dead = False
        self.statements["known"] = self.known

    def text(self):
        if self.hashed is not PORTS and self.chance(0.15):
            return self.translator()
        ports = self.random.choice((1, 1, 2, 2, 2, 3, 4))
        lines = [f"nf s{self.random.randrange(100)} {{ ports {ports};"]
        for number in range(self.random.choice((1, 1, 1, 2, 2, 3))):
            lines.append(self.chain(number) if self.chance(0.75) else self.array(number))
        for port, six in self.doors(ports):
            self.looks = self.news = 0
            self.turned = port % 2 == 1 and self.chance(0.8)
            body = self.block([], 0)
            if self.chance(0.06):
                body = f"{{ {self.many_tests()} {body[1:]}"
            lines.append(handler(port, six, body))
        return "\n".join([*lines, "}"]) + "\n"

    def doors(self, ports):
        """Those for IPv6 stand at most ports where labels are wide enough, and at few else."""
        found = [(port, False) for port in range(ports)]
        found += [(port, True) for port in range(ports) if self.chance(0.85 if self.six else 0.08)]
        self.random.shuffle(found)
        return found

    def translator(self):
        """A function whose second port finds entries by their index, guarded by what the first port gave."""
        addresses = [it for it in self.hashed if it not in PORTS]
        chain, far = Chain("c0"), self.random.choice((addresses[1], addresses[1], "dst_port", addresses[0]))
        fields = {far, *self.random.sample(list(self.hashed), self.random.randrange(1, 4))}
        parts = [self.label(chain, field) for field in sorted(fields)]
        guards = [self.label(chain, far)]
        if self.chance(0.3):
            guards.append(self.label(chain, self.random.choice(sorted(fields))))
        chain.maps["m0"] = [label for label, _ in parts]
        chain.free.append("f0")
        self.chains.append(chain)
        self.kinds["c0"] = "any"
        self.found.add("c0")
        columns = " ".join(f"fixed {label}: {width};" for label, width in guards)
        size, lifetime = self.random.choice((3, 5, 8)), self.random.choice((20, 1000, 2**64 - 1))
        keys = ", ".join(f"{label}: {width}" for label, width in parts)
        first = f"{{ {self.known([], 1)} {self.block([], 1)[1:]}"
        self.turned = self.chance(0.95)
        index = self.random.choice(("src_port % 3", "dst_port - 1", "dst_port % 4", "src_ip & 3"))
        guard = self.gives(chain, [label for label, _ in guards[: self.random.choice((1, 1, 2))]], [])
        body = f"touch e; {self.used('e', chain)} forward 0;"
        second = f"find e = c0[{index}] where ({guard}) {{ {body} }} {self.if_([], 1)} {self.action([])}"
        return (
            f"nf t {{ ports 2;\nchain c0 {size} lifetime {lifetime} {{ map m0({keys}); {columns} free f0: 64; }}\n"
            f"{handler(0, self.six, first)}\n{handler(1, self.six, f'{{ {second} }}')}\n"
            f"{handler(0, False, '{ }') + handler(1, False, '{ forward 0; }') if self.six else ''}\n}}\n"
        )

    def many_tests(self):
        """Tests of different texts, about as many as a handler may have."""
        tests = [f"if src_port < {number} {{ }}" for number in range(self.random.choice((8, 10, 11, 12, 13)))]
        return " ".join(tests)

    # ---- declarations
    def kind(self, name):
        """How an object is used: in any way, read alone, or only where no path leads."""
        self.kinds[name] = self.random.choice(("any", "any", "any", "any", "any", "read", "dead", "dead"))

    def chain(self, number):
        chain, items = Chain(f"c{number}"), []
        self.kind(chain.name)
        for map_number in range(self.random.choice((1, 1, 2))):
            homes = list(self.homes_here())
            fields = self.random.sample(homes, min(len(homes), self.random.choice((1, 1, 2, 2, 3, 4))))
            name = f"m{map_number}"
            parts = [self.label(chain, field) for field in fields]
            chain.maps[name] = [label for label, _ in parts]
            items.append(f"map {name}({', '.join(f'{label}: {width}' for label, width in parts)});")
        for _ in range(self.random.choice((0, 0, 0, 1, 1, 2))):
            known = [self.homes[chain.name, label] for label in chain.labels]
            field = self.random.choice(known) if self.chance(0.7) else self.random.choice(list(self.homes_here()))
            label, width = self.label(chain, field)
            items.append(f"fixed {label}: {width};")
        if self.chance(0.5):
            chain.free.append("f0")
            items.append(f"free f0: {self.random.choice(WIDTHS)};")
        self.random.shuffle(items)
        sizes = (1, 3, 7, 30, 200)
        if self.chance(0.4):
            self.found.add(chain.name)
            sizes = (3, 5, 7, 12)
        size, lifetime = self.random.choice(sizes), self.random.choice((20, 1000, 2**64 - 1))
        self.chains.append(chain)
        return f"chain {chain.name} {size} lifetime {lifetime} {{ {' '.join(items)} }}"

    def homes_here(self):
        """The fields of which a label's home is one: now and then those of the other version of IP."""
        if self.hashed is PORTS or self.chance(0.9):
            return self.hashed
        return HASHED if self.six else HASHED6

    def label(self, chain, field):
        """One more label of a chain, and its width."""
        name = f"l{len(chain.labels)}"
        chain.labels[name] = field
        self.homes[chain.name, name] = field
        return name, self.random.choice(WIDTHS) if self.chance(self.noise / 2) else WIDTH_OF[field]

    def array(self, number):
        name, size = f"a{number}", self.random.choice((3, 8, 65536))
        self.kind(name)
        self.arrays.append(name)
        self.homes[name] = self.random.choice(("src_port", "dst_port"))
        return f"array {name} {size} : {self.random.choice(WIDTHS)};"

    # ---- what may be used here
    def usable(self, names, for_write=False):
        kinds = ("any", "dead", "read") if self.dead else ("any", "read")
        found = [it for it in names if self.kinds[it] in kinds and not (for_write and self.kinds[it] == "read")]
        here = [it for it in found if self.kinds[it] == "dead"]
        return here if here and self.chance(0.8) else found

    def look(self, chains, is_new=False):
        names = self.usable([it.name for it in chains], is_new)
        return super().look([it for it in chains if it.name in names], is_new)

    # ---- expressions
    def field(self, home):
        """The field that a home is at this port."""
        return TURNED[home] if self.turned else home

    def value(self, chain, label, scope):
        if not self.chance(self.noise):
            home = self.field(self.homes[chain.name, label])
            return f"({home})" if self.chance(0.05) else home
        kind, arrays = self.random.random(), self.usable(self.arrays)
        if arrays and kind < 0.4:
            name = self.random.choice(arrays)
            return f"{name}[{self.index(name, scope)}]"
        return self.random.choice(list(HASHED)) if kind < 0.7 else self.random.choice(FEW) if kind < 0.9 else "7"

    def index(self, name, scope):
        return self.sum(scope, 2) if self.chance(self.noise) else self.field(self.homes[name])

    def atom(self, scope, depth):
        arrays = self.usable(self.arrays)
        if arrays and self.chance(0.15) and depth < 3:
            name = self.random.choice(arrays)
            return f"{name}[{self.index(name, scope)}]"
        kept, self.arrays = self.arrays, []
        found = super().atom(scope, depth)
        self.arrays = kept
        return found

    # ---- statements
    def block(self, scope, depth):
        parts = []
        for _ in range(self.random.choice((0, 0, 1, 1, 2)) if depth else self.random.randrange(2, 5)):
            kind = self.random.choice(STATEMENTS)
            if depth < DEEPEST or kind not in BRANCHING:
                parts.append(self.statements[kind](scope, depth))
        if self.chance(0.5):
            parts.append(self.action(scope))
        return f"{{ {' '.join(part for part in parts if part)} }}"

    def known(self, scope, depth):
        """An entry that is looked up, and made where there is none."""
        chains = [it for it in self.chains if it.name in self.usable([it.name for it in self.chains], True)]
        if not chains or self.looks + 2 > MOST_LOOKS or self.news + 1 > MOST_NEWS:
            return ""
        self.looks += 2
        self.news += 1
        chain = self.random.choice(chains)
        of, (name, inner) = self.random.choice(list(chain.maps)), self.inner(scope, chain)
        key = ", ".join(self.value(chain, label, scope) for label in chain.maps[of])
        gives = self.gives(chain, list(chain.labels), scope)
        new = f"new {name} = {chain.name}({gives}) {{ {self.used(name, chain)} }}"
        return f"get {name} = {chain.name}.{of}({key}) {{ touch {name}; {self.used(name, chain)} }} else {{ {new} }}"

    def used(self, name, chain):
        """What is done with an entry, so that a packet shows what was in it."""
        shown = self.random.choice(["index", *chain.free, *chain.free, *chain.labels])
        counted = "".join(f"{name}.{column} = {name}.{column} + 1; " for column in chain.free)
        return counted + self.random.choice(("", f"set ttl = {name}.{shown};", f"set dst_port = {name}.{shown};"))

    def if_(self, scope, depth):
        if self.chance(0.35) and depth < 3:
            was, self.dead = self.dead, True
            first = f"{self.known(scope, depth + 2)} {self.store(scope, depth + 2)}"
            inner = f"{{ {first} {self.block(scope, depth + 2)[1:]}"
            self.dead = was
            first, second = self.random.choice(CLASHES)
            return f"if {first} {{ if {second} {inner} }}"
        if self.chance(0.2):
            return super().if_(scope, depth)
        return f"if {self.random.choice(TESTS)} {self.block(scope, depth + 1)}{self.maybe('else', scope, depth)}"

    def find(self, scope, depth):
        chain = self.look([it for it in self.chains if it.name in self.found])
        if not chain:
            return ""
        name, inner = self.inner(scope, chain)
        count = len(chain.labels)
        count = count if self.chance(0.2) else 1 if self.chance(0.7) else self.random.randrange(1, count + 1)
        labels = [] if self.chance(0.1) else self.random.sample(list(chain.labels), count)
        index = self.random.choice(("0", "1", "src_port % 3", "dst_port - 1", "src_ip & 3", "dst_ip & 7"))
        guard = f" where ({self.gives(chain, labels, scope)})" if labels else ""
        body = f"{{ {self.used(name, chain)} {self.block(inner, depth + 1)[1:]}"
        return f"find {name} = {chain.name}[{index}]{guard} {body}{self.maybe('else', scope, depth)}"

    def store(self, scope, depth):
        names = self.usable(self.arrays, for_write=True)
        if not names:
            return ""
        name = self.random.choice(names)
        return f"{name}[{self.index(name, scope)}] = {self.sum(scope)};"

    def set(self, scope, depth):
        return f"set {self.random.choice(SETTABLE)} = {self.random.choice(FEW)};"


def function(random):
    """The text of a random function."""
    return Sharer(random).text()
