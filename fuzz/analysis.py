"""What `check`, `explain` and `keys` say of a function: its feasible paths, its sites with the labels that each knows,
the rule of each object, and the given keys. Read from the definitions, without a look at the program's code.
"""
from copy import copy
from dataclasses import dataclass

import tree
from faults import first_fault
from keys import RSS, RSS6, USUAL, Place, given_keys, key_of
from language import place_of, read

MOST_PATHS = 4096
HASHED = dict(RSS.fields + RSS6.fields)
ARRAY_LABEL, INDEX_BITS = "index", 16
# Each comparison as one of `==`, `<` and `<=`, and whether outcomes are exchanged.
BROUGHT = {"==": ("==", True), "<": ("<", True), "<=": ("<=", True), "!=": ("==", False), ">=": ("<", False),
           ">": ("<=", False)}


class TooManyPaths(Exception):
    """A handler has more feasible paths than are allowed; `at` is the byte of its `on`."""

    def __init__(self, at):
        super().__init__(at)
        self.at = at


# ---- feasible paths
def operands(it):
    """The operands of an expression, those of array indices too, each behind those that it is made of."""
    if isinstance(it, tree.Operation):
        yield from operands(it.left)
        yield from operands(it.right)
        return
    if isinstance(it, tree.Cell):
        yield from operands(it.index)
    yield it


def is_packet_only(test):
    """Whether both sides hold fields and numbers alone."""
    return all(isinstance(it, (tree.Field, tree.Number)) for side in (test.left, test.right) for it in operands(side))


def brought(test):
    """A test's text, whether its outcome is the text's own, and the field and the number where it is `field == number`.
    None where it isn't packet-only."""
    if not is_packet_only(test):
        return None
    sign, same = BROUGHT[test.sign]
    is_number = sign == "==" and isinstance(test.left, tree.Field) and isinstance(test.right, tree.Number)
    return (sign, repr(test.left), repr(test.right)), same, (test.left.name, test.right) if is_number else None


class Marks:
    """What a path's tests have said so far: the outcome of each packet-only text, and the number that a field is."""

    def __init__(self, outcomes=None, numbers=None):
        self.outcomes, self.numbers = outcomes or {}, numbers or {}

    def after(self, told, outcome):
        """The marks behind a test that went this way, None where it can't."""
        if told is None:
            return self
        text, same, number = told
        holds = outcome == same
        if self.outcomes.get(text, holds) != holds:
            return None
        numbers = self.numbers
        if holds and number:
            field, value = number
            if numbers.get(field, value) != value:
                return None
            numbers = {**numbers, field: value}
        return Marks({**self.outcomes, text: holds}, numbers)


def ways(statement):
    """The blocks into which a statement may branch, None where it doesn't branch."""
    if isinstance(statement, tree.New):
        return [statement.body, statement.taken, statement.full]
    if isinstance(statement, (tree.Get, tree.Find, tree.If)):
        return [statement.body, statement.otherwise]
    return None


ACTIONS = (tree.Forward, tree.Flood, tree.Drop)


def walked(block, at=0):
    """How many feasible paths a handler's block has, and the statements that stand on one. `at` is where its `on`
    stands."""
    count, met, tests = 0, {}, {}
    # A place is the statements that follow, as a block, a number in it and the place behind the block.
    waiting = [((block, 0, None), Marks())]
    while waiting:
        place, marks = waiting.pop()
        while place:
            statements, number, behind = place
            if number == len(statements):
                place = behind
                continue
            statement = statements[number]
            met[id(statement)] = statement
            place = None if isinstance(statement, ACTIONS) else (statements, number + 1, behind)
            blocks = ways(statement)
            if blocks is None:
                continue
            if isinstance(statement, tree.If) and id(statement) not in tests:
                tests[id(statement)] = brought(statement)
            for way, inner in enumerate(blocks):
                after = marks.after(tests.get(id(statement)), way == 0)
                if after is not None:
                    waiting.append(((inner, 0, place), after))
            break
        else:
            count += 1
            if count > MOST_PATHS:
                raise TooManyPaths(at)
    return count, list(met.values())


# ---- sites
@dataclass
class Site:
    """A site of an object: its port, whether it is in the handler for IPv6, its place in the text, what it does, the
    labels that it names, and the field that it knows of each label."""
    port: int
    six: bool
    place: tuple
    sort: str
    named: set
    known: dict


def field_of(value, width):
    """The hashable field of this width that a value plainly is, or None."""
    if isinstance(value, tree.Field) and HASHED.get(value.name) == width:
        return str(value.name)
    return None


def all_statements(block):
    """All statements of a block, whether a path leads there or not."""
    waiting = [block]
    while waiting:
        for statement in waiting.pop():
            yield statement
            waiting += ways(statement) or []


def expressions(it):
    """The expressions of a statement itself."""
    if isinstance(it, tree.Get):
        return it.key
    if isinstance(it, tree.Find):
        return [it.index, *(value for _, value in it.guard)]
    if isinstance(it, tree.New):
        return [value for _, value in it.gives]
    if isinstance(it, tree.If):
        return [it.left, it.right]
    if isinstance(it, tree.Store):
        return [it.index, it.value]
    if isinstance(it, tree.Forward):
        return [it.port]
    return [it.value] if isinstance(it, (tree.Set, tree.Write)) else []


class Object:
    """A chain or an array with its labels, whether the text writes it, and its sites."""

    def __init__(self, declared, statements):
        self.name, self.declared, self.sites = declared.name, declared, []
        self.is_chain = isinstance(declared, tree.Chain)
        # Labels in text order: free columns are none.
        columns = [it for it in declared.columns if it in declared.labels] if self.is_chain else []
        self.widths = {it: declared.labels[it] for it in columns} if self.is_chain else {ARRAY_LABEL: INDEX_BITS}
        self.news = [it for it in statements if isinstance(it, tree.New) and it.chain == self.name]
        stores = any(isinstance(it, tree.Store) and it.array == self.name for it in statements)
        self.written = bool(self.news) if self.is_chain else stores

    def together(self, one, other):
        """Whether every `new` sets both labels from one same plain field of their width."""
        for new in self.news:
            gives = dict(new.gives)
            fields = {field_of(gives[label], self.widths[label]) for label in (one, other)}
            if len(fields) > 1 or None in fields:
                return False
        return True

    def known(self, named):
        """The field of each label that a site knows which names labels by these values."""
        plain = {label: field_of(value, self.widths[label]) for label, value in named.items()}
        found = {}
        for label in self.widths:
            by = label
            if label not in named:
                by = next((it for it in self.widths if it in named and self.together(it, label)), None)
            if plain.get(by) is not None:
                found[label] = plain[by]
        return found

    def add(self, door, place, sort, named):
        self.sites.append(Site(*door, place, sort, set(named), self.known(named)))

    @property
    def kept(self):
        """The labels known at every site, in text order."""
        return [label for label in self.widths if all(label in site.known for site in self.sites)]

    def places(self, card):
        """Each site as keys for a card see it, with the fields that it knows of the kept labels."""
        kept = self.kept
        return [
            Place(site.port, card.hashing(site.six), tuple(site.known[it] for it in kept)) for site in self.sites
        ]

    @property
    def rule(self):
        if not self.kept:
            return "J4" if any(not site.known for site in self.sites) else "J3"
        if any(site.sort == "find" for site in self.sites):
            return "J5"
        return "J1" if len({tuple(site.known) for site in self.sites}) == 1 else "J2"


class Analysis:
    """A function without a fault, analysed for a network card. TooManyPaths is raised at the least port that has too
    many, at its handler for IPv4 first. A door is a port, and whether it is the one for IPv6."""

    def __init__(self, function, card=USUAL):
        self.function, self.card = function, card
        walks = {door: walked(it.block, it.at) for door, it in sorted(function.by_door.items())}
        self.paths = {door: count for door, (count, _) in walks.items()}
        statements = [it for handler in function.handlers for it in all_statements(handler.block)]
        self.objects = {it.name: Object(it, statements) for it in function.declared}
        for door, (_, met) in walks.items():
            for statement in met:
                self.sites_of(door, statement)
        for it in self.objects.values():
            it.sites.sort(key=lambda site: (site.port, site.six, site.place))
        self.judge()

    def sites_of(self, door, it):
        """Adds the sites of a statement."""
        for value in expressions(it):
            for operand in operands(value):
                if isinstance(operand, tree.Cell):
                    named = {ARRAY_LABEL: operand.index}
                    self.objects[operand.array].add(door, (operand.array.at, 0), "load", named)
        if isinstance(it, tree.Store):
            self.objects[it.array].add(door, (it.array.at, 0), "store", {ARRAY_LABEL: it.index})
        if isinstance(it, tree.Get):
            chain = self.objects[it.chain]
            named = dict(zip(chain.declared.maps[it.map], it.key))
            chain.add(door, (it.at, 0), f"get {it.map}", named)
        if isinstance(it, tree.Find):
            self.objects[it.chain].add(door, (it.at, 0), "find", dict(it.guard))
        if isinstance(it, tree.New):
            chain, gives = self.objects[it.chain], dict(it.gives)
            chain.add(door, (it.at, 0), "new", gives)
            for number, (name, labels) in enumerate(chain.declared.maps.items()):
                chain.add(door, (it.at, 1 + number), f"name {name}", {label: gives[label] for label in labels})

    def judge(self):
        """Finds the keys, or the cause for which there are none."""
        shared = [it for it in self.objects.values() if it.written and it.sites]
        self.plan = [it.places(self.card) for it in shared]
        self.keys = self.keys_near(key_of(self.card.default))
        self.cause = "hash"
        for it in reversed(shared):
            if not it.kept:
                self.cause = f"{it.name} {it.rule}"

    def on(self, card):
        """The analysis of the function for another card."""
        if card == self.card:
            return self
        found = copy(self)
        found.card = card
        found.judge()
        return found

    @property
    def lengths(self):
        """How many bits of each port's key its packets may meet."""
        of = self.function
        return [(RSS6 if of.has_six(port) else RSS).positions for port in range(of.ports)]

    def keys_near(self, default):
        """The given keys by another default key."""
        return given_keys(self.plan, default, self.lengths)

    # ---- texts
    def check(self):
        it = self.function
        paths = " ".join(self.counts(port) for port in range(it.ports))
        return f"ok {it.name}: ports {it.ports}, chains {len(it.chains)}, arrays {len(it.arrays)}, paths {paths}\n"

    def counts(self, port):
        """How many paths a port's handlers have."""
        return "/".join(str(self.paths[door]) for door in ((port, False), (port, True)) if door in self.paths)

    def verdict(self):
        """What `keys` prints."""
        if self.keys is None:
            return f"locked {self.cause}\n"
        lines = [f"key {port} {self.card.text_of(key)}\n" for port, key in enumerate(self.keys)]
        return "".join(["sharded\n", *lines])

    def described(self):
        """What `explain` prints before the verdict."""
        lines = [f"nf {self.function.name}"]
        for it in self.objects.values():
            if not it.written or not it.sites:
                lines.append(f"object {it.name} {'unused' if it.written else 'read only'}")
                continue
            lines.append(f"object {it.name} rule {it.rule} keeps {' '.join(it.kept) or '-'}")
            for site in it.sites:
                known = " ".join(f"{label}={field}" for label, field in site.known.items()) or "-"
                lines.append(f"site {site.port} {'six ' if site.six else ''}{site.sort} {known}")
        return "".join(f"{line}\n" for line in lines)

    def explain(self):
        return self.described() + self.verdict()


def analysed(text, card=USUAL):
    """The analysis of a text's bytes for a card and None; or None and the text's first fault, as its kind, line and
    column."""
    if fault := first_fault(text):
        return None, fault
    try:
        return Analysis(read(text), card), None
    except TooManyPaths as many:
        return None, ("P1", *place_of(text, many.at))
