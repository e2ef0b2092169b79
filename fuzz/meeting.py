"""Which places of a function's state the packets of a run touch, and which packets meet (docs/DEFINITIONS.md).

A place is an entry, a name (a key of a map) or a cell. An entry is touched by the `new` that makes it and by what hits
it; a name by each `get` of its map with this key and by each `new` that gives it, whatever they answer; a cell by each
read and write of it. Packets that touch one place of a written object meet.

Each touch is at a site of the object, and what the site knows is so: the labels of the entry that is hit or made, those
of the name, or the cell's index have the values of the fields that it knows them by.
"""
import itertools
from collections import defaultdict

from captures import fields_of, records_of
from interpreter import Handling, State
from keys import hash_of, hashing_of
from runs import capture_order
from tree import is_six


class Untold(Exception):
    """A touch that is at no site of its object, or of which the site says what isn't so."""


class Tracing(Handling):
    """One packet's way through a handler, with the places that it touches. Its choices are any free indices. Untold is
    raised where a touch isn't as the analysis says."""

    def __init__(self, analysis, state, port, fields, random, events):
        super().__init__(state, port, fields, [], events)
        self.analysis, self.random, self.touched = analysis, random, set()
        # The statement that is at its outcome, and its sort as a site.
        self.pending = None, None

    def touch_at(self, name, place, values, at, sort):
        """Touches a place of an object in a statement of the text; `values` are what the place tells of labels."""
        self.touched.add((name, place))
        for site in self.analysis.objects[name].sites:
            if (site.port, site.six, site.place[0], site.sort) == (self.port, is_six(self.fields), at, sort):
                told = {label: self.fields[field] for label, field in site.known.items() if label in values}
                self.events["labels known at a touch"] += len(told)
                if not told.items() <= values.items():
                    raise Untold(f"{site} touches {values}, with {self.fields}")
                return
        raise Untold(f"`{sort}` of {name} at byte {at}, port {self.port}, is no site")

    def block(self, statements, scope):
        # What hits or makes an entry goes on in the block that has it in scope.
        it, sort = self.pending
        self.pending = None, None
        if it is not None and statements is it.body:
            entry = scope[it.name]
            self.touch_at(it.chain, entry, entry.values, it.at, sort)
        return super().block(statements, scope)

    def get(self, it, scope):
        values = self.labels(it.chain, zip(self.function.chains[it.chain].maps[it.map], it.key), scope)
        self.name(it, it.map, values, f"get {it.map}")
        self.pending = it, f"get {it.map}"
        return super().get(it, scope)

    def find(self, it, scope):
        self.pending = it, "find"
        return super().find(it, scope)

    def new(self, it, scope):
        for of in self.function.chains[it.chain].maps:
            self.name(it, of, self.labels(it.chain, it.gives, scope), f"name {of}")
        self.pending = it, "new"
        return super().new(it, scope)

    def name(self, it, of, values, sort):
        parts = {label: values[label] for label in self.function.chains[it.chain].maps[of]}
        self.touch_at(it.chain, (of, self.state.key(it.chain, of, values)), parts, it.at, sort)

    def cell(self, it, scope):
        self.cell_at(it, scope, "load")
        return super().cell(it, scope)

    def store(self, it, scope):
        self.cell_at(it, scope, "store")
        return super().store(it, scope)

    def cell_at(self, it, scope, sort):
        index = self.value(it.index, scope) % 2**16
        if index < len(self.state.cells[it.array]):
            self.touch_at(it.array, index, {"index": index}, it.array.at, sort)

    def choose(self, chain):
        free = set(range(self.function.chains[chain].size)) - self.state.entries[chain].keys()
        return self.random.choice(sorted(free))


def touched(analysis, captures, random, events):
    """The packets of a run that were handled, each its port, its fields and the places that it touched."""
    function = analysis.function
    state, found = State(function), []
    records = [read[0] if read else [] for read in map(records_of, captures)]
    for port, _, record in capture_order(records):
        fields = function.seen(port, fields_of(record))
        if fields is not None:
            way = Tracing(analysis, state, port, fields, random, events)
            way.handle(function.block(port, fields))
            found.append((port, fields, way.touched))
    return found


def hashing(keys):
    """The hash of packets under each port's key, by their port and their fields."""
    return lambda port, fields: hash_of(keys[port], fields)


def apart(analysis, hash_of, packets, events):
    """Two packets that meet and hash apart, None where all that meet hash alike."""
    written = {it.name for it in analysis.objects.values() if it.written}
    by_place, hashes, inputs = defaultdict(list), [], []
    for number, (port, fields, places) in enumerate(packets):
        inputs.append([fields[name] for name, _ in hashing_of(fields).fields])
        hashes.append(hash_of(port, fields))
        for place in places:
            if place[0] in written:
                by_place[place].append(number)
    pairs = {pair for numbers in by_place.values() for pair in itertools.combinations(numbers, 2)}
    events["pairs that meet"] += len(pairs)
    events["different hashes"] += len(set(hashes))
    for one, other in sorted(pairs):
        events["pairs of different inputs"] += inputs[one] != inputs[other]
        events["pairs at different ports"] += packets[one][0] != packets[other][0]
        if hashes[one] != hashes[other]:
            return one, other
    return None
