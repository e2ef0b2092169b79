"""One packet at a time, as docs/FORMATS.md says under "What a function does".

Which free index a new entry gets is left open there: the choices are given, and each has to be legal.
"""
from collections import Counter
from dataclasses import dataclass

import tree

GREATEST = 2**128 - 1
OPERATIONS = {
    "+": lambda left, right: min(left + right, GREATEST),
    "-": lambda left, right: max(left - right, 0),
    "*": lambda left, right: min(left * right, GREATEST),
    "/": lambda left, right: left // right if right else 0,
    "%": lambda left, right: left % right if right else 0,
    "&": lambda left, right: left & right,
}
COMPARISONS = {
    "==": lambda left, right: left == right,
    "!=": lambda left, right: left != right,
    "<": lambda left, right: left < right,
    "<=": lambda left, right: left <= right,
    ">": lambda left, right: left > right,
    ">=": lambda left, right: left >= right,
}


class IllegalChoice(Exception):
    """A choice that is no free index of its chain, is missing, or is left over."""


@dataclass(eq=False)
class Entry:
    """An entry of a chain. It is live until it is freed or past its lifetime."""
    chain: str
    index: int
    stamp: int
    values: dict
    live: bool = True


class State:
    """What a function remembers: entries by chain and index, the keys of each map, and cells."""

    def __init__(self, function):
        self.function = function
        self.entries = {chain: {} for chain in function.chains}
        self.greatest = {chain: 0 for chain in function.chains}
        self.keys = {(it.name, of): {} for it in function.chains.values() for of in it.maps}
        self.cells = {it.name: it.cells() for it in function.arrays.values()}

    def key(self, chain, of, values):
        """The key that an entry with these values has in a map."""
        return tuple(values[label] for label in self.function.chains[chain].maps[of])

    def taken(self, chain, values):
        """Whether one of the keys is in its map."""
        return any(self.key(chain, of, values) in self.keys[chain, of] for of in self.function.chains[chain].maps)

    def add(self, entry):
        self.entries[entry.chain][entry.index] = entry
        for of in self.function.chains[entry.chain].maps:
            self.keys[entry.chain, of][self.key(entry.chain, of, entry.values)] = entry

    def remove(self, entry):
        entry.live = False
        del self.entries[entry.chain][entry.index]
        for of in self.function.chains[entry.chain].maps:
            del self.keys[entry.chain, of][self.key(entry.chain, of, entry.values)]

    def expire(self, time):
        """Removes the entries past their lifetime, and tells how many."""
        gone = [
            entry for chain, entries in self.entries.items() for entry in entries.values()
            if entry.stamp + self.function.chains[chain].lifetime < time
        ]
        for entry in gone:
            self.remove(entry)
        return len(gone)

    def stamp(self, chain, time):
        """The stamp that an entry of this chain gets."""
        self.greatest[chain] = max(self.greatest[chain], time)
        return self.greatest[chain]

    def text(self):
        """The state as a run's last file has it."""
        lines = []
        for it in self.function.chains.values():
            lines.append(f"chain {it.name} greatest {self.greatest[it.name]}")
            for index, entry in sorted(self.entries[it.name].items()):
                values = [f"{column}={entry.values[column]}" for column in it.columns]
                lines.append(" ".join([str(index), str(entry.stamp), *values]))
        for it in self.function.arrays.values():
            lines.append(f"array {it.name}")
            both = zip(self.cells[it.name], it.cells())
            lines += [f"{index} {value}" for index, (value, opening) in enumerate(both) if value != opening]
        return "".join(f"{line}\n" for line in lines)


class Handling:
    """One packet's way through the handler of its port. `events` counts what the packet met."""

    def __init__(self, state, port, fields, choices, events):
        self.state, self.function, self.port, self.fields = state, state.function, port, fields
        self.choices, self.events = list(choices), events
        self.edits = {}
        self.statements = {
            tree.Get: self.get, tree.Find: self.find, tree.New: self.new, tree.If: self.if_,
            tree.Touch: self.touch, tree.Free: self.free, tree.Set: self.set, tree.Write: self.write,
            tree.Store: self.store, tree.Forward: self.forward, tree.Flood: self.flood, tree.Drop: self.drop,
        }
        self.operands = {
            tree.Number: lambda it, scope: int(it),
            tree.Field: lambda it, scope: self.fields[it.name],
            tree.Read: self.read,
            tree.Cell: self.cell,
            tree.Operation: self.operation,
        }

    def handle(self, handler):
        """The action's word in the journal, and the edits of the frame."""
        self.events["expired"] += self.state.expire(self.fields["time"])
        action = self.block(handler, {}) or "drop"
        if self.choices:
            raise IllegalChoice("an index is left over")
        return action, self.edits

    def block(self, statements, scope):
        """The action that ended the handler, or None. A scope has the entry of each variable."""
        for statement in statements:
            action = self.statements[type(statement)](statement, scope)
            if action:
                return action
        return None

    def value(self, it, scope):
        return self.operands[type(it)](it, scope)

    def operation(self, it, scope):
        return OPERATIONS[it.sign](self.value(it.left, scope), self.value(it.right, scope))

    def read(self, it, scope):
        entry = scope[it.entry]
        if not entry.live:
            self.events["reads of a freed entry"] += 1
            return 0
        return entry.index if it.column is None else entry.values[it.column]

    def cell(self, it, scope):
        cells, index = self.state.cells[it.array], self.value(it.index, scope) % 2**16
        return cells[index] if index < len(cells) else 0

    def labels(self, chain, gives, scope):
        """The values that are given to labels, each as wide as its label."""
        widths = self.function.chains[chain].labels
        return {label: self.value(value, scope) % 2 ** widths[label] for label, value in gives}

    def get(self, it, scope):
        labels = self.function.chains[it.chain].maps[it.map]
        values = self.labels(it.chain, zip(labels, it.key), scope)
        entry = self.state.keys[it.chain, it.map].get(self.state.key(it.chain, it.map, values))
        self.events["got" if entry else "not got"] += 1
        return self.block(it.body, {**scope, it.name: entry}) if entry else self.block(it.otherwise, scope)

    def find(self, it, scope):
        entry = self.state.entries[it.chain].get(self.value(it.index, scope))
        guard = self.labels(it.chain, it.guard, scope)
        if entry and guard:
            self.events["guards that hold" if guard.items() <= entry.values.items() else "guards that don't"] += 1
        if entry and guard.items() <= entry.values.items():
            self.events["found"] += 1
            return self.block(it.body, {**scope, it.name: entry})
        return self.block(it.otherwise, scope)

    def new(self, it, scope):
        values = self.labels(it.chain, it.gives, scope)
        chain, entries = self.function.chains[it.chain], self.state.entries[it.chain]
        if self.state.taken(it.chain, values):
            self.events["taken"] += 1
            return self.block(it.taken, scope)
        if len(entries) == chain.size:
            self.events["full"] += 1
            return self.block(it.full, scope)
        self.events["made"] += 1
        index = self.choose(it.chain)
        stamp = self.state.stamp(it.chain, self.fields["time"])
        entry = Entry(it.chain, index, stamp, {**values, **{column: 0 for column in chain.free}})
        self.state.add(entry)
        return self.block(it.body, {**scope, it.name: entry})

    def choose(self, chain):
        """The next choice, which has to be a free index."""
        if not self.choices:
            raise IllegalChoice("no index is told for a new entry")
        index = self.choices.pop(0)
        if index >= self.function.chains[chain].size or index in self.state.entries[chain]:
            raise IllegalChoice(f"index {index} of {chain} isn't free")
        return index

    def if_(self, it, scope):
        holds = COMPARISONS[it.sign](self.value(it.left, scope), self.value(it.right, scope))
        return self.block(it.body if holds else it.otherwise, scope)

    def touch(self, it, scope):
        entry = scope[it.entry]
        if entry.live:
            self.events["touched"] += 1
            entry.stamp = self.state.stamp(entry.chain, self.fields["time"])

    def free(self, it, scope):
        if scope[it.entry].live:
            self.events["freed"] += 1
            self.state.remove(scope[it.entry])

    def set(self, it, scope):
        self.events[f"set {it.field}"] += 1
        self.edits[it.field] = self.value(it.value, scope) % 2 ** tree.FIELDS[it.field]

    def write(self, it, scope):
        entry, value = scope[it.entry], self.value(it.value, scope)
        if entry.live:
            self.events["columns written"] += 1
            entry.values[it.column] = value % 2 ** self.function.chains[entry.chain].free[it.column]

    def store(self, it, scope):
        cells, index = self.state.cells[it.array], self.value(it.index, scope) % 2**16
        value = self.value(it.value, scope) % 2 ** self.function.arrays[it.array].width
        if index < len(cells):
            self.events["cells written"] += 1
            cells[index] = value

    def forward(self, it, scope):
        port = self.value(it.port, scope)
        return f"to:{port}" if port < self.function.ports else "drop"

    def flood(self, it, scope):
        return "flood"

    def drop(self, it, scope):
        return "drop"


def handle(state, handler, port, fields, choices, events=None):
    """Takes a packet of a port through its handler: the action and the edits. The state changes with it."""
    return Handling(state, port, fields, choices, Counter() if events is None else events).handle(handler)
