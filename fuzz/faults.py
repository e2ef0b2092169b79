"""The first fault of a text, by the grammar and by the rules `T01` to `T09` of docs/FORMATS.md."""
import tree
from language import Fault, place_of, read

WIDTHS = (8, 16, 32, 48, 64, 128)
UNSETTABLE = ("time", "length", "proto")


class Rules:
    """Goes through a tree and collects all faults of the rules, each as its place and its kind."""

    def __init__(self, function):
        self.function = function
        self.faults = []
        self.names, self.maps = set(), 0
        self.looks = self.news = 0
        # The fields that the handler may not name.
        self.others = ()

    def refuse_if(self, wrong, kind, at):
        if wrong:
            self.faults.append((at, kind))

    def all(self):
        function = self.function
        self.refuse_if(not 1 <= function.ports <= 4, "T07", function.ports.at)
        counts = {"chain": 0, "array": 0}
        for declared in function.declared:
            kind = "array" if isinstance(declared, tree.Array) else "chain"
            self.refuse_if(counts[kind] == 8, "T07", declared.at)
            counts[kind] += 1
            self.declared(declared)
            self.array(declared) if kind == "array" else self.chain(declared)
        seen = set()
        for it in function.handlers:
            self.refuse_if((it.port, it.six) in seen, "T02", it.port.at)
            self.refuse_if(it.port >= function.ports, "T07", it.port.at)
            seen.add((it.port, it.six))
            self.looks = self.news = 0
            self.others = tree.ADDRESSES[not it.six]
            self.block(it.block, {})
        handled = [port for port, six in seen if port < function.ports and not six]
        self.refuse_if(len(handled) < function.ports, "T08", function.end)
        return self.faults

    # ---- declarations
    def declared(self, it):
        self.refuse_if(it.name in self.names, "T02", it.name.at)
        self.names.add(it.name)
        self.refuse_if(not 1 <= it.size <= 65536, "T07", it.size.at)

    def width(self, width):
        self.refuse_if(width not in WIDTHS, "T07", width.at)

    def array(self, array):
        self.width(array.width)
        for number, value in enumerate(array.contents):
            self.refuse_if(number >= array.size, "T07", value.at)

    def chain(self, chain):
        maps, columns, counts = set(), set(), {"fixed": 0, "free": 0}

        def column(name, width):
            self.refuse_if(name in columns, "T02", name.at)
            columns.add(name)
            self.width(width)

        for item in chain.items:
            if isinstance(item, tree.Column):
                self.refuse_if(counts[item.kind] == 8, "T07", item.at)
                counts[item.kind] += 1
                column(item.name, item.width)
                continue
            self.refuse_if(self.maps == 16, "T07", item.at)
            self.maps += 1
            self.refuse_if(item.name in maps, "T02", item.name.at)
            maps.add(item.name)
            for number, (label, width) in enumerate(item.parts):
                self.refuse_if(number >= 8, "T07", label.at)
                column(label, width)

    # ---- statements. A scope has the chain of each variable, None where that isn't declared.
    def block(self, statements, scope):
        rules = {
            tree.Get: self.get, tree.Find: self.find, tree.New: self.new, tree.If: self.if_,
            tree.Touch: self.entry, tree.Free: self.entry, tree.Set: self.set, tree.Write: self.write,
            tree.Store: self.store, tree.Forward: self.forward,
        }
        for statement in statements:
            if type(statement) in rules:
                rules[type(statement)](statement, scope)

    def look(self, it, scope, is_new=False):
        """The chain of a `get`, `find` or `new`, and the scope of its first block."""
        self.refuse_if(self.looks == 32 or is_new and self.news == 16, "T07", it.at)
        self.looks += 1
        self.news += is_new
        self.refuse_if(it.name in self.names or it.name in scope, "T02", it.name.at)
        chain = self.function.chains.get(it.chain)
        self.refuse_if(chain is None, "T01", it.chain.at)
        return chain, {**scope, it.name: chain}

    def get(self, it, scope):
        chain, inner = self.look(it, scope)
        if chain is not None:
            self.refuse_if(it.map not in chain.maps, "T01", it.map.at)
            self.refuse_if(len(chain.maps.get(it.map, it.key)) != len(it.key), "T03", it.closing)
        for part in it.key:
            self.sum(part, scope)
        self.block(it.body, inner)
        self.block(it.otherwise, scope)

    def find(self, it, scope):
        chain, inner = self.look(it, scope)
        self.sum(it.index, scope)
        self.gives(it.guard, chain, scope)
        self.block(it.body, inner)
        self.block(it.otherwise, scope)

    def new(self, it, scope):
        chain, inner = self.look(it, scope, is_new=True)
        self.gives(it.gives, chain, scope)
        if chain is not None:
            self.refuse_if(not set(chain.labels) <= {label for label, _ in it.gives}, "T03", it.closing)
        self.block(it.body, inner)
        self.block(it.taken, scope)
        self.block(it.full, scope)

    def gives(self, gives, chain, scope):
        seen = set()
        for label, value in gives:
            self.column(label, chain)
            self.refuse_if(label in seen, "T02", label.at)
            self.refuse_if(chain is not None and label in chain.free, "T04", label.at)
            seen.add(label)
            self.sum(value, scope)

    def column(self, name, chain):
        self.refuse_if(chain is not None and name not in chain.columns, "T01", name.at)

    def variable(self, name, scope):
        """The chain of a variable."""
        self.refuse_if(name not in scope, "T06", name.at)
        return scope.get(name)

    def if_(self, it, scope):
        self.sum(it.left, scope)
        self.sum(it.right, scope)
        self.block(it.body, scope)
        self.block(it.otherwise, scope)

    def entry(self, it, scope):
        self.variable(it.entry, scope)

    def set(self, it, scope):
        self.refuse_if(it.field in UNSETTABLE, "T05", it.field.at)
        self.field(it.field)
        self.sum(it.value, scope)

    def write(self, it, scope):
        chain = self.variable(it.entry, scope)
        self.column(it.column, chain)
        self.refuse_if(chain is not None and it.column in chain.labels, "T05", it.column.at)
        self.sum(it.value, scope)

    def store(self, it, scope):
        self.cells(it.array)
        self.sum(it.index, scope)
        self.sum(it.value, scope)

    def forward(self, it, scope):
        self.sum(it.port, scope)

    def cells(self, name):
        self.refuse_if(name not in self.function.arrays, "T01", name.at)

    def field(self, name):
        self.refuse_if(name in self.others, "T09", name.at)

    def sum(self, it, scope):
        if isinstance(it, tree.Field):
            self.field(it.name)
        elif isinstance(it, tree.Operation):
            self.sum(it.left, scope)
            self.sum(it.right, scope)
        elif isinstance(it, tree.Cell):
            self.cells(it.array)
            self.sum(it.index, scope)
        elif isinstance(it, tree.Read):
            chain = self.variable(it.entry, scope)
            if it.column is not None:
                self.column(it.column, chain)


def first_fault(text):
    """The kind, the line and the column of a text's first fault, None where it is a function."""
    try:
        faults = Rules(read(text)).all()
    except Fault as fault:
        return fault.kind, *place_of(text, fault.at)
    if not faults:
        return None
    at, kind = min(faults)
    return kind, *place_of(text, at)
