"""A text's tree: its declarations, statements and operands.

Names and numbers know at which byte they stand, so that the rules can point at them.
"""
from dataclasses import dataclass

# The fields of a packet, and their widths in bits.
FIELDS = {
    "time": 64, "length": 32, "src_mac": 48, "dst_mac": 48, "src_ip": 32, "dst_ip": 32,
    "src_ip6": 128, "dst_ip6": 128, "proto": 8, "ttl": 8, "src_port": 16, "dst_port": 16,
}
# Those that packets of one version of IP alone have, by whether that is IPv6.
ADDRESSES = {False: ("src_ip", "dst_ip"), True: ("src_ip6", "dst_ip6")}


class Name(str):
    """A name or a field, and the byte where it stands."""

    def __new__(cls, value, at):
        made = super().__new__(cls, value)
        made.at = at
        return made


class Number(int):
    """A number, and the byte where it stands."""

    def __new__(cls, value, at):
        made = super().__new__(cls, value)
        made.at = at
        return made


# ---- declarations
@dataclass
class Map:
    """A map, its key's parts (each a label and its width), and where its word stands."""
    at: int
    name: Name
    parts: list


@dataclass
class Column:
    """A fixed or a free column: its kind is that word."""
    at: int
    kind: str
    name: Name
    width: Number


class Chain:
    """A chain. `labels` are key parts and fixed columns, `free` the free columns, each with its width; `maps` has each
    map's labels, and `columns` all labels and free columns as they stand in the text."""

    def __init__(self, at, name, size, lifetime, items):
        self.at, self.name, self.size, self.lifetime, self.items = at, name, size, lifetime, items
        self.maps, self.labels, self.free, self.columns = {}, {}, {}, []
        for item in items:
            if isinstance(item, Map):
                self.maps[item.name] = [label for label, _ in item.parts]
                self.labels.update(item.parts)
                self.columns += self.maps[item.name]
            else:
                (self.labels if item.kind == "fixed" else self.free)[item.name] = item.width
                self.columns.append(item.name)


@dataclass
class Array:
    at: int
    name: Name
    size: Number
    width: Number
    contents: list

    def cells(self):
        """The cells' values at the opening."""
        return [value % 2**self.width for value in self.contents] + [0] * (self.size - len(self.contents))


def is_six(fields):
    """Whether a packet with these fields is one over IPv6."""
    return "src_ip6" in fields


@dataclass
class Handler:
    """What a port does with its packets, and whether with those over IPv6; `at` is where its `on` stands."""
    at: int
    port: Number
    six: bool
    block: list


class Function:
    """A function's declarations and handlers, and where the last `}` stands."""

    def __init__(self, name, ports, declared, handlers, end):
        self.name, self.ports, self.declared, self.handlers, self.end = name, ports, declared, handlers, end
        self.by_door = {(int(it.port), it.six): it for it in handlers}
        self.chains = {it.name: it for it in declared if isinstance(it, Chain)}
        self.arrays = {it.name: it for it in declared if isinstance(it, Array)}

    def seen(self, port, fields):
        """A packet's fields as its port's handlers see them: None where it is skipped, or has no handler."""
        return fields if fields and (port, is_six(fields)) in self.by_door else None

    def block(self, port, fields):
        """The block that a packet's handler runs."""
        return self.by_door[port, is_six(fields)].block

    def has_six(self, port):
        return (port, True) in self.by_door


# ---- statements. A block is a list of them.
@dataclass
class Get:
    at: int
    name: Name
    chain: Name
    map: Name
    key: list
    closing: int
    body: list
    otherwise: list


@dataclass
class Find:
    at: int
    name: Name
    chain: Name
    index: object
    guard: list
    body: list
    otherwise: list


@dataclass
class New:
    at: int
    name: Name
    chain: Name
    gives: list
    closing: int
    body: list
    taken: list
    full: list


@dataclass
class If:
    left: object
    sign: str
    right: object
    body: list
    otherwise: list


@dataclass
class Touch:
    entry: Name


@dataclass
class Free:
    entry: Name


@dataclass
class Set:
    field: Name
    value: object


@dataclass
class Write:
    entry: Name
    column: Name
    value: object


@dataclass
class Store:
    array: Name
    index: object
    value: object


@dataclass
class Forward:
    port: object


@dataclass
class Flood:
    pass


@dataclass
class Drop:
    pass


# ---- operands. A number is one too.
@dataclass
class Field:
    """A packet's field as an operand."""
    name: Name


@dataclass
class Read:
    """A column of an entry as an operand, or its index, where the column is None."""
    entry: Name
    column: Name


@dataclass
class Cell:
    """A cell of an array as an operand."""
    array: Name
    index: object


@dataclass
class Operation:
    sign: str
    left: object
    right: object
