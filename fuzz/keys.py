"""Toeplitz keys by their definition over all inputs, in vectors of GF(2) that are whole numbers.

Bit i of a vector, from the left and from 0, has the weight 2^i in its number. The keys of some ports are one vector of
unknowns, port behind port. What is asked of them is taken from the definition: for each two places of an object a
basis of all pairs of inputs that agree in their fields, and for each such pair and each bit of the hash one equation.
How many keys spread is counted by inclusion and exclusion over the ports whose table index would be constant.
"""
from dataclasses import dataclass, replace
from functools import lru_cache
from itertools import accumulate, combinations_with_replacement

from tree import is_six


@dataclass(frozen=True)
class Hashing:
    """A Toeplitz hash: its input's fields in order with their widths, its bits, and how many low ones are the index
    of the table."""
    fields: tuple
    bits: int
    index: int

    @property
    def inputs(self):
        """How many bits an input has."""
        return sum(width for _, width in self.fields)

    @property
    def positions(self):
        """How many bits of a key the hash reads."""
        return self.inputs + self.bits - 1

    @property
    def spreading(self):
        """The positions of a key of which the table's index is made."""
        return range(self.bits - self.index, self.positions)

    def at(self, field):
        """The input's bits in which a field stands."""
        start = 0
        for name, width in self.fields:
            if name == field:
                return range(start, start + width)
            start += width
        raise KeyError(field)


# Microsoft's receive side scaling over addresses and ports, with a table of 128 entries, for IPv4 and for IPv6.
RSS = Hashing((("src_ip", 32), ("dst_ip", 32), ("src_port", 16), ("dst_port", 16)), 32, 7)
RSS6 = Hashing((("src_ip6", 128), ("dst_ip6", 128), ("src_port", 16), ("dst_port", 16)), 32, 7)
# The key of Microsoft's verification suite.
DEFAULT = "6d5a56da255b0ec24167253d43a38fb0d0ca2bcbae7b30b477cb2da38030f20c6a42b73bbeac01fa"


@dataclass(frozen=True)
class Card:
    """A network card: how many entries its table has, 128 or 512, and how many bytes its keys, 40 or 52."""
    table: int = 128
    key_bytes: int = 40

    @property
    def key_bits(self):
        return 8 * self.key_bytes

    @property
    def default(self):
        """The digits of the default key: of 52 bytes it is that of 40, and then its first 12."""
        return (2 * DEFAULT)[:2 * self.key_bytes]

    def hashing(self, six):
        """The hash of IPv4 or IPv6, with the index of this card's table."""
        return replace(RSS6 if six else RSS, index=self.table.bit_length() - 1)

    def index(self, hashed):
        """The table's index of a hash."""
        return hashed % self.table

    def queue(self, hashed, workers):
        """The queue of a hash: entry i of the table is queue i modulo the workers."""
        return self.index(hashed) % workers

    def text_of(self, key):
        """The digits of a key's vector."""
        return format(vector(key, self.key_bits), f"0{2 * self.key_bytes}x")


USUAL = Card()
CARDS = tuple(Card(table, key_bytes) for table in (128, 512) for key_bytes in (40, 52))


def vector(value, width):
    """A number of so many bits as a vector, its highest bit the first; and a vector as a number."""
    return int(format(value, f"0{width}b")[::-1], 2)


def key_of(text):
    """A key's vector by its digits."""
    return vector(int(text, 16), 4 * len(text))


def input_of(hashing, fields):
    """The input's vector of a packet's fields."""
    found = 0
    for name, width in hashing.fields:
        found |= vector(fields[name], width) << hashing.at(name).start
    return found


def toeplitz(hashing, key, given):
    """The hash of an input under a key: bit j from the highest is the sum of input_i * key_(i+j)."""
    found = 0
    for j in range(hashing.bits):
        found = found << 1 | (given & key >> j).bit_count() & 1
    return found


def hashing_of(fields):
    """The hash that a packet with these fields has."""
    return RSS6 if is_six(fields) else RSS


def hash_of(key, fields):
    """The hash of a packet's fields under a key."""
    of = hashing_of(fields)
    return toeplitz(of, key, input_of(of, fields))


# ---- linear algebra
class Solutions:
    """The solutions of equations with the sum 0 in so many unknowns. An equation is a vector over them. Each that is
    kept says what its last unknown is by those before, and has another last one than the others."""

    def __init__(self, unknowns):
        self.unknowns, self.rows = unknowns, {}

    def copy(self):
        made = Solutions(self.unknowns)
        made.rows = dict(self.rows)
        return made

    def add(self, row):
        while row:
            last = row.bit_length() - 1
            if last not in self.rows:
                self.rows[last] = row
                return
            row ^= self.rows[last]

    def may_have(self, found, at, value):
        """Whether this may be the value of an unknown behind those that were found before."""
        row = self.rows.get(at)
        return row is None or (row & (found | value << at)).bit_count() % 2 == 0

    def free(self):
        """How many unknowns are free from each one on."""
        found = [0]
        for at in reversed(range(self.unknowns)):
            found.append(found[-1] + (at not in self.rows))
        return found[::-1]

    def basis(self):
        found = []
        for free in range(self.unknowns):
            one = 1 << free
            if free not in self.rows:
                for last in sorted(self.rows):
                    if (self.rows[last] & one).bit_count() % 2:
                        one |= 1 << last
                found.append(one)
        return found


def signed_solutions(unknowns, rows, groups):
    """The solutions of equations, and those with 0 in all of some groups of unknowns, each with its sign of inclusion
    and exclusion."""
    base = Solutions(unknowns)
    for row in rows:
        base.add(row)
    signed = [(1, base)]
    for group in groups:
        for sign, of in list(signed):
            without = of.copy()
            for at in group:
                without.add(1 << at)
            signed.append((-sign, without))
    return signed


def count(unknowns, rows, groups):
    """How many solutions have a 1 in each group."""
    return sum(sign << of.free()[0] for sign, of in signed_solutions(unknowns, rows, groups))


def nearest(unknowns, rows, default, groups):
    """The solution nearest a default by reading order that has a 1 in each group of unknowns, None where none has.

    So read, each unknown is the default's unless no solution with a 1 in each group has it behind those before.
    """
    signed = [(sign, of, of.free()) for sign, of in signed_solutions(unknowns, rows, groups)]
    if not sum(sign << free[0] for sign, _, free in signed):
        return None
    found = 0
    for at in range(unknowns):
        wanted = default >> at & 1
        for value in (wanted, 1 - wanted):
            tried = [it for it in signed if it[1].may_have(found, at, value)]
            if sum(sign << free[at + 1] for sign, _, free in tried):
                break
        signed = tried
        found |= value << at
    return found


# ---- keys
@dataclass(frozen=True)
class Place:
    """A site of an object as keys see it: its port, the hash of its packets, and the fields of the kept labels."""
    port: int
    of: Hashing
    fields: tuple


@lru_cache(maxsize=None)
def agreeing(left, right):
    """A basis of all pairs of inputs that agree: in each field of the left place and the field that stands with it at
    the right one. A pair is one vector, the left input before the right one."""
    inputs = left.of.inputs
    system = Solutions(inputs + right.of.inputs)
    for one, other in zip(left.fields, right.fields, strict=True):
        for at, where in zip(left.of.at(one), right.of.at(other), strict=True):
            system.add(1 << at | 1 << inputs + where)
    half = (1 << inputs) - 1
    return [(pair & half, pair >> inputs) for pair in system.basis()]


@dataclass(frozen=True)
class Layout:
    """Where the keys of keyed ports stand in one vector of unknowns, one behind the other: how many bits each has that
    a packet of its port meets."""
    lengths: dict

    @property
    def starts(self):
        return dict(zip(self.lengths, accumulate([0, *self.lengths.values()])))

    @property
    def unknowns(self):
        return sum(self.lengths.values())


def layout(objects, lengths):
    """The layout for the ports at which objects have sites, in order. An object is the list of its places."""
    return Layout({port: lengths[port] for port in sorted({it.port for places in objects for it in places})})


def alike(objects):
    """Pairs of inputs of which it is enough that each two hash alike: a port, its input and the bits of its hash, and
    another port and input."""
    found = set()
    for places in objects:
        for left, right in combinations_with_replacement(sorted(set(places), key=repr), 2):
            found.update((left.port, one, left.of.bits, right.port, two) for one, two in agreeing(left, right))
    return found


def equations(of, pairs):
    """What keys in a layout have to satisfy under which these pairs of inputs hash alike."""
    found, starts = set(), of.starts
    for port, one, bits, other, two in pairs:
        at_first = one << starts[port] ^ two << starts[other]
        found.update(at_first << j for j in range(bits))
    return found - {0}


def groups(of, objects):
    """Of the keys in a layout the unknowns of which one has to be a 1, so that the packets of each kind spread for
    which a port is keyed."""
    kinds = {(it.port, it.of) for places in objects for it in places}
    starts = of.starts
    return [[starts[port] + at for at in hashing.spreading] for port, hashing in sorted(kinds, key=repr)]


def given_keys(objects, default, lengths):
    """The given keys of ports as vectors, None where no admissible keys spread; `lengths` has how many bits of each
    port's key a packet there may meet."""
    of = layout(objects, lengths)
    wanted = sum((default & (1 << each) - 1) << of.starts[port] for port, each in of.lengths.items())
    found = nearest(of.unknowns, sorted(equations(of, alike(objects))), wanted, groups(of, objects))
    if found is None:
        return None
    keys = [default] * len(lengths)
    for port, each in of.lengths.items():
        keys[port] = found >> of.starts[port] & (1 << each) - 1
    return keys
