"""Systems of equations over GF(2), each with a wanted vector and groups of bits: all small ones, and large random ones.

A small vector is the number that its bits are, the first one the highest. So of two solutions that one is nearer to a
wanted vector whose exclusive or with it is less. A large one is as keys.py has it.
"""
import itertools
from dataclasses import dataclass

from keys import DEFAULT, RSS, Layout, Place, alike, equations, key_of

MOST_GROUPS = 3
PORTS = 4
OF = Layout({port: RSS.positions for port in range(PORTS)})
BITS = OF.unknowns
# Of each key the bits of which one has to be a 1, so that packets spread.
GROUPS = [[start + at for at in RSS.spreading] for start in OF.starts.values()]
FIELDS = ("src_ip", "dst_ip"), ("src_port", "dst_port")


# ---- small ones
def spaces(bits):
    """The rows of one system for each set of solutions. Each row has a highest bit that no other row has."""
    found = [[]]
    for at in range(bits):
        longer = []
        for rows in found:
            free = [1 << it for it in range(at) if all(row.bit_length() - 1 != it for row in rows)]
            sums = [sum(of) for count in range(len(free) + 1) for of in itertools.combinations(free, count)]
            longer += [rows, *([1 << at | it, *rows] for it in sums)]
        found = longer
    return found


def group_sets(bits):
    """All sets of up to three groups. A group is the number of its bits, that without any among them."""
    return [of for count in range(MOST_GROUPS + 1) for of in itertools.combinations(range(2**bits), count)]


def row_lists(random, rows, bits):
    """A few lists of rows with the solutions of these: they alone, and with sums of some, rows twice, and zeros."""
    found = [rows]
    for _ in range(3):
        longer = list(rows)
        for _ in range(random.randrange(1, bits + 1)):
            longer.append(0)
            for row in rows:
                longer[-1] ^= row * random.randrange(2)
        random.shuffle(longer)
        found.append(longer)
    return found


class Searched:
    """The answers of small systems with the same solutions, by going through all vectors."""

    def __init__(self, bits, rows):
        self.bits, self.answers = bits, {}
        self.solutions = [it for it in range(2**bits) if all((row & it).bit_count() % 2 == 0 for row in rows)]
        # The solutions with a 1 in each group, as a set of bits.
        self.met = [sum(1 << it for it in self.solutions if it & group) for group in range(2**bits)]
        self.all = sum(1 << it for it in self.solutions)

    def answer(self, wanted, of):
        """The solution nearest a wanted vector with a 1 in each group, as it is printed."""
        left = self.all
        for group in of:
            left &= self.met[group]
        found = self.answers.get((left, wanted))
        if found is None:
            nearest = min((it ^ wanted for it in self.solutions if left >> it & 1), default=None)
            found = "none" if nearest is None else format(nearest ^ wanted, f"0{self.bits}b")
            self.answers[left, wanted] = found
        return found


# ---- large ones
@dataclass
class System:
    """A system over the keys of four ports with four groups; groups are lists of bits."""
    family: str
    rows: list
    groups: list
    wanted: int

    def line(self):
        """It as gf2_tests reads it."""
        vectors = self.rows, [sum(1 << at for at in group) for group in self.groups]
        rows, members = (" ".join(map(large_text, of)) for of in vectors)
        return f"{large_text(self.wanted)} | {rows} | {members}\n"

    def is_answer(self, vector):
        """Whether this is a solution with a 1 in each group."""
        even = all((row & vector).bit_count() % 2 == 0 for row in self.rows)
        return even and all(any(vector >> at & 1 for at in group) for group in self.groups)


def large_text(vector):
    return format(vector, f"0{BITS}b")[::-1]


def some(random, count):
    """A vector with a 1 at about so many places."""
    return sum({1 << random.randrange(BITS) for _ in range(count)})


def dense(random):
    return [random.getrandbits(BITS) for _ in range(random.randrange(560))]


def nearly_full(random):
    return [random.getrandbits(BITS) for _ in range(random.randrange(BITS - 12, BITS + 4))]


def sparse(random):
    most = random.choice((2, 3, 8, 30))
    return [some(random, random.randrange(1, most + 1)) for _ in range(random.randrange(700))]


def repeated(random):
    """Bits that are equal to those some places on."""
    shift = random.choice((1, 2, 16, 32, 64, RSS.positions, random.randrange(1, BITS)))
    return [1 << at | 1 << at + shift for at in range(BITS - shift) if random.random() < 0.99]


def joined(random):
    """The bits of each group are equal, but for a few; sums of some groups are 0."""
    found = []
    for group in GROUPS:
        free = random.choice((0, 0, 1, 5))
        found += [1 << group[0] | 1 << at for at in group[1 : len(group) - free]]
    for _ in range(random.randrange(4)):
        found.append(sum(1 << group[0] for group in random.sample(GROUPS, random.randrange(1, PORTS + 1))))
    return found


def bound(random, kept):
    """All bits but these are 0, and these are bound to one another."""
    found = [1 << at for at in range(BITS) if at not in kept]
    return found + [sum(1 << at for at in kept if random.random() < 0.5) for _ in range(random.randrange(len(kept)))]


def few(random):
    return bound(random, random.sample(range(BITS), random.choice((1, 4, 10, 60))))


def early(random):
    """The keys have no later ones than a few in the groups, so that the search meets these last."""
    last = RSS.spreading[0] + random.choice((0, 1, 2, 5, 20))
    return bound(random, [port * RSS.positions + at for port in range(PORTS) for at in range(last + 1)])


def of_places(random):
    """What keys have to satisfy for a few objects with sites at four ports."""
    objects = []
    for _ in range(random.randrange(1, 4)):
        labels = [random.choice(FIELDS) for _ in range(random.randrange(1, 5))]
        objects.append([Place(port, RSS, tuple(random.choice(of) for of in labels)) for port in range(PORTS)])
    return sorted(equations(OF, alike(objects)))


FAMILIES = {it.__name__: it for it in (dense, nearly_full, sparse, repeated, joined, few, early, of_places)}


def some_groups(random):
    """Those of the keys, or four of any bits: few or many, some of them twice or within another."""
    if random.random() < 0.6:
        return GROUPS
    found = []
    for _ in range(PORTS):
        whole = random.choice(found) if found and random.random() < 0.3 else range(BITS)
        count = min(len(whole), 2 ** random.randrange(10))
        found.append(sorted(random.sample(whole, count)))
    return found


def large(random):
    """A random system."""
    family = random.choice(list(FAMILIES))
    each = key_of(DEFAULT) & (1 << RSS.positions) - 1
    default = sum(each << port * RSS.positions for port in range(PORTS))
    wanted = random.choice((0, (1 << BITS) - 1, default, random.getrandbits(BITS)))
    return System(family, FAMILIES[family](random), some_groups(random), wanted)
