"""Searches through all that there is in small cases, for what analysis.py and keys.py find by reasoning.

Keys: over hashes of a few bits all keys of all ports are tried on all pairs of inputs. Paths: all outcomes of a
handler's statements are listed, and those that break a rule are left out; and all packets of few values are sent
through its tests.
"""
import itertools

import tree
from interpreter import COMPARISONS, OPERATIONS
from keys import Hashing, Place, toeplitz


# ---- keys
def hashing(random):
    """A small hash, one to three fields wide."""
    fields = tuple((f"f{number}", random.randrange(1, 3)) for number in range(random.randrange(1, 4)))
    bits = random.randrange(2, 4)
    return Hashing(fields, bits, random.randrange(1, bits + 1))


def objects(random, of, ports):
    """Some objects: of each the sites, with a field of the label's width for each kept label."""
    found = []
    for _ in range(random.randrange(1, 4)):
        widths = [random.choice(of.fields)[1] for _ in range(random.randrange(0 if random.random() < 0.1 else 1, 3))]
        fields = [[name for name, width in of.fields if width == wanted] for wanted in widths]
        found.append([
            Place(random.randrange(ports), of, tuple(random.choice(names) for names in fields))
            for _ in range(random.randrange(1, 4))
        ])
    return found


def value_of(of, given, field):
    """The bits of an input in a field."""
    return [given >> at & 1 for at in of.at(field)]


def searched_keys(of, ports, all_objects, default):
    """The admissible spreading keys nearest a default, by trying all keys on all inputs. None where there are none."""
    inputs, keys = range(2**of.inputs), range(2**of.positions)
    hashes = {key: [toeplitz(of, key, given) for given in inputs] for key in keys}
    alike = []
    for places in all_objects:
        for left, right in itertools.product(places, repeat=2):
            agree = [
                (one, two) for one in inputs for two in inputs
                if all(value_of(of, one, x) == value_of(of, two, y) for x, y in zip(left.fields, right.fields))
            ]
            alike.append((left.port, right.port, agree))
    keyed = {it.port for places in all_objects for it in places}
    spread = [key for key in keys if len({of_one % 2**of.index for of_one in hashes[key]}) > 1]
    choices = [sorted(spread, key=lambda key: reading(of, key ^ default)) if port in keyed else [default]
               for port in range(ports)]
    for found in itertools.product(*choices):
        if all(hashes_agree(hashes, found, *pair) for pair in alike):
            return list(found)
    return None


def reading(of, key):
    """A key's bits in reading order."""
    return [key >> at & 1 for at in range(of.positions)]


def hashes_agree(hashes, keys, port, other, agree):
    left, right = hashes[keys[port]], hashes[keys[other]]
    return all(left[one] == right[two] for one, two in agree)


# ---- paths
def all_ways(block):
    """All paths through a block by its text alone: the tests on each with their outcomes, the statements on it, and
    whether it ended the handler."""
    found = [([], [], False)]
    for statement in block:
        longer = []
        for tests, met, ended in found:
            if ended:
                longer.append((tests, met, ended))
                continue
            for taken, inner in outcomes_of(statement):
                for more, inside, end in all_ways(inner):
                    is_action = isinstance(statement, (tree.Forward, tree.Flood, tree.Drop))
                    longer.append((tests + taken + more, [*met, statement, *inside], end or is_action))
        found = longer
    return found


def outcomes_of(statement):
    """What a statement may come to: the tests that this tells, and the block that follows."""
    if isinstance(statement, tree.If):
        return [([(statement, True)], statement.body), ([(statement, False)], statement.otherwise)]
    if isinstance(statement, tree.New):
        return [([], statement.body), ([], statement.taken), ([], statement.full)]
    if isinstance(statement, (tree.Get, tree.Find)):
        return [([], statement.body), ([], statement.otherwise)]
    return [([], [])]


def clash(one, other):
    """Whether no packet-only tests may come to both of these."""
    (test, outcome), (second, result) = one, other
    opposite = {"==": "!=", "!=": "==", "<": ">=", ">=": "<", ">": "<=", "<=": ">"}
    if not (fields_alone(test) and fields_alone(second)):
        return False
    if (test.left, test.right) == (second.left, second.right):
        if test.sign == second.sign and outcome != result or test.sign == opposite[second.sign] and outcome == result:
            return True
    numbers = [
        (it.left.name, int(it.right)) for it, holds in (one, other)
        if isinstance(it.left, tree.Field) and isinstance(it.right, tree.Number)
        and (it.sign == "==" and holds or it.sign == "!=" and not holds)
    ]
    return len(numbers) == 2 and numbers[0][0] == numbers[1][0] and numbers[0][1] != numbers[1][1]


def fields_alone(test):
    waiting = [test.left, test.right]
    while waiting:
        it = waiting.pop()
        if isinstance(it, tree.Operation):
            waiting += [it.left, it.right]
        elif not isinstance(it, (tree.Field, tree.Number)):
            return False
    return True


def is_feasible(tests):
    return not any(clash(one, other) for one, other in itertools.combinations(tests, 2))


def value(it, fields):
    """The value of an expression of fields and numbers."""
    if isinstance(it, tree.Operation):
        return OPERATIONS[it.sign](value(it.left, fields), value(it.right, fields))
    return fields[it.name] if isinstance(it, tree.Field) else int(it)


def holds(tests, fields):
    """Whether a packet with these fields comes to these outcomes."""
    def said(test):
        return COMPARISONS[test.sign](value(test.left, fields), value(test.right, fields))

    return all(said(test) == outcome for test, outcome in tests)


def tests_text(random, equal_only):
    """A function of one port with a few tests of two fields. Where they are all `field == number`, or its opposite, for
    each feasible path there are packets of few values that take it."""
    def test(depth):
        left, right = random.choice(("ttl", "proto")), random.choice("012")
        sign = random.choice(("==", "!="))
        if not equal_only:
            sign = random.choice(("==", "!=", "<", "<=", ">", ">="))
            left, right = random.choice(((left, right), (right, left), (f"{left} + 1", right), ("ttl", "proto")))
        other = f" else {{ {body(depth + 1)} }}" if random.random() < 0.4 else ""
        return f"if {left} {sign} {right} {{ {body(depth + 1)} }}{other}"

    def body(depth):
        count = random.randrange(3 if depth else 5) if depth < 3 else 0
        ends = random.choice(("", "", "drop;", "flood;"))
        return " ".join([*(test(depth) for _ in range(count)), ends])

    return f"nf p {{ ports 1; on 0 {{ {body(0)} }} }}"
