"""General solvers that are asked for any keys under which inputs hash alike and which spread, as outside programs.

What they are asked is made by fuzz/keys.py from the definition, and not by the program that is measured.
"""
import re
import shutil
import subprocess
import sys
from dataclasses import dataclass
from functools import cached_property
from itertools import combinations_with_replacement

import keys
from keys import RSS

# Where the program z3 isn't there, any of these that has the module z3.
PYTHONS = (sys.executable, "/usr/bin/python3")
BY_MODULE = """
import sys, z3
solver = z3.Solver()
solver.from_file(sys.argv[1])
answer = solver.check()
print(answer)
if answer == z3.sat:
    model = solver.model()
    print(*(f"({it} #x{model[it].as_long():x})" for it in model))
"""


@dataclass(frozen=True)
class Question:
    """Which keys are to be found, and the places of each object. Keys are one vector, as keys.py has them."""
    of: keys.Layout
    objects: tuple

    @cached_property
    def pairs(self):
        """Pairs of inputs of which it is enough that each two hash alike."""
        return keys.alike(self.objects)

    @cached_property
    def rows(self):
        return sorted(keys.equations(self.of, self.pairs))

    @cached_property
    def groups(self):
        return keys.groups(self.of, self.objects)

    def is_answer(self, vector):
        """Whether these keys satisfy all that is asked."""
        even = all((row & vector).bit_count() % 2 == 0 for row in self.rows)
        return even and all(any(vector >> at & 1 for at in group) for group in self.groups)


def question(found):
    """What is asked of the keys of an analysed function."""
    return Question(keys.layout(found.plan, found.lengths), tuple(map(tuple, found.plan)))


# ---- Z3, in the words of SMT-LIB. A vector's first bit is the highest of a bit-vector.
def bits(of, length, first, last):
    """Bits of a vector of so many, the first and the last of them given."""
    return f"((_ extract {length - 1 - first} {length - 1 - last}) {of})"


def window(of, port, at):
    """The bits of a port's key that a bit of the input meets."""
    return bits(f"key{port}", of.lengths[port], at, at + RSS.bits - 1)


def ones(given):
    """The bits of an input that are 1."""
    return [at for at in range(given.bit_length()) if given >> at & 1]


def total(terms):
    """The sum of some hashes, by bits."""
    found, *others = terms or ["#x00000000"]
    for it in others:
        found = f"(bvxor {found} {it})"
    return found


class Z3:
    """Z3, with a bit-vector for each key: for each pair of inputs, that two sums of windows are equal."""

    name, package, logic = "z3", "z3 or python3-z3", "QF_BV"

    def command(self):
        if shutil.which("z3"):
            return ["z3"]
        for python in PYTHONS:
            if subprocess.run([python, "-c", "import z3"], capture_output=True, check=False).returncode == 0:
                return [python, "-c", BY_MODULE]
        return None

    def text(self, asked):
        lines = [f"(set-logic {self.logic})"]
        names = [f"key{port}" for port in asked.of.lengths]
        lines += [f"(declare-const key{port} (_ BitVec {each}))" for port, each in asked.of.lengths.items()]
        for port, of in {(it.port, it.of) for places in asked.objects for it in places}:
            index = bits(f"key{port}", asked.of.lengths[port], of.spreading[0], of.spreading[-1])
            lines.append(f"(assert (not (= {index} (_ bv0 {len(of.spreading)}))))")
        lines += [f"(assert {it})" for it in self.constraints(asked)]
        return "\n".join([*lines, "(check-sat)", *([f"(get-value ({' '.join(names)}))"] if names else []), ""])

    def constraints(self, asked):
        for port, one, _, other, two in sorted(asked.pairs):
            sums = [total([window(asked.of, key, at) for at in ones(given)])
                    for key, given in ((port, one), (other, two))]
            yield f"(= {' '.join(sums)})"

    def answer(self, said, of):
        """The vector of the keys that were found, None where there are none."""
        if said.startswith("unsat"):
            return None
        found = 0
        for port, sign, digits in re.findall(r"key(\d) #([bx])([0-9a-f]+)", said):
            value = keys.vector(int(digits, 2 if sign == "b" else 16), of.lengths[int(port)])
            found |= value << of.starts[int(port)]
        return found


class Z3OverInputs(Z3):
    """Z3, given the definition itself: for each two places of an object and all inputs that agree in their fields, that
    the hashes are equal."""

    name, logic = "z3, inputs", "BV"

    def constraints(self, asked):
        for places in asked.objects:
            for left, right in combinations_with_replacement(sorted(set(places), key=repr), 2):
                inputs = f"(p (_ BitVec {left.of.inputs})) (q (_ BitVec {right.of.inputs}))"
                both = zip(left.fields, right.fields)
                agree = [f"(= {self.field('p', left.of, x)} {self.field('q', right.of, y)})" for x, y in both]
                equal = f"(= {self.hash(asked.of, left, 'p')} {self.hash(asked.of, right, 'q')})"
                yield f"(forall ({inputs}) (=> (and true {' '.join(agree)}) {equal}))"

    def field(self, given, of, name):
        return bits(given, of.inputs, of.at(name)[0], of.at(name)[-1])

    def hash(self, of, place, given):
        each = [f"(= {bits(given, place.of.inputs, at, at)} #b1)" for at in range(place.of.inputs)]
        return total([f"(ite {one} {window(of, place.port, at)} #x00000000)" for at, one in enumerate(each)])


# ---- CryptoMiniSat, in the words of DIMACS, with XOR clauses
class CryptoMiniSat:
    """CryptoMiniSat, with each row as an XOR clause, and each group as an OR clause, over the bits of keys."""

    name, package = "cryptominisat", "cryptominisat"

    def command(self):
        return ["cryptominisat5"] if shutil.which("cryptominisat5") else None

    def text(self, asked):
        lines = [f"p cnf {asked.of.unknowns} {len(asked.rows) + len(asked.groups)}"]
        # An XOR clause is a sum of 1. The sum is 0 where that with the first bit turned is 1.
        lines += [f"x-{clause(at for at in range(row.bit_length()) if row >> at & 1)}" for row in asked.rows]
        lines += [clause(group) for group in asked.groups]
        return "\n".join([*lines, ""])

    def answer(self, said, of):
        """The vector of the keys in a layout that were found, None where there are none."""
        if "s UNSATISFIABLE" in said:
            return None
        found = [int(it) for line in said.splitlines() if line.startswith("v ") for it in line.split()[1:]]
        return sum(1 << it - 1 for it in found if it > 0)


def clause(places):
    return " ".join([*(str(at + 1) for at in places), "0"])


SOLVERS = (Z3(), CryptoMiniSat())
