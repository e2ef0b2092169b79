"""Key certificates, written by a program of its own: from the sites that `explain` prints.

    certificates.py TABLE KEY_BYTES < EXPLAINED

reads the whole text of `maestro explain` and writes a certificate of its verdict. It knows the
format alone (docs/FORMATS.md) and shares no code with the program.
"""
import sys

FIELDS = {"src_ip": 0, "dst_ip": 1, "src_port": 2, "dst_port": 3, "src_ip6": 0, "dst_ip6": 1}
DEFAULT = bytes.fromhex(
    "6d5a56da255b0ec24167253d43a38fb0d0ca2bcbae7b30b477cb2da38030f20c6a42b73bbeac01fa")


def fields_of(six):
    """The first bit and the width of each field of an input."""
    wide = 128 if six else 32
    return [(0, wide), (wide, wide), (2 * wide, 16), (2 * wide + 16, 16)]


def explained(text):
    """The sites, object by object, and the verdict's lines."""
    objects, keys, kind = [], [], None
    for line in text.splitlines():
        words = line.split()
        if words[0] == "object":
            kept = words[words.index("keeps") + 1:] if "keeps" in words else []
            objects.append(([] if kept == ["-"] else kept, []))
        elif words[0] == "site":
            six = words[2] == "six"
            known = dict(word.split("=") for word in words if "=" in word)
            kept, sites = objects[-1]
            sites.append((int(words[1]), six, [FIELDS[known[label]] for label in kept]))
        elif words[0] == "key":
            keys.append(bytes.fromhex(words[2]))
        elif words[0] in ("sharded", "locked"):
            kind = words[0]
    return [sites for _kept, sites in objects], kind, keys


def classes(a, b):
    """The classes of the bits of two inputs: lists of (side, bit), in the order of their least."""
    parent = {}

    def find(x):
        while parent[x] != x:
            x = parent[x]
        return x
    for side, (_port, six, _known) in enumerate((a, b)):
        for bit in range(fields_of(six)[3][0] + 16):
            parent[(side, bit)] = (side, bit)
    closed = set()
    for x, y in zip(a[2], b[2]):
        (at, wide), (to, long) = fields_of(a[1])[x], fields_of(b[1])[y]
        for back in range(max(wide, long)):
            p, q = (0, at + wide - 1 - back), (1, to + long - 1 - back)
            if back < min(wide, long):
                first, second = sorted((find(p), find(q)))
                parent[second] = first
            else:
                closed.add(p if back < wide else q)
    found = {}
    for bit in parent:
        found.setdefault(find(bit), []).append(bit)
    # A bit that is 0 in all tied inputs has no row; nor has what was joined with it.
    return [sorted(found[least]) for least in sorted(found)
            if not any(bit in closed for bit in found[least])]


def rows_of(objects):
    """All rows: the words of the line, and the set of key bits."""
    first, out, seen = 0, [], set()
    for sites in objects:
        for x in range(len(sites)):
            for y in range(x, len(sites)):
                for members in classes(sites[x], sites[y]):
                    side, bit = members[0]
                    for j in range(32):
                        row = set()
                        for s, i in members:
                            row ^= {(sites[x][0] if s == 0 else sites[y][0], i + j)}
                        if row and frozenset(row) not in seen:
                            seen.add(frozenset(row))
                            out.append((f"row {first + x} {first + y} {'pq'[side]} {bit} {j}", row))
        first += len(sites)
    return out


class Rows:
    """Rows reduced over the bits that aren't fixed, with what each sums up."""

    def __init__(self, rows, fixed):
        self.fixed, self.leading, self.clash = fixed, {}, None
        for k, (_line, row) in enumerate(rows):
            self.insert({k}, row)

    def value(self, bits):
        return sum(self.fixed[bit] for bit in bits) % 2

    def reduce(self, names, row):
        open_bits = {bit for bit in row if bit not in self.fixed}
        for lead in sorted(self.leading):
            if lead in open_bits:
                more, other = self.leading[lead]
                names, row = names ^ more, row ^ other
                open_bits = {bit for bit in row if bit not in self.fixed}
        return names, row, open_bits

    def insert(self, names, row):
        names, row, open_bits = self.reduce(names, row)
        if open_bits:
            self.leading[min(open_bits)] = (names, row)
        elif row and self.value(row) == 1 and self.clash is None:
            self.clash = (names, row)

    def zero(self, bit):
        """What shows that a bit is 0; None where nothing does."""
        if bit in self.fixed:
            return (set(), {bit}) if self.fixed[bit] == 0 else None
        names, row, open_bits = self.reduce(set(), {bit})
        if open_bits or self.value(row) == 1:
            return None
        return names, row


def sum_line(names, bits):
    words = [f"r{k}" for k in sorted(names)] + [f"b{p}.{i}" for p, i in sorted(bits)]
    return " ".join(["sum"] + words)


def tree(rows, spans, fixed):
    """A tree, as lines; no function was met that needs a split."""
    system = Rows(rows, fixed)
    if system.clash:
        return ["clash", sum_line(*system.clash)]
    for port, family, bits in spans:
        found = [system.zero(bit) for bit in bits]
        if all(found):
            return [f"zero {port} {family}"] + [sum_line(*one) for one in found]
    raise SystemExit("this needs a split")


def named_alone(rows, lines):
    """The rows that some sum names, and the lines with their new numbers."""
    named = sorted({int(word[1:]) for line in lines if line.startswith("sum")
                    for word in line.split() if word[0] == "r"})
    number = {f"r{k}": f"r{new}" for new, k in enumerate(named)}
    words = [[number.get(word, word) for word in line.split()] for line in lines]
    return [rows[k][0] for k in named] + [" ".join(one) for one in words]


def certificate(text, table, size):
    objects, kind, keys = explained(text)
    sites = [site for one in objects for site in one]
    rows = rows_of(objects)
    low = {128: 25, 512: 23}[table]
    spans = []
    for port in sorted({site[0] for site in sites}):
        for six in (False, True):
            if any(site[:2] == (port, six) for site in sites):
                bits = [(port, i) for i in range(low, 319 if six else 127)]
                spans.append((port, 6 if six else 4, bits))
    first = [f"maestro proof 1 {table} {size} {kind}"]
    if kind == "locked":
        return first + named_alone(rows, tree(rows, spans, {}))
    out = [f"key {port} {key.hex()}" for port, key in enumerate(keys)]
    fixed = {}
    for port, key in enumerate(keys):
        six = any(site[:2] == (port, True) for site in sites)
        for i in range(319 if six else 127):
            own = key[i // 8] >> (7 - i % 8) & 1
            wanted = DEFAULT[i // 8] >> (7 - i % 8) & 1
            if own != wanted:
                fixed[(port, i)] = wanted
                out += [f"not {port} {i}"] + tree(rows, spans, fixed)
            fixed[(port, i)] = own
    return first + named_alone(rows, out)


if __name__ == "__main__":
    print("\n".join(certificate(sys.stdin.read(), int(sys.argv[1]), int(sys.argv[2]))))
