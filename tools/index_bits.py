"""Which bits of a packet move the table's index under a key, and over how many entries packets spread at most.

The index of a table of 128 entries is the low 7 bits of the hash, that of one of 512 the low 9, so bit i of the hash's
input moves it where one of the key's bits i + 25 (512: i + 23) to i + 31 is 1; it takes 2^r values, r the rank of those
columns. An IPv4 packet has 96 bits of input, an IPv6 packet 288; of a key no packet meets more than the first 40 bytes.
"""
import re

PORTS = (("src_port", 16), ("dst_port", 16))
FIELDS = {
    False: (("src_ip", 32), ("dst_ip", 32), *PORTS),
    True: (("src_ip6", 128), ("dst_ip6", 128), *PORTS),
}
HASH_BITS, KEY_BITS = 32, 320
# Of a table with so many entries how many low bits of the hash are its index.
INDEX_BITS = {128: 7, 512: 9}
# A key's line of `maestro keys`: its port, the 40 bytes that packets meet, and 12 more where it has 52.
KEY_LINE = re.compile(r"key ([0-3]) ([0-9a-f]{80})(?:[0-9a-f]{24})?")


def input_bits(six):
    """How many bits of a packet are hashed."""
    return sum(width for _, width in FIELDS[six])


def columns(key, six, table):
    """For each bit of the input what it adds to a table's index, under a key that is a number of 320 bits."""
    return [key >> KEY_BITS - HASH_BITS - at & (1 << INDEX_BITS[table]) - 1 for at in range(input_bits(six))]


def six_ports(said):
    """The ports with a handler for IPv6, by what `maestro check` prints: of these it tells two numbers of paths."""
    paths = said.partition(", paths ")[2].split()
    return {port for port, counts in enumerate(paths) if "/" in counts}


def rank(vectors):
    """How many of some vectors of GF(2) are independent."""
    kept = []
    for it in vectors:
        for other in kept:
            it = min(it, it ^ other)
        if it:
            kept.append(it)
    return len(kept)


def spans(numbers):
    """Some rising numbers, those that follow one another as one span."""
    found = []
    for it in numbers:
        if found and found[-1][1] == it - 1:
            found[-1][1] = it
        else:
            found.append([it, it])
    return ",".join(str(first) if first == last else f"{first}-{last}" for first, last in found)


def told(key, six=False, table=128):
    """What is told of a key: bits count from the highest of their field, from 0."""
    given, start, said = columns(key, six, table), 0, []
    for name, width in FIELDS[six]:
        if moving := [at for at in range(width) if given[start + at]]:
            said.append(f"{name} bits {spans(moving)} of {width}")
        start += width
    return f"index by {', '.join(said) or 'nothing'}; up to {2 ** rank(given)} of {table} entries"
