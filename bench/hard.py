"""Functions whose keys cost much to find: many chains, labels, look-ups and sites."""
import random

LONGEST = 1 << 20
# A label's width by the field that it mostly is, and the fields that it may be.
WIDTHS = {"src_ip": 32, "dst_ip": 32, "src_port": 16, "dst_port": 16, "src_ip6": 128, "dst_ip6": 128}
TURNED = {
    "src_ip": "dst_ip", "dst_ip": "src_ip", "src_port": "dst_port", "dst_port": "src_port", "src_ip6": "dst_ip6",
    "dst_ip6": "src_ip6",
}
BY_PORTS = ("src_port", "dst_port")
FOUR, FOUR_SIX = ("src_ip", "dst_ip", *BY_PORTS), ("src_ip6", "dst_ip6", *BY_PORTS)
EIGHT, EIGHT_SIX, EIGHT_BY_PORTS = 2 * FOUR, 2 * FOUR_SIX, 4 * BY_PORTS
PORTS, CHAINS = range(4), range(8)
# So many look-ups and two `new` are at each port.
LOOKS = 28


def plain(port, home):
    """The field of a label at a port: at every second port sources and destinations are turned."""
    return TURNED[home] if port % 2 else home


def by_chance(source):
    """Any field of the label's width."""
    return lambda _, home: source.choice((home, TURNED[home]))


def turned_by_chance(source):
    """All fields of a look-up as they are, or all turned."""
    def fields(homes):
        is_turned = source.random() < 0.5
        return [TURNED[home] if is_turned else home for home in homes]
    return fields


def chains(homes, numbers=CHAINS):
    labels = ", ".join(f"l{number}: {WIDTHS[home]}" for number, home in enumerate(homes))
    return " ".join(f"chain c{chain} 16 lifetime 1000 {{ map m({labels}); }}" for chain in numbers)


def new(chain, fields, name="f"):
    return f"new {name} = c{chain}({', '.join(f'l{number} = {field}' for number, field in enumerate(fields))})"


def by_eight(port, field, homes, numbers=CHAINS):
    """What is done at a port: an entry of each of these chains is looked up, and made where there is none."""
    parts = []
    for chain in numbers:
        fields = [field(port, home) for home in homes]
        made = f"{new(chain, fields)} {{ }} drop;"
        parts.append(f"get e = c{chain}.m({', '.join(fields)}) {{ touch e; }} else {{ {made} }}")
    return " ".join(parts)


def eight_chains(field):
    """At four ports an entry of each of eight chains is looked up, and made where there is none, by eight labels."""
    handlers = [f"on {port} {{ {by_eight(port, field, EIGHT)} }}" for port in PORTS]
    return f"nf eight {{ ports 4; {chains(EIGHT)} {' '.join(handlers)} }}"


def four_chains_each(field):
    """The same at four ports of both versions of IP: four of the chains are of one, and four of the other."""
    four, six = CHAINS[:4], CHAINS[4:]
    handlers = []
    for port in PORTS:
        handlers.append(f"on {port} {{ {by_eight(port, field, EIGHT, four)} }}")
        handlers.append(f"on {port} six {{ {by_eight(port, field, EIGHT_SIX, six)} }}")
    return f"nf each {{ ports 4; {chains(EIGHT, four)} {chains(EIGHT_SIX, six)} {' '.join(handlers)} }}"


def eight_chains_shared(field):
    """The same where all eight chains are used at both, by ports alone."""
    handlers = []
    for port in PORTS:
        for version in ("", " six"):
            handlers.append(f"on {port}{version} {{ {by_eight(port, field, EIGHT_BY_PORTS)} }}")
    return f"nf shared {{ ports 4; {chains(EIGHT_BY_PORTS)} {' '.join(handlers)} }}"


def looks(source, fields):
    """At four ports 28 look-ups each of any of eight chains, by four labels; two `new` for each port."""
    handlers = []
    for port in PORTS:
        parts = []
        for number in range(LOOKS):
            key = ", ".join(fields(FOUR))
            parts.append(f"get e{number} = c{source.choice(CHAINS)}.m({key}) {{ }} else {{ drop; }}")
        made = [f"{new(chain, fields(FOUR), f'f{chain}')} {{ }}" for chain in (2 * port, 2 * port + 1)]
        handlers.append(f"on {port} {{ {' '.join([*parts, *made])} }}")
    return f"nf looks {{ ports 4; {chains(FOUR)} {' '.join(handlers)} }}"


def any_fields(source):
    field = by_chance(source)
    return lambda homes: [field(None, home) for home in homes]


def repeated(front, parts, end=" } }", most=LONGEST):
    """The longest text of a front, parts in turn and an end."""
    room, found = most - len(front) - len(end), []
    while len(part := parts[len(found) % len(parts)]) <= room:
        found.append(part)
        room -= len(part)
    return front + "".join(found) + end


def reads(*fields):
    """As many reads of an array as find room, each at a field in turn."""
    cells = "+".join(f"a[{fields[number % len(fields)]}]" for number in range(30))
    return repeated("nf reads { ports 1; array a 65536 : 64; on 0 { ", [f"a[{fields[0]}]={cells};"])


def writes_on_many_paths(most=LONGEST):
    """As many writes of an array as find room, on 4,096 paths."""
    tests = "".join(f"if src_port<{number}{{}}" for number in range(12))
    front = f"nf writes {{ ports 1; array a 65536 : 64; on 0 {{ {tests}"
    return repeated(front, ["a[dst_port]=1;"], most=most)


def writes_in_tests(most=LONGEST):
    """The same, in tests of twelve texts in turn, so that each path is as long as the text."""
    parts = [f"if src_port<{number}{{a[dst_port]=1;}}" for number in range(12)]
    return repeated("nf tests { ports 1; array a 65536 : 64; on 0 { ", parts, most=most)


def functions():
    """Each function's name and text, and a short text with the same places where its own is too long to be analysed
    a second time."""
    turned, at_random = random.Random(1), random.Random(1)
    return [
        ("eight chains of eight labels, four ports", eight_chains(plain), None),
        ("the same, at random", eight_chains(by_chance(random.Random(1))), None),
        ("IPv4 and IPv6: eight chains of eight labels, four ports", four_chains_each(plain), None),
        ("IPv4 and IPv6: the same, at random", four_chains_each(by_chance(random.Random(1))), None),
        ("IPv4 and IPv6: the same, by ports alone", eight_chains_shared(plain), None),
        ("IPv4 and IPv6: by ports alone, at random", eight_chains_shared(by_chance(random.Random(1))), None),
        ("112 look-ups, turned at random", looks(turned, turned_by_chance(turned)), None),
        ("112 look-ups, at random", looks(at_random, any_fields(at_random)), None),
        ("1 MiB of reads by one field", reads("dst_port"), None),
        ("1 MiB of reads by two fields", reads("dst_port", "src_port"), None),
        ("1 MiB of writes on 4,096 paths", writes_on_many_paths(), writes_on_many_paths(most=400)),
        ("1 MiB of tests and writes on 4,096 paths", writes_in_tests(), writes_in_tests(most=500)),
    ]
