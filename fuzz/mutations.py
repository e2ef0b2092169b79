"""Mutated texts: random functions in which tokens are lost, moved, replaced or made too many."""
import re

from functions import function
from language import COMPARISONS, LONGEST_TEXT, RESERVED
from tree import FIELDS

TOKEN = re.compile(r"[A-Za-z_][A-Za-z0-9_]*|[0-9][A-Za-z0-9_.]*|==|!=|<=|>=|\S")
NUMBERS = (
    "0", "1", "2", "4", "5", "7", "8", "9", "16", "24", "48", "64", "65536", "65537", str(2**64 - 1), str(2**64),
    "0xff", "0xffffffffffffffff", "1.2.3.4",
)
# Among them runs that begin no token, or are no number of the three forms.
ODD = ("01", "0x", "0xG", "0x1ffffffffffffffff", "1.2.3", "1.2.3.256", "1.2.3.04", "12a", "@", "!", "\x01", "é", "#")
SIGNS = (*COMPARISONS, *"{}()[];:,.=+-*/%&")
WORDS = (*sorted(RESERVED), *FIELDS, *SIGNS, *NUMBERS, *ODD, "x", "c0", "l0", "a" * 32, "a" * 33)
# Of the names that random functions have: arrays, chains, variables, free columns and labels.
NAMES = ("a1", "c0", "e0", "e0", "e1", "e2", "f0", "f0", "f1", "l0", "l1", "l2")
# What the language limits: behind which token it fits, how often it may stand, a part with its number N, what stands
# between the parts, and what stands round them.
CHAIN = "chain z 1 lifetime 0 { map z(z: 8); }"
LISTS = (
    (";", 8, "chain zN 1 lifetime 0 { }", " ", "PARTS"),
    (";", 8, "array zN 1 : 8;", " ", "PARTS"),
    (";", 16, "map zN(yN: 8);", " ", "chain z 1 lifetime 0 { PARTS }"),
    (";", 8, "free zN: 8;", " ", "chain z 1 lifetime 0 { PARTS }"),
    (";", 8, "fixed zN: 8;", " ", "chain z 1 lifetime 0 { PARTS }"),
    (";", 8, "zN: 8", ", ", "chain z 1 lifetime 0 { map z(PARTS); }"),
    (";", 3, "N", ", ", "array z 3 : 8 = { PARTS };"),
    ("{", 32, "get y = z.z(1) { }", " ", "PARTS"),
    ("{", 32, "find y = z[0] { }", " ", "PARTS"),
    ("{", 16, "new y = z(z = 1) { }", " ", "PARTS"),
    ("1", 64, "1", " + ", "PARTS"),
)
# And how deep it may stand: what opens it, what it is at its innermost, and what closes it.
NESTS = (("{", 63, "if 1 == 1 { ", "", "} "), ("1", 32, "(", "1", ")"), ("1", 32, "a1 [", "1", "]"))
BLANKS = (" ", " ", "\n", "\t", "  ", "\r\n", " # é {\n")


def places(tokens, pattern):
    """Where tokens of a pattern stand."""
    return [at for at, token in enumerate(tokens) if re.fullmatch(pattern, token)]


def lose(random, tokens):
    del tokens[random.randrange(len(tokens))]


def copy(random, tokens):
    tokens.insert(random.randrange(len(tokens)), random.choice(tokens))


def replace(random, tokens):
    tokens[random.randrange(len(tokens))] = random.choice(WORDS)


def insert(random, tokens):
    tokens.insert(random.randrange(len(tokens) + 1), random.choice(WORDS))


def cut(random, tokens):
    del tokens[random.randrange(len(tokens)):]


def rename(random, tokens):
    """One name for another, that the text may have or not."""
    names = places(tokens, "[acefl][0-9]+")
    if names:
        given = [at for at in names if tokens[at + 1:at + 2] == ["="]]
        others = [tokens[at] for at in names] if random.random() < 0.5 else NAMES
        tokens[random.choice(given if given and random.random() < 0.4 else names)] = random.choice(others)


def swap_columns(random, tokens):
    """A free column is given or written where a label was, or the other way."""
    given = [at for at in places(tokens, "[fl][0-9]+") if tokens[at + 1:at + 2] == ["="]]
    written = [at for at in given if tokens[at - 1] == "."]
    if given:
        at = random.choice(written if written and random.random() < 0.5 else given)
        tokens[at] = ("l" if tokens[at].startswith("f") else "f") + random.choice("001")


def renumber(random, tokens):
    numbers = places(tokens, "[0-9].*")
    if numbers:
        tokens[random.choice(numbers)] = random.choice(NUMBERS)


def other_field(random, tokens):
    fields, written = places(tokens, "|".join(FIELDS)), [at + 1 for at in places(tokens[:-1], "set")]
    if written and random.random() < 0.5:
        tokens[random.choice(written)] = random.choice(list(FIELDS))
    elif fields:
        tokens[random.choice(fields)] = random.choice(list(FIELDS))


def one_part_more(random, tokens):
    """A key's part or a value of a label stands twice, or goes."""
    ends = places(tokens, "[,)]")
    if ends:
        end = random.choice(ends)
        start = max([at for at in places(tokens[:end], "[,(]")], default=0)
        part = tokens[start + 1:end]
        tokens[start + 1:end] = [*part, ",", *part] if random.random() < 0.6 else []


def lose_handler(random, tokens):
    handlers = places(tokens, "on")
    if handlers:
        at = random.randrange(len(handlers))
        end = handlers[at + 1] if at + 1 < len(handlers) else len(tokens) - 1
        del tokens[handlers[at]:end]


def exceed(random, tokens):
    """Something that is limited stands about as often, or as deep, as it may."""
    if random.random() < 0.75:
        behind, most, part, between, whole = random.choice(LISTS)
        parts = [part.replace("N", str(number)) for number in range(most + random.randrange(-1, 3))]
        text = whole.replace("PARTS", between.join(parts))
    else:
        behind, most, opening, inner, closing = random.choice(NESTS)
        times = most + random.randrange(-2, 3)
        text = opening * times + inner + closing * times
    if behind == "1":
        fit = places(tokens, "[0-9].*")
    else:
        # The declarations begin behind the first `;`, and the handlers with the first `on`.
        begin = places(tokens, ";" if behind == ";" else "on")
        fit = [at for at in places(tokens, behind) if begin and at >= begin[0]]
    if fit:
        at = fit[0] if behind == ";" else random.choice(fit)
        tokens[at:at + 1] = TOKEN.findall(text if behind == "1" else f"{behind} {text}")
        if behind == "{" and ";" in tokens:
            first = tokens.index(";")
            tokens[first + 1:first + 1] = TOKEN.findall(CHAIN)


# Each mutation, and how often it is taken.
MUTATIONS = {
    lose: 2, copy: 2, replace: 2, insert: 2, cut: 1, rename: 11, swap_columns: 4, renumber: 3, other_field: 4,
    one_part_more: 6, lose_handler: 1, exceed: 6,
}


def mutated(random):
    """The bytes of a mutated text. Some have no fault."""
    tokens = TOKEN.findall(function(random))
    for _ in range(random.choice((0, 1, 1, 1, 2, 3))):
        random.choices(list(MUTATIONS), MUTATIONS.values())[0](random, tokens)
        tokens = tokens or ["nf"]
    spacing = random.random() < 0.3
    text = "".join(token + (random.choice(BLANKS) if spacing else " ") for token in tokens)
    if random.random() < 0.3:
        text = text.rstrip() + random.choice(("", "", "# é"))
    data = text.encode()
    if random.random() < 0.05:
        data = data[:random.randrange(len(data) + 1)]
    if random.random() < 0.005:
        data = data.ljust(LONGEST_TEXT + random.randrange(2), random.choice((b" ", b"\n")))
    return data
