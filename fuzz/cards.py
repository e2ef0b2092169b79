"""The network card of a random case, and the words by which a command is told of it. Both are made of the case's seed
alone, and apart from all else that is."""
import random

from keys import CARDS, USUAL


def of(seed):
    """The usual card about half of the time, else one of the three others."""
    source = random.Random(f"card {seed}")
    return USUAL if source.random() < 0.5 else source.choice([it for it in CARDS if it != USUAL])


def words(card, seed=None):
    """The options that tell of a card. What is usual is left out; by a seed it is so mostly, and they stand in any
    order and form."""
    source, found = random.Random(f"words {seed}"), []
    chance = 0 if seed is None else 0.2
    for name, value, usual in (("--table", card.table, USUAL.table), ("--key-bytes", card.key_bytes, USUAL.key_bytes)):
        if value != usual or source.random() < chance:
            found.append([f"{name}={value}"] if source.random() < chance else [name, str(value)])
    if chance:
        source.shuffle(found)
    return [word for option in found for word in option]


def queues(card, counts):
    """Some numbers of queues in place of others. By a power of 2 a packet's queue is the same for both tables, so these
    are few of a large one."""
    return counts if card.table == USUAL.table else (3, 5, 7, 13, 16)[:len(counts)]


def told(card):
    """What is counted of a case by its card."""
    return f"card {card.table} {card.key_bytes}"


TOLD = tuple(map(told, CARDS))
