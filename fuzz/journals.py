"""Journals of runs in all three modes, made by the interpreter with free choices: right ones, cut ones and changed ones."""
from collections import Counter
from dataclasses import dataclass

from captures import PCAP, Format, edited, fields_of, records_of
from interpreter import Handling, State
from keys import CARDS, hash_of
from runs import MOST_PACKETS, capture_order, first_line, receivers
from shards import ShareFull, Worker

# How often an index is drawn before all free ones are listed.
TRIES = 8


def any_free(state, chain, share, random):
    """Any free index of a chain that is of a share: a range."""
    for _ in range(TRIES):
        index = random.choice(share)
        if index not in state.entries[chain]:
            return index
    return random.choice([it for it in share if it not in state.entries[chain]])


class Undivided(Handling):
    """One packet's way, on which new entries may get all indices of their chain, picked by a function."""

    def __init__(self, state, port, fields, random, events, pick):
        super().__init__(state, port, fields, [], events)
        self.random, self.pick, self.made = random, pick, []

    def choose(self, chain):
        self.made.append(self.pick(self.state, chain, range(self.function.chains[chain].size), self.random))
        return self.made[-1]


class Sharing(Worker):
    """One packet's way at a worker, on which new entries may get those of its share."""

    def __init__(self, state, port, fields, random, events, queue, workers, pick):
        super().__init__(state, port, fields, random, events, queue, workers)
        self.pick = pick

    def choose(self, chain):
        share = range(self.queue, self.function.chains[chain].size, self.workers)
        self.made.append(self.pick(self.state, chain, share, self.random))
        return self.made[-1]


@dataclass
class Made:
    """What a run leaves: its journal's lines, its outputs, their format and its state, and where it stopped: a chain's
    name, a queue, a port and a number, or None."""
    lines: list
    outputs: list
    format: Format
    state: State
    stop: tuple = None

    @property
    def journal(self):
        return b"".join(b"%s\n" % line for line in self.lines)


def interleaved(packets, random):
    """These packets in another order, in which each port's stand as before. Ports often go on for a while."""
    left = {}
    for it in reversed(packets):
        left.setdefault(it[0], []).append(it)
    found, port, stays = [], None, random.choice((0, 0.5, 0.9, 0.98))
    while left:
        if port not in left or random.random() >= stays:
            port = random.choice(sorted(left))
        found.append(left[port].pop())
        if not left[port]:
            del left[port]
    return found


def made(found, captures, mode, workers, random, most=MOST_PACKETS, events=None, pick=any_free, state=None, format=PCAP):
    """A run of an analysed function in a mode, over the first packets of captures, from its opening state, for the card
    of the analysis. In mode `lock` any order may come."""
    function, events = found.function, Counter() if events is None else events
    state = state or State(function)
    packets = capture_order([records_of(data)[0] for data in captures])[:most]
    if mode == "lock":
        packets = interleaved(packets, random)
    sent_at = [bytearray(format.header) for _ in range(function.ports)]
    run = Made([first_line(mode, workers, found.card).encode()], sent_at, format, state)
    for port, number, record in packets:
        fields, action, edits, indices = function.seen(port, fields_of(record)), "skip", {}, []
        worker = port % workers if mode == "lock" else 0
        if fields is not None:
            way = Undivided(state, port, fields, random, events, pick)
            if mode == "shard":
                worker = found.card.queue(hash_of(found.keys[port], fields), workers)
                way = Sharing(state, port, fields, random, events, worker, workers, pick)
            try:
                action, edits = way.handle(function.block(port, fields))
            except ShareFull as full:
                run.stop = (full.args[0], worker, port, number)
                break
            indices = way.made
        events["lines"] += 1
        told = ",".join(map(str, indices)) or "-"
        run.lines.append(f"{port} {number} {worker} {action} {told}".encode())
        sent = edited(record.frame, edits) if edits else record.frame
        for receiver in receivers(action, port, function.ports):
            sent_at[receiver] += format.record(record.time, record.length, sent)
    run.outputs = list(map(bytes, sent_at))
    return run


# ---- cuts and changes: each gives a journal and outputs, from a run's
def cut(run, random):
    """A journal that ends early: at a line, in a line, or at once. Its outputs are the run's, or those of the lines
    that are left are made by the caller."""
    journal = run.journal
    kind = random.choice(("line", "line", "line", "middle", "middle", "nothing"))
    if kind == "line":
        return b"".join(b"%s\n" % line for line in run.lines[:random.randrange(1, len(run.lines) + 1)])
    return journal[:random.randrange(len(journal) + 1)] if kind == "middle" else b""


def a_byte(lines, random):
    """Another byte somewhere, one more, or one less."""
    data = bytearray(b"".join(b"%s\n" % line for line in lines))
    at = random.randrange(len(data))
    byte = random.choice(b"0123456789 -,:\n\rx\0\xff")
    random.choice((
        lambda: data.__setitem__(at, byte), lambda: data.insert(at, byte), lambda: data.__delitem__(at),
    ))()
    return bytes(data)


def joined(lines):
    return b"".join(b"%s\n" % line for line in lines)


def with_word(lines, random, at, words):
    """Another word at a place of some packet's line."""
    lines = list(lines)
    if len(lines) > 1:
        number = random.randrange(1, len(lines))
        parts = lines[number].split(b" ")
        parts[at] = random.choice(words(parts[at]))
        lines[number] = b" ".join(parts)
    return joined(lines)


def swapped(lines, random):
    """Two lines in each other's place, mostly neighbours."""
    lines = list(lines)
    if len(lines) > 2:
        one = random.randrange(1, len(lines) - 1)
        other = one + 1 if random.random() < 0.7 else random.randrange(1, len(lines))
        lines[one], lines[other] = lines[other], lines[one]
    return joined(lines)


def actions(word):
    return (b"drop", b"flood", b"skip", b"to:0", b"to:1", b"to:2", b"to:3", b"to:4", b"to:00", b"to:4294967296", b"to")


def choices(word):
    some = (b"-", b"0", b"1", b"2", b"7", b"65536", b"4294967296", b"00", b"", word + b",0", b",".join([b"0"] * 17))
    return some + tuple(b"%d" % (int(it) + 1) for it in word.split(b",") if it.isdigit())


def workers(word):
    return (b"0", b"1", b"2", b"15", b"16", b"4294967295", b"01", b"-") if not word.isdigit() else (
        b"0", b"1", b"2", b"3", b"15", b"%d" % (int(word) + 1), b"0" + word)


def a_line_more(lines, random):
    """A line too many, at the end or elsewhere: one that comes again, or one of no packet."""
    lines = list(lines)
    more = random.choice((random.choice(lines), b"0 0 0 drop -", b"3 0 0 skip -", b"", b"0 %d 0 drop -" % len(lines)))
    lines.insert(len(lines) if random.random() < 0.6 else random.randrange(1, len(lines) + 1), more)
    return joined(lines)


def a_line_less(lines, random):
    lines = list(lines)
    del lines[random.randrange(len(lines))]
    return joined(lines)


def a_header(lines, random):
    """Another first line."""
    mode, count = random.choice((b"one", b"shard", b"lock", b"none")), random.choice((0, 1, 2, 3, 4, 16, 17))
    head = random.choice((
        b"maestro journal 1 %s %d" % (mode, count), b"maestro journal 1 %s 0%d" % (mode, count),
        b"maestro journal 2 one 1", b"Maestro journal 1 one 1", lines[0] + b" ", lines[0] + b"\r", b"",
    ))
    return joined([head, *lines[1:]])


def a_card(lines, random):
    """A first line of the same mode and workers that tells another card, or tells one in another way."""
    version, mode, count, *sizes = lines[0].split(b" ")[2:]
    table, key_bytes = sizes or (b"128", b"40")
    other = random.choice(CARDS)
    ways = (
        (b"1", ()), (b"2", ()), (b"3", sizes), (b"0", sizes), (b"02", sizes), (version, (b"128", b"40")),
        (b"1", (table, key_bytes)), (b"2", (b"128", b"40")), (b"2", (b"%d" % other.table, b"%d" % other.key_bytes)),
        (b"2", (b"256", key_bytes)), (b"2", (table, b"41")), (b"2", (key_bytes, table)), (b"2", (table,)),
        (b"2", (table, key_bytes, b"0")), (b"2", (b"0" + table, key_bytes)), (b"2", (table, key_bytes + b" ")),
    )
    version, sizes = random.choice(ways)
    return joined([b" ".join((b"maestro journal", version, mode, count, *sizes)), *lines[1:]])


JOURNAL_CHANGES = {
    "a byte": a_byte,
    "two lines swapped": swapped,
    "a port": lambda lines, random: with_word(lines, random, 0, workers),
    "a number": lambda lines, random: with_word(lines, random, 1, workers),
    "a worker": lambda lines, random: with_word(lines, random, 2, workers),
    "an action": lambda lines, random: with_word(lines, random, 3, actions),
    "a choice": lambda lines, random: with_word(lines, random, 4, choices),
    "a line more": a_line_more,
    "a line less": a_line_less,
    "another header": a_header,
}


def changed_output(outputs, random):
    """Outputs of which one has another byte, is longer or is shorter."""
    outputs = list(outputs)
    port = random.randrange(len(outputs))
    data = bytearray(outputs[port])
    kind = random.randrange(4)
    if kind == 0:
        data[random.randrange(len(data))] ^= 1 << random.randrange(8)
    elif kind == 1:
        data += random.choice((b"\0", bytes(16), bytes(data[24:60]) or b"x"))
    elif kind == 2:
        del data[random.randrange(len(data)):]
    else:
        at = random.randrange(24, len(data) + 1)
        data[at:at] = b"\0"
    outputs[port] = bytes(data)
    return outputs
