"""What `replay` has to answer: a journal's lines and outputs, judged beside captures (docs/FORMATS.md)."""
import re
from collections import Counter
from dataclasses import dataclass

from analysis import analysed
from captures import PCAP, edited, fields_of, records_of
from interpreter import IllegalChoice, State, handle
from keys import USUAL, Card, hash_of
from runs import MOST_PACKETS, Result, capture_order, receivers, refused

NUMBER = rb"(?:0|[1-9][0-9]{0,9})"
HEADER = re.compile(rb"maestro journal (1|2) (one|shard|lock) (%s)(?: (128|512) (40|52))?" % NUMBER)
PACKET = re.compile(
    rb"(%s) (%s) (%s) (skip|drop|flood|to:%s) (-|%s(?:,%s){0,15})" % (NUMBER, NUMBER, NUMBER, NUMBER, NUMBER, NUMBER)
)


@dataclass
class Header:
    """A journal's first line."""
    mode: str
    workers: int
    card: Card


@dataclass
class Line:
    """A line of a packet."""
    port: int
    number: int
    worker: int
    action: str
    choices: list


class Differs(Exception):
    """A line that is wrong; it says why."""


def numbers_in(text):
    return [int(it) for it in re.findall(rb"[0-9]+", text)]


def header_of(text):
    """The first line that some bytes without LF are, None where they are none."""
    found = HEADER.fullmatch(text)
    card = card_of(found[1], found[4], found[5]) if found else None
    if card is None or not (1 if found[2] == b"one" else 2) <= int(found[3]) <= 16:
        return None
    return Header(found[2].decode(), int(found[3]), card)


def card_of(version, table, key_bytes):
    """The card of a first line by its version and by what it tells of a card, None where it is no line so."""
    if table is None:
        return USUAL if version == b"1" else None
    card = Card(int(table), int(key_bytes))
    return card if version == b"2" and card != USUAL else None


def line_of(text):
    """The packet's line that some bytes without LF are, None where they are none."""
    found = PACKET.fullmatch(text)
    if not found or any(number >= 2**32 for part in found.groups() for number in numbers_in(part)):
        return None
    choices = [] if found[5] == b"-" else numbers_in(found[5])
    return Line(*(int(found[it]) for it in (1, 2, 3)), found[4].decode(), choices)


def lines_in(journal):
    """A journal's lines without their LF, and last its bytes behind the last LF, where there are some."""
    *lines, rest = journal.split(b"\n")
    return [(line, True) for line in lines] + [(rest, False)] * bool(rest)


class Replay:
    """The undivided run over a journal's packets, with the journal's choices. `course` is the journal's first line. The
    keys are those of the analysed function for the card that stands there, where it has some."""

    def __init__(self, found, captures, course, events=None, format=PCAP):
        function, self.format = found.function, format
        self.function, self.keys, self.course = function, found.on(course.card).keys, course
        self.events = Counter() if events is None else events
        self.state = State(function)
        self.outputs = [bytearray(format.header) for _ in range(function.ports)]
        records = [records_of(data)[0] for data in captures]
        order = [(port, number) for port, number, _ in capture_order(records)]
        self.records, self.order, self.taken = records, order, [0] * function.ports

    def next_of(self, port):
        """The number of the packet of a port that may come now; Differs where none of this port may."""
        if port >= self.function.ports:
            raise Differs("there is no such port")
        if self.course.mode == "lock":
            if self.taken[port] == len(self.records[port]):
                raise Differs("the port has no packet left")
            return self.taken[port]
        done = sum(self.taken)
        if done == len(self.order) or self.order[done][0] != port:
            raise Differs("the next packet in capture order isn't this port's")
        return self.order[done][1]

    def worker_of(self, port, fields):
        """The worker that the mode names for a packet."""
        if self.course.mode == "lock":
            return port % self.course.workers
        if self.course.mode == "one" or fields is None:
            return 0
        return self.course.card.queue(hash_of(self.keys[port], fields), self.course.workers)

    def take(self, line):
        """Does what a line tells; Differs where it isn't right."""
        if line.number != self.next_of(line.port):
            raise Differs("another packet of the port comes now")
        record = self.records[line.port][line.number]
        fields, action, edits = self.function.seen(line.port, fields_of(record)), "skip", {}
        if line.worker != self.worker_of(line.port, fields):
            raise Differs("another worker handles the packet")
        if fields is None and line.choices:
            raise Differs("a skipped packet takes no choice")
        if fields is not None:
            action, edits = self.handled(line, fields)
        if line.action != action:
            raise Differs("the undivided run gives another action")
        self.taken[line.port] += 1
        sent = edited(record.frame, edits) if edits else record.frame
        for receiver in receivers(action, line.port, self.function.ports):
            self.outputs[receiver] += self.format.record(record.time, record.length, sent)

    def handled(self, line, fields):
        """The action and the edits of a packet that isn't skipped."""
        shard, full = self.course.mode == "shard", self.events["full"]
        if shard and any(index % self.course.workers != line.worker for index in line.choices):
            raise Differs("an index isn't of the queue's share")
        try:
            block = self.function.block(line.port, fields)
            found = handle(self.state, block, line.port, fields, line.choices, self.events)
        except IllegalChoice as why:
            raise Differs(str(why)) from None
        if shard and self.events["full"] > full:
            raise Differs("a chain is full")
        return found


def file_fault(name):
    return Result(3, err=f"maestro: file fault: {name}\n".encode())


def differs_at(where):
    return Result(10, err=f"maestro: replay differs at {where}\n".encode())


def judged(text, captures, journal, outputs, most=MOST_PACKETS, events=None, format=PCAP):
    """The result of `replay`. What is None is a file that isn't there, whose opening fails."""
    if text is None:
        return file_fault("nf")
    found, fault = analysed(text)
    if fault:
        return refused(fault)
    if len(captures) != found.function.ports:
        return Result(1, err=b"maestro: bad command line\n")
    if None in captures:
        return file_fault(f"capture {captures.index(None)}")
    read = [records_of(data) for data in captures]
    if None in read:
        return Result(4, err=f"maestro: capture {read.index(None)} has no pcap header\n".encode())
    if journal is None:
        return file_fault("journal")
    if None in outputs:
        return file_fault(f"output {outputs.index(None)}")
    return answer(found, captures, journal, outputs, most, events, format)


def answer(found, captures, journal, outputs, most, events, format):
    """What is answered once all files are open."""
    replay = None
    for number, (text, ended) in enumerate(lines_in(journal), 1):
        if number > most + 1:
            return Result(7, err=f"maestro: more than {most} packets\n".encode())
        if number == 1:
            course = header_of(text) if ended else None
            replay = Replay(found, captures, course, events, format) if course else None
            if replay is None or course.mode == "shard" and replay.keys is None:
                return differs_at("line 1")
            continue
        line = line_of(text) if ended else None
        try:
            if line is None:
                raise Differs("it is no line")
            replay.take(line)
        except Differs:
            return differs_at(f"line {number}")
    if replay is None:
        return differs_at("line 1")
    for port, output in enumerate(outputs):
        if output != replay.outputs[port]:
            return differs_at(f"output {port}")
    return Result(0, replay.state.text().encode())
