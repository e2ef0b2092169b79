"""What a run has to leave: the outputs, the journal, the state, what is printed and the status (docs/FORMATS.md)."""
import re
from collections import Counter
from dataclasses import dataclass, field

from captures import PCAP, edited, fields_of, records_of
from interpreter import IllegalChoice, State, handle
from keys import USUAL
from tree import is_six

MOST_PACKETS = 10_000_000
LINE = re.compile(r"[0-9]+ [0-9]+ [0-9]+ \S+ (-|[0-9]+(?:,[0-9]+)*)")


@dataclass
class Result:
    """How a call ends: its status, what it prints, and the files that it creates, by what stands behind OUT."""
    status: int
    out: bytes = b""
    err: bytes = b""
    files: dict = field(default_factory=dict)


def refused(fault):
    """The end of a run whose text has this fault."""
    kind, line, column = fault
    return Result(2, err=f"maestro: refused {kind} at {line}:{column}\n".encode())


def first_line(mode, workers, card):
    """A journal's first line, without its LF: of version 1 exactly where the card is the usual one."""
    if card == USUAL:
        return f"maestro journal 1 {mode} {workers}"
    return f"maestro journal 2 {mode} {workers} {card.table} {card.key_bytes}"


class OneWorker:
    """A run by one worker."""
    mode, workers = "one", 1

    def __init__(self, card=USUAL, format=PCAP):
        self.card, self.format = card, format

    def worker(self, port, fields):
        """Who handles a packet with these fields, None where it is skipped."""
        return 0

    def check(self, worker, function, state, port, fields, told):
        """Raises IllegalChoice where the indices of a line may not be this worker's."""

    def stop(self, worker, function, state, port, fields):
        """The chain and the queue of a share that is full for a packet behind the journal's last line; else None."""
        return None


class Choices:
    """The choices that a journal tells. They are taken over, since any free index is right."""

    def __init__(self, journal):
        self.lines = journal.decode("latin-1").split("\n")[1:]

    def __len__(self):
        # A run that was stopped leaves no journal.
        return max(0, len(self.lines) - 1)

    def of(self, number):
        """The indices in a packet's line."""
        found = LINE.fullmatch(self.lines[number]) if number < len(self.lines) else None
        if found is None:
            raise IllegalChoice("no line tells of this packet")
        return [] if found[1] == "-" else [int(index) for index in found[1].split(",")]


def capture_order(captures):
    """The packets of all captures: by time, then port, then number. Each is its port, its number and its record."""
    packets = [(port, number, it) for port, records in enumerate(captures) for number, it in enumerate(records)]
    return sorted(packets, key=lambda it: (it[2].time, it[0], it[1]))


def receivers(action, port, ports):
    """The ports to which an action sends."""
    if action == "flood":
        return [other for other in range(ports) if other != port]
    return [int(action[3:])] if action.startswith("to:") else []


def expected(function, captures, journal, most=MOST_PACKETS, events=None, course=None):
    """The result of a run of a function over captures, one for each of its ports, of which the first packets are
    handled, `most` of them, by one worker or as the course says. The choices are those of the journal: where one isn't
    legal, IllegalChoice is raised.
    """
    course = course or OneWorker()
    events = Counter() if events is None else events
    read = [records_of(data) for data in captures]
    if None in read:
        return Result(4, err=f"maestro: capture {read.index(None)} has no pcap header\n".encode())
    packets = capture_order([records for records, _ in read])
    state, choices = State(function), Choices(journal)
    lines, outputs = [first_line(course.mode, course.workers, course.card)], [course.format.header] * function.ports
    before = None
    for position, (port, number, record) in enumerate(packets[:most]):
        fields, told, edits = function.seen(port, fields_of(record)), [], {}
        worker = course.worker(port, fields)
        if position == len(choices) and (why := course.stop(worker, function, state, port, fields)):
            return stopped(position, course, why, port, number, outputs, lines)
        events["packets"] += 1
        if fields is None:
            events["skipped"] += 1
            action = "skip"
        else:
            events["over IPv6"] += is_six(fields)
            events["at the time before"] += record.time == before
            before = record.time
            told = choices.of(position)
            course.check(worker, function, state, port, fields, told)
            try:
                action, edits = handle(state, function.block(port, fields), port, fields, told, events)
            except IllegalChoice as fault:
                raise IllegalChoice(f"line {position + 2} of the journal: {fault}") from None
        events[action.partition(":")[0]] += 1
        lines.append(f"{port} {number} {worker} {action} {','.join(map(str, told)) or '-'}")
        sent = edited(record.frame, edits) if edits else record.frame
        for receiver in receivers(action, port, function.ports):
            outputs[receiver] += course.format.record(record.time, record.length, sent)
    files = written(course.format, outputs, lines)
    files[".state"] = state.text().encode()
    return ended(packets, most, [torn for _, torn in read], files, course)


def written(format, outputs, lines):
    """The outputs and the journal, by what stands behind OUT."""
    files = {f".{port}.{format.end}": output for port, output in enumerate(outputs)}
    files[".journal"] = "".join(f"{line}\n" for line in lines).encode()
    return files


def stopped(handled, course, why, port, number, outputs, lines):
    """The end of a run at a packet for which a share has no index left."""
    chain, queue = why
    said = f"maestro: share full: chain {chain}, queue {queue}, packet {port} {number}\n"
    ran = f"ran {handled} {course.mode} {course.workers}\n"
    return Result(6, ran.encode(), said.encode(), written(course.format, outputs, lines))


def ended(packets, most, tears, files, course):
    """The end of a run that handled packets."""
    status, line = 0, ""
    if len(packets) > most:
        status, line = 7, f"maestro: more than {most} packets\n"
    elif any(at is not None for at in tears):
        port = next(port for port, at in enumerate(tears) if at is not None)
        status, line = 5, f"maestro: capture {port} is torn at byte {tears[port]}\n"
    ran = f"ran {min(len(packets), most)} {course.mode} {course.workers}\n"
    return Result(status, ran.encode(), line.encode(), files)
