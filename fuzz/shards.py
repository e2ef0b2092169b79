"""A run over queues: each worker handles the packets of its queue on tables of its own, and new entries get indices of
its share. What its packets come to, and the tables put together in the end, have to be those of the undivided run.
"""
from captures import fields_of, records_of
from interpreter import Handling, State, handle
from keys import hash_of
from runs import capture_order


class ShareFull(Exception):
    """A `new` with no key taken, at a worker whose indices of the chain are all live."""


class Unequal(Exception):
    """What the workers come to isn't what the undivided run does."""


class Worker(Handling):
    """One packet's way at a worker: new entries get any free index of its share."""

    def __init__(self, state, port, fields, random, events, queue, workers):
        super().__init__(state, port, fields, [], events)
        self.random, self.queue, self.workers, self.made = random, queue, workers, []

    def free_of(self, chain):
        share = range(self.queue, self.function.chains[chain].size, self.workers)
        return [index for index in share if index not in self.state.entries[chain]]

    def new(self, it, scope):
        taken = self.state.taken(it.chain, self.labels(it.chain, it.gives, scope))
        if not taken and not self.free_of(it.chain):
            raise ShareFull(it.chain)
        return super().new(it, scope)

    def choose(self, chain):
        self.made.append(self.random.choice(self.free_of(chain)))
        return self.made[-1]


def merged(function, states, time):
    """The workers' tables put together, with what is past its lifetime at this time taken out."""
    found = State(function)
    for chain in function.chains:
        found.greatest[chain] = max(state.greatest[chain] for state in states)
        for state in states:
            for entry in state.entries[chain].values():
                found.add(entry)
    found.expire(time)
    for name, of in function.arrays.items():
        opening = of.cells()
        for index, value in enumerate(opening):
            values = {state.cells[name][index] for state in states} - {value}
            if len(values) > 1:
                raise Unequal(f"cell {index} of {name} is {values} at several workers")
            found.cells[name][index] = values.pop() if values else value
    return found


def compare(analysis, keys, captures, workers, random, events):
    """Runs a function over captures both ways. Unequal is raised where they differ; the run ends where a share is full.
    """
    function = analysis.function
    states, whole, time = [State(function) for _ in range(workers)], State(function), 0
    records = [read[0] if read else [] for read in map(records_of, captures)]
    for port, number, record in capture_order(records):
        fields = function.seen(port, fields_of(record))
        if fields is None:
            continue
        queue = analysis.card.queue(hash_of(keys[port], fields), workers)
        time = fields["time"]
        way = Worker(states[queue], port, fields, random, events, queue, workers)
        try:
            got = way.handle(function.block(port, fields))
        except ShareFull:
            events["share stops"] += 1
            return
        wanted = handle(whole, function.block(port, fields), port, fields, way.made)
        events["packets handled both ways"] += 1
        events["with an action or edits"] += got != ("drop", {})
        if got != wanted:
            raise Unequal(f"packet {port} {number}: {got} at worker {queue} of {workers}, and {wanted} undivided")
    if merged(function, states, time).text() != whole.text():
        raise Unequal(f"the tables of {workers} workers put together are\n{merged(function, states, time).text()}"
                      f"and not\n{whole.text()}")
    events["last states"] += 1
