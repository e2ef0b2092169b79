"""One text with its captures, given to the program and to the independent reading of docs/FORMATS.md."""
import subprocess
from dataclasses import dataclass, field

import formats
from analysis import analysed
from captures import PCAP, Format
from faults import first_fault
from interpreter import IllegalChoice
from keys import USUAL, Card
from language import read
from runs import MOST_PACKETS, OneWorker, Result, expected, refused

# Seconds, after which a run is taken as one that doesn't end.
LIMIT = 60


@dataclass
class Case:
    """A text's bytes, the captures of its ports, how many packets may be handled, and whether paths are counted before
    a run; the network card, the options that tell of it, and the format of the outputs."""
    text: bytes
    captures: list
    most: int = MOST_PACKETS
    counts_paths: bool = False
    card: Card = USUAL
    card_words: list = field(default_factory=list)
    format: Format = PCAP


def run(program, folder, case, options=()):
    """What the program leaves, with these options beside its own. The folder has been empty, and holds all files of the
    run then.
    """
    inputs = {"x.nf": case.text, **{f"in.{port}.pcap": data for port, data in enumerate(case.captures)}}
    for name, data in inputs.items():
        (folder / name).write_bytes(data)
    words = [program, "run", *inputs, "--max-packets", str(case.most), *case.card_words, *formats.words(case.format), *options]
    words.insert(3, "out")
    try:
        took = subprocess.run(words, cwd=folder, stdin=subprocess.DEVNULL, capture_output=True, timeout=LIMIT)
    except subprocess.TimeoutExpired:
        return Result(f"none after {LIMIT} seconds")
    created = [it for it in folder.iterdir() if it.name not in inputs]
    files = {it.name.removeprefix("out"): it.read_bytes() for it in created}
    return Result(took.returncode, took.stdout, took.stderr, files)


def wanted(case, got, events):
    """What it has to leave, with the choices of its journal. IllegalChoice is raised where one isn't legal."""
    fault = analysed(case.text)[1] if case.counts_paths else first_fault(case.text)
    events[fault[0] if fault else "no fault"] += 1
    if fault:
        return refused(fault)
    journal = got.files.get(".journal", b"")
    return expected(read(case.text), case.captures, journal, case.most, events, OneWorker(case.card, case.format))


def differences(got, want):
    """The names of what differs."""
    said = {"the status": "status", "standard output": "out", "standard error": "err"}
    found = [name for name, of in said.items() if getattr(got, of) != getattr(want, of)]
    names = sorted(got.files.keys() | want.files.keys())
    return found + [f"out{name}" for name in names if got.files.get(name) != want.files.get(name)]


def write(folder, result):
    """Writes down how a run ended."""
    folder.mkdir(exist_ok=True)
    files = {f"out{name}": data for name, data in result.files.items()}
    files |= {"status": f"{result.status}\n".encode(), "stdout": result.out, "stderr": result.err}
    for name, data in files.items():
        (folder / name).write_bytes(data)


def compare(program, folder, case, events):
    """What differs in a case, nothing where all is as expected. What was expected is put into the folder then."""
    got = run(program, folder, case)
    try:
        want = wanted(case, got, events)
    except IllegalChoice as fault:
        write(folder, got)
        return [f"the journal, at status {got.status}: {fault}"]
    found = differences(got, want)
    if found:
        write(folder, got)
        write(folder / "expected", want)
    events[f"status {got.status}"] += 1
    return found
