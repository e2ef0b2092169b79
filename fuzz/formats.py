"""The format of a random case's outputs, and the option by which a command is told of it. Both are made of the case's
seed alone, and apart from all else that is."""
import random

from captures import PCAP, PCAPNG


def of(seed):
    """pcapng in a third of the cases."""
    return PCAPNG if random.Random(f"format {seed}").random() < 1 / 3 else PCAP


def words(format):
    return ["--pcapng"] if format == PCAPNG else []


def told(format):
    """What is counted of a case by the format of its outputs."""
    return f"outputs in {format.end}"


TOLD = tuple(map(told, (PCAP, PCAPNG)))
