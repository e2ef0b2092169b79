"""Captures of many flows with their replies, for the measurements.

Port 0 opens each flow and sends, port 1 replies half a step of time later. The flows take turns, in rounds of
one turn each, and a chain's lifetime is four rounds. Each tenth flow is idle in eight rounds of sixteen, while
another takes its turns: so it is forgotten, and comes again. The first round goes by the flows' numbers, so
where a chain gives its indices out in order, a flow's first index is its number. A flow that comes again gets no
more replies, since its index isn't known then.
"""
import itertools
import random
import struct

# Nanoseconds.
LIFETIME = 60_000_000_000
# The header of a capture with nanoseconds, little-endian, of Ethernet.
HEADER = struct.pack("<IHHIIII", 0xA1B23C4D, 2, 4, 0, 0, 262144, 1)
HEADER_SIZE = len(HEADER)
RECORD = struct.Struct("<IIII")
# The same of pcapng (draft-ietf-opsawg-pcapng): a section's header, and an interface.
PCAPNG_HEADER = struct.pack("<IIIHHqI", 0x0A0D0D0A, 28, 0x1A2B3C4D, 1, 0, -1, 28) + struct.pack(
    "<IIHHIHHBxxxHHI", 1, 32, 1, 0, 262144, 9, 1, 9, 0, 0, 32)
BLOCK = struct.Struct("<IIIIIII")
# As in the "simple Internet mix", of 12 frames 7 small ones, 4 of middle size and a large one, in bytes.
MIX = (64, 570, 64, 64, 570, 64, 1500, 64, 570, 64, 570, 64)
# Six small frames, three of middle size and three large ones: 565 bytes on the mean.
FULL = (92, 1500, 92, 576, 92, 1500, 92, 576, 92, 1500, 92, 576)
# Captured bytes of a frame that is cut: its headers, as with `tcpdump -s 64`.
CUT = 64
SERVER = (198 << 24 | 51 << 16 | 100 << 8 | 7, 80)
TCP, UDP = 6, 17


def client(flow):
    """The address and the port that opened a flow."""
    return (10 << 24) + flow, 1024 + flow % 64_000


def scattered(flow):
    """The same of clients whose addresses and ports follow no pattern, so that queues have about equally many flows.

    Where both count up, much of what one does to a Toeplitz hash the other undoes.
    """
    chance = random.Random(flow)
    return (10 << 24) + chance.randrange(1 << 24), chance.randrange(1024, 1 << 16)


def checksum(numbers):
    """The Internet checksum of an even number of bytes (RFC 1071)."""
    total = sum(struct.unpack(f">{len(numbers) // 2}H", numbers))
    while total >> 16:
        total = (total & 0xFFFF) + (total >> 16)
    return ~total & 0xFFFF


def headers(source, target, size, protocol):
    """The headers of an Ethernet frame of so many bytes that has zeros behind them, with right checksums."""
    ip = bytearray(struct.pack(">BBHHHBBHII", 0x45, 0, size - 14, 0, 0, 64, protocol, 0, source[0], target[0]))
    ip[10:12] = struct.pack(">H", checksum(ip))
    length = size - 34
    if protocol == TCP:
        segment, at = bytearray(struct.pack(">HHIIHHHH", source[1], target[1], 1, 1, 0x5010, 65535, 0, 0)), 16
    else:
        segment, at = bytearray(struct.pack(">HHHH", source[1], target[1], length, 0)), 6
    pseudo = struct.pack(">IIHH", source[0], target[0], protocol, length)
    segment[at:at + 2] = struct.pack(">H", checksum(pseudo + segment) or 0xFFFF)
    return bytes.fromhex("020000000002" "020000000001" "0800") + ip + segment


class Traffic:
    """So many records a capture, of so many flows, with frames of some sizes in turn, whole or cut to some bytes.

    `opener` gives the address and the port that opened a flow.
    """

    def __init__(self, records, flows, sizes=MIX, cut=None, opener=client):
        self.records = records
        self.opener = opener
        self.flows = flows
        self.sizes = sizes
        self.cut = cut

    def turns(self, port):
        """The flow of each record, without an end."""
        mixed = random.Random(1).sample(range(self.flows), self.flows)
        without_idle = [flow - (flow % 10 == 9) for flow in mixed]
        yield from range(self.flows)
        for turn in itertools.count(1):
            idle = turn & 8 if port == 0 else turn >= 8
            yield from without_idle if idle else mixed

    def write(self, path, port, reply_to):
        """Writes a port's capture. `reply_to` gives the address and the port to which a flow's replies go."""
        step = LIFETIME // (4 * self.flows)
        time = port * step // 2
        frames = {}
        with open(path, "wb", buffering=1 << 20) as out:
            out.write(HEADER)
            for flow, size in zip(itertools.islice(self.turns(port), self.records), itertools.cycle(self.sizes)):
                frame = frames.get((flow, size))
                if frame is None:
                    source, target = (self.opener(flow), SERVER) if port == 0 else (SERVER, reply_to(flow))
                    frame = headers(source, target, size, TCP if flow % 2 else UDP).ljust(size, b"\0")[:self.cut]
                    frames[flow, size] = frame
                out.write(RECORD.pack(time // 10**9, time % 10**9, len(frame), size) + frame)
                time += step


def as_pcapng(capture, made):
    """Writes a capture's packets as pcapng: one section of one Ethernet interface that counts nanoseconds."""
    with open(capture, "rb", 1 << 20) as source, open(made, "wb", 1 << 20) as file:
        source.seek(HEADER_SIZE)
        file.write(PCAPNG_HEADER)
        while record := source.read(RECORD.size):
            seconds, fraction, captured, size = RECORD.unpack(record)
            time, padding = seconds * 10**9 + fraction, -captured % 4
            total = 32 + captured + padding
            file.write(BLOCK.pack(6, total, 0, time >> 32, time & 0xFFFFFFFF, captured, size))
            file.write(source.read(captured) + bytes(padding) + struct.pack("<I", total))
