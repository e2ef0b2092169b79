"""Random captures: few hosts and ports, so that keys are met again, and times that stand still, step or jump."""
import struct

import blocks
from captures import IPV6, LATEST, LONGEST_FRAME, TCP, UDP, put_checksum

HOSTS = [bytes((10, 0, 0, host)) for host in range(4)]
# Of two networks.
HOSTS6 = [bytes.fromhex(f"20010db8000{host // 2}") + bytes(8) + bytes([0, host % 2]) for host in range(4)]
# Next headers of IPv6 that are no TCP or UDP: options, routing, a fragment, ESP, ICMP, none.
OTHER_HEADERS = (0, 43, 44, 50, 58, 59)
# In nanoseconds: nothing, the lifetimes of functions.py, and one more.
STEPS = (0, 0, 0, 1, 3, 5, 6, 20, 21, 500, 1000, 1001, 2000)
# The earliest time of a run's captures. The last is near the latest that a record can have.
OPENINGS = (0, 10**9, 10**9, 10**18, LATEST - 10_000)
# Of flags and fragment offset: mostly no fragment, and both kinds of one.
FRAGMENTS = (*[0x4000] * 20, 0, 0x8000, 0x2000, 0x0001, 0x1FFF)
# UDP checksums that small changes of a port take to 0, and none.
CHECKSUMS = (0, 0, 0, 1, 2, 3, 0xFFFC, 0xFFFD, 0xFFFE)
IP_OPTIONS = (b"", b"", b"", b"\x94\x04\x00\x00", b"\x01" * 40)
MAGIC = {1: 0xA1B23C4D, 1000: 0xA1B2C3D4}


def checksum(data):
    """The Internet checksum of some bytes (RFC 1071)."""
    data += b"\0" * (len(data) % 2)
    total = sum(struct.unpack(f">{len(data) // 2}H", data))
    while total > 0xFFFF:
        total = (total >> 16) + (total & 0xFFFF)
    return 0xFFFF - total


def segment(random, source, target, protocol):
    """A TCP or UDP segment, mostly with a right checksum."""
    ports = random.randrange(1, 6), random.randrange(1, 6)
    payload = random.randbytes(random.randrange(12))
    if protocol == TCP:
        made, at = struct.pack(">HHIIHHHH", *ports, 1000, 2000, 0x5018, 64240, 0, 0) + payload, 16
    else:
        made, at = struct.pack(">HHHH", *ports, 8 + len(payload), 0) + payload, 6
    right = checksum(source + target + struct.pack(">HH", protocol, len(made)) + made) or 0xFFFF
    made = bytearray(made)
    put_checksum(made, at, random.choice(CHECKSUMS) if protocol == UDP and random.random() < 0.3 else right)
    return bytes(made)


def frame(random):
    """An Ethernet frame with IPv4 or IPv6 and TCP or UDP, or ARP; some are fragments, have a wrong byte, or are cut."""
    addresses = bytes.fromhex("0200000000") + bytes([random.randrange(4)])
    addresses += bytes.fromhex("0200000000") + bytes([random.randrange(4)])
    if random.random() < 0.05:
        return addresses + b"\x08\x06" + random.randbytes(28)
    if random.random() < 0.4:
        return damaged(random, bytearray(addresses + packet6(random)), 54)
    source, target = random.choice(HOSTS), random.choice(HOSTS)
    protocol, options = random.choice((TCP, UDP)), random.choice(IP_OPTIONS)
    inner = segment(random, source, target, protocol)
    size = 20 + len(options)
    head = bytearray(struct.pack(
        ">BBHHHBBH4s4s", 0x40 + size // 4, 0, size + len(inner), random.randrange(2**16),
        random.choice(FRAGMENTS), random.choice((1, 64, 255)), protocol, 0, source, target,
    ))
    head += options
    put_checksum(head, 10, checksum(bytes(head)))
    return damaged(random, bytearray(addresses + b"\x08\x00" + head + inner), 14 + size)


def packet6(random):
    """The type of a frame and an IPv6 packet of TCP or UDP; few have another next header."""
    source, target = random.choice(HOSTS6), random.choice(HOSTS6)
    protocol = random.choice((TCP, UDP))
    inner = segment(random, source, target, protocol)
    told = random.choice(OTHER_HEADERS) if random.random() < 0.05 else protocol
    label, hops = random.choice((0, random.randrange(2**28))), random.choice((1, 64, 255))
    head = struct.pack(">HIHBB", IPV6, 6 << 28 | label, len(inner), told, hops)
    return head + source + target + inner


def damaged(random, made, segment):
    """A frame of which some have a wrong byte, and some are cut, often next to the end of the TCP or UDP header, which
    begins at `segment`."""
    if random.random() < 0.1:
        made[random.randrange(len(made))] = random.randrange(256)
    if random.random() < 0.05:
        ends = [segment + size + less for size in (8, 20) for less in (0, -1)]
        del made[random.choice((random.randrange(len(made) + 1), *ends)):]
    return bytes(made)


def record(random, order, unit, time, captured):
    """A record at a time, which microseconds round down. Some have a fraction over a second."""
    seconds = min(time // 10**9, 2**32 - 1)
    if seconds and random.random() < 0.05:
        seconds -= 1
    fraction = min((time - seconds * 10**9) // unit, 2**32 - 1)
    length = len(captured) + random.choice((0, 0, 0, 1, 1000))
    if random.random() < 0.02:
        length = random.randrange(2**32)
    return struct.pack(f"{order}4I", seconds, fraction, len(captured), length) + captured


def capture(random, opening, longest=60):
    """A capture of either kind, of less packets than the longest has. Few go back in time, few are torn, and very few
    are none."""
    if random.random() < 0.35:
        times, time = [], opening
        for _ in range(random.randrange(longest)):
            time += random.choice(STEPS)
            times.append(max(0, time - random.choice(STEPS)) if random.random() < 0.05 else time)
        return blocks.capture(random, times, frame)
    return pcap(random, opening, longest)


def pcap(random, opening, longest):
    """A pcap capture of one of its four forms."""
    order, unit, time = random.choice("<>"), random.choice((1, 1, 1, 1, 1000)), opening
    link = random.randrange(2**16) << 16 | 1
    data = struct.pack(f"{order}IHHiIII", MAGIC[unit], 2, 4, 0, 0, random.choice((0, 262144)), link)
    for _ in range(random.randrange(longest)):
        time += random.choice(STEPS) * unit
        earlier = random.choice(STEPS) * unit if random.random() < 0.05 else 0
        data += record(random, order, unit, max(0, time - earlier), frame(random))
    if random.random() < 0.05:
        data += random.choice((
            bytes(random.randrange(1, 16)),
            struct.pack(f"{order}4I", 0, 0, LONGEST_FRAME + 1, 0) + bytes(LONGEST_FRAME + 1),
            struct.pack(f"{order}4I", 0, 0, 100, 100) + bytes(random.randrange(100)),
        ))
    if random.random() < 0.003:
        other_link = data[:20] + struct.pack(f"{order}I", link + 1) + data[24:]
        return random.choice((data[:random.randrange(24)], b"\x0a\x0d\x0d\x0a" + data[4:], other_link))
    return data


def captures(random, ports, longest=60):
    """A capture for each port."""
    opening = random.choice(OPENINGS)
    return [capture(random, opening, longest) for _ in range(ports)]
