"""Random pcapng captures: sections of both byte orders, interfaces of several kinds, and blocks of every type."""
import struct

from pcapng import ENHANCED_PACKET, FIRST, INTERFACE, LONGEST_FRAME, LONGEST_INTERFACE, MOST_INTERFACES, SIMPLE_PACKET

ETHERNET, LINUX_COOKED, RAW_IP = 1, 113, 101
# Types of blocks that are stepped over: the packet of old files, names, statistics, secrets, and of one's own.
OTHERS = (2, 4, 5, 10, 0xBAD, 0x40000BAD, 0x0A0D0A00)
# An interface's units by its option: nanoseconds mostly, microseconds, powers of 2, and some that are far too fine.
RESOLUTIONS = (9, 9, 9, 9, 6, 3, 0, 12, 19, 20, 38, 127, 0x80, 0x8A, 0x9E, 0xA0, 0xBF, 0xC0, 0xFF)
SNAPLENS = (0, 0, 262144, 262144, 96, 60, 34)


def padded(data):
    return data + bytes(-len(data) % 4)


def block(order, kind, body):
    body = padded(body)
    total = struct.pack(f"{order}I", 12 + len(body))
    return struct.pack(f"{order}I", kind) + total + body + total


def option(order, code, value):
    return struct.pack(f"{order}HH", code, len(value)) + padded(value)


def some_options(random, order):
    """Options that say nothing of time: comments, names, addresses, and mostly none."""
    if random.random() < 0.8:
        return b""
    return b"".join(option(order, random.choice((1, 2, 4, 12, 14)), random.randbytes(random.randrange(9)))
                    for _ in range(random.randrange(1, 4)))


def ending(random, order):
    """The end of a list of options: said, not said, or one that doesn't fit."""
    return random.choice((b"", option(order, 0, b""), struct.pack(f"{order}HH", 9, 1), struct.pack(f"{order}HH", 1, 60)))


def section(random, order):
    size = random.choice((2**64 - 1, 2**64 - 1, random.randrange(2**20)))
    head = struct.pack(f"{order}IHHQ", 0x1A2B3C4D, 1, random.choice((0, 0, 2)), size)
    return block(order, int.from_bytes(FIRST, "big"), head + some_options(random, order) + random.choice((b"", option(order, 0, b""))))


def units(resolution):
    return 10**6 if resolution is None else (2 if resolution & 0x80 else 10) ** (resolution & 0x7F)


def interface(random, order, link, resolution):
    """An interface. Some tell its units twice, the first time in a wrong length or the second time otherwise."""
    found = struct.pack(f"{order}HHI", link, random.choice((0, 7)), random.choice(SNAPLENS)) + some_options(random, order)
    if random.random() < 0.1:
        found += option(order, 9, random.choice((b"", b"\x03\x00", bytes(4))))
    if resolution is not None:
        found += option(order, 9, bytes([resolution]))
        if random.random() < 0.1:
            found += option(order, 9, b"\x03")
    elif random.random() < 0.5:
        # Behind the end of the list nothing is read.
        found += option(order, 0, b"") + option(order, 9, b"\x09")
    return block(order, INTERFACE, found + ending(random, order))


class Writer:
    """A capture on its way."""

    def __init__(self, random):
        self.random, self.data, self.order, self.interfaces = random, b"", "<", []
        self.open()

    def open(self):
        """Begins a section, mostly with an interface."""
        self.order, self.interfaces = self.random.choice("<>"), []
        self.data += section(self.random, self.order)
        for _ in range(self.random.choice((1, 1, 1, 2, 3))):
            self.describe()

    def describe(self):
        link = self.random.choice((ETHERNET,) * 12 + (LINUX_COOKED, RAW_IP))
        resolution = self.random.choice((*RESOLUTIONS, None, None))
        self.interfaces.append(units(resolution))
        self.data += interface(self.random, self.order, link, resolution)

    def other(self):
        self.data += block(self.order, self.random.choice(OTHERS), self.random.randbytes(self.random.randrange(40)))

    def packet(self, time, frame):
        random, order = self.random, self.order
        length = len(frame) + random.choice((0, 0, 0, 1, 1000))
        if random.random() < 0.08:
            self.data += block(order, SIMPLE_PACKET, struct.pack(f"{order}I", len(frame)) + frame)
            return
        number = random.randrange(len(self.interfaces))
        count = min(time * self.interfaces[number] // 10**9, 2**64 - 1)
        head = struct.pack(f"{order}5I", number, count >> 32, count & 0xFFFFFFFF, len(frame), length)
        self.data += block(order, ENHANCED_PACKET, head + padded(frame) + some_options(random, order))


def torn(random, data, order, interfaces):
    """A capture's bytes with something behind them, or in them, that can't be taken; not each is so."""
    packet = struct.pack(f"{order}5I", 0, 0, 1, 4, 4) + b"abcd"
    longest = struct.pack(f"{order}5I", 0, 0, 1, LONGEST_FRAME + 1, 0) + bytes(LONGEST_FRAME + 1)
    good, at = block(order, ENHANCED_PACKET, packet), random.randrange(len(data))
    return random.choice((
        lambda: data + good[:random.randrange(1, len(good))],
        lambda: data + good[:-1] + bytes([good[-1] ^ 1]),
        lambda: data + block(order, ENHANCED_PACKET, longest),
        lambda: data + block(order, ENHANCED_PACKET, struct.pack(f"{order}5I", 0, 0, 1, 5, 5) + b"abcd"),
        lambda: data + block(order, ENHANCED_PACKET, struct.pack(f"{order}I", interfaces) + packet[4:]),
        lambda: data + block(order, random.choice((ENHANCED_PACKET, SIMPLE_PACKET, INTERFACE)), b""),
        lambda: data + struct.pack(f"{order}III", 4, random.choice((8, 13, 11, 2**32 - 4)), 8),
        lambda: data + block(order, INTERFACE, struct.pack(f"{order}HHI", 1, 0, 0) + bytes(LONGEST_INTERFACE)),
        lambda: data + block(order, INTERFACE, struct.pack(f"{order}HHI", 1, 0, 0)) * (MOST_INTERFACES + 1),
        lambda: data + FIRST + struct.pack("<IIHHQI", 28, 0x1A2B3C4D, 2, 0, 0, 28),
        lambda: data[:at] + bytes([data[at] ^ 1 << random.randrange(8)]) + data[at + 1:],
        lambda: data[:at],
    ))()


def at_a_limit(random):
    """A capture with an interface, interfaces or a frame of the greatest size or number, or just past it."""
    order, more = random.choice("<>"), random.choice((0, 1))
    described = struct.pack(f"{order}HHI", ETHERNET, 0, 0)
    one, frame = block(order, INTERFACE, described), bytes(LONGEST_FRAME + more)
    return section(random, order) + random.choice((
        # The lengths and the type round a block's body take 12 bytes.
        lambda: block(order, INTERFACE, described + bytes(LONGEST_INTERFACE - 12 - len(described) + 4 * more)),
        lambda: one * (MOST_INTERFACES + more),
        lambda: one + block(order, ENHANCED_PACKET, struct.pack(f"{order}5I", 0, 0, 1, len(frame), len(frame)) + frame),
    ))()


def capture(random, times, frame):
    """A capture with a packet at each of these times, whose frames are made by `frame`. Few are torn."""
    it = Writer(random)
    for time in times:
        if random.random() < 0.03:
            it.open()
        if random.random() < 0.03:
            it.describe()
        while random.random() < 0.1:
            it.other()
        it.packet(time, frame(random))
    return torn(random, it.data, it.order, len(it.interfaces)) if random.random() < 0.08 else it.data
