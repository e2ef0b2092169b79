"""pcapng captures (draft-ietf-opsawg-pcapng), as docs/FORMATS.md has them: read block by block, and outputs written."""
import struct
from dataclasses import dataclass, field

FIRST = bytes.fromhex("0a0d0d0a")
LONGEST_FRAME, LONGEST_INTERFACE, MOST_INTERFACES, MOST_QUIET = 262_144, 65_536, 256, 2**32
INTERFACE, SIMPLE_PACKET, ENHANCED_PACKET, RESOLUTION = 1, 3, 6, 9
# A section's header in little-endian order, and an interface of Ethernet that counts nanoseconds.
OUTPUT_HEADER = bytes.fromhex(
    "0a0d0d0a 1c000000 4d3c2b1a 01000000 ffffffff ffffffff 1c000000"
    "01000000 20000000 01000000 00000400 09000100 09000000 00000000 20000000"
)


class Torn(Exception):
    """A block that can't be taken."""


@dataclass
class Interface:
    """How packets were captured at an interface: the link type, the longest captured frame, and the second's units."""
    link: int
    snaplen: int
    units: int


@dataclass
class Section:
    order: str
    interfaces: list = field(default_factory=list)


@dataclass
class Heard:
    """A packet: its time in nanoseconds, None where it has none of its own; its original length, bytes and link type."""
    time: int | None
    length: int
    frame: bytes
    link: int


def section_of(block):
    """The section that begins with these bytes, None where they aren't a right header: of it 24 bytes are looked at."""
    if len(block) < 24 or block[:4] != FIRST:
        return None
    for order in "<>":
        total, magic, major = struct.unpack_from(f"{order}IIH", block, 4)
        if magic == 0x1A2B3C4D:
            return Section(order) if total >= 28 and total % 4 == 0 and major == 1 else None
    return None


def options_of(order, data):
    """Each option's code and value, up to one of code 0 or to one that doesn't fit."""
    while len(data) >= 4:
        code, size = struct.unpack_from(f"{order}HH", data)
        if code == 0 or 4 + size > len(data):
            return
        yield code, data[4:4 + size]
        data = data[4 + size + -size % 4:]


def units_of(order, options):
    """How many of an interface's units a second has, a microsecond where nothing else is said."""
    for code, value in options_of(order, options):
        if code == RESOLUTION and len(value) == 1:
            return (2 if value[0] & 0x80 else 10) ** (value[0] & 0x7F)
    return 10**6


def interface_of(section, body):
    if len(body) < 8 or len(body) + 12 > LONGEST_INTERFACE or len(section.interfaces) == MOST_INTERFACES:
        raise Torn
    link, _, snaplen = struct.unpack_from(f"{section.order}HHI", body)
    return Interface(link, snaplen, units_of(section.order, body[8:]))


def frame_of(data, captured):
    if captured > LONGEST_FRAME or captured > len(data):
        raise Torn
    return data[:captured]


def enhanced(section, body):
    if len(body) < 20:
        raise Torn
    number, high, low, captured, length = struct.unpack_from(f"{section.order}5I", body)
    if number >= len(section.interfaces):
        raise Torn
    it = section.interfaces[number]
    return Heard((high << 32 | low) * 10**9 // it.units, length, frame_of(body[20:], captured), it.link)


def simple(section, body):
    if len(body) < 4 or not section.interfaces:
        raise Torn
    it, length = section.interfaces[0], struct.unpack_from(f"{section.order}I", body)[0]
    captured = min(length, it.snaplen) if it.snaplen else length
    return Heard(None, length, frame_of(body[4:], captured), it.link)


PACKETS = {ENHANCED_PACKET: enhanced, SIMPLE_PACKET: simple}


def block_at(section, data, at):
    """The block at a byte: its section, its type, its body and its length."""
    if data[at:at + 4] == FIRST:
        section = section_of(data[at:at + 24])
        if section is None:
            raise Torn
    if at + 12 > len(data):
        raise Torn
    kind, total = struct.unpack_from(f"{section.order}II", data, at)
    # No file is so long that a block could end past byte 2^64 - 1.
    if total < 12 or total % 4 or at + total > len(data):
        raise Torn
    if struct.unpack_from(f"{section.order}I", data, at + total - 4)[0] != total:
        raise Torn
    return section, kind, data[at + 8:at + total - 4], total


def heard_in(data):
    """The packets of a pcapng capture, and the byte at which it is torn or None. None where it is none."""
    section, at, packets = section_of(data), 0, []
    if section is None:
        return None
    while at < len(data):
        try:
            section, kind, body, total = block_at(section, data, at)
            if kind == INTERFACE:
                section.interfaces.append(interface_of(section, body))
            elif kind in PACKETS:
                packets.append(PACKETS[kind](section, body))
        except Torn:
            return packets, at
        at += total
    return packets, None


def output_block(time, length, frame):
    """A packet of an output."""
    padding = bytes(-len(frame) % 4)
    total = 32 + len(frame) + len(padding)
    head = struct.pack("<7I", ENHANCED_PACKET, total, 0, time >> 32, time & 0xFFFFFFFF, len(frame), length)
    return head + frame + padding + struct.pack("<I", total)
