"""Captures as a run reads them (docs/FORMATS.md, "Captures"), for the tools that look at one."""
import os
import struct
import sys
from dataclasses import dataclass
from pathlib import Path

# The order of bytes and the nanoseconds of a fraction's unit, by a capture's first four bytes.
FORMS = {
    bytes.fromhex("a1b2c3d4"): (">", 1000),
    bytes.fromhex("d4c3b2a1"): ("<", 1000),
    bytes.fromhex("a1b23c4d"): (">", 1),
    bytes.fromhex("4d3cb2a1"): ("<", 1),
}
LATEST, LONGEST_FRAME, HEADER, ETHERNET = 4_294_967_295_999_999_999, 262_144, 24, 1
# Of pcapng (draft-ietf-opsawg-pcapng): what a file begins with, and the types of blocks.
PCAPNG, INTERFACE, SIMPLE_PACKET, ENHANCED_PACKET = bytes.fromhex("0a0d0d0a"), 1, 3, 6
LONGEST_INTERFACE, MOST_INTERFACES, RESOLUTION = 65_536, 256, 9
# What a file that is no capture begins with, and what makes one of it.
OTHERS = (
    (b"\x1f\x8b", "it is compressed by gzip; zcat {} >NEW.pcap unpacks it"),
    (b"\xfd7zXZ", "it is compressed by xz; xzcat {} >NEW.pcap unpacks it"),
    (b"\x28\xb5\x2f\xfd", "it is compressed by zstd; zstdcat {} >NEW.pcap unpacks it"),
)


class Halt(Exception):
    """A tool's end: its status, and the line for standard error behind `maestro: `."""

    def __init__(self, status, line):
        super().__init__(line)
        self.status, self.line = status, line


def run_tool(name, main):
    """Runs a tool over the words behind its name, prints its page where it is asked for, and ends with its status."""
    words = sys.argv[1:]
    before = words[:words.index("--")] if "--" in words else words
    try:
        if "-h" in before or "--help" in before:
            print((Path(__file__).resolve().parent / "pages" / name).read_text(), end="")
            status = 0
        else:
            status = main(words) or 0
        if sys.stdout is None:
            raise Halt(3, "file fault: stdout")
        sys.stdout.flush()
    except Halt as halt:
        print(f"maestro: {halt.line}", file=sys.stderr)
        status = halt.status
    except OSError as fault:
        name = f"{fault.filename}: " if fault.filename else ""
        print(f"maestro: file fault: {name}{fault.strerror}", file=sys.stderr)
        # What is left for standard output has no place any more.
        os.dup2(os.open(os.devnull, os.O_WRONLY), 1)
        status = 3
    except KeyboardInterrupt:
        status = 130
    sys.exit(status)


def bad_words(why, name):
    """The end of a tool whose words are wrong."""
    return Halt(1, f"bad command line: {why}; `maestro {name} --help` tells more")


class Capture:
    """A capture of either kind that is read packet by packet, each once. `torn` is the byte at which it is torn, behind
    its last packet, or None; `back` is how many packets have a time before that of one in front of them. Of the packet
    that was given last, `length` is what it had on the wire, and `raw` the bytes that tell of it; `between` stood between
    these and those of the packet before."""

    def __init__(self, name):
        self.name, self.torn, self.back, self.length, self.raw, self.between = name, None, 0, 0, b"", bytearray()
        self.file = open("/dev/stdin" if name == "-" else name, "rb")
        self.header = self.file.read(HEADER)
        for first, said in OTHERS:
            if self.header.startswith(first):
                raise Halt(4, f"{name} has no pcap header: {said.format(name)}")
        records = blocks if self.header.startswith(PCAPNG) else classic
        self.records = records(self)

    def no_header(self, why=""):
        return Halt(4, f"{self.name} has no pcap header{why}")

    def __iter__(self):
        """For each packet its time, and 16 bytes with its frame behind them, without one where it is no Ethernet."""
        latest = 0
        for time, self.length, self.raw, frame in self.records:
            self.back += time is not None and time < latest
            latest = max(latest, min(time or 0, LATEST))
            yield latest, bytes(16) + frame


def classic(capture):
    """Of each whole record of a pcap capture the time, the original length, its bytes and its frame."""
    form = FORMS.get(capture.header[:4])
    if form is None or len(capture.header) < HEADER:
        raise capture.no_header()
    order, unit = form
    link = struct.unpack_from(f"{order}I", capture.header, 20)[0] % 2**16
    if link != ETHERNET:
        raise capture.no_header(f": its link type is {link}, and only Ethernet (1) is read")
    return records_of(capture, struct.Struct(f"{order}4I"), unit)


def records_of(capture, head, unit):
    read, at = capture.file.read, HEADER
    capture.between += capture.header
    while first := read(16):
        seconds, fraction, captured, length = head.unpack(first) if len(first) == 16 else (0, 0, LONGEST_FRAME + 1, 0)
        frame = read(captured) if captured <= LONGEST_FRAME else b""
        if len(frame) < captured:
            capture.torn = at
            return
        yield min(seconds * 10**9 + fraction * unit, LATEST), length, first + frame, frame
        capture.between.clear()
        at += 16 + captured


class Torn(Exception):
    """A block that can't be taken."""


@dataclass
class Section:
    """A section of a pcapng capture: its byte order, and of each interface the link type, the longest captured frame
    (0 for no bound) and how many units a second has."""
    order: str
    interfaces: list


def section_of(header):
    """The section that begins with these 24 bytes, None where they are no right header."""
    for order in "<>":
        if len(header) == HEADER and struct.unpack_from(f"{order}I", header, 8)[0] == 0x1A2B3C4D:
            total, _, major = struct.unpack_from(f"{order}IIH", header, 4)
            return Section(order, []) if total >= 28 and total % 4 == 0 and major == 1 else None
    return None


def blocks(capture):
    """Of each packet of a pcapng capture the time, the original length, its block and its frame, none where it is no
    Ethernet."""
    section = section_of(capture.header)
    if section is None:
        raise capture.no_header(": it begins as pcapng does, and its section header is cut or wrong")
    return packets_of(capture, section)


def packets_of(capture, section):
    read, at, first = capture.file.read, 0, capture.header
    while first:
        if first[:4] == PCAPNG:
            first += read(HEADER - len(first))
            section = section_of(first)
        try:
            block = block_of(section, first, read)
            packet = taken(section, block)
        except Torn:
            capture.torn = at
            return
        if packet:
            link, time, length, frame = packet
            yield time, length, block, frame if link == ETHERNET else b""
            capture.between.clear()
        else:
            capture.between += block
        at += len(block)
        first = read(12)


def block_of(section, first, read):
    """A whole block, of which some bytes were read: its length stands behind its type, and at its end again."""
    total = struct.unpack_from(f"{section.order}I", first, 4)[0] if section and len(first) >= 12 else 0
    if total < 12 or total % 4:
        raise Torn
    block = first + read(total - len(first))
    if len(block) < total or struct.unpack_from(f"{section.order}I", block, total - 4)[0] != total:
        raise Torn
    return block


def taken(section, block):
    """The link type, the time, the original length and the frame of a packet's block, None where it is none. Interfaces
    are noted."""
    kind = struct.unpack_from(f"{section.order}I", block)[0]
    body = block[8:-4]
    try:
        if kind == INTERFACE:
            section.interfaces.append(interface_of(section, body))
        elif kind == ENHANCED_PACKET:
            number, high, low, captured, length = struct.unpack_from(f"{section.order}5I", body)
            link, _, units = section.interfaces[number]
            return link, (high << 32 | low) * 10**9 // units, length, frame_of(body[20:], captured)
        elif kind == SIMPLE_PACKET:
            length = struct.unpack_from(f"{section.order}I", body)[0]
            link, longest, _ = section.interfaces[0]
            return link, None, length, frame_of(body[4:], min(length, longest or length))
    except (struct.error, IndexError):
        raise Torn from None
    return None


def frame_of(data, captured):
    if captured > min(LONGEST_FRAME, len(data)):
        raise Torn
    return data[:captured]


def interface_of(section, body):
    link, _, longest = struct.unpack_from(f"{section.order}HHI", body)
    if len(body) + 12 > LONGEST_INTERFACE or len(section.interfaces) == MOST_INTERFACES:
        raise Torn
    return link, longest, units_of(section.order, body[8:])


def units_of(order, options):
    """How many units a second has: by the first option of one byte that tells it, else a million."""
    while len(options) >= 4:
        code, size = struct.unpack_from(f"{order}HH", options)
        if code == 0 or 4 + size > len(options):
            break
        if code == RESOLUTION and size == 1:
            return (2 if options[4] & 0x80 else 10) ** (options[4] & 0x7F)
        options = options[4 + size + -size % 4:]
    return 10**6


def hash_input(record, six):
    """The bytes of a handled packet that the hash goes by, 12 over IPv4 and 36 over IPv6: addresses and ports, sources
    first. None where the record is of a packet that is skipped: handled is IPv4 in Ethernet, no fragment, with the
    first 20 bytes of TCP or 8 of UDP (RFC 791 section 3.1, RFC 9293 section 3.1, RFC 768), and where the port has a
    handler for it, which `six` says, IPv6 without extension headers (RFC 8200 section 3)."""
    if record[28:30] == b"\x86\xdd":
        if not six or len(record) < 70 or record[30] >> 4 != 6 or record[36] not in (6, 17):
            return None
        return record[38:70] + record[70:74] if len(record) >= (90 if record[36] == 6 else 78) else None
    if len(record) < 50 or record[28:30] != b"\x08\x00" or not 0x45 <= record[30] <= 0x4F:
        return None
    if record[36] & 0x3F or record[37] or record[39] not in (6, 17):
        return None
    ports = 30 + 4 * (record[30] & 15)
    if len(record) < ports + (20 if record[39] == 6 else 8):
        return None
    return record[42:50] + record[ports:ports + 4]


def torn(captures):
    """The end of a tool that read captures to their ends: torn ones are told, as by `maestro run`."""
    for port, it in enumerate(captures):
        if it.torn is not None:
            raise Halt(5, f"capture {port} is torn at byte {it.torn}: {it.name}; its whole records were read")
