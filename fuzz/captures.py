"""Captures and frames, as docs/FORMATS.md has them: records and fields read, edits and outputs written."""
import struct
from dataclasses import dataclass
from typing import Callable

import pcapng

# The order of bytes and the nanoseconds of a fraction's unit, by a capture's first bytes.
FORMS = {
    bytes.fromhex("a1b2c3d4"): (">", 1000),
    bytes.fromhex("d4c3b2a1"): ("<", 1000),
    bytes.fromhex("a1b23c4d"): (">", 1),
    bytes.fromhex("4d3cb2a1"): ("<", 1),
}
LATEST, LONGEST_FRAME = 4_294_967_295_999_999_999, 262_144
OUTPUT_HEADER = bytes.fromhex("4d3cb2a1 02000400 00000000 00000000 00000400 01000000")
ETHERNET, IPV4, IPV6, TCP, UDP = 1, 0x0800, 0x86DD, 6, 17


@dataclass
class Record:
    """A packet of a capture: its time, the original length, the captured bytes, and whether these are an Ethernet frame."""
    time: int
    length: int
    frame: bytes
    is_ethernet: bool = True


def records_of(data):
    """The packets of a capture of either kind, and the byte at which it is torn or None. None where it is none."""
    return records_of_pcapng(data) if data[:4] == pcapng.FIRST else records_of_pcap(data)


def records_of_pcapng(data):
    """The packets of a pcapng capture. One without a time of its own comes at that of the packet before."""
    read, latest, records = pcapng.heard_in(data), 0, []
    if read is None:
        return None
    for it in read[0]:
        latest = max(latest, min(it.time or 0, LATEST))
        records.append(Record(latest, it.length, it.frame, it.link == ETHERNET))
    return records, read[1]


def records_of_pcap(data):
    """The whole records of a pcap capture."""
    form = FORMS.get(data[:4])
    if len(data) < 24 or form is None:
        return None
    order, unit = form
    if struct.unpack_from(f"{order}I", data, 20)[0] % 2**16 != ETHERNET:
        return None
    records, at, latest = [], 24, 0
    while at < len(data):
        if at + 16 > len(data):
            return records, at
        seconds, fraction, captured, length = struct.unpack_from(f"{order}4I", data, at)
        if captured > LONGEST_FRAME or at + 16 + captured > len(data):
            return records, at
        latest = max(latest, min(seconds * 10**9 + fraction * unit, LATEST))
        records.append(Record(latest, length, data[at + 16:at + 16 + captured]))
        at += 16 + captured
    return records, None


def output_record(time, length, frame):
    """A record of an output."""
    return struct.pack("<4I", time // 10**9, time % 10**9, len(frame), length) + frame


@dataclass(frozen=True)
class Format:
    """A kind of output: how its names end, its header, and the record of a time, a length and a frame."""
    end: str
    header: bytes
    record: Callable


PCAP = Format("pcap", OUTPUT_HEADER, output_record)
PCAPNG = Format("pcapng", pcapng.OUTPUT_HEADER, pcapng.output_block)


def is_six(frame):
    """Whether a handled frame is one of IPv6."""
    return frame[12:14] == IPV6.to_bytes(2, "big")


def segment_at(frame):
    """Where a handled frame's TCP or UDP header begins: behind the IP header (RFC 791 section 3.1), which has 40 bytes
    in IPv6 (RFC 8200 section 3)."""
    return 54 if is_six(frame) else 14 + 4 * (frame[14] & 15)


def fields_of(record):
    """The fields of a packet that may be handled, None for one that is skipped: IPv4 in Ethernet, no fragment, or IPv6
    without extension headers, with the first 20 bytes of TCP (RFC 9293 section 3.1) or 8 of UDP (RFC 768)."""
    frame = record.frame
    if not record.is_ethernet:
        return None

    def number(at, size):
        return int.from_bytes(frame[at:at + size], "big")

    six = number(12, 2) == IPV6
    if six:
        if len(frame) < 54 or frame[14] >> 4 != 6:
            return None
        proto, ttl = frame[20], frame[21]
        addresses = {"src_ip6": number(22, 16), "dst_ip6": number(38, 16)}
    else:
        if len(frame) < 34 or number(12, 2) != IPV4 or not 0x45 <= frame[14] <= 0x4F or number(20, 2) & 0x3FFF:
            return None
        proto, ttl = frame[23], frame[22]
        addresses = {"src_ip": number(26, 4), "dst_ip": number(30, 4)}
    at = segment_at(frame)
    if proto not in (TCP, UDP) or len(frame) < at + (20 if proto == TCP else 8):
        return None
    return {
        "time": record.time, "length": record.length, "dst_mac": number(0, 6), "src_mac": number(6, 6),
        **addresses, "proto": proto, "ttl": ttl, "src_port": number(at, 2), "dst_port": number(at + 2, 2),
    }


def updated(checksum, before, after, places):
    """A checksum after the 16-bit words at these places have changed (RFC 1624 equation 3)."""
    total = 0xFFFF - checksum
    for at in places:
        old, new = (int.from_bytes(frame[at:at + 2], "big") for frame in (before, after))
        if old != new:
            total += 0xFFFF - old + new
    while total > 0xFFFF:
        total = (total >> 16) + (total & 0xFFFF)
    return 0xFFFF - total


def edited(frame, edits):
    """A handled frame with its edits, and its checksums brought up to date. IPv6 has none of its own."""
    segment, six = segment_at(frame), is_six(frame)
    own = {"ttl": (21, 1), "src_ip6": (22, 16), "dst_ip6": (38, 16)} if six else {
        "ttl": (22, 1), "src_ip": (26, 4), "dst_ip": (30, 4),
    }
    places = {
        "dst_mac": (0, 6), "src_mac": (6, 6), **own, "src_port": (segment, 2), "dst_port": (segment + 2, 2),
    }
    proto = frame[20] if six else frame[23]
    addresses = range(22, 54, 2) if six else range(26, 34, 2)
    made = bytearray(frame)
    for field, value in edits.items():
        at, size = places[field]
        made[at:at + size] = value.to_bytes(size, "big")
    if not six:
        put_checksum(made, 24, updated(int.from_bytes(frame[24:26], "big"), frame, made, (22, *addresses)))
    at = segment + (6 if proto == UDP else 16)
    checksum = int.from_bytes(frame[at:at + 2], "big")
    if proto == TCP or checksum:
        checksum = updated(checksum, frame, made, (*addresses, segment, segment + 2))
        # RFC 768: 0 would say that there is none.
        put_checksum(made, at, 0xFFFF if proto == UDP and not checksum else checksum)
    return bytes(made)


def put_checksum(frame, at, checksum):
    frame[at:at + 2] = checksum.to_bytes(2, "big")
