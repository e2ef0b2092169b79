"""Made-up traffic: the packets that a seed determines, each with its frame."""
import struct
import sys

from packets import checksum

CLIENTS = 10 << 24
SERVER = 192 << 24 | 168 << 16
FRONT = bytes.fromhex("020000000002 020000000001 0800")


def frame(source, source_port, target, target_port):
    """A datagram of UDP without data and without a checksum, in IPv4 in Ethernet."""
    head = bytes.fromhex("4500001c000000004011")
    addresses = struct.pack(">II", source, target)
    right = checksum(head + b"\0\0" + addresses)
    return FRONT + head + struct.pack(">H", right) + addresses + struct.pack(">4H", source_port, target_port, 8, 0)


def traffic(seed, count, flows, ports):
    """Port, number, time and frame of each packet."""
    x = seed
    for k in range(count):
        x = (1664525 * x + 1013904223) % 2**32
        flow = (x >> 16) % flows
        ends = [(CLIENTS + flow, 1024 + flow % 1000), (SERVER, 80)]
        port = k % ports
        (source, source_port), (target, target_port) = ends if port % 2 == 0 else reversed(ends)
        yield port, k // ports, 1000 * k, frame(source, source_port, target, target_port)


def digest(packets):
    """One number of 64 bits that all packets count in (FNV-1a over their numbers and frames)."""
    value = 0xCBF29CE484222325
    for port, number, time, data in packets:
        for byte in struct.pack(">IIQ", port, number, time) + data:
            value = (value ^ byte) * 0x100000001B3 % 2**64
    return value


def show(line):
    """What `traffic_tests` prints of a line."""
    seed, count, flows, ports = map(int, line.split())
    packets = list(traffic(seed, count, flows, ports))
    for port, number, time, data in packets[:8]:
        print(port, number, time, data.hex())
    print(f"{count} packets, digest {digest(packets):016x}")


if __name__ == "__main__":
    for given in sys.stdin:
        show(given)
