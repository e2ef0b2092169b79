"""Command lines for tools/try, with what comes of each, and the files that they read."""
# The header of a capture without records.
EMPTY = bytes.fromhex("4d3cb2a1020004000000000000000000000004 0001000000".replace(" ", ""))
# The key of Microsoft's verification suite.
DEFAULT_KEY = "6d5a56da255b0ec24167253d43a38fb0d0ca2bcbae7b30b477cb2da38030f20c6a42b73bbeac01fa"
# Of 52 bytes it begins anew behind its 40.
LONG_KEY = DEFAULT_KEY + DEFAULT_KEY[:24]
SHORT = "capture 0 is short.pcap\nit has 23 bytes, and the header of a capture has 24"
HUB = "nf hub {\n  ports 1;\n  on 0 { forward 0; }\n}\n"
# Of two workers the second one's share has two of five hosts.
POLICER = """nf policer { ports 2;
  chain hosts 5 lifetime 10 { map by_dst(d: 32); free used: 64; }
  on 0 { forward 1; }
  on 1 {
    get e = hosts.by_dst(dst_ip) {
      e.used = e.used + length; if e.used > 1000 { drop; } forward 0;
    } else { new f = hosts(d = dst_ip) { f.used = length; forward 0; } }
    drop;
  }
}
"""
# No field that is hashed tells a MAC address.
BRIDGE = """nf bridge { ports 2;
  chain macs 4 lifetime 10 { map by_mac(m: 48); free at: 8; }
  on 0 {
    get e = macs.by_mac(src_mac) { touch e; e.at = 0; } else { new f = macs(m = src_mac) { f.at = 0; } }
    get g = macs.by_mac(dst_mac) { forward g.at; } flood;
  }
  on 1 {
    get e = macs.by_mac(src_mac) { touch e; e.at = 1; } else { new f = macs(m = src_mac) { f.at = 1; } }
    get g = macs.by_mac(dst_mac) { forward g.at; } flood;
  }
}
"""
# A flow that is known goes out and comes in. Made-up traffic of one flow passes whole.
FIREWALL = """nf fw { ports 2;
  chain flows 1 lifetime 60000000000 { map by_flow(a: 32, b: 32, c: 16, d: 16); }
  on 0 {
    get e = flows.by_flow(src_ip, dst_ip, src_port, dst_port) { touch e; }
    else { new f = flows(a = src_ip, b = dst_ip, c = src_port, d = dst_port) { } full { drop; } }
    forward 1;
  }
  on 1 { get e = flows.by_flow(dst_ip, src_ip, dst_port, src_port) { touch e; forward 0; } drop; }
}
"""


def bad(told):
    """What comes of a line that is no command, and what is told of it."""
    return (1, "", "bad command line", told)


def command_lines():
    """Command lines of each status that can be had: the status, what is printed, and what a terminal shows beside it."""
    no_file = ", and there is no such file"
    words = "there are check explain keys certify run replay gen hash help summary show spread card draw plot split"
    one_port = bad("a b.nf has 1 port, and takes as many captures: 2 given")
    two = ["c d.pcap", "hosts.pcap"]
    return [
        (["run", "a b.nf", "o u t", "c d.pcap"], 0, "ran 0 one 1\n", "", ""),
        (["run", "--workers", "1", "a b.nf", "o u t", "--max-packets=5", "--", "c d.pcap"], 0, "ran 0 one 1\n", "", ""),
        (["run", "a b.nf", "o u t", "--pcapng", "c d.pcap"], 0, "ran 0 one 1\n", "", ""),
        (["run", "--pcapng", "a b.nf", "o u t", "c d.pcap", "--pcapng"], *bad("--pcapng stands twice")),
        (["run", "--pcapng=true", "a b.nf", "o u t", "c d.pcap"], *bad("--pcapng has no value")),
        (["check", "a b.nf", "--pcapng"], *bad("--pcapng is no option of check, which has none")),
        (["run", "--workers", "16", "--mode", "shard", "a b.nf", "o u t", "c d.pcap"], 0, "ran 0 shard 16\n", "", ""),
        (["run", "--mode", "shard", "a b.nf", "o u t", "c d.pcap"], 0, "ran 0 one 1\n", "", ""),
        (["run", "--mode", "one", "a b.nf", "o u t", "c d.pcap"], *bad("--mode is auto, shard or lock, not one")),
        (["run", "--mode=lock", "a b.nf", "o u t", "c d.pcap"], 0, "ran 0 one 1\n", "", ""),
        (["run", "--mode", "lock", "--workers", "16", "a b.nf", "o u t", "c d.pcap"], 0, "ran 0 lock 16\n", "", ""),
        (["run", "--mode", "locks", "a b.nf", "o u t", "c d.pcap"], *bad("--mode is auto, shard or lock, not locks")),
        (["run", "--workers", "17", "a b.nf", "o u t", "c d.pcap"], *bad("--workers is 1 to 16, not 17")),
        (["hash", "66.9.149.187:2794", "161.142.100.80:1766"], 0, "51ccc178 120 0\n", "", ""),
        (["hash", "66.9.149.187:2794", "161.142.100.80:1766", "--table", "512"], 0, "51ccc178 376 0\n", "", ""),
        (["hash", "--key", LONG_KEY, "--table=512", "--workers=3", "66.9.149.187:2794", "161.142.100.80:1766"], 0, "51ccc178 376 1\n", "", ""),
        (["check", "a b.nf"], 0, "ok hub: ports 1, chains 0, arrays 0, paths 1\n", "", ""),
        (["check", "--", "a b.nf"], 0, "ok hub: ports 1, chains 0, arrays 0, paths 1\n", "", ""),
        (["explain", "a b.nf"], 0, f"nf hub\nsharded\nkey 0 {DEFAULT_KEY}\n", "", ""),
        (["keys", "a b.nf"], 0, f"sharded\nkey 0 {DEFAULT_KEY}\n", "", ""),
        (["keys", "--", "a b.nf"], 0, f"sharded\nkey 0 {DEFAULT_KEY}\n", "", ""),
        (["keys", "a b.nf", "--key-bytes=52"], 0, f"sharded\nkey 0 {LONG_KEY}\n", "", ""),
        (["explain", "--table", "512", "a b.nf"], 0, f"nf hub\nsharded\nkey 0 {DEFAULT_KEY}\n", "", ""),
        (["check"], *bad("check takes NF: 0 names given")),
        (["explain"], *bad("explain takes NF: 0 names given")),
        (["keys", "a b.nf", "a b.nf"], *bad("keys takes NF: 2 names given")),
        (["keys", "no one.nf"], 3, "", "file fault: nf", f"nf is no one.nf{no_file}"),
        *proved(no_file),
        (["check", "a b.nf", "a b.nf"], *bad("check takes NF: 2 names given")),
        (["check", "no one.nf"], 3, "", "file fault: nf", f"nf is no one.nf{no_file}"),
        (["run", "a b.nf", "o u t", "c d.pcap", "c d.pcap"], *one_port),
        ([""], *bad(f"an empty word is no command; {words}")),
        (["--helpless"], *bad(f"--helpless stands where a command does, and options stand behind it; {words}")),
        (["run", "no one.nf", "o u t", "c d.pcap"], 3, "", "file fault: nf", f"nf is no one.nf{no_file}"),
        (["run", "a b.nf", "o", "--max-packets", "3", "no"], 3, "", "file fault: capture 0", f"capture 0 is no{no_file}"),
        (["run", "--workers=1", "--", "a b.nf", "o", "-c"], 3, "", "file fault: capture 0", f"capture 0 is -c{no_file}"),
        # The system opens this file, and fails at the first read.
        (["run", "a b.nf", "o", "/proc/self/mem"], 3, "", "file fault: capture 0", "capture 0 is /proc/self/mem"),
        (["run", "a b.nf", "no folder/o", "c d.pcap"], 3, "", "file fault: output 0", "output 0 is no folder/o.0.pcap"),
        (["run", "a b.nf", "taken", "c d.pcap"], 3, "", "file fault: out journal", "out journal is taken.journal"),
        (["run", "a b.nf", "stated", "c d.pcap"], 3, "", "file fault: state", "state is stated.state"),
        (["run", "a b.nf", "o", "short.pcap"], 4, "", "capture 0 has no pcap header", SHORT),
        (["run", "a b.nf", "o", "torn.pcap"], 5, "ran 0 one 1\n", "capture 0 is torn at byte 24", "capture 0 is torn.pcap"),
        (["run", "--workers", "2", "policer.nf", "o", *two], 6, "ran 2 shard 2\n", "share full: chain hosts, queue 1, packet 1 2", ""),
        (["run", "a b.nf", "o", "--max-packets", "0", "one.pcap"], 7, "ran 0 one 1\n", "more than 0 packets", ""),
        (["run", "--workers", "2", "--mode", "lock", "policer.nf", "o", *two], 0, "ran 3 lock 2\n", "", ""),
        (["run", "--workers", "2", "bridge.nf", "o", *two], 0, "ran 3 lock 2\n", "", ""),
        (["run", "--workers", "2", "--max-packets=1", "bridge.nf", "o", *two], 7, "ran 1 lock 2\n", "more than 1 packets", ""),
        (["run", "--workers", "2", "--mode", "shard", "bridge.nf", "o", *two], 8, "", "no keys: macs J4", ""),
        (["run", "--mode", "shard", "bridge.nf", "o", *two], 8, "", "no keys: macs J4", ""),
        (["run", "--workers", "2", "--table", "512", "--key-bytes", "52", "a b.nf", "o u t", "c d.pcap"], 0, "ran 0 shard 2\n", "", ""),
        *certified(no_file),
        *made_up(no_file),
        *replays(no_file),
    ]


def proved(no_file):
    """Command lines of `keys` that write a certificate."""
    def keys(key):
        return (0, f"sharded\nkey 0 {key}\n", "", "")

    return [
        (["keys", "a b.nf", "--proof", "ma de.proof"], *keys(DEFAULT_KEY)),
        (["keys", "--proof=made 512.proof", "--table", "512", "--key-bytes=52", "--", "a b.nf"], *keys(LONG_KEY)),
        (["keys", "bridge.nf", "--proof", "bridge.proof"], 0, "locked macs J4\n", "", ""),
        (["keys", "no one.nf", "--proof", "no one.proof"], 3, "", "file fault: nf", f"nf is no one.nf{no_file}"),
        (["keys", "a b.nf", "--proof", "no folder/x.proof"], 3, "", "file fault: proof", "proof is no folder/x.proof"),
        (["keys", "--proof=taken.journal", "a b.nf"], 3, "", "file fault: proof", "proof is taken.journal"),
        # What is read isn't overwritten.
        (["keys", "a b.nf", "--proof", "a b.nf"], 3, "", "file fault: proof", "proof is a b.nf"),
        (["keys", "a b.nf", "--proof"], *bad("--proof wants a value")),
        (["keys", "--proof", "x.proof", "a b.nf", "--proof=y.proof"], *bad("--proof stands twice")),
        (["keys", "--proof", "x.proof"], *bad("keys takes NF: 0 names given")),
        (["explain", "a b.nf", "--proof", "x.proof"], *bad("--proof is no option of explain; it has --table --key-bytes")),
    ]


def certified(no_file):
    """Command lines of `certify`."""
    def at(line, text):
        told = "The lines before it are right. `maestro help 11` tells what a right line is."
        return (11, "", f"proof fails at line {line}", f"{line:7} |{' ' * bool(text)}{text}\n{told}")

    return [
        (["certify", "a b.nf", "hub.proof"], 0, "certified\n", "", ""),
        (["certify", "--", "a b.nf", "hub 512.proof"], 0, "certified\n", "", ""),
        (["certify", "a b.nf", "other.proof"], *at(2, f"key 0 {DEFAULT_KEY[:-1]}b")),
        (["certify", "a b.nf", "early.proof"], *at(2, "")),
        (["certify", "a b.nf", "late.proof"], *at(3, "clash")),
        (["certify", "a b.nf", "none.journal"], *at(1, "maestro journal 1 one 1")),
        (["certify", "bridge.nf", "hub.proof"], *at(3, "")),
        (["certify", "no one.nf", "hub.proof"], 3, "", "file fault: nf", f"nf is no one.nf{no_file}"),
        (["certify", "a b.nf", "no.proof"], 3, "", "file fault: proof", f"proof is no.proof{no_file}"),
        (["certify", "a b.nf"], *bad("certify takes NF FILE: 1 name given")),
        (["certify", "a b.nf", "hub.proof", "--table", "512"], *bad("--table is no option of certify, which has none")),
    ]


def made_up(no_file):
    """Command lines of `gen`."""
    def sums(*lines):
        return "".join(f"{line}\n" for line in lines)

    takes = "gen takes NF OUT SEED COUNT FLOWS"
    four = ("packets 4", "port 0 2", "port 1 2")
    return [
        (["gen", "fw.nf", "o", "0", "4", "1"], 0, sums(*four, "mode one 1", "sent 4", "entries flows 1"), "", ""),
        (["gen", "fw.nf", "o", "0", "4", "2"], 0, sums(*four, "mode one 1", "sent 3", "entries flows 1"), "", ""),
        (["gen", "--", "a b.nf", "-o", "4294967295", "0", "65536"], 0, sums("packets 0", "port 0 0", "mode one 1", "sent 0"), "", ""),
        (["gen", "--workers=3", "a b.nf", "o", "7", "9", "1"], 0, sums("packets 9", "port 0 9", "mode shard 3", "sent 9"), "", ""),
        (["gen", "a b.nf", "o", "7", "9", "1", "--workers", "2", "--mode", "lock"], 0, sums("packets 9", "port 0 9", "mode lock 2"), "", ""),
        (["gen", "a b.nf", "o", "7", "9", "1", "--mode", "lock"], 0, sums("packets 9", "port 0 9", "mode one 1", "sent 9"), "", ""),
        (["gen", "long.nf", "o", "0", "50", "10", "--workers", "2"], 6, "", "share full: chain hosts, queue 0, packet 1 3", ""),
        (["gen", "bridge.nf", "o", "0", "4", "1", "--mode", "shard"], 8, "", "no keys: macs J4", ""),
        (["gen", "no one.nf", "o", "0", "4", "1"], 3, "", "file fault: nf", f"nf is no one.nf{no_file}"),
        (["gen", "a b.nf", "no folder/o", "0", "4", "1"], 3, "", "file fault: output 0", "output 0 is no folder/o.0.pcap"),
        (["gen", "a b.nf", "taken", "0", "4", "1"], 3, "", "file fault: out journal", "out journal is taken.journal"),
        (["gen", "a b.nf", "stated", "0", "4", "1"], 3, "", "file fault: state", "state is stated.state"),
        (["gen", "a b.nf", "o", "0", "4"], *bad(f"{takes}: 4 names given")),
        (["gen", "a b.nf", "o", "0", "4", "1", "1"], *bad(f"{takes}: 6 names given")),
        (["gen", "a b.nf", "o", "4294967296", "4", "1"], *bad("SEED is 0 to 4294967295, not 4294967296")),
        (["gen", "a b.nf", "o", "0", "10000001", "1"], *bad("COUNT is 0 to 10000000, not 10000001")),
        (["gen", "a b.nf", "o", "0", "4", "0"], *bad("FLOWS is 1 to 65536, not 0")),
        (["gen", "a b.nf", "o", "0", "4", "65537"], *bad("FLOWS is 1 to 65536, not 65537")),
        (["gen", "a b.nf", "o", "00", "4", "1"], *bad("SEED is 0 to 4294967295, not 00")),
        (["gen", "a b.nf", "o", "0", "4", "1", "--max-packets", "4"], *bad("--max-packets is no option of gen; it has --workers --mode --table --key-bytes --pcapng")),
    ]


def replays(no_file):
    """Command lines of `replay`, over journals and outputs that `fill` writes."""
    two, hosts = ["left.pcap", "right.pcap"], ["c d.pcap", "hosts.pcap"]

    def bridge(journal, out="learnt"):
        return ["replay", "bridge.nf", f"{journal}.journal", out, *two]

    def at(line, text):
        told = "The lines before it are right. `maestro help 10` tells what a right line is."
        return (10, "", f"replay differs at line {line}", f"{line:7} |{' ' * bool(text)}{text}\n{told}")

    def other(port, front):
        return (10, "", f"replay differs at output {port}", f"output {port} is {front}.{port}.pcap")

    learnt = "chain macs greatest 9\n0 9 m=11 at=1\n1 9 m=10 at=0\n"
    full = "chain hosts greatest 2\n1 1 d=2147483649 used=42\n3 2 d=2147483650 used=42\n"
    return [
        (bridge("learnt"), 0, learnt, "", ""),
        (["replay", "--max-packets=2", *bridge("learnt")[1:]], 0, learnt, "", ""),
        (bridge("turned"), 0, "chain macs greatest 9\n2 5 m=10 at=0\n3 9 m=11 at=1\n", "", ""),
        (bridge("action"), *at(3, "0 0 0 to:0 1")),
        (bridge("worker"), *at(2, "1 0 0 flood 0")),
        (bridge("index"), *at(3, "0 0 0 to:1 0")),
        (bridge("again"), *at(4, "0 0 0 to:1 1")),
        (bridge("cut line"), *at(3, "0 0 0 to:1 1")),
        (bridge("nothing"), *at(1, "")),
        (bridge("sharded"), *at(1, "maestro journal 1 shard 2")),
        (bridge("odd"), *at(2, "1 0 1 flood ?0 ")),
        (bridge("cut", "cut"), 0, "chain macs greatest 9\n0 9 m=11 at=1\n", "", ""),
        (bridge("cut"), *other(1, "learnt")),
        (bridge("learnt", "cut"), *other(1, "cut")),
        (bridge("learnt", "byte"), *other(0, "byte")),
        (bridge("learnt", "longer"), *other(1, "longer")),
        (bridge("action", "byte"), *at(3, "0 0 0 to:0 1")),
        ([*bridge("learnt"), "--max-packets", "1"], 7, "", "more than 1 packets", ""),
        ([*bridge("learnt", "byte"), "--max-packets", "1"], 7, "", "more than 1 packets", ""),
        ([*bridge("cut line"), "--max-packets", "1"], 7, "", "more than 1 packets", ""),
        ([*bridge("worker"), "--max-packets", "0"], 7, "", "more than 0 packets", ""),
        ([*bridge("nothing"), "--max-packets", "0"], *at(1, "")),
        (["replay", "policer.nf", "full.journal", "full", *hosts], 0, full, "", ""),
        (["replay", "policer.nf", "second.journal", "full", *hosts], 0, full, "", ""),
        (["replay", "policer.nf", "usual.journal", "full", *hosts], *at(1, "maestro journal 2 shard 2 128 40")),
        (["replay", "policer.nf", "further.journal", "full", *hosts], *at(4, "1 2 1 drop -")),
        (["replay", "policer.nf", "share.journal", "full", *hosts], *at(2, "1 0 1 to:0 0")),
        (["replay", "a b.nf", "none.journal", "none", "torn.pcap"], 0, "", "", ""),
        (["replay", "--", "a b.nf", "none.journal", "none", "torn.pcap"], 0, "", "", ""),
        (["replay", "a b.nf", "none.journal", "none", "short.pcap"], 4, "", "capture 0 has no pcap header", SHORT),
        (["replay", "a b.nf", "no.journal", "no", "short.pcap"], 4, "", "capture 0 has no pcap header", SHORT),
        (["replay", "no one.nf", "none.journal", "none", "torn.pcap"], 3, "", "file fault: nf", f"nf is no one.nf{no_file}"),
        (["replay", "a b.nf", "none.journal", "none", "no"], 3, "", "file fault: capture 0", f"capture 0 is no{no_file}"),
        (["replay", "a b.nf", "no.journal", "no", "torn.pcap"], 3, "", "file fault: journal", f"journal is no.journal{no_file}"),
        (["replay", "a b.nf", "none.journal", "no", "torn.pcap"], 3, "", "file fault: output 0", f"output 0 is no.0.pcap{no_file}"),
        (["replay", "a b.nf", "none.journal", "none"], *bad("replay takes NF JOURNAL OUT CAPTURE..: 3 names given")),
        (["replay", "a b.nf", "none.journal", "none", "torn.pcap", "torn.pcap"], *bad("a b.nf has 1 port, and takes as many captures: 2 given")),
        (["replay", "a b.nf", "none.journal", "none", "torn.pcap", "--workers", "2"], *bad("--workers is no option of replay; it has --max-packets --pcapng")),
    ]


def record(time, frame):
    """The record of a frame at so many nanoseconds."""
    return b"".join(n.to_bytes(4, "little") for n in (0, time, len(frame), len(frame))) + frame


def to_host(host):
    """The record of a UDP frame from 9.9.9.9:1 to 128.0.0.N:2, whose time is N nanoseconds (RFC 791, RFC 768)."""
    macs = bytes([2, 0, 0, 0, 0, 2, 2, 0, 0, 0, 0, 1])
    header = bytes.fromhex("0800 4500001c 00000000 4011") + (0xE8BF - host).to_bytes(2, "big")
    ends = bytes([9, 9, 9, 9, 128, 0, 0, host, 0, 1, 0, 2]) + bytes.fromhex("00080000")
    return record(host, macs + header + ends)


def between(time, target, source):
    """The record of a UDP frame between two MAC addresses of which the last byte is told."""
    macs = bytes([0, 0, 0, 0, 0, target, 0, 0, 0, 0, 0, source])
    return record(time, macs + bytes.fromhex("0800 4500001c 00000000 4011 74cc 01010101 02020202 0001 0002 0008 0000"))


def fill_replays(room):
    """Captures of two hosts that send to each other, and journals and outputs of a bridge and a policer over captures,
    right ones and wrong ones."""
    left, right = between(5, 11, 10), between(9, 10, 11)
    head, first, second = "maestro journal 1 lock 2\n", "1 0 1 flood 0\n", "0 0 0 to:1 1\n"
    policed = "maestro journal 1 shard 2\n1 0 1 to:0 1\n1 1 1 to:0 3\n"
    journals = {
        "learnt": head + first + second, "turned": f"{head}0 0 0 flood 2\n1 0 1 to:0 3\n", "cut": head + first,
        "action": f"{head}{first}0 0 0 to:0 1\n", "worker": f"{head}1 0 0 flood 0\n{second}",
        "index": f"{head}{first}0 0 0 to:1 0\n", "again": head + first + second + second,
        "cut line": (head + first + second)[:-1], "nothing": "", "sharded": head.replace("lock", "shard") + first,
        "odd": f"{head}1 0 1 flood \x1b0\r\n", "full": policed, "none": "maestro journal 1 one 1\n",
        "second": policed.replace("1 shard 2", "2 shard 2 512 52", 1), "usual": policed.replace("1 shard 2", "2 shard 2 128 40", 1),
        "further": f"{policed}1 2 1 drop -\n", "share": policed.replace("to:0 1", "to:0 0"),
    }
    fronts = {
        "learnt": (right, left), "cut": (right, b""), "byte": (right[:-1] + b"\1", left), "longer": (right, left + b"\0"),
        "full": (to_host(1) + to_host(2), b""), "none": (b"",),
    }
    for name, text in journals.items():
        (room / f"{name}.journal").write_bytes(text.encode())
    for name, outputs in fronts.items():
        for port, records in enumerate(outputs):
            (room / f"{name}.{port}.pcap").write_bytes(EMPTY + records)
    for name, data in {"left": left, "right": right}.items():
        (room / f"{name}.pcap").write_bytes(EMPTY + data)


def fill(room):
    """The files of the command lines: functions, captures, and two folders where files would be created."""
    long = POLICER.replace("lifetime 10", "lifetime 1000000000")
    for name, text in {"a b": HUB, "policer": POLICER, "bridge": BRIDGE, "fw": FIREWALL, "long": long}.items():
        (room / f"{name}.nf").write_text(text)
    zeros = record(0, bytes(60))
    captures = {"c d": EMPTY, "one": EMPTY + zeros, "torn": EMPTY + zeros[:-1], "short": EMPTY[:23]}
    captures["hosts"] = EMPTY + b"".join(map(to_host, (1, 2, 3)))
    for name, data in captures.items():
        (room / f"{name}.pcap").write_bytes(data)
    for name in ("taken.journal", "stated.state"):
        (room / name).mkdir()
    proof = f"maestro proof 1 128 40 sharded\nkey 0 {DEFAULT_KEY}\n"
    proofs = {
        "hub": proof, "hub 512": f"maestro proof 1 512 52 sharded\nkey 0 {LONG_KEY}\n", "other": f"{proof[:-2]}b\n",
        "early": proof.partition("\n")[0] + "\n", "late": f"{proof}clash\n",
    }
    for name, text in proofs.items():
        (room / f"{name}.proof").write_text(text)
    fill_replays(room)
