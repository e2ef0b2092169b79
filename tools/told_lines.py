"""What the script tells beside the program, for tools/try: each text written by hand."""
import bz2
import gzip
import lzma

from command_lines import EMPTY

# What may be meant, of the kinds' wrong texts.
HINTS = {
    "S1": "tests are not joined by && or ||: put one if into the block of the other",
    "S2": "an address has four numbers up to 255, without leading zeros",
    "S3": "a ; is missing behind 1",
    "S4": "1 { has no }",
    "T09": "of a packet over IPv6 it is src_ip6",
}
FRONT = "nf x { ports 1; chain c 4 lifetime 60 { map m(a: 32, b: 16); free u: 8; } array t 4: 8;\n  on 0 {\n"
# Usual slips behind this text, or where they begin with nf in a text, each with where it is refused and what may be meant.
FIELDS = "the fields are time length src_mac dst_mac src_ip dst_ip src_ip6 dst_ip6 proto ttl src_port dst_port"
JOINED = "tests are not joined by && or ||: put one if into the block of the other"
UNITS = "numbers have no units: a time is in nanoseconds, 60 s is 60000000000"
ACTION = "is no word of the language: an action is forward PORT, flood or drop"
VARIABLES = "there are no variables: get, find and new name an entry, and a column or an array remembers a number"
SLIPS = [
    ("if proto == 6 && ttl < 3 { drop; }", "S3 at 3:16", JOINED),
    ("if proto == 6 || ttl < 3 { drop; }", "S1 at 3:15", JOINED),
    ("if proto == 6 and ttl < 3 { drop; }", "S3 at 3:15", JOINED),
    ("if proto == 6 { drop; } else if ttl < 3 { drop; }", "S3 at 3:30", "behind else stands a block: else { if .. { } }"),
    ("if proto == 6 { drop; } elif ttl < 3 { drop; }", "S3 at 3:30", "behind else stands a block: else { if .. { } }"),
    ("// first", "S3 at 3:1", "a comment begins with #"),
    ("if ttl < 3 { drop; } /* too far */", "S3 at 3:22", "a comment begins with #"),
    ("if ttl < 3 { drop }", "S3 at 3:19", "a ; is missing behind drop"),
    ("set ttl = 3\n  drop; } }", "S3 at 4:3", "a ; is missing behind 3"),
    ("get e = c.m(src_ip, src_port) { touch e }", "S3 at 3:41", "a ; is missing behind e"),
    ("nf x { ports 1; chain c 4 lifetime 60 { map m(a: 32) } on 0 { drop; } }", "S3 at 1:54", "a ; is missing behind )"),
    ("nf x { ports 1 on 0 { drop; } }", "S3 at 1:16", "a ; is missing behind 1"),
    ("accept;", "S3 at 3:7", f"accept {ACTION}"),
    ("send 1;", "S3 at 3:6", f"send {ACTION}"),
    ("let x = 3;", "S3 at 3:5", VARIABLES),
    ("for x in t { drop; }", "S3 at 3:5", "there are no loops"),
    ("if tcp_flags == 2 { drop; }", "S3 at 3:14", f"tcp_flags is no field; {FIELDS}. Of an entry e a column is e.tcp_flags"),
    ("if 1 == sport { drop; }", "S3 at 3:15", f"sport is no field; {FIELDS}. Of an entry e a column is e.sport"),
    ("if SRC_IP == 1 { drop; }", "S3 at 3:11", "SRC_IP is written src_ip"),
    ("if ip.src == 10.0.0.1 { drop; }", "T06 at 3:4", f"ip is no entry; {FIELDS}"),
    ("nf x { ports 1; chain c 4 lifetime 60s { map m(a: 32); } on 0 { drop; } }", "S2 at 1:36", UNITS),
    ("nf x { ports 1; chain c 4 lifetime 60 s { map m(a: 32); } on 0 { drop; } }", "S3 at 1:39", UNITS),
    ("nf x { ports 1; chain c 4 { map m(a: 32); } on 0 { drop; } }", "S3 at 1:27",
     "a chain has a lifetime in nanoseconds: chain NAME NUMBER lifetime 60000000000 {"),
    ("nf x { ports 1; chain c 4 lifetime 60 { map m(a, b); } on 0 { drop; } }", "S3 at 1:48", "each label has a width in bits: a: 32"),
    ("nf x { ports 1; chain c 1,024 lifetime 60 { map m(a: 32); } on 0 { drop; } }", "S3 at 1:26", "a number has no , within it"),
    ("nf x { ports: 1; on 0 { drop; } }", "S3 at 1:13", "the number of ports stands alone: ports 2;"),
    ("nf x { on 0 { drop; } }", "S3 at 1:8", "a function begins with the number of its ports: ports 2;"),
    ("nf x { ports 2; on 0, 1 { drop; } }", "S3 at 1:21", "a handler is of one port, and each port has its own"),
    ("nf x { ports 1; on port 0 { drop; } }", "S3 at 1:20", "a handler names its port by the number alone: on 0 { }"),
    ("nf x { ports 1; chain time 4 lifetime 60 { map m(a: 32); } on 0 { drop; } }", "S3 at 1:23",
     "time is a word of the language, and no name"),
    ("nf x { ports 1; on 0 { if ttl < 3 { drop; }", "S4 at 1:44", "2 { have no }"),
    ("nf x { ports 1; on 0 { drop; }", "S4 at 1:31", "1 { has no }"),
    ("if length > 1_500 { drop; }", "S2 at 3:13", "a number has no _ within it"),
    ("if ttl == 007 { drop; }", "S2 at 3:11", "a number has no leading zeros"),
    ("if src_mac == 0xFF { drop; }", "S2 at 3:15", "0x and the digits a-f are small letters"),
    ("if src_mac == 00:11:22:aA:44:55 { drop; }", "S2 at 3:15", "a MAC address is a number: 0x001122aa4455"),
    ("if src_ip == 10.0.0 { drop; }", "S2 at 3:14", ""),
    ("if src_ip == 10.0.0.256 { drop; }", "S2 at 3:14", "an address has four numbers up to 255, without leading zeros"),
    ("if src_ip == fe80::1 { drop; }", "S3 at 3:18",
     "addresses are of IPv4, as 10.0.0.1; of IPv6 each half is a number, as src_ip6 / (0x100000000 * 0x100000000) == "
     "0x20010db800000001, and so is a MAC address"),
    ("if src_ip6 == 1 { drop; }", "T09 at 3:4",
     "src_ip6 is of packets over IPv6, which have a handler of their own: on PORT six { }"),
    ("nf x { ports 1; on 0 { } on 0 six { forward dst_ip; } }", "T09 at 1:45", "of a packet over IPv6 it is dst_ip6"),
    ('if src_ip == "10.0.0.1" { drop; }', "S1 at 3:14", "there are no strings: an address is written 10.0.0.1, a MAC address as a number"),
    ("if (ttl < 3) { drop; }", "S3 at 3:9", "no parentheses stand round a test: if .. == .. { }"),
    ("if !(ttl == 3) { drop; }", "S1 at 3:4", "there is no not: tests are == != < <= > >=, and else stands for the other case"),
    ("if ttl < 3 drop;", "S3 at 3:12", "behind the test stands a block: if .. { drop .. }"),
    ("if ttl = 3 { drop; }", "S3 at 3:8", "a test of equality is =="),
    ("if ttl == -1 { drop; }", "S3 at 3:11", "there are no numbers below 0"),
    ("if ttl << 1 == 2 { drop; }", "S3 at 3:9", "there are no shifts: multiply or divide by a power of 2"),
    ("get e = c.m(src_ip, src_port) { e.u += 1; }", "S3 at 3:37", "a column is written whole: e.u = e.u + .."),
    ("get c.m(src_ip, src_port) { drop; }", "S3 at 3:6", "the entry that is found has a name: get e = CHAIN.MAP(..) { }"),
    ("get e = c.m(src_ip, src_port) { touch; }", "S3 at 3:38", "touch names an entry: touch e;"),
    ("src_ip = 10.0.0.1;", "S3 at 3:1", "a field is written by set: set src_ip = .."),
    ("drop; forward 0;", "S3 at 3:7", "an action ends its block: nothing stands behind drop"),
    ("if ttl == 1 { drop; };", "S3 at 3:22", "no ; stands behind a }"),
    ("drop; }\nforward 0;", "S3 at 4:1", "what is done with packets stands in a handler, on PORT { }: a } before may be too many"),
]
# Functions that divide an address, and the note on it; and some that don't.
DIVISIONS = [
    ("if src_ip == 10.0.0.0/8 { drop; }", "17: note: 10.0.0.0/8 is a division; a prefix is `src_ip & 255.0.0.0 == 10.0.0.0`"),
    ("if dst_ip != 192.168.7.9 / 20 { drop; }", "17: note: 192.168.7.9/20 is a division; a prefix is `dst_ip & 255.255.240.0 != 192.168.0.0`"),
    ("if 172.16.0.0/255.240.0.0 == src_ip { drop; }", "7: note: 172.16.0.0/255.240.0.0 is a division; a prefix is `src_ip & 255.240.0.0 == 172.16.0.0`"),
    ("if src_ip == 1.2.3.4/32 { drop; }", "17: note: 1.2.3.4/32 is a division; a prefix is `src_ip & 255.255.255.255 == 1.2.3.4`"),
    ("if src_ip < 1.2.3.4/0 { drop; }", "16: note: 1.2.3.4/0 is a division; a prefix is `src_ip & 0.0.0.0 == 0.0.0.0`"),
    ("# a comment: 10.0.0.0/8", ""),
    ("if src_ip == 10.0.0.0/64 { drop; }", ""),
    ("if src_ip / 256 == 1 { drop; }", ""),
    ("if src_ip & 255.0.0.0 == 10.0.0.0 { drop; }", ""),
]
PCAPNG = bytes.fromhex("0a0d0d0a1c0000004d3c2b1a01000000ffffffffffffffff1c000000")
# Files that are no captures, and why.
NO_CAPTURES = {
    "short.pcapng": (PCAPNG[:23], "it has 23 bytes, and the header of a capture has 24"),
    "magic.pcapng": (PCAPNG[:8] + PCAPNG[11:12] + PCAPNG[9:], "it begins as pcapng does, and its byte-order magic is 1a3c2b1a"),
    "version.pcapng": (PCAPNG[:12] + b"\2" + PCAPNG[13:], "it is pcapng of version 2, and only version 1 is read"),
    "length.pcapng": (PCAPNG[:4] + b"\x1e" + PCAPNG[5:], "it is pcapng whose section header says that it has 30 bytes"),
    "big.pcapng": (bytes.fromhex("0a0d0d0a 00000018 1a2b3c4d 00010000 ffffffff ffffffff 00000018"), "it is pcapng whose section header says that it has 24 bytes"),
    "a b's.snoop": (b"snoop\0\0\0\0\0\0\2\0\0\0\4", "it is a snoop capture: editcap -F nsecpcap './a b'\\''s.snoop' NEW.pcap makes a classic capture of it"),
    "k.pcap": (bytes.fromhex("34cdb2a1") + EMPTY[4:], "it is a capture of Kuznetzov's form: editcap -F nsecpcap k.pcap NEW.pcap makes a classic capture of it"),
    "s.snoop": (b"snoop\0\0\0\0\0\0\2\0\0\0\4", "it is a snoop capture: editcap -F nsecpcap s.snoop NEW.pcap makes a classic capture of it"),
    "n.cap": (b"GMBU" + bytes(60), "it is a capture of Network Monitor: editcap -F nsecpcap n.cap NEW.pcap makes a classic capture of it"),
    "z.pcap.gz": (gzip.compress(EMPTY), "it is compressed by gzip: zcat z.pcap.gz >NEW.pcap unpacks it"),
    "z.pcap.xz": (lzma.compress(EMPTY), "it is compressed by xz: xzcat z.pcap.xz >NEW.pcap unpacks it"),
    "z.pcap.bz2": (bz2.compress(EMPTY), "it is compressed by bzip2: bzcat z.pcap.bz2 >NEW.pcap unpacks it"),
    "z.pcap.zst": (bytes.fromhex("28b52ffd2000010000"), "it is compressed by zstd: zstdcat z.pcap.zst >NEW.pcap unpacks it"),
    "any.pcap": (EMPTY[:20] + b"\x71\0\0\0", "its link type is 113 (Linux cooked, as of tcpdump -i any), and only Ethernet (1) is read: capture on one Ethernet interface"),
    "raw.pcap": (bytes.fromhex("a1b2c3d4 00020004 00000000 00000000 00040000 00000065"), "its link type is 101 (raw IP), and only Ethernet (1) is read: capture on one Ethernet interface"),
    "other.pcap": (EMPTY[:20] + b"\x93\0\0\0", "its link type is 147, and only Ethernet (1) is read: capture on one Ethernet interface"),
    "empty.pcap": (b"", "it is empty, and the header of a capture has 24 bytes"),
    "text.pcap": (b"nf x { ports 1; on 0 { drop; } }", "it begins with the bytes 6e662078, and no capture does"),
}
THERE = "There are check explain keys certify run replay gen hash help summary show spread card draw plot split"
KEY = "0123456789" * 8
# Command lines with one wrong word, and what is told of it; there are the files of command_lines.py.
WRONG_WORDS = [
    ("chek fw.nf", f"chek is no command; did you mean check? {THERE}"),
    ("rpelay fw.nf", f"rpelay is no command; did you mean replay? {THERE}"),
    ("sumary o", f"sumary is no command; did you mean summary? {THERE}"),
    ("frobnicate", f"frobnicate is no command; {THERE.replace('There', 'there')}"),
    ("run fw.nf o left.pcap right.pcap --worker 2", "--worker is no option of run; did you mean --workers? It has --workers --mode --max-packets --table --key-bytes --pcapng"),
    ("run fw.nf o left.pcap right.pcap -w 2", "-w is no option of run; it has --workers --mode --max-packets --table --key-bytes --pcapng"),
    ("check fw.nf --mode auto", "--mode is no option of check, which has none"),
    ("check fw.nf --table 512", "--table is no option of check, which has none"),
    ("keys fw.nf --key 00", "--key is no option of keys; did you mean --key-bytes? It has --table --key-bytes --proof"),
    ("keys fw.nf --table 256", "--table is 128 or 512, not 256"),
    ("explain fw.nf --table=0512", "--table is 128 or 512, not 0512"),
    ("run fw.nf o left.pcap right.pcap --table 512 --table 512", "--table stands twice"),
    ("run fw.nf o left.pcap right.pcap --key-bytes 48", "--key-bytes is 40 or 52, not 48"),
    ("gen fw.nf o 1 4 1 --key-bytes=", "--key-bytes is 40 or 52, not nothing"),
    ("hash 1.2.3.4:1 1.2.3.4:2 --key-bytes", "--key-bytes wants a value"),
    ("replay fw.nf none.journal none left.pcap right.pcap --table 128", "--table is no option of replay; it has --max-packets --pcapng"),
    ("run fw.nf o left.pcap right.pcap --workers 32", "--workers is 1 to 16, not 32"),
    ("run fw.nf o left.pcap right.pcap --workers=0", "--workers is 1 to 16, not 0"),
    ("run fw.nf o left.pcap right.pcap --workers=", "--workers is 1 to 16, not nothing"),
    ("run fw.nf o left.pcap right.pcap --workers", "--workers wants a value"),
    ("run fw.nf o left.pcap right.pcap --workers 2 --workers 2", "--workers stands twice"),
    ("run fw.nf o left.pcap right.pcap --max-packets 1e6", "--max-packets is 0 to 4294967295, not 1e6"),
    ("run fw.nf o left.pcap right.pcap --pcapng --pcapng", "--pcapng stands twice"),
    ("gen fw.nf o 1 4 1 --pcapng=on", "--pcapng has no value"),
    ("run fw.nf o left.pcap right.pcap --mode sharded", "--mode is auto, shard or lock, not sharded"),
    ("run fw.nf o left.pcap", "fw.nf has 2 ports, and takes as many captures: 1 given"),
    ("replay fw.nf none.journal none left.pcap right.pcap one.pcap", "fw.nf has 2 ports, and takes as many captures: 3 given"),
    ("run fw.nf o a b c d e", "a function has 4 ports at most, and takes as many captures: 5 given"),
    ("run fw.nf o", "run takes NF OUT CAPTURE..: 2 names given"),
    ("--workers 2 run fw.nf o left.pcap right.pcap", f"--workers stands where a command does, and options stand behind it; {THERE.replace('There', 'there')}"),
    ("gen fw.nf o x 4 1", "SEED is 0 to 4294967295, not x"),
    ("gen fw.nf o 1 4 1 --max-packets 2", "--max-packets is no option of gen; it has --workers --mode --table --key-bytes --pcapng"),
    ("hash fe80::1:1 1.2.3.4:2", "fe80::1:1 is no address and port, as 10.0.0.1:80"),
    ("hash 1.2.3.4 1.2.3.4:2", "1.2.3.4 is no address and port, as 10.0.0.1:80"),
    ("hash 1.2.3.4:1 1.2.3.256:2", "1.2.3.256:2 is no address and port, as 10.0.0.1:80"),
    ("hash 1.2.3.4:1 1.2.3:2", "1.2.3:2 is no address and port, as 10.0.0.1:80"),
    ("hash 1.2.3.4:1 1.2.3.4:65536", "1.2.3.4:65536 is no address and port, as 10.0.0.1:80"),
    ("hash 1.2.3.4:1 1.2.3.4:2 --key 00ff", "--key is 80 or 104 digits of 0-9 a-f, not 4"),
    (f"hash 1.2.3.4:1 1.2.3.4:2 --key {KEY[1:]}F", "--key is 80 or 104 digits of 0-9 a-f, and has another sign"),
    ("hash 1.2.3.4:1", "hash takes SRC:PORT DST:PORT: 1 name given"),
]
# Of functions of command_lines.py and captures for them, how the summary of a run begins.
SUMMARIES = [
    ("run fw.nf o left.pcap right.pcap --workers 4", "ran 2 shard 4\n", "2 packets, mode shard, 4 workers, "),
    ("run bridge.nf o left.pcap right.pcap --workers 2", "ran 2 lock 2\n", "2 packets, mode lock, 2 workers, "),
    ("run fw.nf o left.pcap right.pcap --max-packets 1", "ran 1 one 1\n", "1 packet, mode one, 1 worker, "),
]
# What the keys of the firewall go by: none of the first 127 bits is without a 1 among the seven from it on.
EVERY = "index by src_ip bits 0-31 of 32, dst_ip bits 0-31 of 32, src_port bits 0-15 of 16, dst_port bits 0-15 of 16"
INDEX_BITS = "".join(f"port {port}: {EVERY}; up to 128 of 128 entries\n" for port in (0, 1))
INDEX_BITS_OF_512 = INDEX_BITS.replace("128 of 128", "512 of 512")
