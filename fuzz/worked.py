"""Functions whose analysis was worked out by hand: the text, and what `check`, `explain` and `keys` say of it for a
network card; and hashes of Microsoft's verification suite.

`check` is what it prints, `objects` what `explain` prints before the verdict, and `verdict` what `keys` prints; each is
None where it wasn't worked out.
"""
from dataclasses import dataclass

from keys import DEFAULT, USUAL, Card


@dataclass
class Worked:
    text: str
    check: str = None
    objects: str = None
    verdict: str = None
    card: Card = USUAL


@dataclass
class Hash:
    """What `hash` prints of a packet under the default key."""
    source: str
    target: str
    said: str
    card: Card = USUAL
    workers: int = 1


def zeros(count):
    """So many bytes of a key."""
    return "00" * count


def sharded(*keys):
    return "".join(["sharded\n", *(f"key {port} {key}\n" for port, key in enumerate(keys))])


def by_fields(*parts):
    """One port, one chain: a look-up and a `new` of these labels, each with its width and its field."""
    labels = ", ".join(f"{label}: {width}" for label, width, _ in parts)
    values = ", ".join(field for _, _, field in parts)
    gives = ", ".join(f"{label} = {field}" for label, _, field in parts)
    return (
        f"nf bysrc {{ ports 1; chain s 16 lifetime 1000 {{ map m({labels}); }} "
        f"on 0 {{ get e = s.m({values}) {{ touch e; }} else {{ new f = s({gives}) {{ }} }} forward 0; }} }}"
    )


FIREWALL = """\
nf fw {
  ports 2;
  chain flows 1 lifetime 60000000000 { map by_flow(client: 32, server: 32, cport: 16, sport: 16); }
  on 0 {
    get e = flows.by_flow(src_ip, dst_ip, src_port, dst_port) { touch e; }
    else {
      new f = flows(client = src_ip, server = dst_ip, cport = src_port, sport = dst_port) { }
      full { drop; }
    }
    forward 1;
  }
  on 1 {
    get e = flows.by_flow(dst_ip, src_ip, dst_port, src_port) { touch e; forward 0; }
    drop;
  }
}
"""
POLICER = """\
nf policer {
  ports 2;
  chain hosts 5 lifetime 10 { map by_dst(host: 32); free used: 64; }
  on 0 { forward 1; }
  on 1 {
    get e = hosts.by_dst(dst_ip) {
      e.used = e.used + length;
      if e.used > 1000 { drop; }
      forward 0;
    } else {
      new f = hosts(host = dst_ip) { f.used = length; forward 0; }
    }
    drop;
  }
}
"""
TRANSLATOR = """\
nf nat {
  ports 2;
  chain conns 60000 lifetime 60000000000 {
    map by_in(client: 32, cport: 16, server: 32, sport: 16);
    fixed far: 32; fixed fport: 16;
  }
  on 0 {
    get e = conns.by_in(src_ip, src_port, dst_ip, dst_port) {
      touch e; set src_ip = 203.0.113.1; set src_port = e.index + 1024; forward 1;
    } else {
      new f = conns(client = src_ip, cport = src_port, server = dst_ip, sport = dst_port,
                    far = dst_ip, fport = dst_port) {
        set src_ip = 203.0.113.1; set src_port = f.index + 1024; forward 1;
      }
    }
    drop;
  }
  on 1 {
    if dst_port < 1024 { drop; }
    find e = conns[dst_port - 1024] where (far = src_ip, fport = src_port) {
      touch e; set dst_ip = e.client; set dst_port = e.cport; forward 0;
    }
    drop;
  }
}
"""
BRIDGE = """\
nf bridge {
  ports 2;
  chain macs 4 lifetime 10 { map by_mac(mac: 48); free at: 8; }
  on 0 {
    get e = macs.by_mac(src_mac) { touch e; e.at = 0; }
    else { new f = macs(mac = src_mac) { f.at = 0; } }
    get g = macs.by_mac(dst_mac) { forward g.at; }
    flood;
  }
  on 1 {
    get e = macs.by_mac(src_mac) { touch e; e.at = 1; }
    else { new f = macs(mac = src_mac) { f.at = 1; } }
    get g = macs.by_mac(dst_mac) { forward g.at; }
    flood;
  }
}
"""
HIDDEN = """\
nf hidden {
  ports 1;
  chain c 4 lifetime 10 { map s(x: 32); map d(y: 32); }
  on 0 {
    get e = c.d(dst_ip) { touch e; } else { new f = c(x = src_ip, y = dst_ip) { } }
    forward 0;
  }
}
"""
BOTH = """\
nf both {
  ports 1;
  chain s 4 lifetime 10 { map m(x: 32); }
  chain d 4 lifetime 10 { map m(y: 32); }
  on 0 {
    get e = s.m(src_ip) { touch e; } else { new f = s(x = src_ip) { } }
    get g = d.m(dst_ip) { touch g; } else { new h = d(y = dst_ip) { } }
    forward 0;
  }
}
"""
COUNT = """\
nf count {
  ports 1;
  array hits 65536 : 64;
  on 0 { hits[dst_port] = hits[dst_port] + 1; forward 0; }
}
"""


def tests(count):
    """A handler with so many tests of different texts, one behind the other."""
    return f"nf p {{ ports 1; on 0 {{ {' '.join(f'if src_port < {number} {{ }}' for number in range(count))} }} }}"


# One port, whose handler for IPv6 alone shares state.
BY_SOURCE_6 = """\
nf bysrc {
  ports 1;
  chain s 16 lifetime 1000 { map m(x: 128); }
  on 0 { forward 0; }
  on 0 six { get e = s.m(src_ip6) { touch e; } else { new f = s(x = src_ip6) { } } forward 0; }
}
"""
CASES = {
    "a firewall": Worked(
        FIREWALL, "ok fw: ports 2, chains 1, arrays 0, paths 4 2\n", None,
        sharded(f"6d5a56da56db6d5a6d5a56db6d5a56da{zeros(24)}", f"56db6d5a6d5a56da56db6d5a56db6d5a{zeros(24)}"),
    ),
    "a policer": Worked(
        POLICER, None,
        "nf policer\n"
        "object hosts rule J1 keeps host\n"
        "site 1 get by_dst host=dst_ip\n"
        "site 1 new host=dst_ip\n"
        "site 1 name by_dst host=dst_ip\n",
        sharded(DEFAULT, f"{zeros(7)}01{zeros(32)}"),
    ),
    "a policer, 512 entries and keys of 52 bytes": Worked(
        POLICER, None, None,
        sharded(f"{DEFAULT}6d5a56da255b0ec24167253d", f"{zeros(7)}01{zeros(44)}"), Card(512, 52),
    ),
    "a policer, 512 entries": Worked(
        POLICER, None, None, sharded(DEFAULT, f"{zeros(7)}01{zeros(32)}"), Card(512, 40),
    ),
    "a firewall, keys of 52 bytes": Worked(
        FIREWALL, None, None,
        sharded(f"6d5a56da56db6d5a6d5a56db6d5a56da{zeros(36)}", f"56db6d5a6d5a56da56db6d5a56db6d5a{zeros(36)}"),
        Card(128, 52),
    ),
    "by source, IPv6 alone": Worked(
        BY_SOURCE_6, "ok bysrc: ports 1, chains 1, arrays 0, paths 1/4\n",
        "nf bysrc\n"
        "object s rule J1 keeps x\n"
        "site 0 six get m x=src_ip6\n"
        "site 0 six new x=src_ip6\n"
        "site 0 six name m x=src_ip6\n",
        # The hash of an IPv6 packet reads the source by the first 159 bits of the key: all others are 0.
        sharded(f"6d5a56da255b0ec24167253d43a38fb0{zeros(24)}"),
    ),
    "by source": Worked(by_fields(("x", 32, "src_ip")), None, None, sharded(f"6d5a56da{zeros(36)}")),
    "an address translator": Worked(
        TRANSLATOR, "ok nat: ports 2, chains 1, arrays 0, paths 4 3\n",
        "nf nat\n"
        "object conns rule J5 keeps server sport far fport\n"
        "site 0 get by_in client=src_ip cport=src_port server=dst_ip sport=dst_port far=dst_ip fport=dst_port\n"
        "site 0 new client=src_ip cport=src_port server=dst_ip sport=dst_port far=dst_ip fport=dst_port\n"
        "site 0 name by_in client=src_ip cport=src_port server=dst_ip sport=dst_port far=dst_ip fport=dst_port\n"
        "site 1 find server=src_ip sport=src_port far=src_ip fport=src_port\n",
        sharded(f"{zeros(7)}01{zeros(32)}", f"{zeros(3)}01{zeros(36)}"),
    ),
    "one without a guard": Worked(
        TRANSLATOR.replace(" where (far = src_ip, fport = src_port)", ""), None, None, "locked conns J4\n",
    ),
    "by both ports": Worked(
        by_fields(("x", 16, "src_port"), ("y", 16, "dst_port")), None, None,
        sharded(f"{zeros(11)}0143a38fb0{zeros(24)}"),
    ),
    "by destination port": Worked(
        by_fields(("x", 16, "dst_port")), None, None, sharded(f"{zeros(13)}018fb0{zeros(24)}"),
    ),
    "by source port": Worked(by_fields(("x", 16, "src_port")), None, None, "locked hash\n"),
    "a counter by destination port": Worked(
        COUNT, "ok count: ports 1, chains 0, arrays 1, paths 1\n",
        "nf count\n"
        "object hits rule J1 keeps index\n"
        "site 0 store index=dst_port\n"
        "site 0 load index=dst_port\n",
        sharded(f"{zeros(13)}018fb0{zeros(24)}"),
    ),
    "one chain by source and one by destination": Worked(BOTH, None, None, "locked hash\n"),
    "a bridge": Worked(BRIDGE, None, None, "locked macs J4\n"),
    "two keys, of which one is looked up": Worked(
        HIDDEN, None,
        "nf hidden\n"
        "object c rule J3 keeps -\n"
        "site 0 get d y=dst_ip\n"
        "site 0 new x=src_ip y=dst_ip\n"
        "site 0 name s x=src_ip\n"
        "site 0 name d y=dst_ip\n",
        "locked c J3\n",
    ),
    # The cells stand as the text has them, not as the labels are declared.
    "cells given out of order": Worked(
        "nf w { ports 1; array a 8 : 16; chain c 4 lifetime 1 { map m(l: 16); fixed k: 16; } "
        "on 0 { new e = c(k = a[src_port], l = a[dst_port + a[1]]) { a[dst_port] = a[src_port] + a[2]; } } }",
        "ok w: ports 1, chains 1, arrays 1, paths 3\n",
        "nf w\n"
        "object a rule J4 keeps -\n"
        "site 0 load index=src_port\n"
        "site 0 load -\n"
        "site 0 load -\n"
        "site 0 store index=dst_port\n"
        "site 0 load index=src_port\n"
        "site 0 load -\n"
        "object c rule J4 keeps -\n"
        "site 0 new -\n"
        "site 0 name m -\n",
        "locked a J4\n",
    ),
    # `k` is known by `l`, which is declared before `m`, though the guard has `m` first.
    "guards given out of order": Worked(
        "nf g { ports 1; chain c 4 lifetime 1 { map by(l: 32, m: 32); fixed k: 32; } "
        "on 0 { find e = c[0] where (m = dst_ip, l = src_ip) { touch e; } "
        "new f = c(k = dst_ip, m = (dst_ip), l = dst_ip) { } } }",
        "ok g: ports 1, chains 1, arrays 0, paths 6\n",
        "nf g\n"
        "object c rule J5 keeps l m k\n"
        "site 0 find l=src_ip m=dst_ip k=src_ip\n"
        "site 0 new l=dst_ip m=dst_ip k=dst_ip\n"
        "site 0 name by l=dst_ip m=dst_ip k=dst_ip\n",
        # The `find` alone leaves no part to the ports, the `new` none to the source.
        sharded(f"{zeros(7)}01{zeros(32)}"),
    ),
    "handlers out of order, one object unused and one read only": Worked(
        "nf h { ports 2; array r 4 : 8; chain u 4 lifetime 1 { map m(l: 32); } chain s 4 lifetime 1 { fixed x: 16; } "
        "on 1 { if r[0] == src_port { } find e = s[1] where (x = dst_port) { } "
        "if proto == 6 { if proto == 17 { new f = u(l = src_ip) { } } } } "
        "on 0 { new e = s(x = src_port) { } taken { drop; } } }",
        "ok h: ports 2, chains 2, arrays 1, paths 3 8\n",
        "nf h\n"
        "object r read only\n"
        "object u unused\n"
        "object s rule J5 keeps x\n"
        "site 0 new x=src_port\n"
        "site 1 find x=dst_port\n",
        "locked hash\n",
    ),
    "twelve tests": Worked(tests(12), "ok p: ports 1, chains 0, arrays 0, paths 4096\n"),
    "thirteen tests": Worked(tests(13), "refused P1 at 1:17\n"),
    "too many at IPv6": Worked(
        tests(13).replace("on 0", "on 0 { } on 0 six"),
        "refused P1 at 1:26\n",
    ),
    "a field that is one of two numbers": Worked(
        "nf p { ports 1; on 0 { if src_port == 1 { } if src_port == 2 { } } }",
        "ok p: ports 1, chains 0, arrays 0, paths 3\n",
    ),
}
ROW, LATER = ("66.9.149.187:2794", "161.142.100.80:1766"), ("199.92.111.2:14230", "65.69.140.83:4739")
HASHES = {
    "the first packet": Hash(*ROW, "51ccc178 120 0"),
    "the first packet, 16 queues": Hash(*ROW, "51ccc178 120 8", workers=16),
    "the first packet, 512 entries": Hash(*ROW, "51ccc178 376 0", Card(512, 40)),
    "the first packet, 512 entries and three queues": Hash(*ROW, "51ccc178 376 1", Card(512, 40), 3),
    "the first packet, 512 entries and keys of 52 bytes": Hash(*ROW, "51ccc178 376 0", Card(512, 52)),
    "the first packet, keys of 52 bytes": Hash(*ROW, "51ccc178 120 0", Card(128, 52)),
    "the second packet": Hash(*LATER, "c626b0ea 106 10", workers=16),
    "the second packet, 512 entries": Hash(*LATER, "c626b0ea 234 0", Card(512, 40)),
}
