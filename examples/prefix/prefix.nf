# Over IPv4 hosts inside (port 0) share the address 203.0.113.1 outside (port 1), as in nat.nf. Over IPv6 each keeps the
# lower half of its address: the prefix fd00:0:0:1::/64 inside is 2001:db8:0:1::/64 outside, and nothing is remembered.
# The upper half of an address is what it is divided by 2^64, the lower half what is left.
nf prefix {
  ports 2;
  chain conns 60000 lifetime 60000000000 {
    map by_in(client: 32, cport: 16, server: 32, sport: 16);
    fixed far: 32; fixed fport: 16;
  }
  on 0 {
    get e = conns.by_in(src_ip, src_port, dst_ip, dst_port) {
      touch e; set src_ip = 203.0.113.1; set src_port = e.index + 1024; forward 1;
    } else {
      new f = conns(client = src_ip, cport = src_port, server = dst_ip, sport = dst_port,
                    far = dst_ip, fport = dst_port) {
        set src_ip = 203.0.113.1; set src_port = f.index + 1024; forward 1;
      }
    }
    drop;
  }
  on 0 six {
    if src_ip6 / (0x100000000 * 0x100000000) == 0xfd00000000000001 {
      set src_ip6 = 0x20010db800000001 * (0x100000000 * 0x100000000) + src_ip6 % (0x100000000 * 0x100000000);
      forward 1;
    }
    drop;
  }
  on 1 {
    if dst_port < 1024 { drop; }
    find e = conns[dst_port - 1024] where (far = src_ip, fport = src_port) {
      touch e; set dst_ip = e.client; set dst_port = e.cport; forward 0;
    }
    drop;
  }
  on 1 six {
    if dst_ip6 / (0x100000000 * 0x100000000) == 0x20010db800000001 {
      set dst_ip6 = 0xfd00000000000001 * (0x100000000 * 0x100000000) + dst_ip6 % (0x100000000 * 0x100000000);
      forward 0;
    }
    drop;
  }
}
