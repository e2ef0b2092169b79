# Hosts inside (port 0) share the address 203.0.113.1 outside (port 1). The port outside tells the entry, so an answer
# is looked up by number; it passes where it comes from the far end that the entry was made for, whose address and port
# are `far` and `fport`.
nf nat {
  ports 2;
  chain conns 60000 lifetime 60000000000 {
    map by_in(client: 32, cport: 16, server: 32, sport: 16);
    fixed far: 32; fixed fport: 16;
  }
  on 0 {
    get e = conns.by_in(src_ip, src_port, dst_ip, dst_port) {
      touch e; set src_ip = 203.0.113.1; set src_port = e.index + 1024; forward 1;
    } else {
      new f = conns(client = src_ip, cport = src_port, server = dst_ip, sport = dst_port,
                    far = dst_ip, fport = dst_port) {
        set src_ip = 203.0.113.1; set src_port = f.index + 1024; forward 1;
      }
    }
    drop;
  }
  on 1 {
    if dst_port < 1024 { drop; }
    find e = conns[dst_port - 1024] where (far = src_ip, fport = src_port) {
      touch e; set dst_ip = e.client; set dst_port = e.cport; forward 0;
    }
    drop;
  }
}
