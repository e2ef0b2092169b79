# Lets hosts inside (port 0) reach out over IPv4 and over IPv6, and lets only the answers back in (port 1). What comes
# over IPv6 has handlers of its own, and flows of its own: its addresses are 128 bits wide.
nf dual {
  ports 2;
  chain flows 1024 lifetime 60000000000 { map by_flow(client: 32, server: 32, cport: 16, sport: 16); }
  chain flows6 1024 lifetime 60000000000 { map by_flow(client: 128, server: 128, cport: 16, sport: 16); }
  on 0 {
    get e = flows.by_flow(src_ip, dst_ip, src_port, dst_port) { touch e; }
    else { new f = flows(client = src_ip, server = dst_ip, cport = src_port, sport = dst_port) { } full { drop; } }
    forward 1;
  }
  on 0 six {
    get e = flows6.by_flow(src_ip6, dst_ip6, src_port, dst_port) { touch e; }
    else { new f = flows6(client = src_ip6, server = dst_ip6, cport = src_port, sport = dst_port) { } full { drop; } }
    forward 1;
  }
  on 1 {
    get e = flows.by_flow(dst_ip, src_ip, dst_port, src_port) { touch e; forward 0; }
    drop;
  }
  on 1 six {
    get e = flows6.by_flow(dst_ip6, src_ip6, dst_port, src_port) { touch e; forward 0; }
    drop;
  }
}
