# A client (port 0) may open three connections to each server (port 1) in an hour. A connection is known until it was
# not used for 60 seconds; a client and a server are counted together for an hour from the first one.
nf limit {
  ports 2;
  chain flows 65536 lifetime 60000000000 { map by_flow(client: 32, server: 32, cport: 16, sport: 16); }
  chain pairs 65536 lifetime 3600000000000 { map by_pair(client: 32, server: 32); free opened: 32; }
  on 0 {
    get f = flows.by_flow(src_ip, dst_ip, src_port, dst_port) { touch f; forward 1; }
    get p = pairs.by_pair(src_ip, dst_ip) {
      if p.opened >= 3 { drop; }
      new f = flows(client = src_ip, server = dst_ip, cport = src_port, sport = dst_port) {
        p.opened = p.opened + 1; forward 1;
      }
    } else {
      new p = pairs(client = src_ip, server = dst_ip) {
        new f = flows(client = src_ip, server = dst_ip, cport = src_port, sport = dst_port) {
          p.opened = 1; forward 1;
        }
      }
    }
    drop;
  }
  on 1 { forward 0; }
}
