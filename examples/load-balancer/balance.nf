# Clients (port 0) reach the service 192.0.2.80; up to four servers (port 1) answer for it. A server is known for ten
# seconds after each packet that it sent to 192.0.2.80 itself, its heartbeat. A client's connection stays at its server
# as long as that is known; a new one goes to the server at an index made of the client's address and port, or at the
# next one where none is there.
nf balance {
  ports 2;
  chain servers 4 lifetime 10000000000 { map by_ip(ip: 32); }
  chain flows 4096 lifetime 60000000000 { map by_flow(client: 32, cport: 16, sport: 16); free at: 16; }
  on 0 {
    if dst_ip != 192.0.2.80 { drop; }
    get f = flows.by_flow(src_ip, src_port, dst_port) {
      find b = servers[f.at] { touch f; set dst_ip = b.ip; forward 1; }
      free f;
    }
    find b = servers[(src_ip + src_port) % 4] {
      new f = flows(client = src_ip, cport = src_port, sport = dst_port) {
        f.at = b.index; set dst_ip = b.ip; forward 1;
      }
      drop;
    }
    find b = servers[(src_ip + src_port + 1) % 4] {
      new f = flows(client = src_ip, cport = src_port, sport = dst_port) {
        f.at = b.index; set dst_ip = b.ip; forward 1;
      }
    }
    drop;
  }
  on 1 {
    if dst_ip == 192.0.2.80 {
      get b = servers.by_ip(src_ip) { touch b; } else { new b = servers(ip = src_ip) { } }
      drop;
    }
    get b = servers.by_ip(src_ip) { set src_ip = 192.0.2.80; forward 0; }
    drop;
  }
}
