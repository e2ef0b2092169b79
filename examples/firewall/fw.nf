# A firewall. Port 0 is the inside, port 1 the outside. Only answers come in: a packet from
# outside passes where a packet of its flow went out, and the flow was used in the last 60 seconds.

nf fw {
  ports 2;

  # Up to 1,024 flows, each forgotten 60,000,000,000 ns after it was last used. The client is the host
  # inside, the server the one outside; cport and sport are their ports.
  chain flows 1024 lifetime 60000000000 {
    map by_flow(client: 32, server: 32, cport: 16, sport: 16);
  }

  # From inside: know the flow, or begin one. Where there is room for no more flows, drop.
  on 0 {
    get e = flows.by_flow(src_ip, dst_ip, src_port, dst_port) {
      touch e;
    } else {
      new f = flows(client = src_ip, server = dst_ip, cport = src_port, sport = dst_port) { }
      full { drop; }
    }
    forward 1;
  }

  # From outside: the same flow the other way round, and nothing else.
  on 1 {
    get e = flows.by_flow(dst_ip, src_ip, dst_port, src_port) {
      touch e;
      forward 0;
    }
    drop;
  }
}
