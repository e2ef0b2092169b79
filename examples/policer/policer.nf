# What comes in from outside (port 1) is at most 4,000 bytes a second for each host inside; what goes out is free.
nf policer {
  ports 2;
  chain hosts 1024 lifetime 1000000000 { map by_dst(host: 32); free used: 64; }
  on 0 { forward 1; }
  on 1 {
    get e = hosts.by_dst(dst_ip) {
      if e.used + length > 4000 { drop; }
      e.used = e.used + length;
      forward 0;
    } else {
      new f = hosts(host = dst_ip) { f.used = length; forward 0; }
    }
    drop;
  }
}
