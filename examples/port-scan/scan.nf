# A source outside (port 0) may try three new ports in ten seconds; what goes to a port that it has tried passes. An
# entry is not renewed, so a source is counted anew ten seconds after its first packet.
nf scan {
  ports 2;
  chain sources 1024 lifetime 10000000000 { map by_source(source: 32); free count: 16; }
  chain tried 4096 lifetime 10000000000 { map by_port(source: 32, port: 16); }
  on 0 {
    get t = tried.by_port(src_ip, dst_port) { forward 1; }
    get s = sources.by_source(src_ip) {
      if s.count >= 3 { drop; }
      new t = tried(source = src_ip, port = dst_port) { s.count = s.count + 1; forward 1; }
    } else {
      new s = sources(source = src_ip) {
        new t = tried(source = src_ip, port = dst_port) { s.count = 1; forward 1; }
      }
    }
    drop;
  }
  on 1 { forward 0; }
}
