# Learns at which port each MAC address is; what goes to one that it doesn't know goes to every other port.
nf bridge {
  ports 3;
  chain macs 1024 lifetime 300000000000 { map by_mac(mac: 48); free at: 8; }
  on 0 {
    get e = macs.by_mac(src_mac) { touch e; e.at = 0; }
    else { new f = macs(mac = src_mac) { f.at = 0; } }
    get g = macs.by_mac(dst_mac) { if g.at == 0 { drop; } forward g.at; }
    flood;
  }
  on 1 {
    get e = macs.by_mac(src_mac) { touch e; e.at = 1; }
    else { new f = macs(mac = src_mac) { f.at = 1; } }
    get g = macs.by_mac(dst_mac) { if g.at == 1 { drop; } forward g.at; }
    flood;
  }
  on 2 {
    get e = macs.by_mac(src_mac) { touch e; e.at = 2; }
    else { new f = macs(mac = src_mac) { f.at = 2; } }
    get g = macs.by_mac(dst_mac) { if g.at == 2 { drop; } forward g.at; }
    flood;
  }
}
