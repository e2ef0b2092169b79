# A bridge whose hosts stand in its text. Their MAC addresses are 02:00:00:00:00:NN; `port_of` has for each NN the port
# of the host and 1, and 0 where there is none. What goes to any other address goes to every other port.
nf static {
  ports 3;
  array port_of 256 : 8 = { 0, 1, 1, 2, 3, 3 };
  on 0 {
    if dst_mac / 256 != 0x0200000000 { flood; }
    if port_of[dst_mac % 256] == 0 { flood; }
    if port_of[dst_mac % 256] == 1 { drop; }
    forward port_of[dst_mac % 256] - 1;
  }
  on 1 {
    if dst_mac / 256 != 0x0200000000 { flood; }
    if port_of[dst_mac % 256] == 0 { flood; }
    if port_of[dst_mac % 256] == 2 { drop; }
    forward port_of[dst_mac % 256] - 1;
  }
  on 2 {
    if dst_mac / 256 != 0x0200000000 { flood; }
    if port_of[dst_mac % 256] == 0 { flood; }
    if port_of[dst_mac % 256] == 3 { drop; }
    forward port_of[dst_mac % 256] - 1;
  }
}
