# Sends each packet on to the other port, and remembers nothing.
nf nop {
  ports 2;
  on 0 { forward 1; }
  on 1 { forward 0; }
}
