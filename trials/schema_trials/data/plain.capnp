# A schema without an interface.
@0xa1c5b39e2f7d4862;

struct Point @0xc1a1b2c3d4e5f611 {
  x @0 :Int32;
  y @1 :Int32;
}
