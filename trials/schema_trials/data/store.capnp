# A schema whose interfaces stand at the top, in a struct and in an interface, inherit, and are generic. `capnp compile -o-
# store.capnp > store.schema` (Debian's capnp 0.9.2) made the file beside this one.
@0xa1c5b39e2f7d4861;

interface Store @0xc1a1b2c3d4e5f601 {
  open @0 (name :Text) -> (book :Book);
  list @2 () -> (names :List(Text));
  close @1 ();
}

interface Book @0xc1a1b2c3d4e5f602 extends(Readable) {
  turn @0 (page :UInt32) -> (text :Text);
  interface Mark @0xc1a1b2c3d4e5f603 {
    move @0 (to :UInt32);
  }
}

interface Readable @0xc1a1b2c3d4e5f604 {
}

struct Shelf @0xc1a1b2c3d4e5f605 {
  books @0 :List(Book);
  enum Order @0xc1a1b2c3d4e5f606 {
    byName @0;
    byPlace @1;
  }
  interface Keeper @0xc1a1b2c3d4e5f607 (Key) {
    find @0 (key :Key) -> (shelf :Shelf);
    put @1 [Thing] (key :Key, thing :Thing) -> stream;
  }
}

const limit @0xc1a1b2c3d4e5f608 :UInt32 = 7;
annotation note @0xc1a1b2c3d4e5f609 (interface) :Text;
