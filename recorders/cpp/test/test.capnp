@0xd6ac1b0e7a4a7d11;

using Cxx = import "/capnp/c++.capnp";

interface Counter {
  # An object with a number. Before 1.0 the method says itself whether it may be canceled: the Makefile takes that out here.
  next @0 (by :UInt32) -> (value :UInt32);
  same @1 () -> (counter :Counter);
  call @2 (back :Counter) -> (value :UInt32, back :Counter);
  make @3 () -> (counter :Counter, list :List(Counter));
  fail @4 () -> (counter :Counter);
  never @5 () -> (counter :Counter) $Cxx.allowCancellation;
  hold @6 (counter :Counter) -> ();
  held @7 () -> (counter :Counter);
  later @8 () -> (counter :Counter);
  settle @9 (how :UInt32) -> ();
  pass @10 (counters :List(Counter)) -> (counters :List(Counter));
  nothing @11 () -> ();
  handOn @12 () -> (counter :Counter);
  push @13 (by :UInt32) -> stream;
  mine @14 (steps :UInt32) -> (counter :Counter);
  none @15 () -> (counter :Counter);
  wait @16 () -> (counter :Counter);
  named @17 () -> (counter :Counter);
  echo @18 (counter :Counter) -> (counter :Counter);
  open @19 (counter :Counter) -> (counter :Counter);
}
