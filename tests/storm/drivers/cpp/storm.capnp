@0xb0c6f3f1a2d94e57;

using Cxx = import "/capnp/c++.capnp";

struct Asked {
  k @0 :UInt32;     # what the script calls this call by, 0 if by nothing
  name @1 :Text;    # of what the object gives
  cap @2 :Thing;
  call @3 :Text;    # the script's name of this call, where the object keeps something or waits
}

struct Given {
  cap @0 :Thing;
}

interface Thing {
  # The object that all scripts call. Before 1.0 no schema says that a method may be canceled: the Makefile takes that
  # out here.
  mute @0 () -> ();
  ping @1 Asked -> Given;
  self @2 Asked -> Given;
  get @3 Asked -> Given;
  make @4 Asked -> Given;
  echo @5 Asked -> Given;
  hold @6 Asked -> Given;
  slow @7 Asked -> Given $Cxx.allowCancellation;
  slowecho @8 Asked -> Given;
  fail @9 Asked -> Given;
  tail @10 Asked -> Given;
  callback @11 Asked -> Given;
  stream @12 Asked -> stream;
  slowget @13 Asked -> Given;
}
