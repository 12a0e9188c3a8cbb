@0xd3a1c0f28b6e4795;

struct Given {
  thing @0 :Thing;
}

interface Thing {
  # The object that all programs call; found.h has it.
  ping @0 (number :UInt32);           # notes the number
  echo @1 (thing :Thing) -> Given;    # answers what it is given
  later @2 () -> Given;               # answers what the program says, once it says so
  tail @3 (thing :Thing) -> Given;    # ends by a tail call of `later` on what it is given
  settled @4 (thing :Thing);          # answers when what it is given is kept or broken
}
