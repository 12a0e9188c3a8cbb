@0xb2f9a3c4d5e60718;
# The interface of all programs. What a call does, each program says in a closure.

interface Thing @0xc3a1b2d4e5f60719 {
  ask @0 (number :UInt32, thing :Thing) -> (thing :Thing);
}
