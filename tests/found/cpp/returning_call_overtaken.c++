// A call that goes from vat 1 to vat 2, back to 1 and to 2 again is overtaken by a later one, through the same
// reference, that goes straight from 1 to 2.
#include "found.h"

// What vat 2's object gets, where the second call is made so many turns of the loop after the reference's answer.
static kj::Vector<uint> delivered(uint turns) {
  Vats vats;
  auto tail = vats.one.peer.tailRequest();
  tail.setThing(vats.one.object);
  auto call = tail.send();                     // vat 2's object ends it by a tail call to vat 1's
  Thing::Client reference = call.getThing();
  vats.scope.poll();
  auto first = ping(reference, 1);             // to vat 2, which sends it back to vat 1
  vats.one.answer(vats.one.peer);              // from here on the reference is vat 2's object
  vats.loop.run(turns);
  auto second = ping(reference, 2);
  vats.scope.poll();
  return kj::mv(vats.two.pings);
}

int main() {
  for (uint turns = 0; turns < 50; turns++) {
    auto order = kj::str(delivered(turns));
    if (order == "1, 2") continue;
    printf("sent 1, 2, delivered %s, with %u turns between them\n", order.cStr(), turns);
    return 1;
  }
  puts("sent 1, 2, delivered 1, 2");
}
