// A call that came back to its vat waits there for the echo of one embargo. A later one, through the same reference,
// which waited for the echo of another, goes first.
#include "found.h"

// What vat 2's object gets of three calls, with so many turns of the loop between the first and vat 3's answer, between
// that and the second, and between that and the third.
static kj::Vector<uint> delivered(uint before, uint behind, uint between) {
  Vats vats;
  auto pipe = kj::newTwoWayPipe();             // joins vats 2 and 3
  capnp::TwoPartyClient end(*pipe.ends[0], vats.two.object, Side::CLIENT);
  Vat three(*pipe.ends[1], Side::SERVER);
  auto tail = vats.two.peer.tailRequest();
  tail.setThing(end.bootstrap().castAs<Thing>());
  auto call = tail.send();                     // vat 1's object ends it by a tail call through vat 2 to vat 3's
  Thing::Client reference = call.getThing();
  vats.scope.poll();
  auto first = ping(reference, 1);
  vats.loop.run(before);
  three.answer(three.peer);                    // from here on the reference is vat 2's own object
  vats.loop.run(behind);
  auto second = ping(reference, 2);            // to vat 1, which sends it back
  vats.loop.run(between);
  auto third = ping(reference, 3);             // stays in vat 2
  vats.scope.poll();
  return kj::mv(vats.two.pings);
}

int main() {
  for (uint before = 0; before < 20; before++) {
    for (uint behind = 0; behind < 50; behind += 5) {
      for (uint between = 0; between < 100; between += 4) {
        auto order = kj::str(delivered(before, behind, between));
        if (order == "1, 2, 3") continue;
        printf("sent 1, 2, 3, delivered %s, with %u, %u, %u turns\n", order.cStr(), before, behind, between);
        return 1;
      }
    }
  }
  puts("sent 1, 2, 3, delivered 1, 2, 3");
}
