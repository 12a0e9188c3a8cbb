// Two calls through one reference, which come in over the connection in their order, are delivered in the other one.
#include "found.h"

// What vat 2's object gets, where the calls are made so many turns of the loop after it answered what they wait for.
static kj::Vector<uint> delivered(uint turns) {
  Vats vats;
  auto echo = [](Thing::Client thing, Thing::Client given) {
    auto request = thing.echoRequest();
    request.setThing(given);
    return request.send();
  };
  auto call = vats.one.peer.laterRequest().send();
  Thing::Client result = call.getThing();
  auto next = echo(result, result);            // waits in vat 2 for the result
  auto last = echo(next.getThing(), result);   // waits in vat 2 for the result of that
  Thing::Client reference = last.getThing();
  vats.scope.poll();
  vats.two.answer(vats.two.object);            // all of these are vat 2's object
  vats.loop.run(turns);
  auto first = ping(reference, 1);
  auto second = ping(reference, 2);
  vats.scope.poll();
  return kj::mv(vats.two.pings);
}

int main() {
  for (uint turns = 0; turns < 50; turns++) {
    auto order = kj::str(delivered(turns));
    if (order == "1, 2") continue;
    printf("sent 1, 2, delivered %s, with %u turns before them\n", order.cStr(), turns);
    return 1;
  }
  puts("sent 1, 2, delivered 1, 2");
}
