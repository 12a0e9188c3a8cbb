// Two calls through one reference go to the result of a call. The first is there before the result, and waits. The
// second comes in behind the Return, and goes on before the first.
#include "found.h"

// What vat 1's object gets, where vat 2 answers so many turns of the loop after the second call was made.
static kj::Vector<uint> delivered(uint turns) {
  Vats vats;
  auto promised = kj::newPromiseAndFulfiller<Thing::Client>();
  auto echo = Thing::Client(kj::mv(promised.promise)).echoRequest();
  echo.setThing(vats.two.peer);
  auto echoed = echo.send();
  Thing::Client queue = echoed.getThing();     // waits for vat 2's promise, and becomes vat 1's object
  promised.fulfiller->fulfill(Thing::Client(vats.two.object));
  auto call = vats.one.peer.laterRequest().send();
  Thing::Client reference = call.getThing();
  auto first = ping(reference, 1);             // waits in vat 2 for the answer
  vats.scope.poll();
  auto second = ping(reference, 2);
  vats.loop.run(turns);
  vats.two.answer(queue);                      // sends both back to vat 1
  vats.scope.poll();
  return kj::mv(vats.one.pings);
}

int main() {
  for (uint turns = 0; turns < 50; turns++) {
    auto order = kj::str(delivered(turns));
    if (order == "1, 2") continue;
    printf("sent 1, 2, delivered %s, with %u turns between them and the answer\n", order.cStr(), turns);
    return 1;
  }
  puts("sent 1, 2, delivered 1, 2");
}
