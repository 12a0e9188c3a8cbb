// A vat refuses its peer's senderLoopback, and aborts the connection.
#include "found.h"

// What vat 1's call fails by, if it does, where it is made so many turns of the loop after vat 2's.
static kj::Maybe<kj::Exception> failure(uint turns) {
  Vats vats;
  auto echo = vats.two.peer.echoRequest();
  echo.setThing(vats.two.object);
  auto echoed = echo.send();                   // its result is vat 2's object
  vats.two.answer(echoed.getThing());          // vat 2 answers with that result, before it is there
  vats.loop.run(turns);
  auto tail = vats.one.peer.tailRequest();
  tail.setThing(vats.one.peer);
  auto call = tail.send();                     // vat 2's object ends it by a tail call to itself
  auto pinged = ping(call.getThing(), 1);      // vat 1 must send a senderLoopback behind this
  vats.scope.poll();
  return kj::runCatchingExceptions([&]() { pinged.wait(vats.scope); });
}

int main() {
  for (uint turns = 0; turns < 50; turns++) {
    KJ_IF_MAYBE(exception, failure(turns)) {
      printf("the call fails, with %u turns before it: %s\n", turns, exception->getDescription().cStr());
      return 1;
    }
  }
  puts("the call is answered");
}
