// A promise that was broken goes out once more as senderPromise, under a number whose Resolve was sent and which the
// peer hasn't given back. No other Resolve comes, and the peer waits for ever.
#include "found.h"

// Whether vat 2 learns both times that what it is given is broken, with so many turns of the loop between the calls.
static bool isToldTwice(uint turns) {
  Vats vats;
  Thing::Client broken = KJ_EXCEPTION(FAILED, "broken");
  auto settled = [&]() {
    auto request = vats.one.peer.settledRequest();
    request.setThing(broken);
    return request.send();
  };
  vats.scope.poll();
  auto first = settled();
  vats.loop.run(turns);
  auto second = settled();
  return first.poll(vats.scope) && second.poll(vats.scope);
}

int main() {
  for (uint turns = 0; turns < 50; turns++) {
    if (isToldTwice(turns)) continue;
    printf("vat 2 waits for ever for a promise that is broken, with %u turns between the calls\n", turns);
    return 1;
  }
  puts("vat 2 learns both times that the promise is broken");
}
