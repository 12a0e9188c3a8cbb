// Conversations that random programs were shrunk to: what a recorder has to see in them, each is named after.
#pragma once

#include "vats.h"

namespace storms {

// A call that fails where it is made, before another one that is alike and arrives.
inline void recordOfAnotherCall(World& world) {
  Two two(world);
  Counter::Client never = two.counter.failRequest().send().getCounter();
  two.settle();
  KJ_ASSERT(two.fails(nextBy(never, 1).send()));
  two.settle();
  Counter::Client mine = giving(two.counter.echoRequest(), two.firsts(10)).send().getCounter();
  auto early = nextBy(mine, 1).send();
  two.settle();
  KJ_ASSERT(two.wait(early).getValue() == 11);
  KJ_ASSERT(two.next(mine, 1) == 12);
}

// Vat 1 gives away a result of its own object that turns out to be none.
inline void nullResultHandedOn(World& world) {
  Two two(world);
  Counter::Client mine = two.firsts(10);
  auto none = mine.noneRequest().send();
  Counter::Client field = none.getCounter();
  auto held = holdOf(two.counter, field).send();
  two.settle();
  two.wait(held);
  KJ_ASSERT(two.fails(nextBy(field, 1).send()));
}

// The same, of a result of vat 3 that vat 2 gives to vat 1.
inline void nullResultOfAnother(World& world) {
  Chain chain(world);
  auto far = chain.farClient.bootstrap().castAs<Counter>();
  vataudit::TwoPartyClient server(chain.second, *chain.near.ends[1], 0, chain.second.host<CounterObject>(chain.second),
                                  Side::SERVER);
  vataudit::TwoPartyClient client(chain.first, *chain.near.ends[0], 0, chain.first.host<CounterObject>(chain.first));
  chain.next(client.bootstrap().castAs<Counter>(), 1);
  auto near = server.bootstrap().castAs<Counter>();
  auto none = far.noneRequest().send();
  auto held = holdOf(near, none.getCounter()).send();
  chain.settle();
  chain.wait(held);
}

// Vat 1's object ends with a tail call to vat 2, and its result is given away before it is there.
inline void openAnswerbyResolved(World& world) {
  Two two(world);
  Counter::Client mine = two.firsts(10);
  two.hold(mine, two.counter);
  auto tailed = mine.handOnRequest().send();
  auto request = two.counter.callRequest();
  request.setBack(tailed.getCounter());
  KJ_ASSERT(two.wait(request.send()).getValue() == 5);
  two.settle();
}

// Calls at each turn of the loop, through a result that turns out to be vat 1's own object. Each has to arrive behind
// those before it, also those that are made while the embargo is lifted.
inline void shortcutPastCalls(World& world) {
  Two two(world);
  two.hold(two.counter, two.firsts(10));
  auto held = two.counter.heldRequest().send();
  Counter::Client counter = held.getCounter();
  std::vector<kj::Promise<capnp::Response<Counter::NextResults>>> calls;
  for (uint32_t turn = 0; turn < 40; turn++) {
    calls.push_back(nextBy(counter, 1).send());
    two.wait(kj::evalLater([]() {}));
    if (turn % 8 == 7) two.settle();
  }
  uint32_t value = 10;
  for (auto& call: calls) KJ_ASSERT(two.wait(kj::mv(call)).getValue() == ++value);
}

// A result is given away after it is known which object it is, and then that object.
inline void referenceBeforeItTurned(World& world) {
  Two two(world);
  Counter::Client mine = two.firsts(10), other = two.firsts(20);
  two.hold(mine, other);
  Counter::Client field = mine.heldRequest().send().getCounter();
  two.settle();
  two.hold(two.counter, field);
  two.hold(two.counter, other);
}

// Vat 2 returns the result of a call to vat 1 that is still open, and vat 1 gives that back through itself: vat 2's
// runtime puts a proxy before it.
inline void proxyOfAnOpenResult(World& world) {
  Two two(world);
  Counter::Client mine = two.firsts(10);
  two.settle();
  two.line.close();
  Counter::Client open = giving(two.counter.openRequest(), mine).send().getCounter();
  auto echoed = giving(open.echoRequest(), open).send();
  two.settle();
  two.line.open();
  two.settle();
  two.settlePromise(mine, 0);
  KJ_ASSERT(two.next(two.wait(echoed).getCounter(), 1) == 1001);
  two.settle();
}

// Vat 1's promise becomes the result of a call of its own object, which vat 2 sent back to it. Vat 2 called the promise
// before, and asks that its calls come back first.
inline void embargoOfAProxy(World& world) {
  Two two(world);
  auto paf = kj::newPromiseAndFulfiller<Counter::Client>();
  Counter::Client promise = two.first.promise(kj::mv(paf.promise));
  two.settle();
  Counter::Client mine = giving(two.counter.echoRequest(), two.firsts(10)).send().getCounter();
  Counter::Client open = mine.sameRequest().send().getCounter();
  auto echoed = giving(two.counter.echoRequest(), promise).send();
  paf.fulfiller->fulfill(kj::mv(open));
  KJ_ASSERT(two.next(two.wait(echoed).getCounter(), 1) == 11);
  two.settle();
}

// A promise that was broken goes out, with its Resolve right behind it. Before vat 2 lets go of it, it goes out again: the
// runtime promises it once more under the same number.
inline void brokenGivenAgain(World& world) {
  Two two(world);
  Counter::Client mine = two.first.promise(kj::Promise<Counter::Client>(KJ_EXCEPTION(FAILED, "broken as asked for")));
  two.settle();
  two.line.close();
  auto once = holdOf(two.counter, mine).send();
  two.settle();
  auto again = holdOf(two.counter, mine).send();
  two.settle();
  two.line.open();
  two.wait(once);
  two.wait(again);
  two.settle();
}

// Those in which vat 2 may be another process.
const Conversations ofTwo = {
  { "record_of_another_call", recordOfAnotherCall }, { "null_result_handed_on", nullResultHandedOn },
  { "open_answerby_resolved", openAnswerbyResolved }, { "shortcut_past_calls", shortcutPastCalls },
  { "reference_before_it_turned", referenceBeforeItTurned }, { "proxy_of_an_open_result", proxyOfAnOpenResult },
  { "broken_given_again", brokenGivenAgain }, { "embargo_of_a_proxy", embargoOfAProxy },
};

const Conversations others = { { "null_result_of_another", nullResultOfAnother } };

}  // namespace storms
