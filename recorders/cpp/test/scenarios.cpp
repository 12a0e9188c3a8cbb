// Conversations, each of two or three vats, in one process or with vat 2 in another one (world.h). What the audit has to
// say of each log stands in expected.txt, with the reason.

#include "storms.h"

namespace {

void ping(World& world) {
  Two two(world);
  for (uint32_t by = 1; by < 5; by++) two.next(two.counter, by);
}

void pipeline(World& world) {
  Two two(world);
  auto same = two.counter.sameRequest().send();
  auto again = same.getCounter().sameRequest().send();
  auto value = nextBy(again.getCounter(), 3).send();
  KJ_ASSERT(two.wait(value).getValue() == 3);
  auto made = two.wait(two.counter.makeRequest().send());
  KJ_ASSERT(two.next(made.getList()[1], 1) == 301);
}

void callback(World& world) {
  Two two(world);
  auto request = two.counter.callRequest();
  Counter::Client mine = two.firsts(10);
  request.setBack(mine);
  auto response = two.wait(request.send());
  KJ_ASSERT(response.getValue() == 15);
  KJ_ASSERT(two.next(response.getBack(), 1) == 16);
  KJ_ASSERT(two.next(mine, 1) == 17);
}

// An object that isn't there yet: a call through it waits at vat 2, and then both vats go on with what it became.
void promised(World& world) {
  Two two(world);
  auto later = two.counter.laterRequest().send();
  auto waiting = nextBy(later.getCounter(), 7).send();
  Counter::Client promise = two.wait(later).getCounter();
  auto second = nextBy(promise, 1).send();
  two.settle();
  two.settlePromise(two.counter, 0);
  KJ_ASSERT(two.wait(waiting).getValue() == 1007);
  KJ_ASSERT(two.wait(second).getValue() == 1008);
  two.settle();
  KJ_ASSERT(two.next(promise, 1) == 1009);
}

// The same, but the promise is broken.
void brokenPromise(World& world) {
  Two two(world);
  auto later = two.counter.laterRequest().send();
  Counter::Client promise = two.wait(later).getCounter();
  auto waiting = nextBy(promise, 7).send();
  two.settle();
  two.settlePromise(two.counter, 1);
  KJ_ASSERT(two.fails(waiting));
  two.settle();
}

// The same, but the promise becomes a null capability. Then a promise of vat 1 does so before it goes out.
void nullPromise(World& world) {
  Two two(world);
  auto later = two.counter.laterRequest().send();
  Counter::Client promise = two.wait(later).getCounter();
  auto waiting = nextBy(promise, 7).send();
  two.settle();
  two.settlePromise(two.counter, 3);
  KJ_ASSERT(two.fails(waiting));
  two.settle();
  KJ_ASSERT(two.fails(nextBy(promise, 1).send()));
  Counter::Client mine = two.first.promise(kj::Promise<Counter::Client>(Counter::Client(nullptr)));
  two.settle();
  KJ_ASSERT(two.fails(nextBy(mine, 1).send()));
  two.hold(two.counter, mine);
}

// Vat 1 promises an object of its own, gives it away, and settles it.
void ownPromise(World& world) {
  Two two(world);
  auto paf = kj::newPromiseAndFulfiller<Counter::Client>();
  Counter::Client mine = two.first.promise(kj::mv(paf.promise));
  auto request = two.counter.callRequest();
  request.setBack(mine);
  auto response = request.send();
  two.settle();
  paf.fulfiller->fulfill(two.firsts(10));
  KJ_ASSERT(two.wait(response).getValue() == 15);
  two.settle();
}

// Calls, results and a callback through vat 2, which only passes them on.
void relay(World& world) {
  Three three(world);
  KJ_ASSERT(three.next(three.counter, 2) == 2);
  auto same = three.counter.sameRequest().send();
  KJ_ASSERT(three.next(same.getCounter(), 1) == 3);
  auto request = three.counter.callRequest();
  request.setBack(three.first.host<CounterObject>(three.first, 10));
  auto response = three.wait(request.send());
  KJ_ASSERT(response.getValue() == 15);
  auto made = three.wait(three.counter.makeRequest().send());
  KJ_ASSERT(three.next(made.getCounter(), 1) == 101);
  KJ_ASSERT(three.next(made.getList()[0], 1) == 201);
}

// A promise of vat 3 that reaches vat 1 through vat 2, and a call that waits for it at vat 3.
void relayedPromise(World& world) {
  Three three(world);
  auto later = three.counter.laterRequest().send();
  Counter::Client promise = three.wait(later).getCounter();
  auto waiting = nextBy(promise, 1).send();
  three.settle();
  three.settlePromise(three.counter, 0);
  KJ_ASSERT(three.wait(waiting).getValue() == 1001);
  three.settle();
  KJ_ASSERT(three.next(promise, 1) == 1002);
}

// An exception, through vat 2 too, with a call on the result that never came.
void relayedFailure(World& world) {
  Three three(world);
  auto failing = three.counter.failRequest().send();
  auto onResult = nextBy(failing.getCounter(), 1).send();
  KJ_ASSERT(three.fails(onResult));
  three.settle();
}

void failure(World& world) {
  Two two(world);
  auto failing = two.counter.failRequest().send();
  auto onResult = nextBy(failing.getCounter(), 1).send();
  KJ_ASSERT(two.fails(onResult));
  auto mine = two.firsts(10);
  KJ_ASSERT(two.fails(mine.failRequest().send()));
  KJ_ASSERT(two.next(mine, 1) == 11);
}

// A promise of vat 2 that vat 1 also gave back to vat 2 becomes an object of vat 1: so vat 1 puts an embargo on it,
// and the next call waits for the echo.
void embargo(World& world) {
  Two two(world);
  two.hold(two.counter, two.firsts(10));
  Counter::Client promise = two.later(two.counter);
  two.pass(two.counter, promise);
  auto resolved = promise.whenResolved();
  two.settlePromise(two.counter, 2);
  KJ_ASSERT(two.next(promise, 1) == 11);
  two.wait(resolved);
  KJ_ASSERT(two.next(promise, 1) == 12);
}

// A call through a result to come reaches vat 2 when the result is an object of vat 1: it goes back there. A later
// call through the same result would overtake it, so vat 1 puts an embargo on it.
void overtaking(World& world) {
  Two two(world);
  two.hold(two.counter, two.firsts(10));
  auto held = two.counter.heldRequest().send();
  Counter::Client counter = held.getCounter();
  auto early = nextBy(counter, 1).send();
  two.wait(held);
  auto late = nextBy(counter, 1).send();
  KJ_ASSERT(two.wait(early).getValue() == 11);
  KJ_ASSERT(two.wait(late).getValue() == 12);
}

// The same with calls whose results are capabilities: from 1.0 on only such a call is sent back as a tail call. The call
// of its result goes the same way.
void reflected(World& world) {
  Two two(world);
  two.hold(two.counter, two.firsts(10));
  auto held = two.counter.heldRequest().send();
  Counter::Client counter = held.getCounter();
  auto early = counter.sameRequest().send();
  auto onEarly = nextBy(early.getCounter(), 1).send();
  two.wait(held);
  auto late = nextBy(counter, 1).send();
  KJ_ASSERT(two.wait(onEarly).getValue() + two.wait(late).getValue() == 23);
  KJ_ASSERT(two.next(two.wait(early).getCounter(), 1) == 13);
  two.settle();
}

// As embargo, but a call waits at vat 2 for the promise, and was canceled by then. Before 1.0 C++ delivers it all the
// same.
void canceledInQueue(World& world) {
  Two two(world);
  two.hold(two.counter, two.firsts(10));
  Counter::Client promise = two.later(two.counter);
  { auto canceled = nextBy(promise, 1).send(); }
  two.settle();
  two.settlePromise(two.counter, 2);
  KJ_ASSERT(two.next(promise, 1) == (two.dropsCanceled ? 11u : 12u));
}

// The caller drops a call that was delivered, and then one with a call that waits for its result.
void cancel(World& world) {
  Two two(world);
  {
    auto never = two.counter.neverRequest().send();
    two.settle();
  }
  two.settle();
  {
    auto never = two.counter.neverRequest().send();
    auto onResult = nextBy(never.getCounter(), 1).send();
    two.settle();
  }
  two.settle();
  two.next(two.counter, 1);
}

// The caller drops a call at once: its Finish goes out before the Return comes in, which is late then. And it drops
// one whose method still waits, so that the Return is late at both ends.
void earlyFinish(World& world) {
  Two two(world);
  two.settle();
  { auto made = two.counter.makeRequest().send(); }
  two.settle();
  auto paf = kj::newPromiseAndFulfiller<Counter::Client>();
  {
    auto request = two.counter.callRequest();
    request.setBack(two.first.promise(kj::mv(paf.promise)));
    auto dropped = request.send();
    two.settle();
  }
  two.settle();
  paf.fulfiller->fulfill(two.firsts(10));
  two.settle();
  two.next(two.counter, 1);
}

// Capabilities in lists, of both vats.
void lists(World& world) {
  Two two(world);
  auto request = two.counter.passRequest();
  auto list = request.initCounters(3);
  list.set(0, two.firsts(10));
  list.set(1, two.counter);
  list.set(2, two.firsts(20));
  auto response = two.wait(request.send());
  KJ_ASSERT(two.next(response.getCounters()[0], 1) == 21);
  KJ_ASSERT(two.next(response.getCounters()[1], 1) == 1);
}

// Methods without parameters and results, and calls of a vat to its own object.
void empty(World& world) {
  Two two(world);
  auto first = two.counter.nothingRequest().send();
  auto second = two.counter.nothingRequest().send();
  two.wait(second);
  two.wait(first);
  Counter::Client mine = two.firsts(10);
  auto same = mine.sameRequest().send();
  KJ_ASSERT(two.next(same.getCounter(), 1) == 11);
  two.wait(mine.nothingRequest().send());
  auto null = nothingAtAll(two.counter);
  auto other = nothingAtAll(two.counter);
  auto one = null.send();
  two.wait(other.send());
  two.wait(one);
}

// A peer that isn't recorded ends the connection, and vat 1 answers its abort.
void abort(World& world) {
  vataudit::Recorder first(world.log(1).c_str(), 1);
  kj::TwoWayPipe pipe = world.io.provider->newTwoWayPipe();
  vataudit::TwoPartyClient client(first, *pipe.ends[0], 0);
  auto counter = client.bootstrap().castAs<Counter>();
  world.settle();
  capnp::MallocMessageBuilder message;
  message.initRoot<capnp::rpc::Message>().initAbort().setReason("no more");
  world.wait(capnp::writeMessage(*pipe.ends[1], message));
  world.settle();
}

// The peer is gone without a word: no abort comes, so the abort that vat 2 sends is the first.
void gone(World& world) {
  Two two(world);
  two.next(two.counter, 1);
  two.counter = nullptr;
  two.settle();
  two.client = nullptr;
  two.pipe.ends[0] = nullptr;
  two.settle();
}

// Two connections of one vat at once, and an object of the one given over the other.
void twoConnections(World& world) {
  Two two(world);
  vataudit::Recorder third(world.log(3).c_str(), 3);
  kj::TwoWayPipe pipe = two.io.provider->newTwoWayPipe();
  vataudit::TwoPartyClient server(third, *pipe.ends[1], 1, third.host<CounterObject>(third, 30), Side::SERVER);
  GatedStream line(*pipe.ends[0]);
  vataudit::TwoPartyClient client(two.first, line, 1);
  Counter::Client other = client.bootstrap().castAs<Counter>();
  auto request = two.counter.callRequest();
  request.setBack(other);
  auto response = two.wait(request.send());
  KJ_ASSERT(response.getValue() == 35);
  KJ_ASSERT(two.next(response.getBack(), 1) == 36);
  KJ_ASSERT(two.next(other, 1) == 37);
}

// A promise that is given away twice before it is settled.
void promiseTwice(World& world) {
  Two two(world);
  auto paf = kj::newPromiseAndFulfiller<Counter::Client>();
  Counter::Client mine = two.first.promise(kj::mv(paf.promise));
  two.hold(two.counter, mine);
  two.hold(two.counter, mine);
  paf.fulfiller->fulfill(two.firsts(10));
  two.settle();
}

// A promise that becomes another promise, which then becomes an object.
void promiseOfPromise(World& world) {
  Two two(world);
  auto outer = kj::newPromiseAndFulfiller<Counter::Client>();
  auto inner = kj::newPromiseAndFulfiller<Counter::Client>();
  Counter::Client mine = two.first.promise(kj::mv(outer.promise));
  Counter::Client next = two.first.promise(kj::mv(inner.promise));
  auto request = two.counter.callRequest();
  request.setBack(mine);
  auto response = request.send();
  two.settle();
  outer.fulfiller->fulfill(Counter::Client(next));
  two.settle();
  inner.fulfiller->fulfill(two.firsts(10));
  KJ_ASSERT(two.wait(response).getValue() == 15);
  two.settle();
}

// The same, and the second promise goes out as well: C++ gives it the first one's number, without a Resolve.
void numberTakenOver(World& world) {
  Two two(world);
  auto outer = kj::newPromiseAndFulfiller<Counter::Client>();
  auto inner = kj::newPromiseAndFulfiller<Counter::Client>();
  Counter::Client mine = two.first.promise(kj::mv(outer.promise));
  Counter::Client next = two.first.promise(kj::mv(inner.promise));
  two.hold(two.counter, mine);
  outer.fulfiller->fulfill(Counter::Client(next));
  two.settle();
  two.hold(two.counter, next);
}

// An object of vat 2 ends its method with a tail call to vat 3, whose results are then its own. Where vat 1 calls the
// result before it is there, vat 2 sends that on to where its own call's result will be.
void handOver(World& world, bool isEarly) {
  Chain chain(world);
  Counter::Client between = chain.second.host<CounterObject>(chain.second);
  chain.hold(between, chain.farClient.bootstrap().castAs<Counter>());
  chain.settle();
  vataudit::TwoPartyClient server(chain.second, *chain.near.ends[1], 0, between, Side::SERVER);
  vataudit::TwoPartyClient client(chain.first, *chain.near.ends[0], 0);
  Counter::Client counter = client.bootstrap().castAs<Counter>();
  chain.settle();
  auto handed = counter.handOnRequest().send();
  Counter::Client result = handed.getCounter();
  if (!isEarly) result = chain.wait(handed).getCounter();
  KJ_ASSERT(chain.next(result, 1) == 1);
}

void handedOn(World& world) { handOver(world, false); }

void handedOnEarly(World& world) { handOver(world, true); }

// An object of vat 2 ends its method with a tail call to vat 1, from which the call came: the results stay at vat 1, and
// vat 2's Return says which they are.
void handedBack(World& world) {
  Two two(world);
  two.hold(two.counter, two.firsts(10));
  auto result = two.wait(two.counter.handOnRequest().send()).getCounter();
  KJ_ASSERT(two.next(result, 1) == 11);
}

// Calls that wait in vat 1 for a promise of its own, which becomes an object of vat 2; and others for one that becomes
// an object of vat 1.
void queued(World& world) {
  Two two(world);
  auto far = kj::newPromiseAndFulfiller<Counter::Client>();
  auto near = kj::newPromiseAndFulfiller<Counter::Client>();
  Counter::Client farPromise = two.first.promise(kj::mv(far.promise));
  Counter::Client nearPromise = two.first.promise(kj::mv(near.promise));
  auto one = nextBy(farPromise, 1).send();
  auto same = farPromise.sameRequest().send();
  auto second = nextBy(same.getCounter(), 2).send();
  auto request = farPromise.callRequest();
  request.setBack(two.firsts(10));
  auto three = request.send();
  auto four = nextBy(nearPromise, 4).send();
  auto five = nextBy(nearPromise, 4).send();
  two.settle();
  far.fulfiller->fulfill(Counter::Client(two.counter));
  near.fulfiller->fulfill(two.firsts(100));
  KJ_ASSERT(two.wait(one).getValue() == 1);
  KJ_ASSERT(two.wait(second).getValue() == 3);
  KJ_ASSERT(two.wait(three).getValue() == 15);
  KJ_ASSERT(two.wait(four).getValue() == 104);
  KJ_ASSERT(two.wait(five).getValue() == 108);
}

// A call that was canceled while it waited for a promise of vat 2 is delivered all the same before 1.0.
void canceledWaiting(World& world) {
  Two two(world);
  Counter::Client promise = two.later(two.counter);
  { auto canceled = nextBy(promise, 1).send(); }
  two.settle();
  two.settlePromise(two.counter, 0);
  two.settle();
  KJ_ASSERT(two.next(promise, 1) == (two.dropsCanceled ? 1001u : 1002u));
}

// A server with two clients at once, the one of which gives it an object that the other calls; then both go.
void server(World& world) {
  vataudit::Recorder first(world.log(1).c_str(), 1), second(world.log(2).c_str(), 2), third(world.log(3).c_str(), 3);
  vataudit::TwoPartyServer server(second, second.host<CounterObject>(second));
  kj::TwoWayPipe near = world.io.provider->newTwoWayPipe();
  kj::TwoWayPipe far = world.io.provider->newTwoWayPipe();
  server.accept(kj::mv(near.ends[1]), 0);
  server.accept(kj::mv(far.ends[1]), 1);
  {
    vataudit::TwoPartyClient client(first, *near.ends[0], 0);
    vataudit::TwoPartyClient other(third, *far.ends[0], 1);
    auto counter = client.bootstrap().castAs<Counter>();
    KJ_ASSERT(world.next(counter, 1) == 1);
    auto same = other.bootstrap().castAs<Counter>();
    world.hold(same, third.host<CounterObject>(third, 30));
    auto held = world.wait(counter.heldRequest().send());
    KJ_ASSERT(world.next(held.getCounter(), 1) == 31);
  }
  near.ends[0] = nullptr;
  far.ends[0] = nullptr;
  world.wait(server.drain());
}

// A server that is given streams which stay the program's. It serves the one until its client is gone, the other until
// the promise is dropped.
void accepted(World& world) {
  vataudit::Recorder first(world.log(1).c_str(), 1), second(world.log(2).c_str(), 2), third(world.log(3).c_str(), 3);
  vataudit::TwoPartyServer server(second, second.host<CounterObject>(second));
  kj::TwoWayPipe near = world.io.provider->newTwoWayPipe();
  kj::TwoWayPipe far = world.io.provider->newTwoWayPipe();
  kj::Promise<void> served = server.accept(*near.ends[1], 0);
  kj::Promise<void> dropped = server.accept(*far.ends[1], 1);
  {
    vataudit::TwoPartyClient client(first, *near.ends[0], 0);
    KJ_ASSERT(world.next(client.bootstrap().castAs<Counter>(), 1) == 1);
  }
  near.ends[0] = nullptr;
  world.wait(kj::mv(served));
  vataudit::TwoPartyClient client(third, *far.ends[0], 1);
  Counter::Client counter = client.bootstrap().castAs<Counter>();
  KJ_ASSERT(world.next(counter, 1) == 2);
  dropped = nullptr;
  far.ends[1] = nullptr;
  KJ_ASSERT(world.fails(nextBy(counter, 1).send()));
  world.settle();
}

// A server that listens at two addresses, at the one for clients with file descriptors.
void listened(World& world) {
  vataudit::Recorder first(world.log(1).c_str(), 1), second(world.log(2).c_str(), 2), third(world.log(3).c_str(), 3);
  vataudit::TwoPartyServer server(second, second.host<CounterObject>(second));
  auto& network = world.io.provider->getNetwork();
  std::string nearPath = world.prefix + ".near", farPath = world.prefix + ".far";
  auto near = world.wait(network.parseAddress("unix:" + nearPath));
  auto far = world.wait(network.parseAddress("unix:" + farPath));
  auto nearListener = near->listen();
  auto farListener = far->listen();
  {
    auto listening = server.listen(*nearListener, 0).eagerlyEvaluate(nullptr);
    auto also = server.listenCapStreamReceiver(*farListener, 1, 1).eagerlyEvaluate(nullptr);
    auto nearStream = world.wait(near->connect());
    auto farStream = world.wait(far->connect());
    vataudit::TwoPartyClient client(first, *nearStream, 0);
    vataudit::TwoPartyClient other(third, *farStream, 1);
    KJ_ASSERT(world.next(client.bootstrap().castAs<Counter>(), 1) == 1);
    KJ_ASSERT(world.next(other.bootstrap().castAs<Counter>(), 1) == 2);
  }
  world.wait(server.drain());
  unlink(nearPath.c_str());
  unlink(farPath.c_str());
}

// An object with a file descriptor, which goes from vat 1 to vat 2 and on to vat 3.
void descriptors(World& world) {
  int ends[2];
  KJ_SYSCALL(pipe(ends));
  kj::AutoCloseFd reads(ends[0]), writes(ends[1]);
  vataudit::Recorder first(world.log(1).c_str(), 1), second(world.log(2).c_str(), 2), third(world.log(3).c_str(), 3);
  vataudit::TwoPartyServer server(second, second.host<CounterObject>(second));
  kj::CapabilityPipe near = world.io.provider->newCapabilityPipe();
  kj::CapabilityPipe far = world.io.provider->newCapabilityPipe();
  server.accept(kj::mv(near.ends[1]), 0, 1);
  auto served = server.accept(*far.ends[1], 1, 1);
  {
    vataudit::TwoPartyClient client(first, *near.ends[0], 0, 1);
    vataudit::TwoPartyClient other(third, *far.ends[0], 1, 1, third.host<CounterObject>(third));
    world.hold(client.bootstrap().castAs<Counter>(), first.host<FileObject>(first, writes.get()));
    auto held = world.wait(other.bootstrap().castAs<Counter>().heldRequest().send());
    int came = KJ_ASSERT_NONNULL(world.wait(held.getCounter().getFd()));
    char sent = 'x', received = 0;
    KJ_ASSERT(came != writes.get() && write(came, &sent, 1) == 1 && read(reads, &received, 1) == 1 && received == sent);
  }
  near.ends[0] = nullptr;
  far.ends[0] = nullptr;
  world.wait(server.drain());
  world.wait(kj::mv(served));
}

// Networks over message streams: vat 1 asks vat 2 over one that has file descriptors, vat 2 vat 3 over one without.
void messageStreams(World& world) {
  vataudit::Recorder first(world.log(1).c_str(), 1), second(world.log(2).c_str(), 2), third(world.log(3).c_str(), 3);
  kj::CapabilityPipe near = world.io.provider->newCapabilityPipe();
  kj::TwoWayPipe far = world.io.provider->newTwoWayPipe();
  capnp::AsyncCapabilityMessageStream nearAsks(*near.ends[0]), nearServes(*near.ends[1]);
  capnp::AsyncIoMessageStream farAsks(*far.ends[0]), farServes(*far.ends[1]);
  vataudit::Network farServer(third, farServes, 1, Side::SERVER), farClient(second, farAsks, 1, Side::CLIENT);
  vataudit::Network nearServer(second, nearServes, 0, 1, Side::SERVER), nearClient(first, nearAsks, 0, 1, Side::CLIENT);
  KJ_ASSERT(nearServer.getSide() == Side::SERVER && farClient.getSide() == Side::CLIENT);
  auto farServing = farServer.serve(third.host<CounterObject>(third));
  auto farAsking = farClient.client();
  auto nearServing = nearServer.serve(farClient.bootstrap(farAsking));
  auto nearAsking = nearClient.client();
  Counter::Client counter = nearClient.bootstrap(nearAsking).castAs<Counter>();
  KJ_ASSERT(world.next(counter, 1) == 1);
  world.settle();
  KJ_ASSERT(nearClient.getCurrentQueueCount() == 0 && nearClient.getCurrentQueueSize() == 0);
}

// What a client says of its queue, beside one that isn't recorded; and the trace that goes along with an exception.
void queue(World& world) {
  Two two(world);
  two.here->end.setTraceEncoder([](const kj::Exception&) { return kj::str("a trace"); });
  kj::TwoWayPipe pipe = world.io.provider->newTwoWayPipe();
  capnp::TwoPartyClient unrecorded(*pipe.ends[0]);
  Counter::Client other = unrecorded.bootstrap().castAs<Counter>();
  auto call = nextBy(two.counter, 1).send();
  auto otherCall = nextBy(other, 1).send();
  KJ_ASSERT(two.client->getCurrentQueueCount() == 2 && unrecorded.getCurrentQueueCount() == 2);
  KJ_ASSERT(two.client->getCurrentQueueSize() == unrecorded.getCurrentQueueSize());
  KJ_ASSERT(two.wait(call).getValue() == 1);
  two.settle();
  KJ_ASSERT(two.client->getCurrentQueueCount() == 0 && two.client->getCurrentQueueSize() == 0);
  KJ_ASSERT(two.client->getOutgoingMessageWaitTime() == 0 * kj::SECONDS);
  auto trace = two.wait(two.counter.failRequest().send().then(
      [](auto&&) { return kj::String(); },
      [](kj::Exception&& exception) { return kj::str(exception.getRemoteTrace()); }));
  KJ_ASSERT(trace == "a trace");
}

// Each call behind the first takes the number of the one before, if vat 2's Returns say that no Finish is needed.
void lightReopened(World& world) {
  Two two(world);
  two.settle();
  for (uint32_t by = 1; by < 4; by++) two.next(two.counter, by);
  auto one = nextBy(two.counter, 1).send();
  auto other = nextBy(two.counter, 1).send();
  KJ_ASSERT(two.wait(other).getValue() == 8);
  KJ_ASSERT(two.wait(one).getValue() == 7);
  two.wait(two.counter.makeRequest().send());
  KJ_ASSERT(two.next(two.counter, 1) == 9);
}

// Results without a capability are under way, while vat 1 calls what they should bring, gives that away, and drops
// another such call.
void lightCrossed(World& world) {
  Two two(world);
  two.settle();
  two.line.close();
  auto none = two.counter.noneRequest().send();
  auto dropped = kj::heap(two.counter.noneRequest().send());
  two.settle();
  auto onResult = nextBy(none.getCounter(), 1).send();
  auto given = holdOf(two.counter, none.getCounter()).send();
  dropped = nullptr;
  two.settle();
  two.line.open();
  KJ_ASSERT(two.fails(onResult));
  two.wait(given);
  two.wait(none);
  KJ_ASSERT(two.next(two.counter, 1) == 1);
  KJ_ASSERT(two.next(two.counter, 1) == 2);
}

// Vat 1 promises a capability, and vat 2 calls it. Meanwhile it becomes the result of a call whose Return is under way
// and brings no capability. So vat 2's call goes to that question behind the Return.
void lightNamed(World& world) {
  Two two(world);
  auto paf = kj::newPromiseAndFulfiller<Counter::Client>();
  Counter::Client promise = two.first.promise(kj::mv(paf.promise));
  two.settle();
  two.line.close();
  auto none = two.counter.noneRequest().send();
  auto request = two.counter.callRequest();
  request.setBack(promise);
  auto call = request.send();
  two.settle();
  paf.fulfiller->fulfill(none.getCounter());
  two.settle();
  two.line.open();
  KJ_ASSERT(two.fails(call));
  two.settle();
  KJ_ASSERT(two.next(two.counter, 1) == 1);
}

// Vat 2 gives vat 1's promise back. Meanwhile it became the result of a call that vat 2 still works on, and vat 1 gives
// what came back away again.
void openProxy(World& world) {
  Two two(world);
  auto paf = kj::newPromiseAndFulfiller<Counter::Client>();
  Counter::Client promise = two.first.promise(kj::mv(paf.promise));
  two.hold(two.counter, promise);
  two.settle();
  two.line.close();
  auto pending = two.counter.waitRequest().send();
  auto held = two.counter.heldRequest().send();
  two.settle();
  paf.fulfiller->fulfill(pending.getCounter());
  two.settle();
  two.line.open();
  two.pass(two.counter, two.wait(held).getCounter());
  two.settlePromise(two.counter, 0);
  two.wait(pending);
  two.settle();
}

// A method names its result beforehand, a promise. It is settled while the Return is under way, and then a call of the
// result comes in.
void named(World& world) {
  Two two(world);
  two.settle();
  two.line.close();
  auto named = two.counter.namedRequest().send();
  two.settle();
  auto settled = settleAs(two.counter, 0).send();
  two.settle();
  auto onResult = nextBy(named.getCounter(), 1).send();
  two.settle();
  two.line.open();
  KJ_ASSERT(two.wait(onResult).getValue() == 1001);
  two.settle();
}

#if CAPNP_VERSION >= 1000000
// A call of which only the result is wanted, and a call of that.
void forPipeline(World& world) {
  Two two(world);
  two.settle();
  for (uint32_t by = 1; by < 3; by++) {
    auto same = two.counter.sameRequest().sendForPipeline();
    KJ_ASSERT(two.next(same.getCounter(), 1) == by);
  }
  two.settle();
}

// The same, with an object of vat 1 that comes back as the result: the call of it goes through vat 2.
void forPipelineGiven(World& world) {
  Two two(world);
  two.settle();
  auto request = two.counter.callRequest();
  request.setBack(two.firsts(10));
  auto pipeline = request.sendForPipeline();
  KJ_ASSERT(two.next(pipeline.getBack(), 1) == 16);
  two.settle();
}
#endif

// Vat 1 gives vat 2 the result of a call of its own object that is still at work, and gets it back. What it called of
// that in between comes back first, and waits for the object.
void pendingLoopback(World& world) {
  Two two(world);
  Counter::Client mine = two.firsts(10);
  auto pending = mine.waitRequest().send();
  two.hold(two.counter, pending.getCounter());
  auto held = two.counter.heldRequest().send();
  Counter::Client counter = held.getCounter();
  auto early = nextBy(counter, 1).send();
  two.wait(held);
  auto late = nextBy(counter, 1).send();
  two.settle();
  two.settlePromise(mine, 0);
  KJ_ASSERT(two.wait(early).getValue() == 1001);
  KJ_ASSERT(two.wait(late).getValue() == 1002);
  two.settle();
}

// Calls of a streaming method, whose results nobody sees, and one behind them.
void streaming(World& world) {
  Two two(world);
  for (uint32_t by = 1; by < 4; by++) {
    auto request = two.counter.pushRequest();
    request.setBy(by);
    two.wait(request.send());
  }
  KJ_ASSERT(two.next(two.counter, 1) == 7);
}

// The same through vat 2, and none waits for the one before.
void stream(World& world) {
  Three three(world);
  std::vector<kj::Promise<void>> sent;
  for (uint32_t by = 1; by < 31; by++) {
    auto request = three.counter.pushRequest();
    request.setBy(by);
    sent.push_back(request.send());
  }
  KJ_ASSERT(three.next(three.counter, 1) == 466);
  for (auto& one: sent) three.wait(kj::mv(one));
}

// An object calls itself through `thisCap()`: it gives the result away before it is there, and that of a method that
// ends with a tail call.
void thisCap(World& world) {
  Two two(world);
  auto first = two.counter.mineRequest();
  first.setSteps(2);
  auto mine = first.send();
  KJ_ASSERT(two.next(mine.getCounter(), 1) == 1);
  KJ_ASSERT(two.next(two.wait(mine).getCounter(), 1) == 2);
  two.settle();
  auto request = two.counter.mineRequest();
  request.setSteps(3);
  auto handed = two.wait(request.send());
  KJ_ASSERT(two.next(handed.getCounter(), 3) == 5);
}

// Vat 1 gives away an object of vat 2 that it took from the memory of the process. Its recorder refuses that.
void taken(World& world) {
  Two two(world);
  auto request = two.counter.callRequest();
  request.setBack(two.seconds());
  KJ_ASSERT(two.wait(request.send()).getValue() == 5);
}

// What a recorder refuses: it says so once, and the program goes on. Vat 1 gives away an object that no recorder
// knows, vat 2's log has no room on its disk, and vat 3's can't be made.
void refused(World& world) {
  Three three(world, "/dev/full", "/nowhere/log");
  auto request = three.counter.callRequest();
  request.setBack(kj::heap<CounterObject>(three.first, 10));
  KJ_ASSERT(three.wait(request.send()).getValue() == 15);
  KJ_ASSERT(three.next(three.counter, 1) == 1);
  KJ_ASSERT(!three.first.isRecording() && !three.second.isRecording() && !three.third.isRecording());
  KJ_ASSERT(three.second.whyStopped() == "no further than record 0: the log can't be written: No space left on device; "
                                         "the log is /dev/full");
}

// Those in which vat 2 may be another process.
const Conversations ofTwo = {
  { "ping", ping }, { "pipeline", pipeline }, { "callback", callback }, { "promised", promised },
  { "broken_promise", brokenPromise }, { "own_promise", ownPromise }, { "failure", failure },
  { "embargo", embargo }, { "overtaking", overtaking }, { "reflected", reflected }, { "canceled_in_queue", canceledInQueue },
  { "cancel", cancel }, { "early_finish", earlyFinish }, { "lists", lists }, { "empty", empty },
  { "promise_twice", promiseTwice }, { "promise_of_promise", promiseOfPromise },
  { "number_taken_over", numberTakenOver }, { "handed_back", handedBack }, { "queued", queued },
  { "canceled_waiting", canceledWaiting }, { "streaming", streaming }, { "null_promise", nullPromise },
  { "this_cap", thisCap }, { "light_reopened", lightReopened }, { "light_crossed", lightCrossed },
  { "light_named", lightNamed }, { "pending_loopback", pendingLoopback }, { "named", named }, { "open_proxy", openProxy },
#if CAPNP_VERSION >= 1000000
  { "for_pipeline", forPipeline }, { "for_pipeline_given", forPipelineGiven },
#endif
};

const Conversations others = {
  { "relay", relay }, { "relayed_promise", relayedPromise }, { "relayed_failure", relayedFailure },
  { "abort", abort }, { "gone", gone }, { "two_connections", twoConnections }, { "refused", refused },
  { "handed_on", handedOn }, { "handed_on_early", handedOnEarly }, { "server", server }, { "taken", taken },
  { "accepted", accepted }, { "listened", listened }, { "descriptors", descriptors },
  { "message_streams", messageStreams }, { "queue", queue }, { "stream", stream },
};

}  // namespace

int main(int count, char** words) {
  Conversations two = ofTwo, all = others;
  two.insert(storms::ofTwo.begin(), storms::ofTwo.end());
  all.insert(storms::others.begin(), storms::others.end());
  all.insert(two.begin(), two.end());
  return writeLogs("scenarios", all, two, count, words);
}
