// What the programs share: the object that they call, and two vats, joined by a pipe, in one event loop.
#pragma once

#include "found.capnp.h"

#include <capnp/rpc-twoparty.h>
#include <kj/async-io.h>
#include <stdio.h>

using capnp::uint;
using capnp::rpc::twoparty::Side;

// An object of found.capnp, with what it was told, and what it will answer to the one call of `later`.
struct Object final: Thing::Server {
  kj::Vector<uint>& pings;
  kj::Promise<Thing::Client> answer;
  Object(kj::Vector<uint>& pings, kj::Promise<Thing::Client> answer): pings(pings), answer(kj::mv(answer)) {}

  kj::Promise<void> ping(PingContext context) override {
    pings.add(context.getParams().getNumber());
    return kj::READY_NOW;
  }
  kj::Promise<void> echo(EchoContext context) override {
    context.getResults().setThing(context.getParams().getThing());
    return kj::READY_NOW;
  }
  kj::Promise<void> later(LaterContext context) override {
    return answer.then([context](Thing::Client&& thing) mutable { context.getResults().setThing(thing); });
  }
  kj::Promise<void> tail(TailContext context) override {
    return context.tailCall(context.getParams().getThing().laterRequest());
  }
  kj::Promise<void> settled(SettledContext context) override {
    return context.getParams().getThing().whenResolved().catch_([](kj::Exception&&) {});
  }
};

struct Vat {
  kj::Vector<uint> pings;                                          // what its object got, in that order
  kj::PromiseFulfillerPair<Thing::Client> later = kj::newPromiseAndFulfiller<Thing::Client>();
  Thing::Client object = kj::heap<Object>(pings, kj::mv(later.promise));
  capnp::TwoPartyClient end;
  Thing::Client peer = end.bootstrap().castAs<Thing>();            // the other vat's object
  Vat(kj::AsyncIoStream& stream, Side side): end(stream, object, side) {}
  void answer(Thing::Client thing) { later.fulfiller->fulfill(kj::mv(thing)); }
};

struct Vats {
  kj::EventLoop loop;
  kj::WaitScope scope { loop };
  kj::TwoWayPipe pipe = kj::newTwoWayPipe();
  Vat one { *pipe.ends[0], Side::CLIENT }, two { *pipe.ends[1], Side::SERVER };
};

inline kj::Promise<void> ping(Thing::Client thing, uint number) {
  auto request = thing.pingRequest();
  request.setNumber(number);
  return request.send().ignoreResult();
}
