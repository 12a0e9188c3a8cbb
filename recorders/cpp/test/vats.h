// The vats of a conversation, and how they are joined.
#pragma once

#include "world.h"

// Vat 1 asks vat 2, over connection 0. What vat 2 sends may be held up on the line.
struct Two: World {
  explicit Two(World& world): World(world) {}

  vataudit::Recorder first { log(1).c_str(), 1 };
  kj::TwoWayPipe pipe = io.provider->newTwoWayPipe();
  std::unique_ptr<Served> here = peer.empty() ? std::make_unique<Served>(log(2), *pipe.ends[1]) : nullptr;
  std::unique_ptr<Elsewhere> elsewhere = peer.empty() ? nullptr : std::make_unique<Elsewhere>(*this);
  GatedStream line { peer.empty() ? *pipe.ends[0] : *elsewhere->stream };
  kj::Own<vataudit::TwoPartyClient> client = kj::heap<vataudit::TwoPartyClient>(first, line, 0);
  Counter::Client counter = client->bootstrap().castAs<Counter>();

  // An object of vat 1, and one of vat 2.
  Counter::Client firsts(uint32_t value) { return first.host<CounterObject>(first, value); }
  Counter::Client seconds() { return here->recorder.host<CounterObject>(here->recorder); }

  void settle() {
    World::settle();
    if (elsewhere) elsewhere->settle();
  }
};

// Three vats: vat 2 is joined to vat 1 by connection 0, and to vat 3 by connection 1, where it asks.
struct Chain: World {
  explicit Chain(World& world): Chain(world, world.log(2), world.log(3)) {}
  Chain(World& world, std::string secondLog, std::string thirdLog)
      : World(world), second(secondLog.c_str(), 2), third(thirdLog.c_str(), 3) {}

  vataudit::Recorder first { log(1).c_str(), 1 };
  vataudit::Recorder second, third;
  kj::TwoWayPipe near = io.provider->newTwoWayPipe();
  kj::TwoWayPipe far = io.provider->newTwoWayPipe();
  vataudit::TwoPartyClient farServer { third, *far.ends[1], 1, third.host<CounterObject>(third), Side::SERVER };
  vataudit::TwoPartyClient farClient { second, *far.ends[0], 1 };
};

// Vat 1 asks vat 2, and vat 2 gives out what vat 3 gave it.
struct Three: Chain {
  template <typename... Logs>
  explicit Three(World& world, Logs&&... logs): Chain(world, kj::fwd<Logs>(logs)...) {}

  vataudit::TwoPartyClient server { second, *near.ends[1], 0, farClient.bootstrap(), Side::SERVER };
  vataudit::TwoPartyClient client { first, *near.ends[0], 0 };
  Counter::Client counter = client.bootstrap().castAs<Counter>();
};
