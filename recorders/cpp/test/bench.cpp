// What recording costs, without a recorder, with all vats recorded, and with all recorded and buffered, in one run:
// of a ping over a local socket, and of a pipelined call from vat 1 through vat 2 to vat 3, over two connections.
// `bench [CALLS [ROUNDS]]`; each number is the least of the rounds, which take turns. Beside the time that passes it says
// how long processors worked for all vats: other work on the machine changes that less.

#include "test.capnp.h"
#include "vataudit/recorder.h"

#include <capnp/rpc-twoparty.h>
#include <kj/async-io.h>
#include <kj/debug.h>
#include <kj/thread.h>

#include <algorithm>
#include <chrono>
#include <cstdio>
#include <cstdlib>
#include <sys/socket.h>
#include <unistd.h>

namespace {

using capnp::rpc::twoparty::Side;

class CounterObject: public Counter::Server {
protected:
  kj::Promise<void> next(NextContext context) override {
    value += context.getParams().getBy();
    context.getResults().setValue(value);
    return kj::READY_NOW;
  }
  kj::Promise<void> same(SameContext context) override {
    context.getResults().setCounter(thisCap().castAs<Counter>());
    return kj::READY_NOW;
  }

private:
  uint32_t value = 0;
};

kj::Own<kj::AsyncIoStream> opened(kj::AsyncIoContext& io, int socket) {
  return io.lowLevelProvider->wrapSocketFd(socket, kj::LowLevelAsyncIoProvider::TAKE_OWNERSHIP);
}

// Microseconds a call: what passed, and what processors worked.
struct Cost {
  double passed, worked;
};

double worked() {
  timespec time;
  clock_gettime(CLOCK_PROCESS_CPUTIME_ID, &time);
  return time.tv_sec * 1e6 + time.tv_nsec / 1e3;
}

// What `calls` calls cost each, which are all made meanwhile.
template <typename Make>
Cost costOf(uint32_t calls, Make&& make) {
  auto start = std::chrono::steady_clock::now();
  double before = worked();
  make();
  std::chrono::duration<double, std::micro> taken = std::chrono::steady_clock::now() - start;
  return { taken.count() / calls, (worked() - before) / calls };
}

capnp::Request<Counter::NextParams, Counter::NextResults> nextOf(Counter::Client& counter) {
  auto request = counter.nextRequest();
  request.setBy(1);
  return request;
}

Cost ping(Counter::Client counter, kj::WaitScope& scope, uint32_t pings) {
  return costOf(pings, [&]() {
    for (uint32_t count = 0; count < pings; count++) nextOf(counter).send().wait(scope);
  });
}

// Calls of the result of a call that isn't answered yet, a hundred of them at once.
Cost pipelined(Counter::Client counter, kj::WaitScope& scope, uint32_t calls) {
  return costOf(calls, [&]() {
    for (uint32_t count = 0; count < calls; count += 100) {
      auto result = counter.sameRequest().send().getCounter();
      auto all = kj::heapArrayBuilder<kj::Promise<void>>(100);
      for (uint32_t each = 0; each < 100; each++) all.add(nextOf(result).send().ignoreResult());
      kj::joinPromises(all.finish()).wait(scope);
    }
  });
}

// What one end answers that asks over a local socket, while the other serves in a thread of its own.
template <typename Serve, typename Ask>
Cost overSocket(Serve&& serve, Ask&& ask) {
  int sockets[2];
  KJ_SYSCALL(socketpair(AF_UNIX, SOCK_STREAM, 0, sockets));
  kj::Thread server([&]() {
    auto io = kj::setupAsyncIo();
    auto stream = opened(io, sockets[1]);
    serve(*stream, io.waitScope);
  });
  auto io = kj::setupAsyncIo();
  auto stream = opened(io, sockets[0]);
  return ask(*stream, io.waitScope);
}

Cost unrecorded(uint32_t pings) {
  return overSocket([](kj::AsyncIoStream& stream, kj::WaitScope& scope) {
    capnp::TwoPartyClient peer(stream, kj::heap<CounterObject>(), Side::SERVER);
    peer.onDisconnect().wait(scope);
  }, [pings](kj::AsyncIoStream& stream, kj::WaitScope& scope) {
    capnp::TwoPartyClient client(stream);
    return ping(client.bootstrap().castAs<Counter>(), scope, pings);
  });
}

Cost recorded(uint32_t pings, size_t buffer) {
  return overSocket([buffer](kj::AsyncIoStream& stream, kj::WaitScope& scope) {
    vataudit::Recorder recorder("bench.vat2.log", 2);
    recorder.bufferRecords(buffer);
    vataudit::TwoPartyClient peer(recorder, stream, 0, recorder.host<CounterObject>(), Side::SERVER);
    peer.onDisconnect().wait(scope);
  }, [pings, buffer](kj::AsyncIoStream& stream, kj::WaitScope& scope) {
    vataudit::Recorder recorder("bench.vat1.log", 1);
    recorder.bufferRecords(buffer);
    vataudit::TwoPartyClient client(recorder, stream, 0);
    return ping(client.bootstrap().castAs<Counter>(), scope, pings);
  });
}

Cost throughUnrecorded(uint32_t calls) {
  auto io = kj::setupAsyncIo();
  auto near = io.provider->newTwoWayPipe(), far = io.provider->newTwoWayPipe();
  capnp::TwoPartyClient farServer(*far.ends[1], kj::heap<CounterObject>(), Side::SERVER);
  capnp::TwoPartyClient farClient(*far.ends[0]);
  capnp::TwoPartyClient nearServer(*near.ends[1], farClient.bootstrap(), Side::SERVER);
  capnp::TwoPartyClient nearClient(*near.ends[0]);
  return pipelined(nearClient.bootstrap().castAs<Counter>(), io.waitScope, calls);
}

Cost throughRecorded(uint32_t calls, size_t buffer) {
  auto io = kj::setupAsyncIo();
  auto near = io.provider->newTwoWayPipe(), far = io.provider->newTwoWayPipe();
  vataudit::Recorder first("bench.vat1.log", 1), second("bench.vat2.log", 2), third("bench.vat3.log", 3);
  for (auto recorder: { &first, &second, &third }) recorder->bufferRecords(buffer);
  vataudit::TwoPartyClient farServer(third, *far.ends[1], 1, third.host<CounterObject>(), Side::SERVER);
  vataudit::TwoPartyClient farClient(second, *far.ends[0], 1);
  vataudit::TwoPartyClient nearServer(second, *near.ends[1], 0, farClient.bootstrap(), Side::SERVER);
  vataudit::TwoPartyClient nearClient(first, *near.ends[0], 0);
  return pipelined(nearClient.bootstrap().castAs<Counter>(), io.waitScope, calls);
}

void clean() {
  for (auto log: { "bench.vat1.log", "bench.vat2.log", "bench.vat3.log" }) unlink(log);
}

// The three in turn, and the least of each.
template <typename Unrecorded, typename Recorded>
void compare(const char* what, int rounds, Unrecorded&& unrecorded, Recorded&& recorded) {
  Cost without { 1e9, 1e9 }, with = without, buffered = without;
  auto least = [](Cost& cost, Cost round) {
    clean();
    cost = { std::min(cost.passed, round.passed), std::min(cost.worked, round.worked) };
  };
  for (int round = 0; round < rounds; round++) {
    least(without, unrecorded());
    least(with, recorded(0));
    least(buffered, recorded(65536));
  }
  auto say = [&](const char* how, Cost cost) {
    printf("%s %-10s %6.2f us ratio %.2f, processors %6.2f us ratio %.2f\n", what, how, cost.passed,
           cost.passed / without.passed, cost.worked, cost.worked / without.worked);
  };
  say("unrecorded", without), say("recorded", with), say("buffered", buffered);
}

}  // namespace

int main(int count, char** words) {
  uint32_t calls = count > 1 ? atoi(words[1]) : 20000;
  int rounds = count > 2 ? atoi(words[2]) : 7;
  compare("ping     ", rounds, [&]() { return unrecorded(calls); }, [&](size_t buffer) { return recorded(calls, buffer); });
  compare("pipelined", rounds, [&]() { return throughUnrecorded(calls); },
          [&](size_t buffer) { return throughRecorded(calls, buffer); });
  return 0;
}
