// What all conversations have: a loop, the logs, and the calls that many of them make. A conversation takes place in
// this process, or vat 2 runs in another one, of another capnp.
#pragma once

#include "objects.h"

#include <cstdio>
#include <cstring>
#include <functional>
#include <map>
#include <utility>

#include <fcntl.h>
#include <sys/socket.h>
#include <sys/wait.h>
#include <unistd.h>

// The capnp that this program has, as `1.1`.
inline std::string capnpVersion() {
  return std::to_string(CAPNP_VERSION_MAJOR) + "." + std::to_string(CAPNP_VERSION_MINOR);
}

// A loop, and the logs of a conversation.
struct World {
  World(kj::AsyncIoContext& io, std::string prefix, std::string peer = "", std::string second = capnpVersion())
      : io(io), prefix(prefix), peer(peer), dropsCanceled(second[0] != '0') {}

  kj::AsyncIoContext& io;
  std::string prefix;
  std::string peer;    // the program that runs vat 2, if that is another one
  bool dropsCanceled;  // whether vat 2 drops a call that is canceled before it is delivered: so from 1.0 on

  std::string log(uint32_t vat) { return prefix + ".vat" + std::to_string(vat) + ".log"; }

  // Lets all that is under way come to rest.
  void settle() {
    for (int turn = 0; turn < 20; turn++) {
      io.provider->getTimer().afterDelay(1 * kj::MILLISECONDS).wait(io.waitScope);
    }
  }

  template <typename Promise>
  auto wait(Promise&& promise) {
    return promise.wait(io.waitScope);
  }
  template <typename Promise>
  bool fails(Promise&& promise) {
    return wait(promise.then([](auto&&) { return false; }, [](kj::Exception&&) { return true; }));
  }

  // Calls of an object, each with what it returns.
  uint32_t next(Counter::Client at, uint32_t by) { return wait(nextBy(at, by).send()).getValue(); }
  void hold(Counter::Client at, Counter::Client counter) { wait(holdOf(at, counter).send()); }
  Counter::Client later(Counter::Client at) { return wait(at.laterRequest().send()).getCounter(); }
  void settlePromise(Counter::Client at, uint32_t how) { wait(settleAs(at, how).send()); }
  void pass(Counter::Client at, Counter::Client counter) {
    auto request = at.passRequest();
    request.initCounters(1).set(0, counter);
    wait(request.send());
  }
};

// A stream whose bytes come through while its gate is open.
class GatedStream final: public kj::AsyncIoStream {
public:
  explicit GatedStream(kj::AsyncIoStream& inner): inner(inner) {}

  void close() {
    auto paf = kj::newPromiseAndFulfiller<void>();
    opened = paf.promise.fork();
    opener = kj::mv(paf.fulfiller);
    isOpen = false;
  }
  void open() {
    isOpen = true;
    opener->fulfill();
  }

  kj::Promise<size_t> tryRead(void* buffer, size_t least, size_t most) override {
    return inner.tryRead(buffer, least, most).then([this](size_t length) -> kj::Promise<size_t> {
      if (isOpen) return length;
      return opened.addBranch().then([length]() { return length; });
    });
  }
  kj::Promise<void> write(const void* buffer, size_t size) override { return inner.write(buffer, size); }
  kj::Promise<void> write(kj::ArrayPtr<const kj::ArrayPtr<const kj::byte>> pieces) override {
    return inner.write(pieces);
  }
  kj::Promise<void> whenWriteDisconnected() override { return inner.whenWriteDisconnected(); }
  void shutdownWrite() override { inner.shutdownWrite(); }

private:
  kj::AsyncIoStream& inner;
  bool isOpen = true;
  kj::ForkedPromise<void> opened = nullptr;
  kj::Own<kj::PromiseFulfiller<void>> opener;
};

// Two vats with their logs, and a connection that isn't used yet.
struct TwoVats: World {
  explicit TwoVats(World& world): World(world) {}

  vataudit::Recorder first { log(1).c_str(), 1 };
  vataudit::Recorder second { log(2).c_str(), 2 };
  kj::TwoWayPipe pipe = io.provider->newTwoWayPipe();

  // An object of vat 1, and one of vat 2.
  Counter::Client firsts(uint32_t value) { return first.host<CounterObject>(first, value); }
  Counter::Client seconds() { return second.host<CounterObject>(second); }
};

using Side = capnp::rpc::twoparty::Side;

// Vat 2, which serves an object over a stream.
struct Served {
  Served(std::string log, kj::AsyncIoStream& stream)
      : recorder(log.c_str(), 2), end(recorder, stream, 0, recorder.host<CounterObject>(recorder), Side::SERVER) {}

  vataudit::Recorder recorder;
  vataudit::TwoPartyClient end;
};

// Vat 2 in a process of its own, which ends with this. It settles when it is told to, over a second stream.
class Elsewhere {
public:
  explicit Elsewhere(World& world): world(world) {
    int streams[2], controls[2];
    KJ_SYSCALL(socketpair(AF_UNIX, SOCK_STREAM, 0, streams));
    KJ_SYSCALL(socketpair(AF_UNIX, SOCK_STREAM, 0, controls));
    KJ_SYSCALL(fcntl(streams[0], F_SETFD, FD_CLOEXEC));
    KJ_SYSCALL(fcntl(controls[0], F_SETFD, FD_CLOEXEC));
    std::string log = world.log(2), stream = std::to_string(streams[1]), control = std::to_string(controls[1]);
    KJ_SYSCALL(process = fork());
    if (process == 0) {
      execl(world.peer.c_str(), world.peer.c_str(), "--serve", log.c_str(), stream.c_str(), control.c_str(), nullptr);
      _exit(127);
    }
    ::close(streams[1]);
    ::close(controls[1]);
    this->stream = opened(world, streams[0]);
    this->control = opened(world, controls[0]);
  }
  ~Elsewhere() noexcept(false) {
    control = nullptr;
    int status = 0;
    KJ_SYSCALL(waitpid(process, &status, 0));
    KJ_ASSERT(status == 0, "vat 2 ended otherwise", status);
  }

  // Both processes let what is under way come to rest, one after the other.
  void settle() {
    for (int times = 0; times < 2; times++) {
      char told = 's';
      control->write(&told, 1).wait(world.io.waitScope);
      control->read(&told, 1).wait(world.io.waitScope);
      world.settle();
    }
  }

  static kj::Own<kj::AsyncIoStream> opened(World& world, int socket) {
    return world.io.lowLevelProvider->wrapSocketFd(socket, kj::LowLevelAsyncIoProvider::TAKE_OWNERSHIP);
  }

  kj::Own<kj::AsyncIoStream> stream;

private:
  World& world;
  kj::Own<kj::AsyncIoStream> control;
  pid_t process;
};

// What vat 2's process does, until the other one ends.
inline int serve(char** words) {
  auto io = kj::setupAsyncIo();
  World world(io, "");
  auto stream = Elsewhere::opened(world, atoi(words[3]));
  auto control = Elsewhere::opened(world, atoi(words[4]));
  Served served(words[2], *stream);
  char told;
  while (control->tryRead(&told, 1, 1).wait(io.waitScope) == 1) {
    world.settle();
    control->write(&told, 1).wait(io.waitScope);
  }
  return 0;
}

using Conversations = std::map<std::string, std::function<void(World&)>>;

// `PROGRAM FOLDER [NAME]` writes FOLDER/NAME-VERSION.vatN.log of the conversation NAME, or without a name those of all.
// With `--peer PROGRAM VERSION` behind the folder vat 2 is that program, of the capnp VERSION, and both versions stand
// in the logs' names.
inline int writeLogs(const char* program, const Conversations& here, const Conversations& withPeer, int count,
                     char** words) {
  if (count == 5 && strcmp(words[1], "--serve") == 0) return serve(words);
  if (count < 2) {
    fprintf(stderr, "usage: %s FOLDER [--peer PROGRAM VERSION] [NAME]\n", program);
    return 2;
  }
  std::string peer, second = capnpVersion(), versions = second;
  int at = 2;
  if (count > 4 && strcmp(words[2], "--peer") == 0) {
    peer = words[3];
    second = words[4];
    versions += "-" + second;
    at = 5;
  }
  for (auto& conversation: peer.empty() ? here : withPeer) {
    if (count > at && conversation.first != words[at]) continue;
    auto io = kj::setupAsyncIo();
    World world(io, std::string(words[1]) + "/" + conversation.first + "-" + versions, peer, second);
    conversation.second(world);
  }
  return 0;
}
