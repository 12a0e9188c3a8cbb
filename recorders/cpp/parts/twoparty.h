// Clients and servers
#pragma once

#include "network.h"

namespace vataudit {

// In the place of capnp::TwoPartyClient.
class TwoPartyClient {
public:
  using Side = capnp::rpc::twoparty::Side;

  TwoPartyClient(Recorder& recorder, kj::AsyncIoStream& stream, uint32_t connection)
      : network(recorder, stream, connection, Side::CLIENT), system(network.client()) {}
  TwoPartyClient(Recorder& recorder, kj::AsyncCapabilityStream& stream, uint32_t connection, uint maxFdsPerMessage)
      : network(recorder, stream, connection, maxFdsPerMessage, Side::CLIENT), system(network.client()) {}
  TwoPartyClient(Recorder& recorder, kj::AsyncIoStream& stream, uint32_t connection,
                 capnp::Capability::Client bootstrap, Side side = Side::CLIENT)
      : network(recorder, stream, connection, side), system(network.serve(kj::mv(bootstrap))) {}
  TwoPartyClient(Recorder& recorder, kj::AsyncCapabilityStream& stream, uint32_t connection, uint maxFdsPerMessage,
                 capnp::Capability::Client bootstrap, Side side = Side::CLIENT)
      : network(recorder, stream, connection, maxFdsPerMessage, side), system(network.serve(kj::mv(bootstrap))) {}

  capnp::Capability::Client bootstrap() { return network.bootstrap(system); }
  kj::Promise<void> onDisconnect() { return network.onDisconnect(); }
  void setTraceEncoder(kj::Function<kj::String(const kj::Exception&)> encode) {
    system.setTraceEncoder(kj::mv(encode));
  }
  size_t getCurrentQueueSize() { return network.getCurrentQueueSize(); }
  size_t getCurrentQueueCount() { return network.getCurrentQueueCount(); }
  kj::Duration getOutgoingMessageWaitTime() { return network.getOutgoingMessageWaitTime(); }

private:
  Network network;
  Network::RpcSystem system;
};

// In the place of capnp::TwoPartyServer. The connections get the numbers that you say.
class TwoPartyServer final: private kj::TaskSet::ErrorHandler {
public:
  // `encodeTrace` says what goes to the clients beside an exception.
  TwoPartyServer(Recorder& recorder, capnp::Capability::Client bootstrap,
                 kj::Maybe<kj::Function<kj::String(const kj::Exception&)>> encodeTrace = nullptr)
      : recorder(recorder), bootstrap(kj::mv(bootstrap)), encodeTrace(kj::mv(encodeTrace)), tasks(*this) {}

  void accept(kj::Own<kj::AsyncIoStream>&& stream, uint32_t connection) {
    auto served = accept(*stream, connection);
    tasks.add(served.attach(kj::mv(stream)));
  }
  void accept(kj::Own<kj::AsyncCapabilityStream>&& stream, uint32_t connection, uint maxFdsPerMessage) {
    auto served = accept(*stream, connection, maxFdsPerMessage);
    tasks.add(served.attach(kj::mv(stream)));
  }

  // Serves a stream that stays yours, until the client is gone or you drop the promise.
  kj::Promise<void> accept(kj::AsyncIoStream& stream, uint32_t connection) KJ_WARN_UNUSED_RESULT {
    return served(kj::heap<Accepted>(*this, stream, connection, Network::Side::SERVER));
  }
  kj::Promise<void> accept(kj::AsyncCapabilityStream& stream, uint32_t connection, uint maxFdsPerMessage)
      KJ_WARN_UNUSED_RESULT {
    return served(kj::heap<Accepted>(*this, stream, connection, maxFdsPerMessage, Network::Side::SERVER));
  }

  // Serves each client that comes, under the numbers `first`, `first` + 1 and so on.
  kj::Promise<void> listen(kj::ConnectionReceiver& listener, uint32_t first) {
    return listener.accept().then([this, &listener, first](kj::Own<kj::AsyncIoStream>&& stream) {
      accept(kj::mv(stream), first);
      return listen(listener, first + 1);
    });
  }
  kj::Promise<void> listenCapStreamReceiver(kj::ConnectionReceiver& listener, uint32_t first, uint maxFdsPerMessage) {
    return listener.accept().then([this, &listener, first, maxFdsPerMessage](kj::Own<kj::AsyncIoStream>&& stream) {
      accept(stream.downcast<kj::AsyncCapabilityStream>(), first, maxFdsPerMessage);
      return listenCapStreamReceiver(listener, first + 1, maxFdsPerMessage);
    });
  }

  kj::Promise<void> drain() { return tasks.onEmpty(); }

private:
  struct Accepted {
    template <typename... Connection>
    explicit Accepted(TwoPartyServer& server, Connection&&... connection)
        : network(server.recorder, kj::fwd<Connection>(connection)...), system(network.serve(server.bootstrap)) {
      KJ_IF_MAYBE(encode, server.encodeTrace) {
        system.setTraceEncoder([encode](const kj::Exception& exception) { return (*encode)(exception); });
      }
    }
    Network network;
    Network::RpcSystem system;
  };

  Recorder& recorder;
  capnp::Capability::Client bootstrap;
  kj::Maybe<kj::Function<kj::String(const kj::Exception&)>> encodeTrace;
  kj::TaskSet tasks;

  static kj::Promise<void> served(kj::Own<Accepted>&& accepted) {
    auto promise = accepted->network.onDisconnect();
    return promise.attach(kj::mv(accepted));
  }

  void taskFailed(kj::Exception&& exception) override { KJ_LOG(ERROR, exception); }
};

}  // namespace vataudit
