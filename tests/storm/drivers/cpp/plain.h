// The names of vataudit/recorder.h, with nothing behind them: a driver that is built with these is the unrecorded twin.
#pragma once

#include <capnp/rpc-twoparty.h>

#include <string>

namespace vataudit {

class Recorder {
public:
  Recorder(const char*, uint32_t) {}

  template <typename Implementation, typename... Arguments>
  typename Implementation::Serves::Client host(Arguments&&... arguments) {
    return kj::heap<Implementation>(kj::fwd<Arguments>(arguments)...);
  }
  template <typename Client>
  Client promise(kj::Promise<Client>&& promised) {
    return kj::mv(promised);
  }
};

class TwoPartyClient: public capnp::TwoPartyClient {
public:
  TwoPartyClient(Recorder&, kj::AsyncIoStream& stream, uint32_t, capnp::Capability::Client bootstrap,
                 capnp::rpc::twoparty::Side side)
      : capnp::TwoPartyClient(stream, kj::mv(bootstrap), side) {}
};

class Network: public capnp::TwoPartyVatNetwork {
public:
  using Side = capnp::rpc::twoparty::Side;
  using RpcSystem = capnp::RpcSystem<capnp::rpc::twoparty::VatId>;

  Network(Recorder&, kj::AsyncIoStream& stream, uint32_t, Side side)
      : capnp::TwoPartyVatNetwork(stream, side), peer(side == Side::CLIENT ? Side::SERVER : Side::CLIENT) {}

  capnp::Capability::Client asBootstrap(capnp::Capability::Client bootstrap) { return bootstrap; }
  capnp::Capability::Client bootstrap(RpcSystem& system) {
    capnp::MallocMessageBuilder message;
    auto id = message.initRoot<capnp::rpc::twoparty::VatId>();
    id.setSide(peer);
    return system.bootstrap(id);
  }

private:
  Side peer;
};

}  // namespace vataudit
