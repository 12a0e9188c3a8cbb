// With VATAUDIT_OFF
#pragma once

#include "base.h"

namespace vataudit {

// Makes no log. What comes from it is what the program would make without it.
class Recorder {
public:
  Recorder(const char*, uint32_t) {}
  KJ_DISALLOW_COPY(Recorder);

  template <typename Implementation, typename... Arguments>
  typename Implementation::Serves::Client host(Arguments&&... arguments) {
    return typename Implementation::Serves::Client(kj::heap<Implementation>(kj::fwd<Arguments>(arguments)...));
  }
  template <typename Client>
  Client promise(kj::Promise<Client>&& promised) {
    return Client(kj::mv(promised));
  }
  void bufferRecords(size_t) {}
  void flush() {}
  bool isRecording() const { return false; }
  uint64_t records() const { return 0; }
  std::vector<uint32_t> connections() const { return {}; }
  std::string whyStopped() const { return "the program was built with VATAUDIT_OFF"; }
};

// capnp's network.
class Network final: public capnp::TwoPartyVatNetwork {
public:
  using Side = capnp::rpc::twoparty::Side;
  using RpcSystem = capnp::RpcSystem<capnp::rpc::twoparty::VatId>;

  template <typename Stream, typename... Options>
  Network(Recorder&, Stream& stream, uint32_t, Side side, Options&&... options)
      : TwoPartyVatNetwork(stream, side, kj::fwd<Options>(options)...) {}
  template <typename Stream, typename... Options>
  Network(Recorder&, Stream& stream, uint32_t, uint maxFdsPerMessage, Side side, Options&&... options)
      : TwoPartyVatNetwork(stream, maxFdsPerMessage, side, kj::fwd<Options>(options)...) {}

  RpcSystem serve(capnp::Capability::Client bootstrap) { return capnp::makeRpcServer(*this, kj::mv(bootstrap)); }
  RpcSystem client() { return capnp::makeRpcClient(*this); }
  capnp::Capability::Client asBootstrap(capnp::Capability::Client bootstrap) { return bootstrap; }
  capnp::Capability::Client bootstrap(RpcSystem& system) {
    capnp::MallocMessageBuilder message(4);
    auto peer = message.initRoot<capnp::rpc::twoparty::VatId>();
    peer.setSide(getSide() == Side::CLIENT ? Side::SERVER : Side::CLIENT);
    return system.bootstrap(peer);
  }
};

}  // namespace vataudit
