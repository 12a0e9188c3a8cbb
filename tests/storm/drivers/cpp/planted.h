// Runtimes with a planted fault. It sits between capnp's RpcSystem and the recorder's network, so that RpcSystem and
// fault together are the runtime that is recorded.
//
//     exchange    two calls that are sent in one turn of the loop go out in the other order
//     embargo     an embargo is lifted at once: the vat doesn't wait for the echo
//     release     a capability is given back behind the first call to it, while the vat still has it
#pragma once

#include <capnp/message.h>
#include <capnp/rpc-twoparty.h>
#include <capnp/rpc.capnp.h>

#include <deque>
#include <set>
#include <string>

namespace planted {

namespace rpc = capnp::rpc;
using Base = capnp::TwoPartyVatNetworkBase;
using Received = kj::Maybe<kj::Own<capnp::IncomingRpcMessage>>;

// A message that the vat made up for itself.
class MadeUp final: public capnp::IncomingRpcMessage {
public:
  capnp::MallocMessageBuilder message;
  capnp::AnyPointer::Reader getBody() override { return message.getRoot<capnp::AnyPointer>().asReader(); }
  size_t sizeInWords() override { return message.sizeInWords(); }
};

class Connection final: public Base::Connection, public kj::Refcounted, private kj::TaskSet::ErrorHandler {
public:
  Connection(kj::Own<Base::Connection> inner, std::string fault)
      : inner(kj::mv(inner)), fault(kj::mv(fault)), tasks(*this) {}

  kj::Own<capnp::RpcFlowController> newStream() override { return inner->newStream(); }
  rpc::twoparty::VatId::Reader getPeerVatId() override { return inner->getPeerVatId(); }
  kj::Own<capnp::OutgoingRpcMessage> newOutgoingMessage(uint firstSegmentWordSize) override {
    return kj::refcounted<Outgoing>(*this, inner->newOutgoingMessage(firstSegmentWordSize));
  }
  kj::Promise<Received> receiveIncomingMessage() override {
    if (fault != "embargo") return inner->receiveIncomingMessage();
    return nextOf();
  }
  kj::Promise<void> shutdown() override { return inner->shutdown(); }

private:
  struct Outgoing final: public capnp::OutgoingRpcMessage, public kj::Refcounted {
    Outgoing(Connection& line, kj::Own<capnp::OutgoingRpcMessage> inner): line(line), inner(kj::mv(inner)) {}
    capnp::AnyPointer::Builder getBody() override { return inner->getBody(); }
    void setFds(kj::Array<int> fds) override { inner->setFds(kj::mv(fds)); }
    size_t sizeInWords() override { return inner->sizeInWords(); }
    void send() override { line.send(kj::addRef(*this)); }
    Connection& line;
    kj::Own<capnp::OutgoingRpcMessage> inner;
  };

  kj::Own<Base::Connection> inner;
  std::string fault;
  kj::TaskSet tasks;
  kj::Maybe<kj::Own<Outgoing>> held;
  std::set<uint32_t> lifted, given;
  bool isReading = false;
  std::deque<Received> arrived;
  kj::Maybe<kj::Exception> failed;
  kj::Own<kj::PromiseFulfiller<void>> waiter;

  void taskFailed(kj::Exception&& exception) override { failed = kj::mv(exception), wake(); }

  void send(kj::Own<Outgoing> message) {
    auto body = message->inner->getBody().getAs<rpc::Message>().asReader();
    if (fault == "exchange") return exchange(kj::mv(message), body.isCall());
    if (fault == "release" && body.isRelease() && given.erase(body.getRelease().getId()) > 0) return giveLess(*message);
    message->inner->send();
    if (fault == "embargo" && body.isDisembargo()) lift(body.getDisembargo());
    if (fault == "release" && body.isCall()) giveBack(body.getCall().getTarget());
  }

  // A call waits until the turn's end for another one, which then goes first.
  void exchange(kj::Own<Outgoing> message, bool isCall) {
    if (held == nullptr && isCall) {
      held = kj::mv(message);
      tasks.add(kj::evalLast([this]() { sendHeld(); }));
      return;
    }
    if (!isCall) sendHeld();
    message->inner->send();
    sendHeld();
  }
  void sendHeld() {
    KJ_IF_MAYBE(message, held) {
      auto own = kj::mv(*message);
      held = nullptr;
      own->inner->send();
    }
  }

  // Gives back a capability after the first call to it; the Release that comes in the end gives back one less.
  void giveBack(rpc::MessageTarget::Reader target) {
    if (!target.isImportedCap() || !given.insert(target.getImportedCap()).second) return;
    auto release = inner->newOutgoingMessage(0);
    auto body = release->getBody().initAs<rpc::Message>().initRelease();
    body.setId(target.getImportedCap());
    body.setReferenceCount(1);
    release->send();
  }
  void giveLess(Outgoing& message) {
    auto release = message.inner->getBody().getAs<rpc::Message>().getRelease();
    if (release.getReferenceCount() <= 1) return;
    release.setReferenceCount(release.getReferenceCount() - 1);
    message.inner->send();
  }

  // The runtime gets an echo of its loopback at once; the true one is kept from it.
  void lift(rpc::Disembargo::Reader loopback) {
    if (!loopback.getContext().isSenderLoopback()) return;
    uint32_t id = loopback.getContext().getSenderLoopback();
    auto echo = kj::heap<MadeUp>();
    echo->message.initRoot<rpc::Message>().initDisembargo().getContext().setReceiverLoopback(id);
    lifted.insert(id);
    arrived.push_front(kj::Own<capnp::IncomingRpcMessage>(kj::mv(echo)));
    wake();
  }
  void read() {
    isReading = true;
    tasks.add(inner->receiveIncomingMessage().then([this](Received&& message) {
      isReading = false;
      arrived.push_back(kj::mv(message));
      wake();
    }));
  }
  kj::Promise<Received> nextOf() {
    KJ_IF_MAYBE(exception, failed) {
      return kj::cp(*exception);
    }
    if (arrived.empty()) {
      if (!isReading) read();
      auto paf = kj::newPromiseAndFulfiller<void>();
      waiter = kj::mv(paf.fulfiller);
      return paf.promise.then([this]() { return nextOf(); });
    }
    auto message = kj::mv(arrived.front());
    arrived.pop_front();
    KJ_IF_MAYBE(came, message) {
      if (isLifted(**came)) return nextOf();
    }
    return kj::mv(message);
  }
  bool isLifted(capnp::IncomingRpcMessage& message) {
    if (dynamic_cast<MadeUp*>(&message) != nullptr) return false;
    auto body = message.getBody().getAs<rpc::Message>();
    return body.isDisembargo() && body.getDisembargo().getContext().isReceiverLoopback() &&
        lifted.erase(body.getDisembargo().getContext().getReceiverLoopback()) > 0;
  }
  void wake() {
    if (waiter.get() != nullptr) waiter->fulfill();
    waiter = nullptr;
  }
};

// The network of a runtime that has the fault.
template <typename Inner>
class Network final: public Base {
public:
  Network(Inner& inner, std::string fault): inner(inner), fault(kj::mv(fault)) {}

  kj::Maybe<kj::Own<Connection>> connect(rpc::twoparty::VatId::Reader id) override {
    auto connected = inner.connect(id);
    KJ_IF_MAYBE(connection, connected) {
      return wrapped(kj::mv(*connection));
    } else {
      return nullptr;
    }
  }
  kj::Promise<kj::Own<Connection>> accept() override {
    return inner.accept().then([this](kj::Own<Connection>&& connection) { return wrapped(kj::mv(connection)); });
  }

private:
  Inner& inner;
  std::string fault;
  kj::Maybe<kj::Own<planted::Connection>> line;

  // The runtime knows a connection by its address, so there is one.
  kj::Own<Connection> wrapped(kj::Own<Connection> connection) {
    KJ_IF_MAYBE(there, line) {
      return kj::addRef(**there);
    }
    auto made = kj::refcounted<planted::Connection>(kj::mv(connection), fault);
    line = kj::addRef(*made);
    return made;
  }
};

}  // namespace planted
