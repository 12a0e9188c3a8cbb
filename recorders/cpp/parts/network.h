// Networks
#pragma once

#include "front.h"
#include "messages.h"
#include "hooks.h"

namespace vataudit {

// One connection between two vats over any stream, in the place of capnp::TwoPartyVatNetwork. Its number is your
// choice: the same in both vats' logs, and no other connection of the conversation has it. A vat may have several.
class Network final: public capnp::TwoPartyVatNetworkBase,
                     private capnp::TwoPartyVatNetworkBase::Connection,
                     private capnp::RpcFlowController::WindowGetter {
public:
  using Side = capnp::rpc::twoparty::Side;

  Network(Recorder& recorder, kj::AsyncIoStream& stream, uint32_t connection, Side side,
          capnp::ReaderOptions options = capnp::ReaderOptions(),
          const kj::MonotonicClock& clock = kj::systemCoarseMonotonicClock())
      : Network(recorder, messages(stream), connection, 0, side, options, clock) {}
  Network(Recorder& recorder, kj::AsyncCapabilityStream& stream, uint32_t connection, uint maxFdsPerMessage, Side side,
          capnp::ReaderOptions options = capnp::ReaderOptions(),
          const kj::MonotonicClock& clock = kj::systemCoarseMonotonicClock())
      : Network(recorder, messages(stream), connection, maxFdsPerMessage, side, options, clock) {}
  Network(Recorder& recorder, capnp::MessageStream& stream, uint32_t connection, Side side,
          capnp::ReaderOptions options = capnp::ReaderOptions(),
          const kj::MonotonicClock& clock = kj::systemCoarseMonotonicClock())
      : Network(recorder, stream, connection, 0, side, options, clock) {}
  Network(Recorder& recorder, capnp::MessageStream& stream, uint32_t connection, uint maxFdsPerMessage, Side side,
          capnp::ReaderOptions options = capnp::ReaderOptions(),
          const kj::MonotonicClock& clock = kj::systemCoarseMonotonicClock())
      : Network(recorder, kj::Own<capnp::MessageStream>(&stream, kj::NullDisposer::instance), connection,
                maxFdsPerMessage, side, options, clock) {}
  KJ_DISALLOW_COPY(Network);

  using RpcSystem = capnp::RpcSystem<capnp::rpc::twoparty::VatId>;

  // In the place of capnp::makeRpcServer and capnp::makeRpcClient.
  RpcSystem serve(capnp::Capability::Client bootstrap) {
    return capnp::makeRpcServer(*this, asBootstrap(kj::mv(bootstrap)));
  }
  RpcSystem client() { return capnp::makeRpcClient(*this); }

  // Notes which object the vat gives to who asks for its bootstrap object, and gives it for an RpcSystem that you
  // make yourself.
  capnp::Capability::Client asBootstrap(capnp::Capability::Client bootstrap) {
    auto hook = capnp::ClientHook::from(kj::mv(bootstrap));
    end->bootstrap = hook->isNull() ? inside::Reference() : inside::referenceOf(*vat, *hook);
    if (end->bootstrap.number == 0 && !hook->isNull()) {
      vat->stop("the bootstrap object is none of `host`, `promise` or a result");
    }
    return capnp::Capability::Client(inside::unwrapped(kj::mv(hook)));
  }

  // In the place of RpcSystem::bootstrap: the peer's bootstrap object, and its FIELD.
  capnp::Capability::Client bootstrap(RpcSystem& system) {
    end->lastBootstrap = nullptr;
    auto hook = capnp::ClientHook::from(system.bootstrap(getPeerVatId()));
    if (end->lastBootstrap == nullptr || !vat->isRecording()) return capnp::Capability::Client(kj::mv(hook));
    auto reference = vat->field(end->lastBootstrap, inside::Path());
    return capnp::Capability::Client(inside::wrapped(vat, reference, kj::mv(hook)));
  }

  kj::Promise<void> onDisconnect() { return disconnected.addBranch(); }
  Side getSide() { return side; }

  // Of the messages that wait to be written: their bytes, their number, and how long the one that is being written
  // has waited. From 1.0 on those that are being written are none of them.
  size_t getCurrentQueueSize() { return queueSize; }
  size_t getCurrentQueueCount() { return queueCount; }
  kj::Duration getOutgoingMessageWaitTime() {
    return queueCount > 0 ? clock.now() - writtenSince : 0 * kj::SECONDS;
  }

  kj::Maybe<kj::Own<capnp::TwoPartyVatNetworkBase::Connection>> connect(
      capnp::rpc::twoparty::VatId::Reader id) override {
    if (id.getSide() == side) return nullptr;
    return asConnection();
  }
  kj::Promise<kj::Own<capnp::TwoPartyVatNetworkBase::Connection>> accept() override {
    if (side == Side::SERVER && !isAccepted) {
      isAccepted = true;
      return asConnection();
    }
    auto paf = kj::newPromiseAndFulfiller<kj::Own<capnp::TwoPartyVatNetworkBase::Connection>>();
    acceptFulfiller = kj::mv(paf.fulfiller);
    return kj::mv(paf.promise);
  }

private:
  // The runtime holds the connection by Owns of one address; when all are gone it has disconnected.
  class Disposer: public kj::Disposer {
  public:
    mutable kj::Own<kj::PromiseFulfiller<void>> fulfiller;
    mutable uint count = 0;
    void disposeImpl(void*) const override {
      if (--count == 0) fulfiller->fulfill();
    }
  };

  std::shared_ptr<inside::Vat> vat;
  std::shared_ptr<inside::End> end;
  kj::Own<capnp::MessageStream> stream;
  uint maxFdsPerMessage;
  Side side;
  capnp::ReaderOptions options;
  const kj::MonotonicClock& clock;
  capnp::MallocMessageBuilder peer;
  bool isAccepted = false;
  kj::Own<kj::PromiseFulfiller<kj::Own<capnp::TwoPartyVatNetworkBase::Connection>>> acceptFulfiller;
  kj::Canceler readCanceler;
  kj::Maybe<kj::Exception> readCancelReason;
  kj::Maybe<kj::Promise<void>> previousWrite;  // the queue of what is to be written; null after shutdown()
  kj::ForkedPromise<void> disconnected = nullptr;
  size_t queueSize = 0, queueCount = 0;
  kj::TimePoint writtenSince;
#if CAPNP_VERSION >= 1000000
  kj::Vector<kj::Own<inside::Outgoing>> queue;  // what was sent in this turn of the loop
#endif
  Disposer disposer;
  friend class inside::Outgoing;

  Network(Recorder& recorder, kj::Own<capnp::MessageStream> stream, uint32_t connection, uint maxFdsPerMessage,
          Side side, capnp::ReaderOptions options, const kj::MonotonicClock& clock)
      : vat(recorder.vat), end(std::make_shared<inside::End>(vat, connection)), stream(kj::mv(stream)),
        maxFdsPerMessage(maxFdsPerMessage), side(side), options(options), clock(clock), peer(4),
        previousWrite(kj::Promise<void>(kj::READY_NOW)), writtenSince(clock.now()) {
    peer.initRoot<capnp::rpc::twoparty::VatId>().setSide(side == Side::CLIENT ? Side::SERVER : Side::CLIENT);
    auto paf = kj::newPromiseAndFulfiller<void>();
    disconnected = paf.promise.fork();
    disposer.fulfiller = kj::mv(paf.fulfiller);
  }

  // The messages of a stream of bytes, read as the runtime's own network reads them.
#if CAPNP_VERSION >= 1000000
  template <typename Stream>
  static kj::Own<capnp::MessageStream> messages(Stream& stream) {
    return kj::heap<capnp::BufferedMessageStream>(stream, capnp::IncomingRpcMessage::getShortLivedCallback());
  }
#else
  static kj::Own<capnp::MessageStream> messages(kj::AsyncIoStream& stream) {
    return kj::heap<capnp::AsyncIoMessageStream>(stream);
  }
  static kj::Own<capnp::MessageStream> messages(kj::AsyncCapabilityStream& stream) {
    return kj::heap<capnp::AsyncCapabilityMessageStream>(stream);
  }
#endif

  kj::Own<capnp::TwoPartyVatNetworkBase::Connection> asConnection() {
    ++disposer.count;
    return kj::Own<capnp::TwoPartyVatNetworkBase::Connection>(this, disposer);
  }

  capnp::rpc::twoparty::VatId::Reader getPeerVatId() override {
    return peer.getRoot<capnp::rpc::twoparty::VatId>();
  }
  kj::Own<capnp::RpcFlowController> newStream() override {
    return capnp::RpcFlowController::newVariableWindowController(*this);
  }
  size_t getWindow() override {
    KJ_IF_MAYBE(size, stream->getSendBufferSize()) {
      return *size;
    } else {
      return capnp::RpcFlowController::DEFAULT_WINDOW_SIZE;
    }
  }
  kj::Own<capnp::OutgoingRpcMessage> newOutgoingMessage(uint firstSegmentWordSize) override {
    return kj::refcounted<inside::Outgoing>(*this, end, firstSegmentWordSize);
  }

  kj::Promise<kj::Maybe<kj::Own<capnp::IncomingRpcMessage>>> receiveIncomingMessage() override {
    return kj::evalLater([this]() -> kj::Promise<kj::Maybe<kj::Own<capnp::IncomingRpcMessage>>> {
      KJ_IF_MAYBE(reason, readCancelReason) {
        return kj::cp(*reason);
      }
      auto room = maxFdsPerMessage > 0 ? kj::heapArray<kj::AutoCloseFd>(maxFdsPerMessage) : nullptr;
      auto read = readCanceler.wrap(stream->tryReadMessage(room, options));
      return read.then([this, room = kj::mv(room)](kj::Maybe<capnp::MessageReaderAndFds>&& message) mutable
                           -> kj::Maybe<kj::Own<capnp::IncomingRpcMessage>> {
        KJ_IF_MAYBE(came, message) {
          return kj::Own<capnp::IncomingRpcMessage>(
              kj::heap<inside::Incoming>(end, kj::mv(came->reader), kj::mv(room), came->fds));
        } else {
          return nullptr;
        }
      });
    });
  }

  kj::Promise<void> shutdown() override {
    auto result = KJ_ASSERT_NONNULL(previousWrite, "already shut down").then([this]() { return stream->end(); });
    previousWrite = nullptr;
    return result;
  }

  // Nobody looks at failed writes, so they fail the reads.
  void failReads(kj::Exception&& exception) {
    readCancelReason = kj::cp(exception);
    if (!readCanceler.isEmpty()) readCanceler.cancel(kj::cp(exception));
    kj::throwRecoverableException(kj::mv(exception));
  }

  void write(kj::Own<inside::Outgoing> message);
#if CAPNP_VERSION >= 1000000
  kj::Promise<void> writeFrom(kj::ArrayPtr<kj::Own<inside::Outgoing>> messages);
#endif
};

inline void inside::Outgoing::setFds(kj::Array<int> given) {
  if (network.maxFdsPerMessage > 0) fds = kj::mv(given);
}

// SEND is recorded as the frame is handed over, not when its bytes are written: what the program does next may
// already name what the message brought.
inline void inside::Outgoing::send() {
  KJ_REQUIRE(sizeInWords() < network.options.traversalLimitInWords,
             "Trying to send Cap'n Proto message larger than our single-message size limit.") { return; }
  record();
  leave();
  network.write(kj::addRef(*this));
}

#if CAPNP_VERSION >= 1000000

// What is sent in one turn of the loop is written at once, at the end of the turn.
inline void Network::write(kj::Own<inside::Outgoing> message) {
  auto now = clock.now();
  if (queueCount == 0) writtenSince = now;
  auto& before = KJ_ASSERT_NONNULL(previousWrite, "already shut down");
  queueSize += message->sizeInWords() * sizeof(capnp::word);
  queue.add(kj::addRef(*message));
  if (queueCount++ > 0) return;
  previousWrite = before.then([this, now]() {
    return kj::evalLast([this, now]() -> kj::Promise<void> {
      writtenSince = now;
      auto messages = kj::mv(queue);
      queueSize = queueCount = 0;
      auto written = writeFrom(messages);
      return written.attach(kj::mv(messages));
    }).catch_([this](kj::Exception&& exception) { failReads(kj::mv(exception)); });
  }).attach(kj::mv(message)).eagerlyEvaluate(nullptr);
}

// Messages without descriptors go together, each with descriptors alone.
inline kj::Promise<void> Network::writeFrom(kj::ArrayPtr<kj::Own<inside::Outgoing>> messages) {
  kj::Vector<kj::ArrayPtr<const kj::ArrayPtr<const capnp::word>>> plain(messages.size());
  for (auto& message: messages) {
    if (message->fds.size() > 0) break;
    plain.add(message->message.getSegmentsForOutput());
  }
  auto written = plain.empty()
      ? stream->writeMessage(messages[0]->fds, messages[0]->message.getSegmentsForOutput())
      : stream->writeMessages(plain.asPtr());
  auto rest = messages.slice(kj::max(plain.size(), size_t(1)), messages.size());
  written = written.attach(kj::mv(plain));
  return rest.size() == 0 ? kj::mv(written) : written.then([this, rest]() { return writeFrom(rest); });
}

#else

inline void Network::write(kj::Own<inside::Outgoing> message) {
  auto& outgoing = *message;
  size_t size = outgoing.sizeInWords() * sizeof(capnp::word);
  queueSize += size, queueCount++;
  auto leaveQueue = kj::defer([this, size]() { queueSize -= size, queueCount--; });
  auto now = clock.now();
  previousWrite = KJ_ASSERT_NONNULL(previousWrite, "already shut down").then([this, &outgoing, now]() {
    return kj::evalNow([&]() {
      writtenSince = now;
      return stream->writeMessage(outgoing.fds, outgoing.message);
    }).catch_([this](kj::Exception&& exception) { failReads(kj::mv(exception)); });
  }).attach(kj::mv(message), kj::mv(leaveQueue)).eagerlyEvaluate(nullptr);
}

#endif

}  // namespace vataudit
