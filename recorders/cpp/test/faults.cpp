// Vats whose runtime has a planted fault. What the audit has to say of each log stands in expected.txt, with the reason.
//
// The fault sits between capnp's RpcSystem and the recorder's network, so RpcSystem and fault together are the
// runtime that is recorded: a message is changed, held back, doubled or left out before it is handed over, or is
// understood as another one after it was looked at. The last two faults break no rule of one log: one of them sits in
// the line between the vats.

#include "world.h"

#include <deque>

namespace {

namespace rpc = capnp::rpc;
using Base = capnp::TwoPartyVatNetworkBase;

// What a planted fault does with messages.
struct Fault {
  virtual ~Fault() noexcept(false) {}
  // Whether a message goes out; it may be changed, and others may be sent before it.
  virtual bool sends(rpc::Message::Builder, Base::Connection&) { return true; }
  // A message has gone out; others may be sent behind it.
  virtual void sent(rpc::Message::Reader, Base::Connection&) {}
  // Whether a message is held back until the next one has gone out.
  virtual bool holds(rpc::Message::Reader) { return false; }
  // Whether a message stays in a queue for good once it was looked at.
  virtual bool keeps(rpc::Message::Reader) { return false; }
  // Whether a message waits in a queue, once it was looked at, until the next that doesn't wait and all that this one
  // brings about are done.
  virtual bool delays(rpc::Message::Reader) { return false; }
  // Changes in memory what the runtime makes of a message, after it was recorded.
  virtual void understands(rpc::Message::Reader) {}
  // What vat 2 reads in the place of this stream.
  virtual kj::AsyncIoStream& line(kj::AsyncIoStream& stream) { return stream; }
};

class FaultyConnection final: public Base::Connection {
public:
  FaultyConnection(kj::Own<Base::Connection> inner, Fault& fault): inner(kj::mv(inner)), fault(fault) {}

  kj::Own<capnp::RpcFlowController> newStream() override { return inner->newStream(); }
  rpc::twoparty::VatId::Reader getPeerVatId() override { return inner->getPeerVatId(); }
  kj::Own<capnp::OutgoingRpcMessage> newOutgoingMessage(uint firstSegmentWordSize) override {
    return kj::heap<Outgoing>(*this, inner->newOutgoingMessage(firstSegmentWordSize));
  }
  kj::Promise<kj::Maybe<kj::Own<capnp::IncomingRpcMessage>>> receiveIncomingMessage() override {
    using Received = kj::Maybe<kj::Own<capnp::IncomingRpcMessage>>;
    if (isNextDone) {
      return kj::evalLast([]() { return kj::evalLast([]() {}); }).then([this]() {
        auto message = kj::mv(delayed.front());
        delayed.pop_front();
        isNextDone = !delayed.empty();
        return Received(kj::mv(message));
      });
    }
    return inner->receiveIncomingMessage().then([this](Received&& message) -> kj::Promise<Received> {
      KJ_IF_MAYBE(read, message) {
        if (fault.keeps((*read)->getBody().getAs<rpc::Message>())) {
          kept.push_back(kj::mv(*read));
          return receiveIncomingMessage();
        }
        if (fault.delays((*read)->getBody().getAs<rpc::Message>())) {
          delayed.push_back(kj::mv(*read));
          return receiveIncomingMessage();
        }
        isNextDone = !delayed.empty();
        return Received(kj::Own<capnp::IncomingRpcMessage>(kj::heap<Incoming>(fault, kj::mv(*read))));
      } else {
        return Received(nullptr);
      }
    });
  }
  kj::Promise<void> shutdown() override { return inner->shutdown(); }

private:
  kj::Own<Base::Connection> inner;
  Fault& fault;
  kj::Maybe<kj::Own<capnp::OutgoingRpcMessage>> held;
  std::vector<kj::Own<capnp::IncomingRpcMessage>> kept;
  std::deque<kj::Own<capnp::IncomingRpcMessage>> delayed;
  bool isNextDone = false;

  struct Outgoing final: capnp::OutgoingRpcMessage {
    Outgoing(FaultyConnection& line, kj::Own<capnp::OutgoingRpcMessage> inner): line(line), inner(kj::mv(inner)) {}
    capnp::AnyPointer::Builder getBody() override { return inner->getBody(); }
    size_t sizeInWords() override { return inner->sizeInWords(); }
    void send() override {
      auto message = inner->getBody().getAs<rpc::Message>();
      if (line.held == nullptr && line.fault.holds(message.asReader())) {
        line.held = kj::mv(inner);
        inner = line.inner->newOutgoingMessage(0);
        return;
      }
      if (!line.fault.sends(message, *line.inner)) return;
      inner->send();
      line.fault.sent(message.asReader(), *line.inner);
      KJ_IF_MAYBE(before, line.held) {
        auto message = kj::mv(*before);
        line.held = nullptr;
        message->send();
      }
    }
    FaultyConnection& line;
    kj::Own<capnp::OutgoingRpcMessage> inner;
  };

  struct Incoming final: capnp::IncomingRpcMessage {
    Incoming(Fault& fault, kj::Own<capnp::IncomingRpcMessage> inner): fault(fault), inner(kj::mv(inner)) {}
    capnp::AnyPointer::Reader getBody() override {
      auto body = inner->getBody();
      if (!isSeen) fault.understands(body.getAs<rpc::Message>());
      isSeen = true;
      return body;
    }
    size_t sizeInWords() override { return inner->sizeInWords(); }
    Fault& fault;
    kj::Own<capnp::IncomingRpcMessage> inner;
    bool isSeen = false;
  };
};

class FaultyNetwork final: public Base {
public:
  FaultyNetwork(vataudit::Network& inner, Fault& fault): inner(inner), fault(fault) {}

  kj::Maybe<kj::Own<Connection>> connect(rpc::twoparty::VatId::Reader id) override {
    auto connected = inner.connect(id);
    KJ_IF_MAYBE(connection, connected) {
      return kj::Own<Connection>(kj::heap<FaultyConnection>(kj::mv(*connection), fault));
    } else {
      return nullptr;
    }
  }
  kj::Promise<kj::Own<Connection>> accept() override {
    return inner.accept().then([this](kj::Own<Connection>&& connection) -> kj::Own<Connection> {
      return kj::heap<FaultyConnection>(kj::mv(connection), fault);
    });
  }

private:
  vataudit::Network& inner;
  Fault& fault;
};

// Vat 1 asks vat 2 over connection 0, each with a runtime that may have a fault.
struct Two: TwoVats {
  Two(World& world, Fault& firstFault, Fault& secondFault)
      : TwoVats(world), peer(second, secondFault.line(*pipe.ends[1]), 0, Side::SERVER),
        faulty(network, firstFault), faultyPeer(peer, secondFault) {}

  vataudit::Network network { first, *pipe.ends[0], 0, Side::CLIENT };
  vataudit::Network peer;
  FaultyNetwork faulty, faultyPeer;
  vataudit::Network::RpcSystem server = capnp::makeRpcServer(faultyPeer, peer.asBootstrap(seconds()));
  vataudit::Network::RpcSystem client = capnp::makeRpcClient(faulty);
  Counter::Client counter = network.bootstrap(client).castAs<Counter>();
};

const uint16_t NEXT = 0, SAME = 1;

bool isCallOf(rpc::Message::Reader message, uint16_t method) {
  return message.isCall() && message.getCall().getMethodId() == method;
}

Fault sound;

// The runtime of vat 2 looks a call's target up wrongly: number 1 in the place of 0.
struct WrongObject: Fault {
  void understands(rpc::Message::Reader message) override {
    if (!isCallOf(message, NEXT) || !message.getCall().getTarget().isImportedCap()) return;
    auto data = capnp::AnyStruct::Reader(message.getCall().getTarget()).getDataSection();
    const_cast<kj::byte&>(data[0]) = 1;
  }
};

// The queue of vat 1 lets a call overtake the one on whose result it is made.
struct Overtaken: Fault {
  bool holds(rpc::Message::Reader message) override { return isCallOf(message, SAME); }
};

// Vat 1 gives a capability back, and calls it afterwards.
struct ReleasedEarly: Fault {
  bool sends(rpc::Message::Builder message, Base::Connection& connection) override {
    if (!isCallOf(message.asReader(), NEXT)) return true;
    auto release = connection.newOutgoingMessage(0);
    release->getBody().initAs<rpc::Message>().initRelease().setReferenceCount(1);
    release->send();
    return true;
  }
};

// Vat 1 gives back one more than it has.
struct ReleasedTooOften: Fault {
  bool sends(rpc::Message::Builder message, Base::Connection&) override {
    if (message.isRelease()) message.getRelease().setReferenceCount(message.getRelease().getReferenceCount() + 1);
    return true;
  }
};

// Vat 1 sends another method than the program called.
struct WrongMethod: Fault {
  bool sends(rpc::Message::Builder message, Base::Connection&) override {
    if (isCallOf(message.asReader(), NEXT)) message.getCall().setMethodId(11);
    return true;
  }
};

// Vat 1 sends a call to another number than that of its capability.
struct WrongTarget: Fault {
  bool sends(rpc::Message::Builder message, Base::Connection&) override {
    if (isCallOf(message.asReader(), NEXT)) message.getCall().getTarget().setImportedCap(1);
    return true;
  }
};

// Vat 1 uses the number of a question that is still open.
struct QuestionReused: Fault {
  bool sends(rpc::Message::Builder message, Base::Connection&) override {
    if (isCallOf(message.asReader(), NEXT)) message.getCall().setQuestionId(0);
    return true;
  }
};

// A runtime that sends each message of a kind twice.
template <bool (*isSentTwice)(rpc::Message::Reader)>
struct SentTwice: Fault {
  void sent(rpc::Message::Reader message, Base::Connection& connection) override {
    if (!isSentTwice(message)) return;
    auto again = connection.newOutgoingMessage(0);
    again->getBody().setAs<rpc::Message>(message);
    again->send();
  }
};

bool isFinish(rpc::Message::Reader message) { return message.isFinish(); }
bool isResolve(rpc::Message::Reader message) { return message.isResolve(); }
bool isEcho(rpc::Message::Reader message) { return message.isDisembargo(); }

// Not the Return with the bootstrap object: a copy of that would need its capabilities.
bool isReturnOfNone(rpc::Message::Reader message) {
  return message.isReturn() && message.getReturn().getResults().getCapTable().size() == 0;
}

// A call stays in a queue of vat 2, and the echo goes round it.
struct EchoOvertakes: Fault {
  bool keeps(rpc::Message::Reader message) override { return isCallOf(message, NEXT); }
};

// A call that comes back to vat 1 waits in a queue there, with the Return that takes its results, and the echo goes
// round both.
struct ReflectionOvertaken: Fault {
  bool delays(rpc::Message::Reader message) override {
    return (message.isCall() && message.getCall().getSendResultsTo().isYourself()) ||
        (message.isReturn() && message.getReturn().isTakeFromOtherQuestion());
  }
};

// Vat 2 returns the results of one call as those of another, which is still at work.
struct WrongQuestion: Fault {
  bool sends(rpc::Message::Builder message, Base::Connection&) override {
    if (message.isReturn() && message.getReturn().getAnswerId() == 1) message.getReturn().setAnswerId(0);
    return true;
  }
};

// Vat 2 returns another object than the program gave as the result.
struct WrongResult: Fault {
  bool sends(rpc::Message::Builder message, Base::Connection&) override {
    if (!message.isReturn() || !message.getReturn().isResults()) return true;
    auto table = message.getReturn().getResults().getCapTable();
    if (isArmed && table.size() == 1 && table[0].isSenderHosted()) table[0].setSenderHosted(1);
    return true;
  }
  bool isArmed = false;
};

// The queue of vat 1 lets a call overtake one that was made through the same reference.
struct Reordered: Fault {
  bool holds(rpc::Message::Reader message) override { return isCallOf(message, NEXT); }
};

const uint32_t MARK = 0x5eed;

// A stream in which a word that is the mark comes as another.
class ChangingStream final: public kj::AsyncIoStream {
public:
  explicit ChangingStream(kj::AsyncIoStream& inner): inner(inner) {}

  kj::Promise<size_t> tryRead(void* buffer, size_t least, size_t most) override {
    return inner.tryRead(buffer, least, most).then([buffer](size_t length) {
      auto bytes = static_cast<kj::byte*>(buffer);
      for (size_t at = 0; at + sizeof(uint64_t) <= length; at += sizeof(uint64_t)) {
        uint64_t word;
        memcpy(&word, bytes + at, sizeof(word));
        if (word == MARK) bytes[at]++;
      }
      return length;
    });
  }
  kj::Promise<void> write(const void* buffer, size_t size) override { return inner.write(buffer, size); }
  kj::Promise<void> write(kj::ArrayPtr<const kj::ArrayPtr<const kj::byte>> pieces) override {
    return inner.write(pieces);
  }
  kj::Promise<void> whenWriteDisconnected() override { return inner.whenWriteDisconnected(); }
  void shutdownWrite() override { inner.shutdownWrite(); }

private:
  kj::AsyncIoStream& inner;
};

// The line changes a parameter on its way to vat 2.
struct Changed: Fault {
  kj::AsyncIoStream& line(kj::AsyncIoStream& stream) override {
    changing = kj::heap<ChangingStream>(stream);
    return *changing;
  }
  kj::Own<ChangingStream> changing;
};

// Waits until all has come to rest, whether or not the promise is kept.
template <typename Promise>
void rest(Two& two, Promise&& promise) {
  auto kept = promise.then([](auto&&) {}, [](kj::Exception&&) {}).eagerlyEvaluate(nullptr);
  two.settle();
}

// One call at a time, so that it goes to the number that vat 2 gave out.
void callNext(Two& two) {
  two.settle();
  rest(two, nextBy(two.counter, 1).send());
}

void callTwice(Two& two) {
  two.settle();
  auto one = nextBy(two.counter, 1).send();
  rest(two, nextBy(two.counter, 2).send());
}

void callMarked(Two& two) {
  two.settle();
  rest(two, nextBy(two.counter, MARK).send());
}

void callNextOfTwo(Two& two) {
  two.settle();
  auto made = two.wait(two.counter.makeRequest().send());
  callNext(two);
}

void callOnResult(Two& two) {
  two.settle();
  auto same = two.counter.sameRequest().send();
  rest(two, nextBy(same.getCounter(), 1).send());
}

void callWhileWaiting(Two& two) {
  two.settle();
  auto never = two.counter.neverRequest().send();
  two.settle();
  callNext(two);
}

void dropAll(Two& two) {
  two.settle();
  two.counter = nullptr;
  two.settle();
}

void resolvePromise(Two& two) {
  Counter::Client promise = two.later(two.counter);
  two.settlePromise(two.counter, 0);
  two.settle();
}

void liftEmbargoAfterCall(Two& two) {
  two.hold(two.counter, two.firsts(10));
  Counter::Client promise = two.later(two.counter);
  auto early = nextBy(promise, 1).send();
  two.settlePromise(two.counter, 2);
  auto late = nextBy(promise, 2).send();
  two.settle();
}

void overtakeReflection(Two& two) {
  two.hold(two.counter, two.firsts(10));
  auto held = two.counter.heldRequest().send();
  Counter::Client counter = held.getCounter();
  auto early = counter.sameRequest().send();
  two.wait(held);
  auto late = counter.sameRequest().send();
  two.settle();
}

void liftEmbargo(Two& two) {
  two.hold(two.counter, two.firsts(10));
  Counter::Client promise = two.later(two.counter);
  two.pass(two.counter, promise);
  two.settlePromise(two.counter, 2);
  two.settle();
}

void wrongResult(World& world) {
  WrongResult fault;
  Two two(world, sound, fault);
  two.settle();
  auto made = two.wait(two.counter.makeRequest().send());
  fault.isArmed = true;
  rest(two, two.counter.sameRequest().send());
}

// A conversation in which the runtime of vat 1, or that of vat 2, has the fault.
template <typename Planted>
std::function<void(World&)> inFirst(void (*conversation)(Two&)) {
  return [conversation](World& world) {
    Planted fault;
    Two two(world, fault, sound);
    conversation(two);
  };
}
template <typename Planted>
std::function<void(World&)> inSecond(void (*conversation)(Two&)) {
  return [conversation](World& world) {
    Planted fault;
    Two two(world, sound, fault);
    conversation(two);
  };
}

const Conversations faults = {
  { "fault_wrong_object", inSecond<WrongObject>(callNextOfTwo) },
  { "fault_overtaken", inFirst<Overtaken>(callOnResult) },
  { "fault_released_early", inFirst<ReleasedEarly>(callNext) },
  { "fault_released_too_often", inFirst<ReleasedTooOften>(dropAll) },
  { "fault_wrong_method", inFirst<WrongMethod>(callNext) },
  { "fault_wrong_target", inFirst<WrongTarget>(callNextOfTwo) },
  { "fault_question_reused", inFirst<QuestionReused>(callWhileWaiting) },
  { "fault_finished_twice", inFirst<SentTwice<isFinish>>(callNext) },
  { "fault_returned_twice", inSecond<SentTwice<isReturnOfNone>>(callNext) },
  { "fault_resolved_twice", inSecond<SentTwice<isResolve>>(resolvePromise) },
  { "fault_echoed_twice", inSecond<SentTwice<isEcho>>(liftEmbargo) },
  { "fault_echo_overtakes", inSecond<EchoOvertakes>(liftEmbargoAfterCall) },
  { "fault_wrong_question", inSecond<WrongQuestion>(callWhileWaiting) },
  { "fault_wrong_result", wrongResult },
  { "fault_reflection_overtaken", inFirst<ReflectionOvertaken>(overtakeReflection) },
  { "fault_reordered", inFirst<Reordered>(callTwice) },
  { "fault_changed", inSecond<Changed>(callMarked) },
};

}  // namespace

int main(int count, char** words) {
  return writeLogs("faults", faults, {}, count, words);
}
