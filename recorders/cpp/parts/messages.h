// Messages
#pragma once

#include "end.h"

namespace vataudit {
namespace inside {

using Segments = std::vector<kj::ArrayPtr<const capnp::word>>;

template <typename List>
size_t wordsOf(const List& segments) {
  size_t size = 0;
  for (auto& segment: segments) size += segment.size();
  return size;
}

// A message of the runtime, until it is handed to the transport.
class Outgoing final: public capnp::OutgoingRpcMessage, public kj::Refcounted {
public:
  Outgoing(Network& network, std::shared_ptr<End> end, uint firstSegmentWordSize)
      : network(network), end(kj::mv(end)),
        message(firstSegmentWordSize == 0 ? capnp::SUGGESTED_FIRST_SEGMENT_WORDS : firstSegmentWordSize),
        call(this->end->vat->building) {
    if (call == nullptr) {
      unsent.message = &message;
      unsent.before = this->end->vat->unsent;
      this->end->vat->unsent = &unsent;
    }
  }
  ~Outgoing() noexcept(false) { leave(); }

  AnyPointer::Builder getBody() override { return message.getRoot<AnyPointer>(); }
  void setFds(kj::Array<int> fds) override;
  void send() override;
  size_t sizeInWords() override { return wordsOf(message.getSegmentsForOutput()); }

private:
  Network& network;
  std::shared_ptr<End> end;
  capnp::MallocMessageBuilder message;
  kj::Array<int> fds;
  std::shared_ptr<Call> call;      // the call whose request the program writes right here
  Unsent unsent;
  friend class vataudit::Network;

  void leave() {
    for (Unsent** at = &end->vat->unsent; *at != nullptr; at = &(*at)->before) {
      if (*at != &unsent) continue;
      *at = unsent.before;
      unsent.before = nullptr;
      return;
    }
  }

  void record() {
    auto& vat = *end->vat;
    if (!vat.isRecording()) return;
    auto reader = message.getRoot<rpc::Message>().asReader();
    auto segments = message.getSegmentsForOutput();
    bool isWrittenHere = call != nullptr;
    auto& sender = isWrittenHere ? call : vat.sending != nullptr ? vat.sending : unsent.passedOn;
    end->sent(reader, segments, sender, isWrittenHere);
  }
};

// A message that came in. RECV is recorded at the first look at it, before the runtime acts on it: all that the
// message brings about stands behind it.
class Incoming final: public capnp::IncomingRpcMessage {
public:
  // The descriptors that came with it are the first of `room`.
  Incoming(std::shared_ptr<End> end, kj::Own<capnp::MessageReader> message, kj::Array<kj::AutoCloseFd> room,
           kj::ArrayPtr<kj::AutoCloseFd> fds)
      : end(kj::mv(end)), message(kj::mv(message)), room(kj::mv(room)), fds(fds), first(this->message->getSegment(0)),
        segments(&first, 1) {
    if (this->message->getSegment(1).begin() != nullptr) listSegments();
  }
  ~Incoming() noexcept(false) {
    if (call != nullptr) end->vat->letGo(call);
  }

  AnyPointer::Reader getBody() override {
    if (!isSeen && end->vat->isRecording()) record();
    isSeen = true;
    return message->getRoot<AnyPointer>();
  }
  kj::ArrayPtr<kj::AutoCloseFd> getAttachedFds() override { return fds; }
  size_t sizeInWords() override { return wordsOf(segments); }

private:
  std::shared_ptr<End> end;
  kj::Own<capnp::MessageReader> message;
  kj::Array<kj::AutoCloseFd> room;
  kj::ArrayPtr<kj::AutoCloseFd> fds;
  kj::ArrayPtr<const capnp::word> first;
  Segments several;  // of a message that has more than the first; most don't
  kj::ArrayPtr<const kj::ArrayPtr<const capnp::word>> segments;
  std::shared_ptr<Call> call;
  bool isSeen = false;

  void listSegments() {
    for (uint at = 0;; at++) {
      auto segment = message->getSegment(at);
      if (segment.begin() == nullptr) break;
      several.push_back(segment);
    }
    segments = kj::arrayPtr(several.data(), several.size());
  }

  // Reads with limits of its own, so that the program's aren't used up. A frame that can't be read is recorded
  // as it is: the audit says so.
  void record() {
    capnp::ReaderOptions options;
    options.traversalLimitInWords = ~uint64_t(0) >> 4;
    capnp::SegmentArrayMessageReader reader(segments, options);
    KJ_IF_MAYBE(exception, kj::runCatchingExceptions([&]() {
      call = end->received(reader.getRoot<rpc::Message>(), segments);
    })) {
      (void)exception;
      end->vat->frame(false, end->number(), 0, {}, segments);
    }
  }
};

}  // namespace inside
}  // namespace vataudit
