// Calls that the program makes
#pragma once

#include "hooks.h"

namespace vataudit {
namespace inside {

// Says for a while which call is at work, and then again what was said before.
class Meanwhile {
public:
  Meanwhile(std::shared_ptr<Call>& place, std::shared_ptr<Call> call): place(place), before(kj::mv(place)) {
    place = kj::mv(call);
  }
  ~Meanwhile() { place = kj::mv(before); }
  KJ_DISALLOW_COPY(Meanwhile);

private:
  std::shared_ptr<Call>& place;
  std::shared_ptr<Call> before;
};

// The results of a call that are still to come. FIELD is recorded where the program first names one.
class Pipeline final: public capnp::PipelineHook, public kj::Refcounted {
public:
  Pipeline(SharedVat vat, std::shared_ptr<Call> call, kj::Own<capnp::PipelineHook> inner)
      : vat(kj::mv(vat)), call(kj::mv(call)), inner(kj::mv(inner)) {}

  kj::Own<capnp::PipelineHook> addRef() override { return kj::addRef(*this); }

  kj::Own<ClientHook> getPipelinedCap(kj::ArrayPtr<const capnp::PipelineOp> ops) override {
    Path path;
    for (auto& op: ops) {
      if (op.type == capnp::PipelineOp::GET_POINTER_FIELD) path.push_back(op.pointerIndex);
    }
    auto hook = inner->getPipelinedCap(ops);
    if (!vat->isRecording()) return hook;
    auto reference = fieldAt(path, *hook);
    return wrapped(vat, reference, kj::mv(hook));
  }

private:
  SharedVat vat;
  std::shared_ptr<Call> call;
  kj::Own<capnp::PipelineHook> inner;
  std::vector<std::pair<Path, Reference>> named;

  Reference fieldAt(const Path& path, ClientHook& hook) {
    for (auto& one: named) {
      if (one.first == path) return one.second;
    }
    // Named behind the ANSWER, of a result that isn't there, while the runtime doesn't know that yet.
    auto& answered = answering(*call);
    bool isNull = answered.isLocallyAnswered && answered.fieldAt(path) == nullptr;
    bool isPromise = !hook.isError() && !hook.isNull();
    named.push_back({ path, isNull && isPromise ? vat->nullPromise() : vat->field(call, path) });
    return named.back().second;
  }
};

// Results that came, in which each capability has the reference that its Return noted.
class Results final: public capnp::ResponseHook {
public:
  Results(SharedVat vat, std::vector<Reference> byIndex, kj::Own<capnp::ResponseHook> inner)
      : inner(kj::mv(inner)), table(kj::mv(vat), kj::mv(byIndex)) {}

private:
  kj::Own<capnp::ResponseHook> inner;

public:
  ReadTable table;
};

// The references of the capabilities in a call's results, by their indexes there. Where the call came back, and went on
// from here, the runtime has copied them.
inline std::vector<Reference> resultsOf(Call& call, AnyPointer::Reader results) {
  bool isCopy = false;
  Call* at = &call;
  while (at->answeredBy != nullptr) {
    at = at->answeredBy.get();
    isCopy = isCopy || at->isReceived;
  }
  if (!isCopy || at->isLocallyAnswered) return at->resultsByIndex;
  return byIndexOf(Content(results).met, at->resultsAsMet);
}

// What a request of this brand, which was made of this hook, goes to as it is sent, where that is something else.
inline kj::Own<ClientHook> turnedTo(ClientHook& hook, const void* brand) {
  if (hook.getBrand() != brand) return {};  // the runtime's proxy
  ClientHook* at = &hook;
  while (at->getBrand() == brand) {
    KJ_IF_MAYBE(next, at->getResolved()) {
      at = next;
    } else {
      return {};
    }
  }
  return at->addRef();
}

// Lies in the capability table of a request that stays in this vat, where no pointer names it, and goes when the
// runtime lets go of the parameters: so the recorder knows which call they are of.
template <typename... Hints>
class TagWith final: public ClientHook, public kj::Refcounted {
public:
  TagWith(SharedVat vat, std::shared_ptr<Call> of): vat(kj::mv(vat)), of(kj::mv(of)) {}
  ~TagWith() noexcept(false) { vat->letGo(of); }

  capnp::Request<AnyPointer, AnyPointer> newCall(uint64_t, uint16_t, kj::Maybe<capnp::MessageSize> sizeHint,
                                                 Hints...) override {
    return capnp::newBrokenRequest(KJ_EXCEPTION(FAILED, "a tag of the recorder is called"), sizeHint);
  }
  VoidPromiseAndPipeline call(uint64_t, uint16_t, kj::Own<capnp::CallContextHook>&&, Hints...) override {
    auto failure = KJ_EXCEPTION(FAILED, "a tag of the recorder is called");
    return VoidPromiseAndPipeline { kj::cp(failure), capnp::newBrokenPipeline(kj::cp(failure)) };
  }
  kj::Maybe<ClientHook&> getResolved() override { return nullptr; }
  kj::Maybe<kj::Promise<kj::Own<ClientHook>>> whenMoreResolved() override { return nullptr; }
  kj::Own<ClientHook> addRef() override { return kj::addRef(*this); }
  const void* getBrand() override { return nullptr; }
  kj::Maybe<int> getFd() override { return nullptr; }

private:
  SharedVat vat;
  std::shared_ptr<Call> of;
};
using Tag = OfVersion<TagWith>;

// A copy of a request whose promise turned meanwhile. The runtime sends such a request as a call of its own, even where
// a method hands its call on by it: so it isn't to see over which connection the copy goes.
class TurnedRequest final: public capnp::RequestHook {
public:
  explicit TurnedRequest(kj::Own<capnp::RequestHook> inner): inner(kj::mv(inner)) {}

  capnp::RemotePromise<AnyPointer> send() override { return inner->send(); }
  kj::Promise<void> sendStreaming() override { return inner->sendStreaming(); }
#if CAPNP_VERSION >= 1000000
  AnyPointer::Pipeline sendForPipeline() override { return inner->sendForPipeline(); }
#endif
  const void* getBrand() override { return nullptr; }

private:
  kj::Own<capnp::RequestHook> inner;
};

// A request of the program. MAKE is recorded as it is sent, so before the runtime's SEND.
class Request final: public capnp::RequestHook {
public:
  using Runtimes = capnp::Request<AnyPointer, AnyPointer>;
  // Makes the same request of another hook.
  using Renew = std::function<Runtimes(ClientHook&, kj::Maybe<capnp::MessageSize>)>;

  Request(SharedVat vat, Reference target, kj::Own<ClientHook> hook, std::shared_ptr<Call> call, Runtimes&& request,
          Renew&& renew)
      : vat(vat), target(kj::mv(target)), hook(kj::mv(hook)), call(kj::mv(call)), builder(request),
        renew(kj::mv(renew)), table(kj::mv(vat)), inner(capnp::RequestHook::from(kj::mv(request))) {
    if (isLocal()) tag();
  }

  AnyPointer::Builder params() { return table.imbue(builder); }

  capnp::RemotePromise<AnyPointer> send() override {
    if (!begin()) return inner->send();
    auto promise = whileSending([&] { return inner->send(); });
    auto pipeline = recorded(kj::mv(promise));
    auto results = promise.then([vat = vat, call = call](capnp::Response<AnyPointer>&& response) {
      AnyPointer::Reader reader = response;
      auto byIndex = resultsOf(*call, reader);
      if (byIndex.empty()) return kj::mv(response);
      auto hook = kj::heap<Results>(vat, kj::mv(byIndex), capnp::ResponseHook::from(kj::mv(response)));
      reader = hook->table.imbue(reader);
      return capnp::Response<AnyPointer>(reader, kj::mv(hook));
    });
    return capnp::RemotePromise<AnyPointer>(kj::mv(results), kj::mv(pipeline));
  }

  kj::Promise<void> sendStreaming() override {
    if (!begin()) return inner->sendStreaming();
    return whileSending([&] { return inner->sendStreaming(); });
  }

#if CAPNP_VERSION >= 1000000
  // No Return is asked for: the call's results may be named, and never come.
  AnyPointer::Pipeline sendForPipeline() override {
    if (!begin()) return inner->sendForPipeline();
    return recorded(whileSending([&] { return inner->sendForPipeline(); }));
  }
#endif

  // The runtime never sees this request, only the one inside.
  const void* getBrand() override { return nullptr; }

  // Records MAKE, and what is needed to know the call again: where its parameters lie, and what they give away.
  bool begin() {
    if (!vat->isRecording()) return false;
    vat->make(*call, target);
    call->paramsByIndex = kj::mv(table.byIndex);
    if (!call->paramsByIndex.empty()) {
      call->paramsAsMet = asMet(Content(builder.asReader()).met, call->paramsByIndex);
    }
    followTurn();
    if (isLocal()) vat->keep(call, builder.asReader());
    return vat->isRecording();
  }

  // The call by which a method hands its own on: a Return may name it.
  std::shared_ptr<Call> goingOn() {
    return isLocal() ? call : vat->throughProxies(call, [](const Call&) { return false; });
  }

  // The runtime's request, for a method that hands its call on by it.
  kj::Own<capnp::RequestHook> handedOn() {
    if (turned.empty()) return kj::mv(inner);
    return kj::heap<TurnedRequest>(kj::mv(inner));
  }

  // What the runtime answers when this call is handed to it.
  template <typename Send>
  auto whileSending(Send&& send) -> decltype(send()) {
    bool isProxied = !isLocal() && hook->getBrand() != inner->getBrand();
    Meanwhile meanwhile(vat->sending, call);
    KJ_DEFER({
      if (isProxied) vat->noteTurned(call);
      vat->settle();
    });
    return send();
  }

  SharedVat vat;
  Reference target;
  kj::Own<ClientHook> hook;      // of which the runtime's request was made
  std::shared_ptr<Call> call;
  AnyPointer::Builder builder;
  Renew renew;
  WriteTable table;
  kj::Own<capnp::RequestHook> inner;

private:
  kj::Vector<kj::Own<capnp::RequestHook>> turned;  // the requests that copies were made of

  // Whether the request stays in this vat, or waits here for a promise.
  bool isLocal() { return inner->getBrand() == nullptr; }

  void tag() {
    auto pointer = capnp::_::PointerHelpers<AnyPointer>::getInternalBuilder(AnyPointer::Builder(builder));
    pointer.getCapTable()->injectCap(kj::refcounted<Tag>(vat, call));
  }

  // Where a promise turned while its request was written, the runtime copies the request as it is sent, and sends the
  // copy to what the promise became. The copy is made here in the same way, so that it is known.
  void followTurn() {
    while (!isLocal()) {
      auto next = turnedTo(*hook, inner->getBrand());
      if (next.get() == nullptr || !isConnected()) return;
      auto written = builder.asReader();
      auto copy = renew(*next, builder.targetSize());
      builder = copy;
      hook = kj::mv(next);
      turned.add(kj::mv(inner));
      inner = capnp::RequestHook::from(kj::mv(copy));
      if (isLocal()) tag();
      builder.set(written);
      if (isLocal()) call->paramsByIndex = byIndexOf(Content(builder.asReader()).met, call->paramsAsMet);
    }
  }

  // Of a request whose connection is gone the runtime makes no copy: it fails.
  bool isConnected() {
    return capnp::RequestHook::from(renew(*hook, nullptr))->getBrand() == inner->getBrand();
  }

  // The pipeline of this call, in which each result that is named gets its FIELD.
  AnyPointer::Pipeline recorded(AnyPointer::Pipeline&& pipeline) {
    return AnyPointer::Pipeline(
        kj::refcounted<Pipeline>(vat, call, capnp::PipelineHook::from(kj::mv(pipeline))));
  }
};

template <typename... Hints>
capnp::Request<AnyPointer, AnyPointer> HandleWith<Hints...>::newCall(
    uint64_t interfaceId, uint16_t methodId, kj::Maybe<capnp::MessageSize> sizeHint, Hints... hints) {
  if (!vat->isRecording()) return inner->newCall(interfaceId, methodId, sizeHint, hints...);
  auto call = vat->newCall(interfaceId, methodId);
  auto request = [&] {
    Meanwhile meanwhile(vat->building, call);
    return inner->newCall(interfaceId, methodId, sizeHint, hints...);
  }();
  auto renew = [interfaceId, methodId, hints...](ClientHook& hook, kj::Maybe<capnp::MessageSize> size) {
    return hook.newCall(interfaceId, methodId, size, hints...);
  };
  auto hook = kj::heap<Request>(vat, reference, inner->addRef(), kj::mv(call), kj::mv(request), kj::mv(renew));
  auto params = hook->params();
  return capnp::Request<AnyPointer, AnyPointer>(params, kj::mv(hook));
}

}  // namespace inside
}  // namespace vataudit
