// Objects
#pragma once

#include "calls.h"
#include "end.h"

namespace vataudit {
namespace inside {

// A derived server can't reach the hook of a call's context.
struct HookOfContext {
  using Type = capnp::CallContextHook* capnp::CallContext<AnyPointer, AnyPointer>::*;
  friend Type open(HookOfContext);
};
template struct Opened<HookOfContext, &capnp::CallContext<AnyPointer, AnyPointer>::hook>;

// In the same way, the hook of which an object's `thisCap()` makes its clients.
struct HookOfServer {
  using Type = ClientHook* capnp::Capability::Server::*;
  friend Type open(HookOfServer);
};
template struct Opened<HookOfServer, &capnp::Capability::Server::thisHook>;

// What stands in that place: `thisCap()` then gives the recorded client of the object. As the runtime's pointer there
// it holds nothing: the runtime's hook owns the object, and the object this.
template <typename... Hints>
class SelfWith final: public ClientHook {
public:
  SelfWith(SharedVat vat, Reference reference): vat(kj::mv(vat)), reference(kj::mv(reference)) {}

  capnp::Request<AnyPointer, AnyPointer> newCall(
      uint64_t interfaceId, uint16_t methodId, kj::Maybe<capnp::MessageSize> sizeHint, Hints... hints) override {
    return addRef()->newCall(interfaceId, methodId, sizeHint, hints...);
  }
  VoidPromiseAndPipeline call(uint64_t interfaceId, uint16_t methodId, kj::Own<capnp::CallContextHook>&& context,
                              Hints... hints) override {
    return inner->call(interfaceId, methodId, kj::mv(context), hints...);
  }
  kj::Maybe<ClientHook&> getResolved() override { return *inner; }
  kj::Maybe<kj::Promise<kj::Own<ClientHook>>> whenMoreResolved() override { return inner->whenMoreResolved(); }
  kj::Own<ClientHook> addRef() override { return wrapped(vat, reference, inner->addRef()); }
  const void* getBrand() override { return inner->getBrand(); }
  kj::Maybe<int> getFd() override { return inner->getFd(); }

  ClientHook* inner = nullptr;  // the runtime's hook of the object

private:
  SharedVat vat;
  Reference reference;
};
using Self = OfVersion<SelfWith>;

// Results that the program names beforehand, as the runtime gets them: from 1.0 on it looks whether these are the very
// hooks that come with the results.
class Unwrapping final: public capnp::PipelineHook, public kj::Refcounted {
public:
  explicit Unwrapping(kj::Own<capnp::PipelineHook> inner): inner(kj::mv(inner)) {}

  kj::Own<capnp::PipelineHook> addRef() override { return kj::addRef(*this); }
  kj::Own<ClientHook> getPipelinedCap(kj::ArrayPtr<const capnp::PipelineOp> ops) override {
    return unwrapped(inner->getPipelinedCap(ops));
  }

private:
  kj::Own<capnp::PipelineHook> inner;
};

// What the program sees of a call that it serves: parameters and results whose capabilities are known by reference.
class Context final: public capnp::CallContextHook, public kj::Refcounted {
public:
  Context(SharedVat vat, std::shared_ptr<Call> call, kj::Own<capnp::CallContextHook> inner)
      : vat(vat), call(call), inner(kj::mv(inner)), params(vat, call->paramsByIndex), results(vat) {}

  AnyPointer::Reader getParams() override { return params.imbue(inner->getParams()); }
  void releaseParams() override { inner->releaseParams(); }
  AnyPointer::Builder getResults(kj::Maybe<capnp::MessageSize> sizeHint) override {
    hasResults = true;
    return results.imbue(inner->getResults(sizeHint));
  }
  kj::Promise<void> tailCall(kj::Own<capnp::RequestHook>&& request) override {
    return handOn(kj::mv(request), [&](auto&& to) { return inner->tailCall(kj::mv(to)); });
  }
  capnp::ClientHook::VoidPromiseAndPipeline directTailCall(kj::Own<capnp::RequestHook>&& request) override {
    return handOn(kj::mv(request), [&](auto&& to) { return inner->directTailCall(kj::mv(to)); });
  }
#if CAPNP_VERSION < 1000000
  void allowCancellation() override { inner->allowCancellation(); }
#endif
  void setPipeline(kj::Own<capnp::PipelineHook>&& pipeline) override {
    inner->setPipeline(kj::refcounted<Unwrapping>(kj::mv(pipeline)));
  }
  kj::Promise<AnyPointer::Pipeline> onTailCall() override { return inner->onTailCall(); }
  kj::Own<capnp::CallContextHook> addRef() override { return kj::addRef(*this); }

  // Records ANSWER: each capability in the results with its path. A call that was handed on has ANSWERBY instead.
  void answer() {
    if (!vat->isRecording() || call->isLocallyAnswered || call->answeredBy != nullptr) return;
    if (hasResults && !results.byIndex.empty()) {
      auto way = returnsBy(*call);
      for (auto& reference: results.byIndex) {
        reference = vat->asNumbered(reference, way);
      }
      Content content(inner->getResults(capnp::MessageSize { 0, 0 }).asReader());
      call->setResults(kj::mv(results.byIndex), content.met);
    }
    vat->answer(*call);
  }

private:
  SharedVat vat;
  std::shared_ptr<Call> call;
  kj::Own<capnp::CallContextHook> inner;
  ReadTable params;
  WriteTable results;
  bool hasResults = false;

  // The call is handed on: its results are those of the call that the request makes. ANSWERBY says so.
  template <typename TailCall>
  auto handOn(kj::Own<capnp::RequestHook>&& request, TailCall&& tailCall) -> decltype(tailCall(kj::mv(request))) {
    auto made = dynamic_cast<Request*>(request.get());
    if (made == nullptr) return tailCall(kj::mv(request));
    if (made->begin()) vat->answerBy(call, made->goingOn());
    return made->whileSending([&] { return tailCall(made->handedOn()); });
  }
};

// An object of the vat. DELIVER is recorded where its method is entered, with the object that it really is.
template <typename Implementation>
class Hosted final: public Implementation {
public:
  template <typename... Arguments>
  explicit Hosted(SharedVat vat, Arguments&&... arguments)
      : Implementation(kj::fwd<Arguments>(arguments)...), vat(vat), object(vat->newObject()),
        reference(vat->host(object)), self(vat, reference) {}
  ~Hosted() noexcept(false) { vat->hosted.erase(self.inner); }

  // The runtime has made its hook of this object.
  void isHeldBy(ClientHook& hook) {
    self.inner = &hook;
    vat->hosted[&hook] = reference;
    capnp::Capability::Server& server = *this;
    server.*open(HookOfServer()) = &self;
  }

  capnp::Capability::Server::DispatchCallResult dispatchCall(
      uint64_t interfaceId, uint16_t methodId, capnp::CallContext<AnyPointer, AnyPointer> context) override {
    if (!vat->isRecording()) return Implementation::dispatchCall(interfaceId, methodId, context);
    capnp::CallContextHook& inner = *(context.*open(HookOfContext()));
    auto call = delivered(inner.getParams(), interfaceId, methodId);
    auto seen = kj::refcounted<Context>(vat, call, inner.addRef());
    try {
      auto result = Implementation::dispatchCall(
          interfaceId, methodId, capnp::CallContext<AnyPointer, AnyPointer>(*seen));
      auto& hook = *seen;
      auto promise = result.promise.then(
          [&hook]() { hook.answer(); },
          [vat = vat, call](kj::Exception&& exception) {
            vat->fault(*call);
            kj::throwRecoverableException(kj::mv(exception));
          });
      result.promise = promise.attach(kj::mv(seen));
      return result;
    } catch (...) {
      vat->fault(*call);
      throw;
    }
  }

  SharedVat vat;
  uint64_t object;
  Reference reference;

private:
  Self self;

  // Finds the call by where its parameters lie. What is left are calls through a client that isn't recorded, as that of
  // a promise which isn't from `promise`: they have no MAKE yet.
  std::shared_ptr<Call> delivered(AnyPointer::Reader params, uint64_t interfaceId, uint16_t methodId) {
    auto call = vat->callOf(params, interfaceId, methodId);
    if (call == nullptr) call = vat->turnedCall(params, interfaceId, methodId, reference);
    if (call == nullptr) {
      call = vat->newCall(interfaceId, methodId);
      vat->make(*call, reference);
    } else {
      vat->forget(*call);
      call = behindProxies(kj::mv(call));
    }
    vat->deliver(*call, object);
    return call;
  }

  // Where a proxy of the runtime leads to this object, it is the proxy's own call that comes here.
  std::shared_ptr<Call> behindProxies(std::shared_ptr<Call> call) {
    auto on = vat->throughProxies(call, [](const Call&) { return false; });
    if (on != call) {
      on->paramsByIndex = call->paramsByIndex;
      on->paramsAsMet = call->paramsAsMet;
    }
    return on;
  }
};

}  // namespace inside
}  // namespace vataudit
