// Capabilities in the program's hands
#pragma once

#include "vat.h"

namespace vataudit {
namespace inside {

// A capability that the program holds: the runtime's hook and its reference. The runtime itself never gets one, so
// that it does what it would do unrecorded.
template <typename... Hints>
class HandleWith final: public ClientHook, public kj::Refcounted {
public:
  HandleWith(SharedVat vat, Reference reference, kj::Own<ClientHook> inner)
      : vat(kj::mv(vat)), reference(kj::mv(reference)), inner(kj::mv(inner)) {}

  capnp::Request<AnyPointer, AnyPointer> newCall(
      uint64_t interfaceId, uint16_t methodId, kj::Maybe<capnp::MessageSize> sizeHint, Hints... hints) override;
  VoidPromiseAndPipeline call(uint64_t interfaceId, uint16_t methodId, kj::Own<capnp::CallContextHook>&& context,
                              Hints... hints) override {
    return inner->call(interfaceId, methodId, kj::mv(context), hints...);
  }
  kj::Maybe<ClientHook&> getResolved() override;
  kj::Maybe<kj::Promise<kj::Own<ClientHook>>> whenMoreResolved() override { return inner->whenMoreResolved(); }
  kj::Own<ClientHook> addRef() override { return kj::addRef(*this); }
  const void* getBrand() override { return inner->isNull() || inner->isError() ? inner->getBrand() : nullptr; }
  kj::Maybe<int> getFd() override { return inner->getFd(); }

  SharedVat vat;
  Reference reference;
  kj::Own<ClientHook> inner;
};
using Handle = OfVersion<HandleWith>;

// Where the runtime is on the way of what a capability becomes.
inline ClientHook& innermost(ClientHook& hook) {
  ClientHook* at = &hook;
  for (;;) {
    KJ_IF_MAYBE(next, at->getResolved()) {
      at = next;
    } else {
      return *at;
    }
  }
}

template <typename... Hints>
kj::Maybe<ClientHook&> HandleWith<Hints...>::getResolved() { return innermost(*inner); }

// The reference by which a capability is given away. Where the runtime stands at a proxy of its own (it gives these
// out for what came back over a connection and leads over it again), it is that of the proxy, an object of this vat.
inline Reference givenBy(Vat& vat, const Reference& reference, ClientHook& hook) {
  ClientHook& end = innermost(hook);
  if (end.getBrand() != nullptr || vat.hosted.count(&end) > 0 || end.whenMoreResolved() != nullptr) return reference;
  Reference behind = vat.proxiedOn(reference);
  if (behind.number == 0) return reference;
  return isSettled(behind) && Vat::givenProxy(behind).number == 0 ? behind : vat.proxyOf(behind);
}

// The reference of a capability that the program gives away. A broken one gets a VOW and a BREAK, since it goes out
// as senderHosted and no object stands behind it. So does a null one: in content it is a null pointer and never comes
// here, but a promise may become one, and C++ then resolves that to a senderHosted whose calls all fail.
inline Reference referenceOf(Vat& vat, ClientHook& hook) {
  ClientHook* at = &hook;
  for (;;) {
    if (auto handle = dynamic_cast<Handle*>(at)) {
      if (handle->vat.get() == &vat) return givenBy(vat, handle->reference, *handle->inner);
      vat.stop("a capability is given away that another recorder of this process knows: it has to come over a "
               "connection");
      return Reference();
    }
    auto found = vat.hosted.find(at);
    if (found != vat.hosted.end()) return found->second;
    if ((at->isError() || at->isNull()) && vat.isRecording()) return vat.broken();
    KJ_IF_MAYBE(next, at->getResolved()) {
      at = next;
    } else {
      return Reference();
    }
  }
}

// The runtime's own hook.
inline kj::Own<ClientHook> unwrapped(kj::Own<ClientHook>&& hook) {
  if (auto handle = dynamic_cast<Handle*>(hook.get())) return handle->inner->addRef();
  return kj::mv(hook);
}

inline kj::Own<ClientHook> wrapped(const SharedVat& vat, const Reference& reference, kj::Own<ClientHook>&& hook) {
  if (reference.number == 0 || !vat->isRecording()) return kj::mv(hook);
  return kj::refcounted<Handle>(vat, reference, kj::mv(hook));
}

// The capability at an index of the runtime's table, with the reference that was noted for it there.
inline kj::Maybe<kj::Own<ClientHook>> extracted(const SharedVat& vat, const std::vector<Reference>& byIndex,
                                                capnp::_::CapTableReader& table, uint index) {
  KJ_IF_MAYBE(hook, table.extractCap(index)) {
    return wrapped(vat, index < byIndex.size() ? byIndex[index] : Reference(), kj::mv(*hook));
  } else {
    return nullptr;
  }
}

// The capability table of a message that came in, by whose indexes the references were noted.
class ReadTable final: public capnp::_::CapTableReader {
public:
  ReadTable(SharedVat vat, std::vector<Reference> byIndex): vat(kj::mv(vat)), byIndex(kj::mv(byIndex)) {}

  AnyPointer::Reader imbue(AnyPointer::Reader reader) {
    auto pointer = capnp::_::PointerHelpers<AnyPointer>::getInternalReader(reader);
    inner = pointer.getCapTable();
    return AnyPointer::Reader(pointer.imbue(this));
  }

  kj::Maybe<kj::Own<ClientHook>> extractCap(uint index) override {
    if (inner == nullptr) return nullptr;
    return extracted(vat, byIndex, *inner, index);
  }

private:
  SharedVat vat;
  std::vector<Reference> byIndex;
  capnp::_::CapTableReader* inner = nullptr;
};

// The capability table of a message that the program writes: notes the reference of each capability by its index,
// and hands the runtime's own hook on.
class WriteTable final: public capnp::_::CapTableBuilder {
public:
  explicit WriteTable(SharedVat vat): vat(kj::mv(vat)) {}

  AnyPointer::Builder imbue(AnyPointer::Builder builder) {
    auto pointer = capnp::_::PointerHelpers<AnyPointer>::getInternalBuilder(kj::mv(builder));
    inner = pointer.getCapTable();
    return AnyPointer::Builder(pointer.imbue(this));
  }

  kj::Maybe<kj::Own<ClientHook>> extractCap(uint index) override {
    return extracted(vat, byIndex, *inner, index);
  }

  uint injectCap(kj::Own<ClientHook>&& hook) override {
    Reference reference = referenceOf(*vat, *hook);
    if (reference.number == 0) {
      vat->stop("a capability is given away that is none of `host`, `promise`, a parameter or a result");
    }
    uint index = inner->injectCap(unwrapped(kj::mv(hook)));
    if (byIndex.size() <= index) byIndex.resize(index + 1);
    byIndex[index] = kj::mv(reference);
    return index;
  }

  void dropCap(uint index) override { inner->dropCap(index); }

  std::vector<Reference> byIndex;

private:
  SharedVat vat;
  capnp::_::CapTableBuilder* inner = nullptr;
};

}  // namespace inside
}  // namespace vataudit
