// The recorder's own code
#pragma once

#include "front.h"
#include "objects.h"

namespace vataudit {

inline Recorder::Recorder(const char* path, uint32_t vat): vat(std::make_shared<inside::Vat>(path, vat)) {}
inline Recorder::~Recorder() { vat->end(); }
inline void Recorder::flush() { vat->flush(); }
inline void Recorder::bufferRecords(size_t bytes) { vat->bufferRecords(bytes); }
inline bool Recorder::isRecording() const { return vat->isRecording(); }
inline uint64_t Recorder::records() const { return vat->records(); }
inline std::string Recorder::whyStopped() const { return vat->whyStopped(); }
inline std::vector<uint32_t> Recorder::connections() const { return vat->connections; }

template <typename Implementation, typename... Arguments>
typename Implementation::Serves::Client Recorder::host(Arguments&&... arguments) {
  static_assert(!std::is_final<Implementation>::value,
                "vataudit: host<FooImpl>() derives a class from FooImpl, so FooImpl can't be `final`");
  auto object = kj::heap<inside::Hosted<Implementation>>(vat, kj::fwd<Arguments>(arguments)...);
  auto& hosted = *object;
  typename Implementation::Serves::Client client(kj::mv(object));
  auto hook = capnp::ClientHook::from(kj::mv(client));
  hosted.isHeldBy(*hook);
  return capnp::Capability::Client(inside::wrapped(vat, hosted.reference, kj::mv(hook)))
      .castAs<typename Implementation::Serves>();
}

template <typename Client>
Client Recorder::promise(kj::Promise<Client>&& promised) {
  if (!vat->isRecording()) return Client(kj::mv(promised));
  auto vow = vat->vow();
  auto hook = promised.then(
      [vat = vat, vow](Client&& client) {
        auto became = capnp::ClientHook::from(kj::mv(client));
        if (vat->isRecording()) vat->turn(vow, vat->asNumbered(inside::referenceOf(*vat, *became)));
        return inside::unwrapped(kj::mv(became));
      },
      [vat = vat, vow](kj::Exception&& exception) -> kj::Own<capnp::ClientHook> {
        vat->breakPromise(vow);
        kj::throwFatalException(kj::mv(exception));
      });
  return capnp::Capability::Client(inside::wrapped(vat, vow, capnp::newLocalPromiseClient(kj::mv(hook))))
      .template castAs<typename Client::Calls>();
}

}  // namespace vataudit
