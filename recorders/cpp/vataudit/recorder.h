// Records what a vat of Cap'n Proto's C++ runtime does, for `vataudit` to audit.
//
// One header, C++14 or later, for capnp 0.9 to 1.1. Nothing else is linked. The log is of version 3 of
// docs/FORMATS.md; docs/RECORDING.md says which record stands where, and why. RECV, SEND, FULFIL and so on are
// the records' names there; Call, Return and so on are messages of rpc.capnp.
//
// How a program is recorded:
//
//     vataudit::Recorder recorder("client.log", 1);               // vat 1: a number that no other vat has
//     vataudit::TwoPartyClient client(recorder, *stream, 0);      // connection 0, at both of its ends
//     auto foo = client.bootstrap().castAs<Foo>();
//     Bar::Client bar = recorder.host<BarImpl>(..);               // in the place of kj::heap<BarImpl>(..)
//     Baz::Client baz = recorder.promise(kj::mv(promisedBaz));    // in the place of Baz::Client(kj::mv(promisedBaz))
//
// Calls, results, pipelined calls and capabilities in parameters are then recorded without a word of yours.
// What is left to say: each object that goes out or is called has to come from `host`, each promise for a
// capability from `promise`, each connection from `TwoPartyClient`, `TwoPartyServer` or `Network`.
//
// Recording never changes what the program does. The runtime gets the hooks that it would get without a recorder;
// only the program holds wrapped ones. Each record is in the system's hands before the program goes on: one that
// throws, exits or is killed leaves all that it recorded.
//
// Where a record would make a bad log, or the log can't be written, the recorder stops, and the program goes on. The
// log ends before that record, and is renamed to `client.log.stopped`: nobody takes it for a whole one. The
// recorder says why on standard error, then and at its end; `isRecording` and `whyStopped` say it to the program.
//
// One recorder belongs to one event loop, as all of capnp's objects do.
//
// What it can't do:
// - EzRpcClient and EzRpcServer let no recorder in.
// - An object that overrides `shortenPath` goes out as a promise, which the audit refuses (DESC).
// - A bootstrap object that is made anew for each client (BootstrapFactory) has to be given by `asBootstrap`.
// - Where a method names its results beforehand by `setPipeline`, no record says so before they are there. A call that
//   goes on to such a result before is told `no .. rule GOAL`. A method that ends by `tailCall` is recorded, by
//   ANSWERBY.
// - Two things that sound programs do get a `no`: docs/RECORDING.md, "Where C++ gets `no`".
//
// This file is made: recorders/cpp/parts has what it is made of. With VATAUDIT_OFF defined nothing of it is left but
// capnp's own classes under these names.

#pragma once

// =========================================================================== What it stands on

#include <capnp/any.h>
#include <capnp/capability.h>
#include <capnp/message.h>
#include <capnp/rpc-twoparty.h>
#include <capnp/rpc.capnp.h>
#include <capnp/rpc.h>
#include <capnp/serialize-async.h>
#include <capnp/serialize.h>
#include <kj/async-io.h>
#include <kj/debug.h>

#include <algorithm>
#include <cerrno>
#include <cstdint>
#include <cstdio>
#include <cstdlib>
#include <cstring>
#include <functional>
#include <memory>
#include <string>
#include <type_traits>
#include <unordered_map>
#include <utility>
#include <vector>

#include <fcntl.h>
#include <sys/stat.h>
#include <unistd.h>
#ifdef VATAUDIT_OFF

// =========================================================================== With VATAUDIT_OFF

namespace vataudit {

// Makes no log. What comes from it is what the program would make without it.
class Recorder {
public:
  Recorder(const char*, uint32_t) {}
  KJ_DISALLOW_COPY(Recorder);

  template <typename Implementation, typename... Arguments>
  typename Implementation::Serves::Client host(Arguments&&... arguments) {
    return typename Implementation::Serves::Client(kj::heap<Implementation>(kj::fwd<Arguments>(arguments)...));
  }
  template <typename Client>
  Client promise(kj::Promise<Client>&& promised) {
    return Client(kj::mv(promised));
  }
  void bufferRecords(size_t) {}
  void flush() {}
  bool isRecording() const { return false; }
  uint64_t records() const { return 0; }
  std::vector<uint32_t> connections() const { return {}; }
  std::string whyStopped() const { return "the program was built with VATAUDIT_OFF"; }
};

// capnp's network.
class Network final: public capnp::TwoPartyVatNetwork {
public:
  using Side = capnp::rpc::twoparty::Side;
  using RpcSystem = capnp::RpcSystem<capnp::rpc::twoparty::VatId>;

  template <typename Stream, typename... Options>
  Network(Recorder&, Stream& stream, uint32_t, Side side, Options&&... options)
      : TwoPartyVatNetwork(stream, side, kj::fwd<Options>(options)...) {}
  template <typename Stream, typename... Options>
  Network(Recorder&, Stream& stream, uint32_t, uint maxFdsPerMessage, Side side, Options&&... options)
      : TwoPartyVatNetwork(stream, maxFdsPerMessage, side, kj::fwd<Options>(options)...) {}

  RpcSystem serve(capnp::Capability::Client bootstrap) { return capnp::makeRpcServer(*this, kj::mv(bootstrap)); }
  RpcSystem client() { return capnp::makeRpcClient(*this); }
  capnp::Capability::Client asBootstrap(capnp::Capability::Client bootstrap) { return bootstrap; }
  capnp::Capability::Client bootstrap(RpcSystem& system) {
    capnp::MallocMessageBuilder message(4);
    auto peer = message.initRoot<capnp::rpc::twoparty::VatId>();
    peer.setSide(getSide() == Side::CLIENT ? Side::SERVER : Side::CLIENT);
    return system.bootstrap(peer);
  }
};

}  // namespace vataudit
#else

// =========================================================================== What a program makes

namespace vataudit {

class Network;

namespace inside {
class Outgoing;
class Vat;
}  // namespace inside

// The log of one vat. Make one at the start of the program, before all that it records.
class Recorder {
public:
  // Begins the log `path` of vat `vat`. A log that is there becomes `path`.1, or where that is there `path`.2 and so
  // on; so does `path`.stopped. Where it can't be made, the recorder says so and records nothing.
  Recorder(const char* path, uint32_t vat);

  // Writes what is buffered, and ends the log. What happens afterwards isn't recorded.
  ~Recorder();
  KJ_DISALLOW_COPY(Recorder);

  // Makes an object of this vat and records HOST. Its calls are recorded as they are delivered (DELIVER) and
  // as they end (ANSWER or FAULT). `Implementation` is a server class that isn't final.
  template <typename Implementation, typename... Arguments>
  typename Implementation::Serves::Client host(Arguments&&... arguments);

  // A client for a capability that isn't there yet: records VOW now, and FULFIL or BREAK when the promise is
  // settled, before each call that waits for it goes on.
  template <typename Client>
  Client promise(kj::Promise<Client>&& promised);

  // From now on records are kept until they take up so many bytes, and are then written at once. That is faster; but
  // a program that is killed, or ends without this recorder's destructor, loses those that it still keeps.
  void bufferRecords(size_t bytes);

  // Writes the records that are kept.
  void flush();

  // Whether it still records, and how many records there are. Why it stopped: empty if it didn't.
  bool isRecording() const;
  uint64_t records() const;
  std::string whyStopped() const;

  // The numbers of its connections, also of those that are gone.
  std::vector<uint32_t> connections() const;

private:
  std::shared_ptr<inside::Vat> vat;
  friend class Network;
};

}  // namespace vataudit

// =========================================================================== The log

namespace vataudit {
namespace inside {

using capnp::AnyList;
using capnp::AnyPointer;
using capnp::AnyStruct;
using capnp::ClientHook;

// From 1.0 on a call comes with hints. They go along with it untouched: a hook of the recorder is a template over
// what comes besides.
#if CAPNP_VERSION >= 1000000
template <template <typename...> class Hook>
using OfVersion = Hook<ClientHook::CallHints>;
#else
template <template <typename...> class Hook>
using OfVersion = Hook<>;
#endif

// The bytes of a log of version 3, little-endian, as docs/FORMATS.md has them. Of whichever capnp: a vat of 0.9 too
// receives light Returns, from a peer of 1.x. What is written ends with a whole record, also where a write fails.
class Log {
public:
  Log(const char* path, uint32_t vat): file(begun(path)) {
    add("VATLOG03", 8);
    number<uint32_t>(vat);
  }
  ~Log() { close(); }
  KJ_DISALLOW_COPY(Log);

  bool isOpen() const { return file >= 0; }
  void kind(uint8_t kind) { number<uint8_t>(kind); }

  template <typename Number>
  void number(Number value) {
    char* bytes = more(sizeof(Number));
#if __BYTE_ORDER__ == __ORDER_LITTLE_ENDIAN__
    memcpy(bytes, &value, sizeof(Number));
#else
    for (size_t place = 0; place < sizeof(Number); place++) {
      bytes[place] = static_cast<char>(static_cast<uint64_t>(value) >> (8 * place));
    }
#endif
  }

  void add(const void* bytes, size_t length) {
    if (length > 0) memcpy(more(length), bytes, length);
  }

  // How many a list has. A log has room for so many.
  static constexpr size_t mostCounted = 1048576;
  void count(size_t count) {
    isTooLong = isTooLong || count > mostCounted;
    number(static_cast<uint32_t>(count));
  }

  // Takes back the bytes of a record that begins at this place of what is not yet written, where one of its lists is
  // too long; and whether it was.
  size_t unwritten() const { return filled; }
  bool dropTooLong(size_t begin) {
    if (isTooLong) filled = begin;
    return isTooLong;
  }

  // The bytes of a record are all there.
  void endRecord() { records++; }

  // Writes what there is no room to keep. Whether that went well.
  bool settle() { return filled < room || flush(); }

  // Writes what is kept. What the system takes in part is taken back, and `errno` says why.
  bool flush() {
    size_t done = 0;
    while (done < filled) {
      ssize_t count = write(file, buffer.data() + done, filled - done);
      if (count > 0) {
        done += count;
      } else if (count == 0 || errno != EINTR) {
        takeBack();
        return false;
      }
    }
    filled = 0;
    length += done;
    written = records;
    return true;
  }

  void close() {
    if (!isOpen()) return;
    flush();
    ::close(file);
    file = -1;
  }

  // Gives the log another name, so that nobody takes it for a whole one. Where it lies afterwards.
  std::string setAside() {
    struct stat mine, there;
    bool isStillThere = isOpen() && fstat(file, &mine) == 0 && S_ISREG(mine.st_mode) &&
        stat(path.c_str(), &there) == 0 && mine.st_dev == there.st_dev && mine.st_ino == there.st_ino;
    close();
    if (isStillThere && moveOn(path + ".stopped") && rename(path.c_str(), (path + ".stopped").c_str()) == 0) {
      path += ".stopped";
    }
    return path;
  }

  size_t room = 0;       // how many bytes may be kept
  uint64_t records = 0;  // that were made; where a write failed, that were written

private:
  std::string path;      // from the root, if the system knows it: the program may change its folder
  int file;
  std::vector<char> buffer;
  size_t filled = 0;     // of the buffer: what is not yet written
  bool isTooLong = false;
  uint64_t length = 0, written = 0;

  // Where so many bytes more go.
  KJ_ALWAYS_INLINE(char* more(size_t length)) {
    if (buffer.size() - filled < length) grow(length);
    char* place = buffer.data() + filled;
    filled += length;
    return place;
  }

  KJ_NOINLINE void grow(size_t length) { buffer.resize(std::max(2 * buffer.size(), filled + length + 256)); }

  // Makes the file, behind those that are there. -1 where that can't be, and `errno` says why.
  int begun(const char* given) {
    std::string place = known(given);
    if (!moveOn(place) || !moveOn(place + ".stopped")) return -1;
    int made = open(place.c_str(), O_WRONLY | O_CREAT | O_TRUNC | O_CLOEXEC, 0666);
    if (made >= 0) path = known(place.c_str());
    return made;
  }

  static std::string known(const char* given) {
    char* place = realpath(given, nullptr);
    std::string path = place == nullptr ? given : place;
    free(place);
    return path;
  }

  // Gives a file that is there the first number behind its name that is free, so that nothing is lost. Whether none is
  // there any more.
  static bool moveOn(const std::string& path) {
    struct stat there;
    if (stat(path.c_str(), &there) != 0 || !S_ISREG(there.st_mode)) return true;
    for (uint32_t number = 1;; number++) {
      std::string numbered = path + "." + std::to_string(number);
      if (link(path.c_str(), numbered.c_str()) == 0) return unlink(path.c_str()) == 0;
      if (errno != EEXIST) return access(numbered.c_str(), F_OK) != 0 && rename(path.c_str(), numbered.c_str()) == 0;
    }
  }

  void takeBack() {
    int reason = errno;
    if (ftruncate(file, length) != 0) {
      // it isn't a file that has a length
    }
    filled = 0;
    records = written;
    errno = reason;
  }
};

}  // namespace inside
}  // namespace vataudit

// =========================================================================== What is known

namespace vataudit {
namespace inside {

struct Call;
struct View;
class End;
using Path = std::vector<uint16_t>;

// A connection, as its number and 1. 0 is none.
using Way = uint64_t;

// A number of a capability in the log, and what it stands for. Number 0 is none.
struct Reference {
  uint64_t number = 0;
  std::shared_ptr<View> view;
};

// What a reference stands for, as far as it is known here. One that came back stands for what went out (`same`), the
// field of a call for one of its results; a promise turns to what it became.
struct View {
  Reference same, turn;
  std::shared_ptr<Call> call;
  Path path;
  bool isSettled = false;    // an object, a broken promise, or what came as senderHosted: it turns no more
  bool isBroken = false;     // a broken promise
  bool isUnsaid = false;     // it turned, and no record says so yet
  uint64_t result = 0;       // of the promise of an open result: its reference, at `path` of this call
  std::weak_ptr<Call> resultOf;
  Way import = 0;            // the way by which it came as a number of the peer
  Way cameBack = 0;          // the way by which it came back
  bool isProxy = false;      // the runtime put a proxy of its own before it
  uint64_t proxyNumber = 0;  // the reference of the object that this proxy is
  std::weak_ptr<View> proxy;
  Reference wrapped;         // of such an object: what it makes its calls on
  uint64_t object = 0;       // and its number
};

// A capability met in a message's content: its index in the capability table, and its path of pointer fields.
// A capability in a list has no path.
struct Met {
  uint32_t index;
  bool hasPath;
  Path path;
};

// The references of capabilities met, in their order.
inline std::vector<Reference> asMet(const std::vector<Met>& met, const std::vector<Reference>& byIndex) {
  std::vector<Reference> list;
  for (auto& one: met) list.push_back(one.index < byIndex.size() ? byIndex[one.index] : Reference());
  return list;
}

// The same by the indexes of a copy: a copy keeps the order in which capabilities are met.
inline std::vector<Reference> byIndexOf(const std::vector<Met>& met, const std::vector<Reference>& asMet) {
  std::vector<Reference> byIndex;
  for (size_t at = 0; at < met.size() && at < asMet.size(); at++) {
    if (byIndex.size() <= met[at].index) byIndex.resize(met[at].index + 1);
    byIndex[met[at].index] = asMet[at];
  }
  return byIndex;
}

// A promise that the vat gave away for a result of a call, before it was known. If the vat answers the call itself, the
// promise is the result; if the call is sent on, the promise turns to the result.
struct Vow {
  Path path;
  uint64_t number = 0;
  std::weak_ptr<View> view;
  uint64_t result = 0;  // the reference of the result
  std::weak_ptr<Call> call;
  bool isKept = false;  // FULFIL or BREAK stands

  Reference promise() const {
    Reference promise;
    promise.view = view.lock();
    if (promise.view != nullptr) promise.number = number;
    return promise;
  }
};

// A call that was made or received here. Lists "by index" go by the index in the capability table of the message
// in which they were written or came; lists "as met" by their order in the content, which every copy keeps.
struct Call: std::enable_shared_from_this<Call> {
  uint64_t number = 0;
  uint64_t interfaceId = 0;
  uint16_t methodId = 0;
  Reference goal;                    // through which it was made, or the number to which its frame is addressed
  std::shared_ptr<Call> goalCall;    // or the call of whose results it is addressed to the one at this path
  Path goalPath;
  std::vector<Reference> paramsByIndex, paramsAsMet;
  std::vector<Reference> resultsByIndex, resultsAsMet;
  std::vector<std::pair<Path, Reference>> fields;
  std::vector<Vow> vows;             // the promises of its results that the vat gave away
  std::vector<Path> goesBack;        // the results that its Return said to be the peer's own
  std::vector<Path> named;           // the results of it that somebody named before they were there
  std::shared_ptr<Call> answeredBy;  // whose results are this one's: by `tailCall`, or by a Return that says so
  std::vector<std::weak_ptr<Call>> handedOn;  // the calls whose results are this one's
  bool isReceived = false;
  Way cameBy = 0, wentBy = 0;        // the connections over which it was received, and sent
  bool isForPipeline = false;        // it was sent to be pipelined on, and without a Return
  bool isAtProxy = false;            // it came to a proxy of the runtime; what goes on is the call that answers it
  const void* params = nullptr;      // where its parameters lie, while it may be delivered
  bool isGone = false;               // sent, or delivered
  bool isLocallyAnswered = false;    // by ANSWER
  bool isReflected = false;          // it came back, and its results are this vat's own
  bool isUnheard = false;            // no Return says how it ends: it is for its pipeline, or its results go elsewhere
  bool isOver = false;               // its results are known, or it has none

  void setResults(std::vector<Reference>&& byIndex, const std::vector<Met>& met) {
    resultsByIndex = kj::mv(byIndex);
    resultsAsMet = asMet(met, resultsByIndex);
    for (size_t at = 0; at < met.size(); at++) {
      if (met[at].hasPath) fields.push_back({ met[at].path, resultsAsMet[at] });
    }
  }

  // Nobody asks any more what it was meant for.
  void dropGoal() {
    goal = Reference();
    goalCall = nullptr;
  }

  Reference* fieldAt(const Path& path) {
    for (auto& field: fields) {
      if (field.first == path) return &field.second;
    }
    return nullptr;
  }
};

// The call whose results are this one's in the end.
inline Call& answering(Call& call) {
  Call* at = &call;
  while (at->answeredBy != nullptr) at = at->answeredBy.get();
  return *at;
}

// What a reference turned to: one step on its way. None where it is open, or turns no more.
inline const Reference* next(const View& view) {
  if (view.same.number != 0) return &view.same;
  if (view.call != nullptr) return answering(*view.call).fieldAt(view.path);
  return view.turn.number != 0 ? &view.turn : nullptr;
}

// Goes from a reference on to all that it leads to, itself first, until `visit` answers true. Whether it did.
template <typename Visit>
bool follow(const Reference& from, Visit&& visit) {
  const Reference* at = from.number != 0 ? &from : nullptr;
  for (int steps = 0; at != nullptr && steps < 1000; steps++) {
    if (visit(*at)) return true;
    at = at->view == nullptr ? nullptr : next(*at->view);
  }
  return false;
}

// Where a way ends, as far as it is known. From no reference it is this one.
inline const Reference& lastOf(const Reference& from) {
  const Reference* last = &from;
  follow(from, [&](const Reference& at) { return last = &at, false; });
  return *last;
}

// The promise that was given away for the result at which a way ends, if it isn't known yet.
inline Reference vowOf(const Reference& from) {
  const View* view = lastOf(from).view.get();
  if (view == nullptr || view->call == nullptr) return Reference();
  for (auto& vow: answering(*view->call).vows) {
    Reference promise = vow.path == view->path ? vow.promise() : Reference();
    if (promise.number != 0) return promise;
  }
  return Reference();
}

// What a reference stands for, behind all that came back.
inline const View* standsFor(const Reference& reference) {
  const View* view = reference.view.get();
  for (int steps = 0; view != nullptr && view->same.number != 0 && steps < 1000; steps++) view = view->same.view.get();
  return view;
}

inline bool areSame(const Reference& one, const Reference& other) {
  const View* first = standsFor(one);
  const View* second = standsFor(other);
  if (first == second) return true;
  return first != nullptr && second != nullptr && first->call != nullptr && first->call == second->call &&
      first->path == second->path;
}

inline bool leadsTo(const Reference& from, const Reference& to) {
  return follow(from, [&](const Reference& at) { return areSame(at, to); });
}

// Whether what is given may go out under the number of a promise: that became it, or the promise of it, or another
// promise on its way. A broken capability gets a promise each time that it is given away, and goes out under the number
// of the first one.
inline bool takesOver(const Reference& promise, const Reference& given) {
  if (promise.view->isBroken && given.view->isBroken) return true;
  Reference vow = vowOf(given);
  return follow(promise, [&](const Reference& at) {
    if (areSame(at, given) || (vow.number != 0 && areSame(at, vow))) return true;
    return at.view != nullptr && !at.view->isSettled && leadsTo(given, at);
  });
}

// Whether nothing more can be known of where it leads.
inline bool isSettled(const Reference& from) {
  auto view = lastOf(from).view.get();
  if (view == nullptr || view->isSettled) return true;
  return view->call != nullptr && answering(*view->call).isOver;
}

// Where the way of a call begins: none while it is addressed to a result that isn't known.
inline const Reference& startOfGoal(const Call& call) {
  static const Reference none;
  if (call.goalCall == nullptr) return call.goal;
  auto field = answering(*call.goalCall).fieldAt(call.goalPath);
  return field == nullptr ? none : *field;
}

// What a call has come to lead to.
inline Reference endOfGoal(const Call& call) { return lastOf(startOfGoal(call)); }

// Whether a reference leads to an object, also through proxies of the runtime.
inline bool leadsBehindProxies(Reference from, const Reference& object) {
  for (int steps = 0; steps < 100; steps++) {
    if (leadsTo(from, object)) return true;
    auto end = lastOf(from).view;
    if (end == nullptr || end->wrapped.number == 0) return false;
    from = end->wrapped;
  }
  return false;
}

// The connection over which a call was sent, or the one that answers it.
inline Way wayOf(const Call& call) {
  const Call* at = &call;
  while (at->wentBy == 0 && at->answeredBy != nullptr) at = at->answeredBy.get();
  return at->wentBy;
}

// The connection over which the runtime reaches what a reference leads to: of the first of these on its way.
inline Way wayOf(const Reference& from) {
  Way way = 0;
  follow(from, [&](const Reference& at) {
    if (at.view == nullptr) return false;
    way = at.view->call != nullptr ? wayOf(*at.view->call) : at.view->import;
    return way != 0;
  });
  return way;
}

// The connection over which a call's results go out, if they do and it is known.
inline Way returnsBy(const Call& call) {
  Way way = call.isReflected ? 0 : call.cameBy;
  for (size_t at = 0; way == 0 && at < call.handedOn.size(); at++) {
    auto handed = call.handedOn[at].lock();
    if (handed != nullptr) way = returnsBy(*handed);
  }
  return way;
}

// Whether a reference leads to a result that never comes, of a call that was sent for its pipeline alone. The runtime
// takes that for what it is, and not for a promise.
inline bool neverComes(const Reference& from) {
  auto view = lastOf(from).view.get();
  return view != nullptr && view->call != nullptr && answering(*view->call).isForPipeline;
}

// Notes which capability was asked for, and gives none out.
class Spy final: public capnp::_::CapTableReader {
public:
  kj::Maybe<kj::Own<ClientHook>> extractCap(uint index) override {
    last = index;
    if (nothing.get() == nullptr) nothing = capnp::newBrokenCap("looked at by a recorder");
    return nothing->addRef();
  }
  uint32_t last = 0;

private:
  kj::Own<ClientHook> nothing;
};

// The capabilities in a content, depth first by pointer number.
class Content {
public:
  explicit Content(AnyPointer::Reader content) {
    auto reader = capnp::_::PointerHelpers<AnyPointer>::getInternalReader(content);
    Path path;
    visit(AnyPointer::Reader(reader.imbue(&spy)), path, true);
  }

  std::vector<Met> met;

private:
  Spy spy;

  void visit(AnyPointer::Reader pointer, Path& path, bool hasPath) {
    switch (pointer.getPointerType()) {
      case capnp::PointerType::NULL_:
        break;
      case capnp::PointerType::STRUCT:
        visitStruct(pointer.getAs<AnyStruct>(), path, hasPath);
        break;
      case capnp::PointerType::LIST:
        visitList(pointer.getAs<AnyList>(), path);
        break;
      case capnp::PointerType::CAPABILITY:
        pointer.getAs<capnp::Capability>();
        met.push_back(Met { spy.last, hasPath, hasPath ? path : Path() });
        break;
    }
  }

  void visitStruct(AnyStruct::Reader structure, Path& path, bool hasPath) {
    uint16_t field = 0;
    for (auto pointer: structure.getPointerSection()) {
      path.push_back(field++);
      visit(pointer, path, hasPath);
      path.pop_back();
    }
  }

  void visitList(AnyList::Reader list, Path& path) {
    if (list.getElementSize() == capnp::ElementSize::POINTER) {
      for (auto pointer: list.as<capnp::List<AnyPointer>>()) visit(pointer, path, false);
    } else if (list.getElementSize() == capnp::ElementSize::INLINE_COMPOSITE) {
      for (auto element: list.as<capnp::List<AnyStruct>>()) visitStruct(element, path, false);
    }
  }
};

// Opens a member that a class keeps to itself: naming a private member in an explicit instantiation is allowed.
template <typename Tag, typename Tag::Type member>
struct Opened {
  friend typename Tag::Type open(Tag) { return member; }
};
struct PlaceOfReader {
  using Type = const capnp::_::WirePointer* capnp::_::PointerReader::*;
  friend Type open(PlaceOfReader);
};
template struct Opened<PlaceOfReader, &capnp::_::PointerReader::pointer>;

// Where the pointer to a call's parameters lies in memory: DELIVER finds its call by this.
inline const void* placeOf(AnyPointer::Reader params) {
  auto reader = capnp::_::PointerHelpers<AnyPointer>::getInternalReader(params);
  return reader.*open(PlaceOfReader());
}

}  // namespace inside
}  // namespace vataudit

// =========================================================================== The vat

namespace vataudit {
namespace inside {

// A message that the runtime makes by itself, until it is handed over: a Call passes on the call whose parameters were
// let go meanwhile.
struct Unsent {
  std::shared_ptr<Call> passedOn;
  Unsent* before = nullptr;
  capnp::MessageBuilder* message = nullptr;

  bool isCall() { return message->getRoot<AnyPointer>().asReader().getAs<capnp::rpc::Message>().isCall(); }
};

// What the vat has recorded, and what later records need of it. The numbers of references and calls rise from 1,
// each used once.
class Vat {
public:
  Vat(const char* path, uint32_t number): log(path, number), number(number) {
    if (!log.isOpen()) stop(becauseOf("the log can't be made"));
    flush();
  }

  bool isRecording() const { return recording; }
  uint64_t records() const { return log.records; }
  const std::string& whyStopped() const { return reason; }

  // Recording ends here. Nothing of the record that was begun is in the log.
  void stop(const std::string& why) {
    if (!recording) return;
    recording = false;
    std::string place = log.setAside();
    reason = "no further than record " + std::to_string(log.records) + ": " + why;
    if (!place.empty()) reason += "; the log is " + place;
    say("is recorded");
  }

  void end() {
    if (!reason.empty()) say("was recorded");
    sayAllTurns();
    flush();
    recording = false;
    log.close();
  }

  void flush() {
    if (recording && !log.flush()) stop(becauseOf("the log can't be written"));
  }

  // Each record is written when it is whole; MAKE with the SEND or DELIVER right behind it, or, if there is none,
  // before the program goes on.
  void settle() {
    if (recording && !log.settle()) stop(becauseOf("the log can't be written"));
  }
  void bufferRecords(size_t bytes) { log.room = bytes; }

  // ------------------------------------------------------------------------- records, but SEND and RECV

  Reference host(uint64_t object) {
    Reference reference = newReference();
    reference.view->isSettled = true;
    begin(0x01, [&] { log.number(reference.number), log.number(object); });
    return reference;
  }

  Reference vow() {
    Reference reference = newReference();
    begin(0x02, [&] { log.number(reference.number); });
    return reference;
  }

  // FULFIL stands before all that uses what the promise became.
  void fulfil(const Reference& promise, const Reference& became) {
    if (became.number == 0) return stop("a promise became a capability that isn't known here");
    promise.view->turn = became;
    sayTurn(promise);
  }

  // A promise became one that is open. Of promises that lead to one result the runtime sends on under the number of
  // one, and only then can be said which turned to which: so FULFIL waits for the first record that needs it.
  void turn(const Reference& promise, const Reference& became) {
    if (became.number == 0 || isSettled(became)) return fulfil(promise, became);
    promise.view->turn = became;
    promise.view->isUnsaid = true;
    unsaid.push_back({ promise.number, promise.view });
    if (unsaid.size() < mostUnsaid) return;
    unsaid.erase(std::remove_if(unsaid.begin(), unsaid.end(), [](auto& one) {
      auto view = one.second.lock();
      return view == nullptr || !view->isUnsaid;
    }), unsaid.end());
    mostUnsaid = 2 * unsaid.size() + 16;
  }

  // What is on the way of a reference has turned, as far as to what it is to lead to: a record needs it now.
  void sayTurns(const Reference& from, const Reference& to = Reference()) {
    if (unsaid.empty()) return;
    follow(from, [&](const Reference& at) {
      if (to.number != 0 && areSame(at, to)) return true;
      if (at.view != nullptr && at.view->isUnsaid) sayTurn(at);
      return false;
    });
  }

  void sayAllTurns() {
    auto all = kj::mv(unsaid);
    unsaid.clear();
    for (auto& one: all) {
      auto view = one.second.lock();
      if (view != nullptr && view->isUnsaid) sayTurn({ one.first, view });
    }
  }

  // What is given is to go out as what is known by a number, and both lead to one end. Then a promise on the way of
  // what is given turned to what is known: one of which nothing was said yet, or the promise of the result there.
  void leadTo(const Reference& given, const Reference& known) {
    Reference turning;
    follow(given, [&](const Reference& at) {
      if (at.view != nullptr && at.view->isUnsaid && !leadsTo(known, at)) turning = at;
      return false;
    });
    if (turning.number == 0) {
      follow(given, [&](const Reference& at) { return isFreed(at, known) && (turning = at, true); });
    }
    if (turning.number == 0) return;
    turning.view->turn = known;
    sayTurn(turning);
  }

  // A promise that is settled without a capability: it isn't hosted, so it must not go out as if it were.
  void breakPromise(const Reference& promise) {
    promise.view->isSettled = promise.view->isBroken = true;
    begin(0x04, [&] { log.number(promise.number); });
  }

  // A capability whose calls all fail, and which no object stands behind.
  Reference broken() {
    Reference reference = vow();
    breakPromise(reference);
    return reference;
  }

  // A promise that became such a capability.
  Reference nullPromise() {
    Reference promise = vow();
    fulfil(promise, broken());
    return promise;
  }

  // Which reference is named of a promise that the vat makes the result of a call, or of another promise: it may go out
  // under a number that it has already. The runtime gives the number of a promise to what this became, without a word;
  // then it is the first promise that goes out, and leads to this one. `way` is where a result goes out.
  Reference asNumbered(const Reference& given, Way way = 0);

  // What the runtime gives out for a result that isn't known yet is a promise of its own.
  Reference promiseOf(const Reference& result) {
    auto view = standsFor(result);
    if (view == nullptr || view->call == nullptr || next(*view) != nullptr) return result;
    Reference promise = vowOf(result);
    if (promise.number != 0) return promise;
    Call& call = answering(*view->call);
    promise = openPromise(result.number, view->call, view->path);
    Vow given;
    given.path = view->path;
    given.number = promise.number;
    given.view = promise.view;
    given.result = result.number;
    given.call = view->call;
    call.vows.push_back(given);
    if (wayOf(*view->call) != 0 || call.isOver) keepVows(call);
    return promise;
  }

  // What the runtime gives out for such a result under another number is the promise to which the first one turned.
  Reference promiseBehind(const Reference& promise, const Reference& result) {
    auto view = lastOf(result).view;
    if (view == nullptr || view->call == nullptr) return promise;
    for (auto& given: answering(*view->call).vows) {
      if (given.number != promise.number) continue;
      if (given.isKept && !promise.view->isUnsaid) return result;
      Reference behind = openPromise(given.result, given.call.lock(), given.path);
      if (given.isKept) {
        turn(behind, promise.view->turn);
        promise.view->turn = behind;
      } else {
        fulfil(promise, behind);
      }
      given.number = behind.number;
      given.view = behind.view;
      return behind;
    }
    return promise;
  }

  // A promise of a result that isn't known yet.
  Reference openPromise(uint64_t result, const std::shared_ptr<Call>& call, const Path& path) {
    Reference promise = vow();
    promise.view->result = result;
    promise.view->resultOf = call;
    promise.view->path = path;
    return promise;
  }

  // The result of a call, with the number that was noted for it.
  static Reference resultAt(uint64_t number, const std::shared_ptr<Call>& call, const Path& path) {
    Reference result;
    result.number = number;
    result.view = std::make_shared<View>();
    result.view->call = call;
    result.view->path = path;
    return result;
  }

  // The call is sent, so its results will come by a Return: what was promised for them turns to them. Where they never
  // come, the runtime gives another vat a proxy.
  void keepVows(Call& call);

  // The call is handed on: what was promised is promised for the other one's results.
  static void passVows(Call& call, Call& by) {
    by.vows.insert(by.vows.end(), call.vows.begin(), call.vows.end());
    call.vows.clear();
  }

  // The call is answered here: what was promised is its result, and turns to what that is.
  void answerVows(Call& call) {
    for (auto& vow: call.vows) {
      Reference promise = vow.promise();
      if (promise.number == 0 || vow.isKept) continue;
      vow.isKept = true;
      if (call.fieldAt(vow.path) == nullptr) call.fields.push_back({ vow.path, broken() });
      Reference& field = *call.fieldAt(vow.path);
      turn(promise, field);
      field = promise;
    }
  }

  // The call has failed.
  void breakVows(Call& call) {
    for (auto& vow: call.vows) {
      Reference promise = vow.promise();
      if (promise.number == 0 || vow.isKept) continue;
      vow.isKept = true;
      breakPromise(promise);
    }
  }

  // On the way of a reference, what the runtime put its proxy before: the first that surely has one, or else the first
  // that came back. Number 0 where there is none.
  static Reference proxiedOn(const Reference& reference) {
    Reference sure, maybe;
    follow(reference, [&](const Reference& at) {
      if (at.view == nullptr) return false;
      if (at.view->isProxy) sure = at;
      bool isBack = at.view->cameBack != 0 && at.view->cameBack == wayOf(at);
      if (isBack && maybe.number == 0) maybe = at;
      return at.view->isProxy;
    });
    if (sure.number == 0 && maybe.number != 0) maybe.view->isProxy = true;
    return sure.number == 0 ? maybe : sure;
  }

  // The object that such a proxy was given away as. Number 0 where it wasn't.
  static Reference givenProxy(const Reference& wrapped) {
    Reference proxy;
    proxy.view = wrapped.view->proxy.lock();
    if (proxy.view != nullptr) proxy.number = wrapped.view->proxyNumber;
    return proxy;
  }

  // The object that a proxy of the runtime is: a vat that gives it away hosts it, and it calls what it stands before.
  Reference proxyOf(const Reference& wrapped) {
    auto& view = *wrapped.view;
    Reference proxy = givenProxy(wrapped);
    if (proxy.number != 0) return proxy;
    hasProxies = true;
    uint64_t object = newObject();
    proxy = host(object);
    proxy.view->wrapped = wrapped;
    proxy.view->object = object;
    view.proxyNumber = proxy.number;
    view.proxy = proxy.view;
    return proxy;
  }

  // Of a call that came to a proxy: the one that goes on from there.
  static std::shared_ptr<Call> goingOn(std::shared_ptr<Call> call) {
    while (call->isAtProxy) call = call->answeredBy;
    return call;
  }

  // A call that leads to a proxy has come to that object, which makes the same call on what it stands before, and
  // answers by that one. What goes on. `isSentBefore` says of a call whether the runtime hasn't come so far yet.
  template <typename IsSentBefore>
  std::shared_ptr<Call> throughProxies(std::shared_ptr<Call> call, IsSentBefore&& isSentBefore) {
    if (!hasProxies) return call;
    for (int steps = 0;; steps++) {
      call = goingOn(kj::mv(call));
      if (isSentBefore(*call)) return call;
      Reference end = endOfGoal(*call);
      if (end.view == nullptr || end.view->wrapped.number == 0 || steps == 100) return call;
      auto made = newCall(call->interfaceId, call->methodId);
      deliver(*call, end.view->object);
      call->isGone = false;
      call->isAtProxy = true;
      make(*made, end.view->wrapped);
      answerBy(call, made);
    }
  }

  // MAKE is what the program calls, not what a frame says: else the audit would compare frames with themselves.
  void make(Call& call, const Reference& target) {
    if (target.number == 0) return stop("a call is made through a capability that isn't known here");
    call.number = ++lastCall;
    call.goal = target;
    begin(0x05, [&] {
      log.number(call.number), log.number(target.number), log.number(call.interfaceId), log.number(call.methodId);
    });
  }

  Reference field(const std::shared_ptr<Call>& call, const Path& path) {
    Reference reference = newReference();
    reference.view->call = call;
    reference.view->path = path;
    call->named.push_back(path);
    begin(0x06, [&] { log.number(reference.number), log.number(call->number), addPath(path); });
    return reference;
  }

  // Each call that is delivered is delivered once, to the object that was really entered.
  void deliver(Call& call, uint64_t object) {
    sayTurns(startOfGoal(call));
    call.isGone = true;
    call.dropGoal();
    begin(0x07, [&] { log.number(call.number), log.number(object); });
  }

  // ANSWER stands before the Return, and before each call that goes on to one of the results. A result that was named
  // before and isn't there is a null capability to C++: its calls fail, and it may go out as senderHosted.
  void answer(Call& call) {
    call.isLocallyAnswered = call.isOver = true;
    answerVows(call);
    breakNamed(call, call);
    begin(0x08, [&] {
      log.number(call.number), log.count(call.fields.size());
      for (auto& field: call.fields) log.number(field.second.number), addPath(field.first);
    });
    shareResults(call);
  }

  // ANSWERBY: the method of the first call ends by handing it on to the second one. It stands behind the second one's
  // MAKE and before its SEND or DELIVER: what the runtime does next may already go by it. No ANSWER or FAULT of the
  // first call follows.
  void answerBy(const std::shared_ptr<Call>& call, const std::shared_ptr<Call>& by) {
    if (call->answeredBy != nullptr) return;
    begin(0x0c, [&] { log.number(call->number), log.number(by->number); });
    passVows(*call, *by);
    handOn(call, by);
  }

  // A Return came by which the first call's results are those of the second one. Where these are said to be the first
  // one's themselves, nothing is noted: then there are none.
  static void takeResults(const std::shared_ptr<Call>& call, const std::shared_ptr<Call>& of) {
    for (const Call* at = of.get(); at != nullptr; at = at->answeredBy.get()) {
      if (at == call.get()) return;
    }
    passVows(*call, *of);
    handOn(call, of);
    shareResults(*of);
  }

  // The results of a call are those of each call that was handed on to it.
  static void shareResults(const Call& call) {
    for (auto& one: call.handedOn) {
      auto handed = one.lock();
      if (handed == nullptr) continue;
      handed->resultsAsMet = call.resultsAsMet;
      shareResults(*handed);
    }
  }

  // Of a call that was delivered and failed: where it came from another vat its Return says so as well, where it is
  // the vat's own no frame does. A call that was sent on has left, and gets none; nor does one that was canceled, or
  // one that was handed on: the other call fails.
  void fault(Call& call) {
    if (call.answeredBy != nullptr) return;
    call.isOver = true;
    breakVows(call);
    begin(0x09, [&] { log.number(call.number); });
  }

  void frame(bool isSent, uint32_t connection, uint64_t call, const std::vector<Reference>& references,
             kj::ArrayPtr<const kj::ArrayPtr<const capnp::word>> segments) {
    begin(isSent ? 0x0a : 0x0b, [&] {
      log.number(connection), log.number(call), log.count(references.size());
      for (auto& reference: references) log.number(reference.number);
      addFrame(segments);
    });
  }

  // ------------------------------------------------------------------------- numbers and capabilities

  Reference newReference() {
    Reference reference;
    reference.number = ++lastReference;
    reference.view = std::make_shared<View>();
    return reference;
  }

  std::shared_ptr<Call> newCall(uint64_t interfaceId, uint16_t methodId) {
    auto call = std::make_shared<Call>();
    call->interfaceId = interfaceId;
    call->methodId = methodId;
    return call;
  }

  void bind(Call& call) { call.number = ++lastCall; }
  uint64_t newObject() { return ++lastObject; }

  // A call whose parameters lie in this vat's memory, where it may be delivered from.
  void keep(const std::shared_ptr<Call>& call, AnyPointer::Reader params) {
    call->params = placeOf(params);
    callAt[call->params] = call;
  }

  std::shared_ptr<Call> callOf(AnyPointer::Reader params, uint64_t interfaceId, uint16_t methodId) {
    auto found = callAt.find(placeOf(params));
    if (found == callAt.end()) return nullptr;
    auto call = found->second;
    return call->interfaceId == interfaceId && call->methodId == methodId ? call : nullptr;
  }

  void forget(Call& call) {
    auto found = callAt.find(call.params);
    if (found != callAt.end() && found->second.get() == &call) callAt.erase(found);
  }

  // ------------------------------------------------------------------------- which call is being sent

  std::shared_ptr<Call> building;   // the call whose request is being made
  std::shared_ptr<Call> sending;    // the call whose request is being sent
  // The runtime's hooks of objects. An entry goes with its object, for addresses are used again.
  std::unordered_map<const ClientHook*, Reference> hosted;
  std::vector<End*> ends;           // of its connections
  std::vector<uint32_t> connections;
  Unsent* unsent = nullptr;         // the messages that are being made, the latest first

  // The runtime lets go of a call's parameters. Where it has just copied them into a message, that passes the call on.
  // Else the call was dropped, and where no Return says that, FAULT does.
  void letGo(const std::shared_ptr<Call>& call) {
    if (!call->isGone && unsent != nullptr && unsent->isCall()) {
      unsent->passedOn = call;
    } else if (!call->isGone && call->isUnheard) {
      fault(*call);
    }
    forget(*call);
  }

  // A call through a proxy of the runtime, where what this stands before has turned meanwhile: the runtime sends a copy
  // there, of which nobody knows where it lies.
  void noteTurned(const std::shared_ptr<Call>& call) {
    auto on = goingOn(call);
    if (on->isGone) return;
    turned.erase(std::remove_if(turned.begin(), turned.end(), [](auto& one) { return one.expired(); }), turned.end());
    on->paramsAsMet = call->paramsAsMet;
    turned.push_back(on);
  }

  // The first of these that may be what is delivered to an object, or sent on, with these parameters.
  std::shared_ptr<Call> turnedCall(AnyPointer::Reader params, uint64_t interfaceId, uint16_t methodId,
                                   const Reference& object) {
    for (size_t at = 0; at < turned.size(); at++) {
      auto call = turned[at].lock();
      if (call == nullptr || call->isGone || call->interfaceId != interfaceId || call->methodId != methodId) continue;
      if (object.number != 0 && !leadsBehindProxies(call->goal, object)) continue;
      turned.erase(turned.begin() + at);
      call->paramsByIndex = byIndexOf(Content(params).met, call->paramsAsMet);
      return call;
    }
    return nullptr;
  }

private:
  Log log;
  uint32_t number;
  bool recording = true;
  std::string reason;  // why it stopped
  uint64_t lastReference = 0, lastCall = 0, lastObject = 0;
  std::unordered_map<const void*, std::shared_ptr<Call>> callAt;
  std::vector<std::weak_ptr<Call>> turned;
  std::vector<std::pair<uint64_t, std::weak_ptr<View>>> unsaid;  // the promises that turned and may still be unsaid
  size_t mostUnsaid = 16;
  bool hasProxies = false;  // some were given away

  template <typename Fields>
  void begin(uint8_t kind, Fields&& fields) {
    if (!recording) return;
    if (log.records == 4294967295) return stop("a log has no room for more records");
    size_t place = log.unwritten();
    log.kind(kind);
    fields();
    if (log.dropTooLong(place)) return stop("a log has no room for so long a list");
    log.endRecord();
    if (kind != 0x05) settle();
  }

  // What can't be done, and what the system says of it.
  static std::string becauseOf(const char* what) { return std::string(what) + ": " + strerror(errno); }

  void say(const char* how) const { fprintf(stderr, "vataudit: vat %u %s %s\n", number, how, reason.c_str()); }

  void addPath(const Path& path) {
    log.count(path.size());
    for (uint16_t field: path) log.number(field);
  }

  // A frame in the standard's stream framing, as the bytes pass the wire.
  void addFrame(kj::ArrayPtr<const kj::ArrayPtr<const capnp::word>> segments) {
    size_t table = (segments.size() / 2 + 1) * sizeof(capnp::word);
    size_t length = table;
    for (auto& segment: segments) length += segment.asBytes().size();
    log.number(static_cast<uint32_t>(length));
    log.number(static_cast<uint32_t>(segments.size() - 1));
    for (auto& segment: segments) log.number(static_cast<uint32_t>(segment.size()));
    if (segments.size() % 2 == 0) log.number(static_cast<uint32_t>(0));
    for (auto& segment: segments) log.add(segment.begin(), segment.asBytes().size());
  }

  static void handOn(const std::shared_ptr<Call>& call, const std::shared_ptr<Call>& by) {
    call->answeredBy = by;
    by->handedOn.push_back(call);
  }

  void sayTurn(const Reference& promise) {
    promise.view->isUnsaid = false;
    begin(0x03, [&] { log.number(promise.number), log.number(promise.view->turn.number); });
  }

  // Where what is known by a number leads to a promise by a turn of which nothing was said yet, that turn went to what
  // the promise leads to, and the promise is free. Whether it is so.
  static bool isFreed(const Reference& promise, const Reference& known) {
    if (promise.view == nullptr) return false;
    std::shared_ptr<View> before;
    follow(known, [&](const Reference& at) {
      bool isBefore = at.view != nullptr && at.view->isUnsaid && at.view->turn.view == promise.view;
      if (isBefore) before = at.view;
      return isBefore;
    });
    if (before == nullptr) return false;
    Reference behind = promise.view->isUnsaid ? promise.view->turn : keptResult(promise);
    if (behind.number != 0) before->turn = behind;
    return behind.number != 0;
  }

  // The result of which this is the promise, if that is open; it is no more its promise then.
  static Reference keptResult(const Reference& promise) {
    auto call = promise.view->resultOf.lock();
    if (call == nullptr) return Reference();
    for (auto& vow: answering(*call).vows) {
      if (vow.number != promise.number || vow.isKept) continue;
      vow.isKept = true;
      return resultAt(promise.view->result, call, promise.view->path);
    }
    return Reference();
  }

  // Gives the results that were named and aren't there, of this call and of those that were handed on to it.
  void breakNamed(const Call& of, Call& call) {
    for (auto& path: of.named) {
      if (call.fieldAt(path) == nullptr) call.fields.push_back({ path, broken() });
    }
    for (auto& one: of.handedOn) {
      auto handed = one.lock();
      if (handed != nullptr) breakNamed(*handed, call);
    }
  }
};

using SharedVat = std::shared_ptr<Vat>;

}  // namespace inside
}  // namespace vataudit

// =========================================================================== One end of a connection

namespace vataudit {
namespace inside {

namespace rpc = capnp::rpc;

// A question that was asked, at the asking or the answering end. Its number may be opened again behind a Return that
// says so, without a Finish; and one that was sent by `sendForPipeline` mostly gets no Return.
struct Question {
  std::shared_ptr<Call> call;
  bool isBootstrap = false, isReturned = false;
  bool isFinished = false, isLate = false;  // a Return that is still to come is late: its capabilities are given back
  std::vector<uint32_t> broughtByCall, broughtByReturn;  // the sender's numbers in their capability tables
};

// A number of the sender's table: how often it was introduced more than given back, and what it stands for.
struct Number {
  uint64_t count = 0;
  Reference reference;
  bool isPromise = false, isResolved = false;
  bool goesBack = false;  // it was resolved to something of the peer
};

// What the numbers of one connection stand for at this end. Read from the frames; MAKE, DELIVER and ANSWER aren't.
class End {
public:
  End(SharedVat vat, uint32_t connection): vat(kj::mv(vat)), connection(connection) {
    this->vat->ends.push_back(this);
    this->vat->connections.push_back(connection);
  }
  ~End() { vat->ends.erase(std::find(vat->ends.begin(), vat->ends.end(), this)); }
  KJ_DISALLOW_COPY(End);

  SharedVat vat;
  std::shared_ptr<Call> lastBootstrap;
  Reference bootstrap;  // of the object that the peer gets as the bootstrap object
  uint32_t number() const { return connection; }
  Way way() const { return Way(connection) + 1; }

  // A message that is handed to the transport: the SEND of docs/FORMATS.md. A Call comes with the call whose
  // request it is, or that it passes on, and says whether the program wrote its parameters right there.
  void sent(rpc::Message::Reader message, kj::ArrayPtr<const kj::ArrayPtr<const capnp::word>> segments,
            std::shared_ptr<Call> call, bool isWrittenHere) {
    std::vector<Reference> references;
    uint64_t number = 0;
    switch (message.which()) {
      case rpc::Message::BOOTSTRAP: {
        lastBootstrap = vat->newCall(0, 0);
        vat->bind(*lastBootstrap);
        lastBootstrap->wentBy = way();
        number = lastBootstrap->number;
        asked[message.getBootstrap().getQuestionId()] = question(lastBootstrap, true);
        break;
      }
      case rpc::Message::CALL:
        if (!sentCall(message.getCall(), kj::mv(call), isWrittenHere, number, references)) return;
        break;
      case rpc::Message::RETURN:
        if (!sentReturn(message.getReturn(), references)) return;
        break;
      case rpc::Message::RESOLVE:
        if (!sentResolve(message.getResolve(), references)) return;
        break;
      case rpc::Message::FINISH:
        finish(asked, imports, message.getFinish());
        break;
      case rpc::Message::RELEASE:
        giveBack(imports, message.getRelease().getId(), message.getRelease().getReferenceCount());
        break;
      case rpc::Message::DISEMBARGO:
        vat->sayAllTurns();
        break;
      default:
        break;
    }
    vat->frame(true, connection, number, references, segments);
  }

  // A message that is looked at for the first time: the RECV. Answers the call that a Call brings.
  std::shared_ptr<Call> received(rpc::Message::Reader message,
                                 kj::ArrayPtr<const kj::ArrayPtr<const capnp::word>> segments) {
    std::vector<Reference> references;
    std::shared_ptr<Call> call;
    switch (message.which()) {
      case rpc::Message::BOOTSTRAP:
        call = vat->newCall(0, 0);
        vat->bind(*call);
        answering[message.getBootstrap().getQuestionId()] = question(call, true);
        break;
      case rpc::Message::CALL:
        call = receivedCall(message.getCall(), references);
        break;
      case rpc::Message::RETURN:
        receivedReturn(message.getReturn(), references);
        break;
      case rpc::Message::RESOLVE:
        receivedResolve(message.getResolve(), references);
        break;
      case rpc::Message::FINISH:
        finish(answering, exports, message.getFinish());
        break;
      case rpc::Message::RELEASE:
        giveBack(exports, message.getRelease().getId(), message.getRelease().getReferenceCount());
        break;
      case rpc::Message::DISEMBARGO:
        vat->sayAllTurns();
        break;
      default:
        break;
    }
    vat->frame(false, connection, call == nullptr ? 0 : call->number, references, segments);
    return message.isCall() ? call : nullptr;
  }

  // The promise of which the peer knows by a number, and hasn't heard what it became, if it became what is given.
  Reference numbered(const Reference& given) {
    for (size_t at = 0; at < promises.size();) {
      auto found = exports.find(promises[at]);
      if (found == exports.end() || !found->second.isPromise || found->second.isResolved) {
        promises[at] = promises.back();
        promises.pop_back();
        continue;
      }
      auto& known = found->second.reference;
      bool isBroken = known.view->isBroken && given.view->isBroken;
      Reference vow = vowOf(given);
      if (isBroken || leadsTo(known, given) || (vow.number != 0 && leadsTo(known, vow))) return known;
      at++;
    }
    return Reference();
  }

  // Whether the peer has a number for it.
  bool gave(const Reference& given) const {
    for (auto& number: exports) {
      if (number.second.reference.number == given.number) return true;
    }
    return false;
  }

private:
  using Questions = std::unordered_map<uint32_t, Question>;
  using Numbers = std::unordered_map<uint32_t, Number>;
  using Table = capnp::List<rpc::CapDescriptor>::Reader;

  uint32_t connection;
  Questions asked, answering;
  Numbers imports, exports;
  std::vector<uint32_t> promises;  // the numbers of promises that went out, but those that were found to be over

  static Question question(std::shared_ptr<Call> call, bool isBootstrap) {
    Question question;
    question.call = kj::mv(call);
    question.isBootstrap = isBootstrap;
    return question;
  }

  // ------------------------------------------------------------------------- sent

  bool sentCall(rpc::Call::Reader message, std::shared_ptr<Call> call, bool isWrittenHere, uint64_t& number,
                std::vector<Reference>& references) {
    if (call == nullptr) {
      call = vat->turnedCall(message.getParams().getContent(), message.getInterfaceId(), message.getMethodId(), {});
    }
    if (call == nullptr || call->number == 0) {
      vat->stop("a Call is sent, and no MAKE or received Call stands before it: was it made through a client of a "
                "promise that isn't from `promise`?");
      return false;
    }
    auto payload = message.getParams();
    auto given = isWrittenHere ? call->paramsByIndex : copied(payload, call->paramsAsMet);
    call->isGone = true;
    auto isSentBefore = [&](const Call& on) { return goesTo(startOfGoal(on), message.getTarget()); };
    Question opened = question(vat->throughProxies(call, isSentBefore), false);
    opened.call->isGone = true;
    vat->sayTurns(startOfGoal(*opened.call));
    opened.call->dropGoal();
    opened.call->wentBy = way();
#if CAPNP_VERSION >= 1000000
    opened.call->isForPipeline = message.getOnlyPromisePipeline();
#endif
    vat->keepVows(*opened.call);
    number = opened.call->number;
    if (!give(payload.getCapTable(), given, true, references, opened.broughtByCall)) return false;
    asked[message.getQuestionId()] = kj::mv(opened);
    return true;
  }

  // Whether a reference leads to the target of a Call.
  bool goesTo(const Reference& from, rpc::MessageTarget::Reader target) const {
    return follow(from, [&](const Reference& at) { return at.view != nullptr && isTarget(*at.view, target); });
  }

  bool isTarget(const View& view, rpc::MessageTarget::Reader target) const {
    if (target.isImportedCap()) {
      auto found = imports.find(target.getImportedCap());
      return found != imports.end() && found->second.reference.view.get() == &view;
    }
    auto found = target.isPromisedAnswer() ? asked.find(target.getPromisedAnswer().getQuestionId()) : asked.end();
    if (found == asked.end() || view.path != pathOf(target.getPromisedAnswer())) return false;
    const Call* at = view.call.get();
    while (at != nullptr && at != found->second.call.get()) at = at->answeredBy.get();
    return at != nullptr;
  }

  bool sentReturn(rpc::Return::Reader message, std::vector<Reference>& references) {
    auto found = answering.find(message.getAnswerId());
    if (found == answering.end()) return true;  // to no question: the audit says so
    Question& answered = found->second;
    if (message.isResults() && !answered.isLate) {
      auto payload = message.getResults();
      if (!give(payload.getCapTable(), results(answered, payload), false, references, answered.broughtByReturn)) {
        return false;
      }
      noteBack(*answered.call, payload);
    }
    answered.isReturned = true;
    if (message.isResultsSentElsewhere()) answered.call->isUnheard = true;
    if (message.getReleaseParamCaps()) giveBack(imports, answered.broughtByCall);
    if (answered.isFinished) answering.erase(found);
    return true;
  }

  // Which results of a Return are the peer's own.
  static void noteBack(Call& call, rpc::Payload::Reader payload) {
    auto table = payload.getCapTable();
    bool hasBack = false;
    for (auto entry: table) hasBack = hasBack || entry.isReceiverHosted() || entry.isReceiverAnswer();
    if (!hasBack) return;
    for (auto& met: Content(payload.getContent()).met) {
      if (!met.hasPath || met.index >= table.size()) continue;
      if (table[met.index].isReceiverHosted() || table[met.index].isReceiverAnswer()) call.goesBack.push_back(met.path);
    }
  }

  // What the capabilities of a Return are: the bootstrap object, those that the program wrote there, or a copy of
  // what another Return brought.
  std::vector<Reference> results(Question& answered, rpc::Payload::Reader payload) {
    Call& call = *answered.call;
    if (answered.isBootstrap) {
      if (payload.getCapTable().size() > 0) {
        call.resultsByIndex = { bootstrap };
        call.fields = { { Path(), bootstrap } };
      }
      if (bootstrap.number != 0) vat->answer(call);
    }
    if (answered.isBootstrap) return call.resultsByIndex;
    auto byIndex = call.isLocallyAnswered ? call.resultsByIndex : copied(payload, call.resultsAsMet);
    return asAnswered(call, payload, kj::mv(byIndex));
  }

  // What ANSWER named, of this call or of the one by which it was answered: a result that was promised before is that
  // promise.
  static std::vector<Reference> asAnswered(Call& call, rpc::Payload::Reader payload, std::vector<Reference> byIndex) {
    Call& by = inside::answering(call);
    if (!by.isLocallyAnswered || by.vows.empty() || byIndex.empty()) return byIndex;
    for (auto& met: Content(payload.getContent()).met) {
      auto field = met.hasPath && met.index < byIndex.size() ? by.fieldAt(met.path) : nullptr;
      if (field != nullptr) byIndex[met.index] = *field;
    }
    return byIndex;
  }

  // A Resolve notes what the promise turned out to be, where that is a new number. Of what goes back, or was sent
  // before, the promise itself will do: it leads there.
  bool sentResolve(rpc::Resolve::Reader message, std::vector<Reference>& references) {
    if (!message.isCap() || message.getCap().isNone()) return true;
    auto found = exports.find(message.getPromiseId());
    if (found == exports.end()) {
      vat->stop("a Resolve is sent of a promise that isn't known here");
      return false;
    }
    auto became = message.getCap();
    found->second.isResolved = true;
    found->second.goesBack = became.isReceiverHosted() || became.isReceiverAnswer();
    Reference promise = found->second.reference;
    std::vector<uint32_t> brought;
    references.push_back(introduce(became, promise, false, brought));
    return true;
  }

  // The references of a copy, by index: a copy keeps the order in which capabilities are met in the content.
  static std::vector<Reference> copied(rpc::Payload::Reader payload, const std::vector<Reference>& asMet) {
    if (payload.getCapTable().size() == 0) return {};
    return byIndexOf(Content(payload.getContent()).met, asMet);
  }

  // Notes the reference of each entry that isn't none, in the table's order. In a Call the vat gives what it likes; in
  // a Return it gives what the call's results are.
  bool give(Table table, const std::vector<Reference>& byIndex, bool isCall, std::vector<Reference>& references,
            std::vector<uint32_t>& brought) {
    for (uint at = 0; at < table.size(); at++) {
      if (table[at].isNone()) continue;
      if (at >= byIndex.size() || byIndex[at].number == 0) {
        vat->stop("a capability is sent that isn't known here");
        return false;
      }
      references.push_back(introduce(table[at], byIndex[at], isCall, brought));
    }
    return true;
  }

  // The reference that is noted for what goes out.
  Reference introduce(rpc::CapDescriptor::Reader descriptor, const Reference& given, bool isCall,
                      std::vector<uint32_t>& brought) {
    if (!descriptor.isSenderHosted() && !descriptor.isSenderPromise()) {
      Reference back = isCall ? withoutProxy(given) : given;
      vat->sayTurns(back);
      return back;
    }
    uint32_t id = descriptor.isSenderHosted() ? descriptor.getSenderHosted() : descriptor.getSenderPromise();
    Number& number = exports[id];
    brought.push_back(id);
    if (number.count++ > 0) {
      Reference again = introducedAgain(number.reference, given, isCall);
      vat->sayTurns(isCall ? again : given, number.reference);
      return again;
    }
    number.isPromise = descriptor.isSenderPromise();
    number.reference = !number.isPromise ? hosted(given, isCall) : isCall ? promised(given) : firstPromise(given);
    if (number.isPromise) {
      promises.push_back(id);
      if (!isCall) vat->sayTurns(given, number.reference);
    } else {
      vat->sayTurns(given), vat->sayTurns(number.reference);
    }
    return number.reference;
  }

  // What goes out as a new senderPromise in a Return: the first promise on the way of the result without a number, and
  // not a call's result that leads there. The results of that call may go out under the same number.
  Reference firstPromise(const Reference& given) const {
    Reference first;
    follow(given, [&](const Reference& at) {
      if (isPromised(at)) return false;
      if (first.number == 0 || isPromise(at)) first = at;
      return isPromise(at);
    });
    return first.number == 0 ? given : first;
  }

  // Whether it is a promise, of this vat or of another, and none of a call's results.
  static bool isPromise(const Reference& reference) {
    auto view = reference.view.get();
    return view != nullptr && view->call == nullptr && view->same.number == 0 && !view->isSettled;
  }

  // What goes out as a new senderPromise: where it has a number already, the runtime is further on its way.
  Reference promised(const Reference& given) {
    const Reference* open = nullptr;
    follow(given, [&](const Reference& at) {
      if (isPromised(at) || isPromised(vowOf(at))) return false;
      if (open == nullptr || isPromise(at)) open = &at;
      return isPromise(at);
    });
    if (open == nullptr) open = &given;
    Reference promise = vat->promiseOf(*open);
    return isPromised(promise) ? vat->promiseBehind(promise, *open) : promise;
  }

  bool isPromised(const Reference& reference) const {
    for (uint32_t id: promises) {
      auto found = exports.find(id);
      if (found == exports.end() || !found->second.isPromise || found->second.isResolved) continue;
      if (reference.number != 0 && areSame(found->second.reference, reference)) return true;
    }
    return false;
  }

  // Over the connection where a result without a Return is, the runtime gives back what it is, and no proxy.
  static Reference withoutProxy(const Reference& given) {
    Reference wrapped = lastOf(given).view->wrapped;
    return wrapped.number != 0 && neverComes(wrapped) ? wrapped : given;
  }

  // The runtime gives the number of a promise to the promise that it became, without a word: then what goes out is the
  // first one, too.
  Reference introducedAgain(const Reference& known, const Reference& given, bool isCall) {
    if (leadsTo(given, known)) return given;
    if (takesOver(known, given)) {
      if (!isCall) vat->leadTo(given, known);
      return known;
    }
    return isCall && known.view->wrapped.number != 0 && leadsTo(given, known.view->wrapped) ? known : given;
  }

  // What goes out as senderHosted is what its reference became: of a promise the runtime sends the object. Where that
  // is still open, the runtime gives out a proxy.
  Reference hosted(const Reference& given, bool isCall) {
    Reference proxied;
    follow(given, [&](const Reference& at) { return at.view->isProxy && (proxied = at, true); });
    if (proxied.number == 0 && isSettled(given)) return lastOf(given);
    if (proxied.number == 0) proxied = Vat::proxiedOn(given);
    if (proxied.number == 0) proxied = lastOf(given);
    return isSettled(proxied) || !isCall ? proxied : vat->proxyOf(proxied);
  }

  // ------------------------------------------------------------------------- received

  std::shared_ptr<Call> receivedCall(rpc::Call::Reader message, std::vector<Reference>& references) {
    auto call = vat->newCall(message.getInterfaceId(), message.getMethodId());
    vat->bind(*call);
    call->isReceived = true;
    call->cameBy = way();
    call->isReflected = message.getSendResultsTo().isYourself();
#if CAPNP_VERSION >= 1000000
    call->isUnheard = message.getOnlyPromisePipeline();
#endif
    addressTo(*call, message.getTarget());
    Question opened = question(call, false);
    auto payload = message.getParams();
    call->paramsByIndex = take(payload.getCapTable(), references, opened.broughtByCall);
    if (!call->paramsByIndex.empty()) {
      call->paramsAsMet = asMet(Content(payload.getContent()).met, call->paramsByIndex);
    }
    vat->keep(call, payload.getContent());
    answering[message.getQuestionId()] = kj::mv(opened);
    return call;
  }

  void addressTo(Call& call, rpc::MessageTarget::Reader target) {
    if (target.isImportedCap()) {
      auto found = exports.find(target.getImportedCap());
      if (found != exports.end()) call.goal = found->second.reference;
    } else if (target.isPromisedAnswer()) {
      auto answer = target.getPromisedAnswer();
      auto found = answering.find(answer.getQuestionId());
      if (found == answering.end()) return;
      call.goalCall = found->second.call;
      call.goalPath = pathOf(answer);
    }
  }

  static Path pathOf(rpc::PromisedAnswer::Reader answer) {
    Path path;
    for (auto op: answer.getTransform()) {
      if (op.isGetPointerField()) path.push_back(op.getGetPointerField());
    }
    return path;
  }

  // The field of a call that came in.
  void standForAnswer(View& view, rpc::PromisedAnswer::Reader answer) {
    auto found = answering.find(answer.getQuestionId());
    if (found == answering.end()) return;
    view.call = found->second.call;
    view.path = pathOf(answer);
    if (!view.call->isOver) view.call->named.push_back(view.path);
  }

  // Whether the runtime has something of the peer at a result that is named here: then it puts a proxy before it. So it
  // is where the call went back to the peer, and where its Return said that the result is the peer's.
  bool isBack(const View& view) const {
    if (view.call == nullptr) return false;
    auto& back = view.call->goesBack;
    return wayOf(*view.call) == way() || std::find(back.begin(), back.end(), view.path) != back.end();
  }

  // A late Return, one after a Finish with releaseResultCaps, notes no reference.
  void receivedReturn(rpc::Return::Reader message, std::vector<Reference>& references) {
    auto found = asked.find(message.getAnswerId());
    if (found == asked.end()) return;
    Question& answered = found->second;
    std::vector<Reference> byIndex;
    if (message.isResults() && !answered.isLate) {
      byIndex = take(message.getResults().getCapTable(), references, answered.broughtByReturn);
    }
    if (!isUnasked(message.getAnswerId())) takeReturn(message, answered, kj::mv(byIndex));
    answered.isReturned = true;
    if (message.getReleaseParamCaps()) giveBack(exports, answered.broughtByCall);
    if (answered.isFinished) asked.erase(found);
  }

  // From 1.0 on the runtime gives such a number to a call that it sends for its pipeline alone. It doesn't look at a
  // Return that comes for one: what was named of the results stays the answer's, and never comes.
  static bool isUnasked(uint32_t question) { return question >> 31 != 0; }

  // What a Return says of the results of its call.
  void takeReturn(rpc::Return::Reader message, Question& answered, std::vector<Reference>&& byIndex) {
    Call& call = *answered.call;
    if (message.isResults() && !answered.isLate) {
      if (!byIndex.empty()) call.setResults(kj::mv(byIndex), Content(message.getResults().getContent()).met);
      call.isOver = true;
      Vat::shareResults(call);
    } else if (message.isException()) {
      call.isOver = true;
    } else if (message.isTakeFromOtherQuestion() && !answered.isLate) {
      auto other = answering.find(message.getTakeFromOtherQuestion());
      if (other != answering.end()) Vat::takeResults(answered.call, other->second.call);
    }
  }

  void receivedResolve(rpc::Resolve::Reader message, std::vector<Reference>& references) {
    if (!message.isCap() || message.getCap().isNone()) return;
    std::vector<uint32_t> brought;
    auto found = imports.find(message.getPromiseId());
    std::shared_ptr<View> promise = found == imports.end() ? nullptr : found->second.reference.view;
    Reference became = arrived(message.getCap(), brought);
    references.push_back(became);
    if (promise != nullptr) promise->turn = became;
  }

  // New references for what came in, by index.
  std::vector<Reference> take(Table table, std::vector<Reference>& references, std::vector<uint32_t>& brought) {
    std::vector<Reference> byIndex(table.size());
    for (uint at = 0; at < table.size(); at++) {
      if (table[at].isNone()) continue;
      byIndex[at] = arrived(table[at], brought);
      references.push_back(byIndex[at]);
    }
    return byIndex;
  }

  Reference arrived(rpc::CapDescriptor::Reader descriptor, std::vector<uint32_t>& brought) {
    Reference reference = vat->newReference();
    switch (descriptor.which()) {
      case rpc::CapDescriptor::SENDER_HOSTED:
      case rpc::CapDescriptor::SENDER_PROMISE: {
        uint32_t id = descriptor.isSenderHosted() ? descriptor.getSenderHosted() : descriptor.getSenderPromise();
        Number& number = imports[id];
        if (number.count++ == 0) number.reference = reference;
        reference.view = number.reference.view;
        reference.view->import = way();
        if (descriptor.isSenderHosted()) reference.view->isSettled = true;
        brought.push_back(id);
        break;
      }
      case rpc::CapDescriptor::RECEIVER_HOSTED: {
        auto found = exports.find(descriptor.getReceiverHosted());
        if (found == exports.end()) break;
        reference.view->same = found->second.reference;
        reference.view->isProxy = found->second.goesBack;
        if (reference.view->isProxy) reference.view->cameBack = way();
        break;
      }
      case rpc::CapDescriptor::RECEIVER_ANSWER:
        standForAnswer(*reference.view, descriptor.getReceiverAnswer());
        reference.view->cameBack = way();
        reference.view->isProxy = isBack(*reference.view);
        break;
      default:
        break;
    }
    return reference;
  }

  // ------------------------------------------------------------------------- given back

  static void giveBack(Numbers& numbers, uint32_t id, uint64_t count) {
    auto found = numbers.find(id);
    if (found == numbers.end()) return;
    if (found->second.count <= count) {
      numbers.erase(found);
    } else {
      found->second.count -= count;
    }
  }
  static void giveBack(Numbers& numbers, const std::vector<uint32_t>& ids) {
    for (uint32_t id: ids) giveBack(numbers, id, 1);
  }

  // After a Finish with releaseResultCaps the Return that may still come is late.
  static void finish(Questions& questions, Numbers& numbers, rpc::Finish::Reader message) {
    auto found = questions.find(message.getQuestionId());
    if (found == questions.end()) return;
    if (found->second.isReturned) {
      if (message.getReleaseResultCaps()) giveBack(numbers, found->second.broughtByReturn);
      questions.erase(found);
    } else {
      found->second.isFinished = true;
      found->second.isLate = message.getReleaseResultCaps();
    }
  }
};

inline Reference Vat::asNumbered(const Reference& given, Way way) {
  if (given.view == nullptr || (given.view->isSettled && !given.view->isBroken)) return given;
  if (way != 0 && neverComes(given) && wayOf(given) != way) return proxyOf(lastOf(given));
  Reference wrapped = lastOf(given).view->wrapped;
  bool isOpen = wrapped.number != 0 && !wrapped.view->isProxy && neverComes(wrapped);
  if (way != 0 && isOpen && wayOf(wrapped) == way) return wrapped;
  for (auto end: ends) {
    Reference known = end->numbered(given);
    if (known.number != 0) return known;
  }
  return promiseOf(given);
}

inline void Vat::keepVows(Call& call) {
  for (auto& vow: call.vows) {
    Reference promise = vow.promise();
    if (promise.number == 0 || vow.isKept) continue;
    vow.isKept = true;
    auto of = vow.call.lock();
    Reference result = resultAt(vow.result, of == nullptr ? call.shared_from_this() : of, vow.path);
    bool isElsewhere = false;
    for (auto end: ends) isElsewhere = isElsewhere || (end->way() != call.wentBy && end->gave(promise));
    turn(promise, call.isForPipeline && isElsewhere ? proxyOf(result) : result);
  }
}

}  // namespace inside
}  // namespace vataudit

// =========================================================================== Capabilities in the program's hands

namespace vataudit {
namespace inside {

// A capability that the program holds: the runtime's hook and its reference. The runtime itself never gets one, so
// that it does what it would do unrecorded.
template <typename... Hints>
class HandleWith final: public ClientHook, public kj::Refcounted {
public:
  HandleWith(SharedVat vat, Reference reference, kj::Own<ClientHook> inner)
      : vat(kj::mv(vat)), reference(kj::mv(reference)), inner(kj::mv(inner)) {}

  capnp::Request<AnyPointer, AnyPointer> newCall(
      uint64_t interfaceId, uint16_t methodId, kj::Maybe<capnp::MessageSize> sizeHint, Hints... hints) override;
  VoidPromiseAndPipeline call(uint64_t interfaceId, uint16_t methodId, kj::Own<capnp::CallContextHook>&& context,
                              Hints... hints) override {
    return inner->call(interfaceId, methodId, kj::mv(context), hints...);
  }
  kj::Maybe<ClientHook&> getResolved() override;
  kj::Maybe<kj::Promise<kj::Own<ClientHook>>> whenMoreResolved() override { return inner->whenMoreResolved(); }
  kj::Own<ClientHook> addRef() override { return kj::addRef(*this); }
  const void* getBrand() override { return inner->isNull() || inner->isError() ? inner->getBrand() : nullptr; }
  kj::Maybe<int> getFd() override { return inner->getFd(); }

  SharedVat vat;
  Reference reference;
  kj::Own<ClientHook> inner;
};
using Handle = OfVersion<HandleWith>;

// Where the runtime is on the way of what a capability becomes.
inline ClientHook& innermost(ClientHook& hook) {
  ClientHook* at = &hook;
  for (;;) {
    KJ_IF_MAYBE(next, at->getResolved()) {
      at = next;
    } else {
      return *at;
    }
  }
}

template <typename... Hints>
kj::Maybe<ClientHook&> HandleWith<Hints...>::getResolved() { return innermost(*inner); }

// The reference by which a capability is given away. Where the runtime stands at a proxy of its own (it gives these
// out for what came back over a connection and leads over it again), it is that of the proxy, an object of this vat.
inline Reference givenBy(Vat& vat, const Reference& reference, ClientHook& hook) {
  ClientHook& end = innermost(hook);
  if (end.getBrand() != nullptr || vat.hosted.count(&end) > 0 || end.whenMoreResolved() != nullptr) return reference;
  Reference behind = vat.proxiedOn(reference);
  if (behind.number == 0) return reference;
  return isSettled(behind) && Vat::givenProxy(behind).number == 0 ? behind : vat.proxyOf(behind);
}

// The reference of a capability that the program gives away. A broken one gets a VOW and a BREAK, since it goes out
// as senderHosted and no object stands behind it. So does a null one: in content it is a null pointer and never comes
// here, but a promise may become one, and C++ then resolves that to a senderHosted whose calls all fail.
inline Reference referenceOf(Vat& vat, ClientHook& hook) {
  ClientHook* at = &hook;
  for (;;) {
    if (auto handle = dynamic_cast<Handle*>(at)) {
      if (handle->vat.get() == &vat) return givenBy(vat, handle->reference, *handle->inner);
      vat.stop("a capability is given away that another recorder of this process knows: it has to come over a "
               "connection");
      return Reference();
    }
    auto found = vat.hosted.find(at);
    if (found != vat.hosted.end()) return found->second;
    if ((at->isError() || at->isNull()) && vat.isRecording()) return vat.broken();
    KJ_IF_MAYBE(next, at->getResolved()) {
      at = next;
    } else {
      return Reference();
    }
  }
}

// The runtime's own hook.
inline kj::Own<ClientHook> unwrapped(kj::Own<ClientHook>&& hook) {
  if (auto handle = dynamic_cast<Handle*>(hook.get())) return handle->inner->addRef();
  return kj::mv(hook);
}

inline kj::Own<ClientHook> wrapped(const SharedVat& vat, const Reference& reference, kj::Own<ClientHook>&& hook) {
  if (reference.number == 0 || !vat->isRecording()) return kj::mv(hook);
  return kj::refcounted<Handle>(vat, reference, kj::mv(hook));
}

// The capability at an index of the runtime's table, with the reference that was noted for it there.
inline kj::Maybe<kj::Own<ClientHook>> extracted(const SharedVat& vat, const std::vector<Reference>& byIndex,
                                                capnp::_::CapTableReader& table, uint index) {
  KJ_IF_MAYBE(hook, table.extractCap(index)) {
    return wrapped(vat, index < byIndex.size() ? byIndex[index] : Reference(), kj::mv(*hook));
  } else {
    return nullptr;
  }
}

// The capability table of a message that came in, by whose indexes the references were noted.
class ReadTable final: public capnp::_::CapTableReader {
public:
  ReadTable(SharedVat vat, std::vector<Reference> byIndex): vat(kj::mv(vat)), byIndex(kj::mv(byIndex)) {}

  AnyPointer::Reader imbue(AnyPointer::Reader reader) {
    auto pointer = capnp::_::PointerHelpers<AnyPointer>::getInternalReader(reader);
    inner = pointer.getCapTable();
    return AnyPointer::Reader(pointer.imbue(this));
  }

  kj::Maybe<kj::Own<ClientHook>> extractCap(uint index) override {
    if (inner == nullptr) return nullptr;
    return extracted(vat, byIndex, *inner, index);
  }

private:
  SharedVat vat;
  std::vector<Reference> byIndex;
  capnp::_::CapTableReader* inner = nullptr;
};

// The capability table of a message that the program writes: notes the reference of each capability by its index,
// and hands the runtime's own hook on.
class WriteTable final: public capnp::_::CapTableBuilder {
public:
  explicit WriteTable(SharedVat vat): vat(kj::mv(vat)) {}

  AnyPointer::Builder imbue(AnyPointer::Builder builder) {
    auto pointer = capnp::_::PointerHelpers<AnyPointer>::getInternalBuilder(kj::mv(builder));
    inner = pointer.getCapTable();
    return AnyPointer::Builder(pointer.imbue(this));
  }

  kj::Maybe<kj::Own<ClientHook>> extractCap(uint index) override {
    return extracted(vat, byIndex, *inner, index);
  }

  uint injectCap(kj::Own<ClientHook>&& hook) override {
    Reference reference = referenceOf(*vat, *hook);
    if (reference.number == 0) {
      vat->stop("a capability is given away that is none of `host`, `promise`, a parameter or a result");
    }
    uint index = inner->injectCap(unwrapped(kj::mv(hook)));
    if (byIndex.size() <= index) byIndex.resize(index + 1);
    byIndex[index] = kj::mv(reference);
    return index;
  }

  void dropCap(uint index) override { inner->dropCap(index); }

  std::vector<Reference> byIndex;

private:
  SharedVat vat;
  capnp::_::CapTableBuilder* inner = nullptr;
};

}  // namespace inside
}  // namespace vataudit

// =========================================================================== Calls that the program makes

namespace vataudit {
namespace inside {

// Says for a while which call is at work, and then again what was said before.
class Meanwhile {
public:
  Meanwhile(std::shared_ptr<Call>& place, std::shared_ptr<Call> call): place(place), before(kj::mv(place)) {
    place = kj::mv(call);
  }
  ~Meanwhile() { place = kj::mv(before); }
  KJ_DISALLOW_COPY(Meanwhile);

private:
  std::shared_ptr<Call>& place;
  std::shared_ptr<Call> before;
};

// The results of a call that are still to come. FIELD is recorded where the program first names one.
class Pipeline final: public capnp::PipelineHook, public kj::Refcounted {
public:
  Pipeline(SharedVat vat, std::shared_ptr<Call> call, kj::Own<capnp::PipelineHook> inner)
      : vat(kj::mv(vat)), call(kj::mv(call)), inner(kj::mv(inner)) {}

  kj::Own<capnp::PipelineHook> addRef() override { return kj::addRef(*this); }

  kj::Own<ClientHook> getPipelinedCap(kj::ArrayPtr<const capnp::PipelineOp> ops) override {
    Path path;
    for (auto& op: ops) {
      if (op.type == capnp::PipelineOp::GET_POINTER_FIELD) path.push_back(op.pointerIndex);
    }
    auto hook = inner->getPipelinedCap(ops);
    if (!vat->isRecording()) return hook;
    auto reference = fieldAt(path, *hook);
    return wrapped(vat, reference, kj::mv(hook));
  }

private:
  SharedVat vat;
  std::shared_ptr<Call> call;
  kj::Own<capnp::PipelineHook> inner;
  std::vector<std::pair<Path, Reference>> named;

  Reference fieldAt(const Path& path, ClientHook& hook) {
    for (auto& one: named) {
      if (one.first == path) return one.second;
    }
    // Named behind the ANSWER, of a result that isn't there, while the runtime doesn't know that yet.
    auto& answered = answering(*call);
    bool isNull = answered.isLocallyAnswered && answered.fieldAt(path) == nullptr;
    bool isPromise = !hook.isError() && !hook.isNull();
    named.push_back({ path, isNull && isPromise ? vat->nullPromise() : vat->field(call, path) });
    return named.back().second;
  }
};

// Results that came, in which each capability has the reference that its Return noted.
class Results final: public capnp::ResponseHook {
public:
  Results(SharedVat vat, std::vector<Reference> byIndex, kj::Own<capnp::ResponseHook> inner)
      : inner(kj::mv(inner)), table(kj::mv(vat), kj::mv(byIndex)) {}

private:
  kj::Own<capnp::ResponseHook> inner;

public:
  ReadTable table;
};

// The references of the capabilities in a call's results, by their indexes there. Where the call came back, and went on
// from here, the runtime has copied them.
inline std::vector<Reference> resultsOf(Call& call, AnyPointer::Reader results) {
  bool isCopy = false;
  Call* at = &call;
  while (at->answeredBy != nullptr) {
    at = at->answeredBy.get();
    isCopy = isCopy || at->isReceived;
  }
  if (!isCopy || at->isLocallyAnswered) return at->resultsByIndex;
  return byIndexOf(Content(results).met, at->resultsAsMet);
}

// What a request of this brand, which was made of this hook, goes to as it is sent, where that is something else.
inline kj::Own<ClientHook> turnedTo(ClientHook& hook, const void* brand) {
  if (hook.getBrand() != brand) return {};  // the runtime's proxy
  ClientHook* at = &hook;
  while (at->getBrand() == brand) {
    KJ_IF_MAYBE(next, at->getResolved()) {
      at = next;
    } else {
      return {};
    }
  }
  return at->addRef();
}

// Lies in the capability table of a request that stays in this vat, where no pointer names it, and goes when the
// runtime lets go of the parameters: so the recorder knows which call they are of.
template <typename... Hints>
class TagWith final: public ClientHook, public kj::Refcounted {
public:
  TagWith(SharedVat vat, std::shared_ptr<Call> of): vat(kj::mv(vat)), of(kj::mv(of)) {}
  ~TagWith() noexcept(false) { vat->letGo(of); }

  capnp::Request<AnyPointer, AnyPointer> newCall(uint64_t, uint16_t, kj::Maybe<capnp::MessageSize> sizeHint,
                                                 Hints...) override {
    return capnp::newBrokenRequest(KJ_EXCEPTION(FAILED, "a tag of the recorder is called"), sizeHint);
  }
  VoidPromiseAndPipeline call(uint64_t, uint16_t, kj::Own<capnp::CallContextHook>&&, Hints...) override {
    auto failure = KJ_EXCEPTION(FAILED, "a tag of the recorder is called");
    return VoidPromiseAndPipeline { kj::cp(failure), capnp::newBrokenPipeline(kj::cp(failure)) };
  }
  kj::Maybe<ClientHook&> getResolved() override { return nullptr; }
  kj::Maybe<kj::Promise<kj::Own<ClientHook>>> whenMoreResolved() override { return nullptr; }
  kj::Own<ClientHook> addRef() override { return kj::addRef(*this); }
  const void* getBrand() override { return nullptr; }
  kj::Maybe<int> getFd() override { return nullptr; }

private:
  SharedVat vat;
  std::shared_ptr<Call> of;
};
using Tag = OfVersion<TagWith>;

// A copy of a request whose promise turned meanwhile. The runtime sends such a request as a call of its own, even where
// a method hands its call on by it: so it isn't to see over which connection the copy goes.
class TurnedRequest final: public capnp::RequestHook {
public:
  explicit TurnedRequest(kj::Own<capnp::RequestHook> inner): inner(kj::mv(inner)) {}

  capnp::RemotePromise<AnyPointer> send() override { return inner->send(); }
  kj::Promise<void> sendStreaming() override { return inner->sendStreaming(); }
#if CAPNP_VERSION >= 1000000
  AnyPointer::Pipeline sendForPipeline() override { return inner->sendForPipeline(); }
#endif
  const void* getBrand() override { return nullptr; }

private:
  kj::Own<capnp::RequestHook> inner;
};

// A request of the program. MAKE is recorded as it is sent, so before the runtime's SEND.
class Request final: public capnp::RequestHook {
public:
  using Runtimes = capnp::Request<AnyPointer, AnyPointer>;
  // Makes the same request of another hook.
  using Renew = std::function<Runtimes(ClientHook&, kj::Maybe<capnp::MessageSize>)>;

  Request(SharedVat vat, Reference target, kj::Own<ClientHook> hook, std::shared_ptr<Call> call, Runtimes&& request,
          Renew&& renew)
      : vat(vat), target(kj::mv(target)), hook(kj::mv(hook)), call(kj::mv(call)), builder(request),
        renew(kj::mv(renew)), table(kj::mv(vat)), inner(capnp::RequestHook::from(kj::mv(request))) {
    if (isLocal()) tag();
  }

  AnyPointer::Builder params() { return table.imbue(builder); }

  capnp::RemotePromise<AnyPointer> send() override {
    if (!begin()) return inner->send();
    auto promise = whileSending([&] { return inner->send(); });
    auto pipeline = recorded(kj::mv(promise));
    auto results = promise.then([vat = vat, call = call](capnp::Response<AnyPointer>&& response) {
      AnyPointer::Reader reader = response;
      auto byIndex = resultsOf(*call, reader);
      if (byIndex.empty()) return kj::mv(response);
      auto hook = kj::heap<Results>(vat, kj::mv(byIndex), capnp::ResponseHook::from(kj::mv(response)));
      reader = hook->table.imbue(reader);
      return capnp::Response<AnyPointer>(reader, kj::mv(hook));
    });
    return capnp::RemotePromise<AnyPointer>(kj::mv(results), kj::mv(pipeline));
  }

  kj::Promise<void> sendStreaming() override {
    if (!begin()) return inner->sendStreaming();
    return whileSending([&] { return inner->sendStreaming(); });
  }

#if CAPNP_VERSION >= 1000000
  // No Return is asked for: the call's results may be named, and never come.
  AnyPointer::Pipeline sendForPipeline() override {
    if (!begin()) return inner->sendForPipeline();
    return recorded(whileSending([&] { return inner->sendForPipeline(); }));
  }
#endif

  // The runtime never sees this request, only the one inside.
  const void* getBrand() override { return nullptr; }

  // Records MAKE, and what is needed to know the call again: where its parameters lie, and what they give away.
  bool begin() {
    if (!vat->isRecording()) return false;
    vat->make(*call, target);
    call->paramsByIndex = kj::mv(table.byIndex);
    if (!call->paramsByIndex.empty()) {
      call->paramsAsMet = asMet(Content(builder.asReader()).met, call->paramsByIndex);
    }
    followTurn();
    if (isLocal()) vat->keep(call, builder.asReader());
    return vat->isRecording();
  }

  // The call by which a method hands its own on: a Return may name it.
  std::shared_ptr<Call> goingOn() {
    return isLocal() ? call : vat->throughProxies(call, [](const Call&) { return false; });
  }

  // The runtime's request, for a method that hands its call on by it.
  kj::Own<capnp::RequestHook> handedOn() {
    if (turned.empty()) return kj::mv(inner);
    return kj::heap<TurnedRequest>(kj::mv(inner));
  }

  // What the runtime answers when this call is handed to it.
  template <typename Send>
  auto whileSending(Send&& send) -> decltype(send()) {
    bool isProxied = !isLocal() && hook->getBrand() != inner->getBrand();
    Meanwhile meanwhile(vat->sending, call);
    KJ_DEFER({
      if (isProxied) vat->noteTurned(call);
      vat->settle();
    });
    return send();
  }

  SharedVat vat;
  Reference target;
  kj::Own<ClientHook> hook;      // of which the runtime's request was made
  std::shared_ptr<Call> call;
  AnyPointer::Builder builder;
  Renew renew;
  WriteTable table;
  kj::Own<capnp::RequestHook> inner;

private:
  kj::Vector<kj::Own<capnp::RequestHook>> turned;  // the requests that copies were made of

  // Whether the request stays in this vat, or waits here for a promise.
  bool isLocal() { return inner->getBrand() == nullptr; }

  void tag() {
    auto pointer = capnp::_::PointerHelpers<AnyPointer>::getInternalBuilder(AnyPointer::Builder(builder));
    pointer.getCapTable()->injectCap(kj::refcounted<Tag>(vat, call));
  }

  // Where a promise turned while its request was written, the runtime copies the request as it is sent, and sends the
  // copy to what the promise became. The copy is made here in the same way, so that it is known.
  void followTurn() {
    while (!isLocal()) {
      auto next = turnedTo(*hook, inner->getBrand());
      if (next.get() == nullptr || !isConnected()) return;
      auto written = builder.asReader();
      auto copy = renew(*next, builder.targetSize());
      builder = copy;
      hook = kj::mv(next);
      turned.add(kj::mv(inner));
      inner = capnp::RequestHook::from(kj::mv(copy));
      if (isLocal()) tag();
      builder.set(written);
      if (isLocal()) call->paramsByIndex = byIndexOf(Content(builder.asReader()).met, call->paramsAsMet);
    }
  }

  // Of a request whose connection is gone the runtime makes no copy: it fails.
  bool isConnected() {
    return capnp::RequestHook::from(renew(*hook, nullptr))->getBrand() == inner->getBrand();
  }

  // The pipeline of this call, in which each result that is named gets its FIELD.
  AnyPointer::Pipeline recorded(AnyPointer::Pipeline&& pipeline) {
    return AnyPointer::Pipeline(
        kj::refcounted<Pipeline>(vat, call, capnp::PipelineHook::from(kj::mv(pipeline))));
  }
};

template <typename... Hints>
capnp::Request<AnyPointer, AnyPointer> HandleWith<Hints...>::newCall(
    uint64_t interfaceId, uint16_t methodId, kj::Maybe<capnp::MessageSize> sizeHint, Hints... hints) {
  if (!vat->isRecording()) return inner->newCall(interfaceId, methodId, sizeHint, hints...);
  auto call = vat->newCall(interfaceId, methodId);
  auto request = [&] {
    Meanwhile meanwhile(vat->building, call);
    return inner->newCall(interfaceId, methodId, sizeHint, hints...);
  }();
  auto renew = [interfaceId, methodId, hints...](ClientHook& hook, kj::Maybe<capnp::MessageSize> size) {
    return hook.newCall(interfaceId, methodId, size, hints...);
  };
  auto hook = kj::heap<Request>(vat, reference, inner->addRef(), kj::mv(call), kj::mv(request), kj::mv(renew));
  auto params = hook->params();
  return capnp::Request<AnyPointer, AnyPointer>(params, kj::mv(hook));
}

}  // namespace inside
}  // namespace vataudit

// =========================================================================== Objects

namespace vataudit {
namespace inside {

// A derived server can't reach the hook of a call's context.
struct HookOfContext {
  using Type = capnp::CallContextHook* capnp::CallContext<AnyPointer, AnyPointer>::*;
  friend Type open(HookOfContext);
};
template struct Opened<HookOfContext, &capnp::CallContext<AnyPointer, AnyPointer>::hook>;

// In the same way, the hook of which an object's `thisCap()` makes its clients.
struct HookOfServer {
  using Type = ClientHook* capnp::Capability::Server::*;
  friend Type open(HookOfServer);
};
template struct Opened<HookOfServer, &capnp::Capability::Server::thisHook>;

// What stands in that place: `thisCap()` then gives the recorded client of the object. As the runtime's pointer there
// it holds nothing: the runtime's hook owns the object, and the object this.
template <typename... Hints>
class SelfWith final: public ClientHook {
public:
  SelfWith(SharedVat vat, Reference reference): vat(kj::mv(vat)), reference(kj::mv(reference)) {}

  capnp::Request<AnyPointer, AnyPointer> newCall(
      uint64_t interfaceId, uint16_t methodId, kj::Maybe<capnp::MessageSize> sizeHint, Hints... hints) override {
    return addRef()->newCall(interfaceId, methodId, sizeHint, hints...);
  }
  VoidPromiseAndPipeline call(uint64_t interfaceId, uint16_t methodId, kj::Own<capnp::CallContextHook>&& context,
                              Hints... hints) override {
    return inner->call(interfaceId, methodId, kj::mv(context), hints...);
  }
  kj::Maybe<ClientHook&> getResolved() override { return *inner; }
  kj::Maybe<kj::Promise<kj::Own<ClientHook>>> whenMoreResolved() override { return inner->whenMoreResolved(); }
  kj::Own<ClientHook> addRef() override { return wrapped(vat, reference, inner->addRef()); }
  const void* getBrand() override { return inner->getBrand(); }
  kj::Maybe<int> getFd() override { return inner->getFd(); }

  ClientHook* inner = nullptr;  // the runtime's hook of the object

private:
  SharedVat vat;
  Reference reference;
};
using Self = OfVersion<SelfWith>;

// Results that the program names beforehand, as the runtime gets them: from 1.0 on it looks whether these are the very
// hooks that come with the results.
class Unwrapping final: public capnp::PipelineHook, public kj::Refcounted {
public:
  explicit Unwrapping(kj::Own<capnp::PipelineHook> inner): inner(kj::mv(inner)) {}

  kj::Own<capnp::PipelineHook> addRef() override { return kj::addRef(*this); }
  kj::Own<ClientHook> getPipelinedCap(kj::ArrayPtr<const capnp::PipelineOp> ops) override {
    return unwrapped(inner->getPipelinedCap(ops));
  }

private:
  kj::Own<capnp::PipelineHook> inner;
};

// What the program sees of a call that it serves: parameters and results whose capabilities are known by reference.
class Context final: public capnp::CallContextHook, public kj::Refcounted {
public:
  Context(SharedVat vat, std::shared_ptr<Call> call, kj::Own<capnp::CallContextHook> inner)
      : vat(vat), call(call), inner(kj::mv(inner)), params(vat, call->paramsByIndex), results(vat) {}

  AnyPointer::Reader getParams() override { return params.imbue(inner->getParams()); }
  void releaseParams() override { inner->releaseParams(); }
  AnyPointer::Builder getResults(kj::Maybe<capnp::MessageSize> sizeHint) override {
    hasResults = true;
    return results.imbue(inner->getResults(sizeHint));
  }
  kj::Promise<void> tailCall(kj::Own<capnp::RequestHook>&& request) override {
    return handOn(kj::mv(request), [&](auto&& to) { return inner->tailCall(kj::mv(to)); });
  }
  capnp::ClientHook::VoidPromiseAndPipeline directTailCall(kj::Own<capnp::RequestHook>&& request) override {
    return handOn(kj::mv(request), [&](auto&& to) { return inner->directTailCall(kj::mv(to)); });
  }
#if CAPNP_VERSION < 1000000
  void allowCancellation() override { inner->allowCancellation(); }
#endif
  void setPipeline(kj::Own<capnp::PipelineHook>&& pipeline) override {
    inner->setPipeline(kj::refcounted<Unwrapping>(kj::mv(pipeline)));
  }
  kj::Promise<AnyPointer::Pipeline> onTailCall() override { return inner->onTailCall(); }
  kj::Own<capnp::CallContextHook> addRef() override { return kj::addRef(*this); }

  // Records ANSWER: each capability in the results with its path. A call that was handed on has ANSWERBY instead.
  void answer() {
    if (!vat->isRecording() || call->isLocallyAnswered || call->answeredBy != nullptr) return;
    if (hasResults && !results.byIndex.empty()) {
      auto way = returnsBy(*call);
      for (auto& reference: results.byIndex) {
        reference = vat->asNumbered(reference, way);
      }
      Content content(inner->getResults(capnp::MessageSize { 0, 0 }).asReader());
      call->setResults(kj::mv(results.byIndex), content.met);
    }
    vat->answer(*call);
  }

private:
  SharedVat vat;
  std::shared_ptr<Call> call;
  kj::Own<capnp::CallContextHook> inner;
  ReadTable params;
  WriteTable results;
  bool hasResults = false;

  // The call is handed on: its results are those of the call that the request makes. ANSWERBY says so.
  template <typename TailCall>
  auto handOn(kj::Own<capnp::RequestHook>&& request, TailCall&& tailCall) -> decltype(tailCall(kj::mv(request))) {
    auto made = dynamic_cast<Request*>(request.get());
    if (made == nullptr) return tailCall(kj::mv(request));
    if (made->begin()) vat->answerBy(call, made->goingOn());
    return made->whileSending([&] { return tailCall(made->handedOn()); });
  }
};

// An object of the vat. DELIVER is recorded where its method is entered, with the object that it really is.
template <typename Implementation>
class Hosted final: public Implementation {
public:
  template <typename... Arguments>
  explicit Hosted(SharedVat vat, Arguments&&... arguments)
      : Implementation(kj::fwd<Arguments>(arguments)...), vat(vat), object(vat->newObject()),
        reference(vat->host(object)), self(vat, reference) {}
  ~Hosted() noexcept(false) { vat->hosted.erase(self.inner); }

  // The runtime has made its hook of this object.
  void isHeldBy(ClientHook& hook) {
    self.inner = &hook;
    vat->hosted[&hook] = reference;
    capnp::Capability::Server& server = *this;
    server.*open(HookOfServer()) = &self;
  }

  capnp::Capability::Server::DispatchCallResult dispatchCall(
      uint64_t interfaceId, uint16_t methodId, capnp::CallContext<AnyPointer, AnyPointer> context) override {
    if (!vat->isRecording()) return Implementation::dispatchCall(interfaceId, methodId, context);
    capnp::CallContextHook& inner = *(context.*open(HookOfContext()));
    auto call = delivered(inner.getParams(), interfaceId, methodId);
    auto seen = kj::refcounted<Context>(vat, call, inner.addRef());
    try {
      auto result = Implementation::dispatchCall(
          interfaceId, methodId, capnp::CallContext<AnyPointer, AnyPointer>(*seen));
      auto& hook = *seen;
      auto promise = result.promise.then(
          [&hook]() { hook.answer(); },
          [vat = vat, call](kj::Exception&& exception) {
            vat->fault(*call);
            kj::throwRecoverableException(kj::mv(exception));
          });
      result.promise = promise.attach(kj::mv(seen));
      return result;
    } catch (...) {
      vat->fault(*call);
      throw;
    }
  }

  SharedVat vat;
  uint64_t object;
  Reference reference;

private:
  Self self;

  // Finds the call by where its parameters lie. What is left are calls through a client that isn't recorded, as that of
  // a promise which isn't from `promise`: they have no MAKE yet.
  std::shared_ptr<Call> delivered(AnyPointer::Reader params, uint64_t interfaceId, uint16_t methodId) {
    auto call = vat->callOf(params, interfaceId, methodId);
    if (call == nullptr) call = vat->turnedCall(params, interfaceId, methodId, reference);
    if (call == nullptr) {
      call = vat->newCall(interfaceId, methodId);
      vat->make(*call, reference);
    } else {
      vat->forget(*call);
      call = behindProxies(kj::mv(call));
    }
    vat->deliver(*call, object);
    return call;
  }

  // Where a proxy of the runtime leads to this object, it is the proxy's own call that comes here.
  std::shared_ptr<Call> behindProxies(std::shared_ptr<Call> call) {
    auto on = vat->throughProxies(call, [](const Call&) { return false; });
    if (on != call) {
      on->paramsByIndex = call->paramsByIndex;
      on->paramsAsMet = call->paramsAsMet;
    }
    return on;
  }
};

}  // namespace inside
}  // namespace vataudit

// =========================================================================== Messages

namespace vataudit {
namespace inside {

using Segments = std::vector<kj::ArrayPtr<const capnp::word>>;

template <typename List>
size_t wordsOf(const List& segments) {
  size_t size = 0;
  for (auto& segment: segments) size += segment.size();
  return size;
}

// A message of the runtime, until it is handed to the transport.
class Outgoing final: public capnp::OutgoingRpcMessage, public kj::Refcounted {
public:
  Outgoing(Network& network, std::shared_ptr<End> end, uint firstSegmentWordSize)
      : network(network), end(kj::mv(end)),
        message(firstSegmentWordSize == 0 ? capnp::SUGGESTED_FIRST_SEGMENT_WORDS : firstSegmentWordSize),
        call(this->end->vat->building) {
    if (call == nullptr) {
      unsent.message = &message;
      unsent.before = this->end->vat->unsent;
      this->end->vat->unsent = &unsent;
    }
  }
  ~Outgoing() noexcept(false) { leave(); }

  AnyPointer::Builder getBody() override { return message.getRoot<AnyPointer>(); }
  void setFds(kj::Array<int> fds) override;
  void send() override;
  size_t sizeInWords() override { return wordsOf(message.getSegmentsForOutput()); }

private:
  Network& network;
  std::shared_ptr<End> end;
  capnp::MallocMessageBuilder message;
  kj::Array<int> fds;
  std::shared_ptr<Call> call;      // the call whose request the program writes right here
  Unsent unsent;
  friend class vataudit::Network;

  void leave() {
    for (Unsent** at = &end->vat->unsent; *at != nullptr; at = &(*at)->before) {
      if (*at != &unsent) continue;
      *at = unsent.before;
      unsent.before = nullptr;
      return;
    }
  }

  void record() {
    auto& vat = *end->vat;
    if (!vat.isRecording()) return;
    auto reader = message.getRoot<rpc::Message>().asReader();
    auto segments = message.getSegmentsForOutput();
    bool isWrittenHere = call != nullptr;
    auto& sender = isWrittenHere ? call : vat.sending != nullptr ? vat.sending : unsent.passedOn;
    end->sent(reader, segments, sender, isWrittenHere);
  }
};

// A message that came in. RECV is recorded at the first look at it, before the runtime acts on it: all that the
// message brings about stands behind it.
class Incoming final: public capnp::IncomingRpcMessage {
public:
  // The descriptors that came with it are the first of `room`.
  Incoming(std::shared_ptr<End> end, kj::Own<capnp::MessageReader> message, kj::Array<kj::AutoCloseFd> room,
           kj::ArrayPtr<kj::AutoCloseFd> fds)
      : end(kj::mv(end)), message(kj::mv(message)), room(kj::mv(room)), fds(fds), first(this->message->getSegment(0)),
        segments(&first, 1) {
    if (this->message->getSegment(1).begin() != nullptr) listSegments();
  }
  ~Incoming() noexcept(false) {
    if (call != nullptr) end->vat->letGo(call);
  }

  AnyPointer::Reader getBody() override {
    if (!isSeen && end->vat->isRecording()) record();
    isSeen = true;
    return message->getRoot<AnyPointer>();
  }
  kj::ArrayPtr<kj::AutoCloseFd> getAttachedFds() override { return fds; }
  size_t sizeInWords() override { return wordsOf(segments); }

private:
  std::shared_ptr<End> end;
  kj::Own<capnp::MessageReader> message;
  kj::Array<kj::AutoCloseFd> room;
  kj::ArrayPtr<kj::AutoCloseFd> fds;
  kj::ArrayPtr<const capnp::word> first;
  Segments several;  // of a message that has more than the first; most don't
  kj::ArrayPtr<const kj::ArrayPtr<const capnp::word>> segments;
  std::shared_ptr<Call> call;
  bool isSeen = false;

  void listSegments() {
    for (uint at = 0;; at++) {
      auto segment = message->getSegment(at);
      if (segment.begin() == nullptr) break;
      several.push_back(segment);
    }
    segments = kj::arrayPtr(several.data(), several.size());
  }

  // Reads with limits of its own, so that the program's aren't used up. A frame that can't be read is recorded
  // as it is: the audit says so.
  void record() {
    capnp::ReaderOptions options;
    options.traversalLimitInWords = ~uint64_t(0) >> 4;
    capnp::SegmentArrayMessageReader reader(segments, options);
    KJ_IF_MAYBE(exception, kj::runCatchingExceptions([&]() {
      call = end->received(reader.getRoot<rpc::Message>(), segments);
    })) {
      (void)exception;
      end->vat->frame(false, end->number(), 0, {}, segments);
    }
  }
};

}  // namespace inside
}  // namespace vataudit

// =========================================================================== Networks

namespace vataudit {

// One connection between two vats over any stream, in the place of capnp::TwoPartyVatNetwork. Its number is your
// choice: the same in both vats' logs, and no other connection of the conversation has it. A vat may have several.
class Network final: public capnp::TwoPartyVatNetworkBase,
                     private capnp::TwoPartyVatNetworkBase::Connection,
                     private capnp::RpcFlowController::WindowGetter {
public:
  using Side = capnp::rpc::twoparty::Side;

  Network(Recorder& recorder, kj::AsyncIoStream& stream, uint32_t connection, Side side,
          capnp::ReaderOptions options = capnp::ReaderOptions(),
          const kj::MonotonicClock& clock = kj::systemCoarseMonotonicClock())
      : Network(recorder, messages(stream), connection, 0, side, options, clock) {}
  Network(Recorder& recorder, kj::AsyncCapabilityStream& stream, uint32_t connection, uint maxFdsPerMessage, Side side,
          capnp::ReaderOptions options = capnp::ReaderOptions(),
          const kj::MonotonicClock& clock = kj::systemCoarseMonotonicClock())
      : Network(recorder, messages(stream), connection, maxFdsPerMessage, side, options, clock) {}
  Network(Recorder& recorder, capnp::MessageStream& stream, uint32_t connection, Side side,
          capnp::ReaderOptions options = capnp::ReaderOptions(),
          const kj::MonotonicClock& clock = kj::systemCoarseMonotonicClock())
      : Network(recorder, stream, connection, 0, side, options, clock) {}
  Network(Recorder& recorder, capnp::MessageStream& stream, uint32_t connection, uint maxFdsPerMessage, Side side,
          capnp::ReaderOptions options = capnp::ReaderOptions(),
          const kj::MonotonicClock& clock = kj::systemCoarseMonotonicClock())
      : Network(recorder, kj::Own<capnp::MessageStream>(&stream, kj::NullDisposer::instance), connection,
                maxFdsPerMessage, side, options, clock) {}
  KJ_DISALLOW_COPY(Network);

  using RpcSystem = capnp::RpcSystem<capnp::rpc::twoparty::VatId>;

  // In the place of capnp::makeRpcServer and capnp::makeRpcClient.
  RpcSystem serve(capnp::Capability::Client bootstrap) {
    return capnp::makeRpcServer(*this, asBootstrap(kj::mv(bootstrap)));
  }
  RpcSystem client() { return capnp::makeRpcClient(*this); }

  // Notes which object the vat gives to who asks for its bootstrap object, and gives it for an RpcSystem that you
  // make yourself.
  capnp::Capability::Client asBootstrap(capnp::Capability::Client bootstrap) {
    auto hook = capnp::ClientHook::from(kj::mv(bootstrap));
    end->bootstrap = hook->isNull() ? inside::Reference() : inside::referenceOf(*vat, *hook);
    if (end->bootstrap.number == 0 && !hook->isNull()) {
      vat->stop("the bootstrap object is none of `host`, `promise` or a result");
    }
    return capnp::Capability::Client(inside::unwrapped(kj::mv(hook)));
  }

  // In the place of RpcSystem::bootstrap: the peer's bootstrap object, and its FIELD.
  capnp::Capability::Client bootstrap(RpcSystem& system) {
    end->lastBootstrap = nullptr;
    auto hook = capnp::ClientHook::from(system.bootstrap(getPeerVatId()));
    if (end->lastBootstrap == nullptr || !vat->isRecording()) return capnp::Capability::Client(kj::mv(hook));
    auto reference = vat->field(end->lastBootstrap, inside::Path());
    return capnp::Capability::Client(inside::wrapped(vat, reference, kj::mv(hook)));
  }

  kj::Promise<void> onDisconnect() { return disconnected.addBranch(); }
  Side getSide() { return side; }

  // Of the messages that wait to be written: their bytes, their number, and how long the one that is being written
  // has waited. From 1.0 on those that are being written are none of them.
  size_t getCurrentQueueSize() { return queueSize; }
  size_t getCurrentQueueCount() { return queueCount; }
  kj::Duration getOutgoingMessageWaitTime() {
    return queueCount > 0 ? clock.now() - writtenSince : 0 * kj::SECONDS;
  }

  kj::Maybe<kj::Own<capnp::TwoPartyVatNetworkBase::Connection>> connect(
      capnp::rpc::twoparty::VatId::Reader id) override {
    if (id.getSide() == side) return nullptr;
    return asConnection();
  }
  kj::Promise<kj::Own<capnp::TwoPartyVatNetworkBase::Connection>> accept() override {
    if (side == Side::SERVER && !isAccepted) {
      isAccepted = true;
      return asConnection();
    }
    auto paf = kj::newPromiseAndFulfiller<kj::Own<capnp::TwoPartyVatNetworkBase::Connection>>();
    acceptFulfiller = kj::mv(paf.fulfiller);
    return kj::mv(paf.promise);
  }

private:
  // The runtime holds the connection by Owns of one address; when all are gone it has disconnected.
  class Disposer: public kj::Disposer {
  public:
    mutable kj::Own<kj::PromiseFulfiller<void>> fulfiller;
    mutable uint count = 0;
    void disposeImpl(void*) const override {
      if (--count == 0) fulfiller->fulfill();
    }
  };

  std::shared_ptr<inside::Vat> vat;
  std::shared_ptr<inside::End> end;
  kj::Own<capnp::MessageStream> stream;
  uint maxFdsPerMessage;
  Side side;
  capnp::ReaderOptions options;
  const kj::MonotonicClock& clock;
  capnp::MallocMessageBuilder peer;
  bool isAccepted = false;
  kj::Own<kj::PromiseFulfiller<kj::Own<capnp::TwoPartyVatNetworkBase::Connection>>> acceptFulfiller;
  kj::Canceler readCanceler;
  kj::Maybe<kj::Exception> readCancelReason;
  kj::Maybe<kj::Promise<void>> previousWrite;  // the queue of what is to be written; null after shutdown()
  kj::ForkedPromise<void> disconnected = nullptr;
  size_t queueSize = 0, queueCount = 0;
  kj::TimePoint writtenSince;
#if CAPNP_VERSION >= 1000000
  kj::Vector<kj::Own<inside::Outgoing>> queue;  // what was sent in this turn of the loop
#endif
  Disposer disposer;
  friend class inside::Outgoing;

  Network(Recorder& recorder, kj::Own<capnp::MessageStream> stream, uint32_t connection, uint maxFdsPerMessage,
          Side side, capnp::ReaderOptions options, const kj::MonotonicClock& clock)
      : vat(recorder.vat), end(std::make_shared<inside::End>(vat, connection)), stream(kj::mv(stream)),
        maxFdsPerMessage(maxFdsPerMessage), side(side), options(options), clock(clock), peer(4),
        previousWrite(kj::Promise<void>(kj::READY_NOW)), writtenSince(clock.now()) {
    peer.initRoot<capnp::rpc::twoparty::VatId>().setSide(side == Side::CLIENT ? Side::SERVER : Side::CLIENT);
    auto paf = kj::newPromiseAndFulfiller<void>();
    disconnected = paf.promise.fork();
    disposer.fulfiller = kj::mv(paf.fulfiller);
  }

  // The messages of a stream of bytes, read as the runtime's own network reads them.
#if CAPNP_VERSION >= 1000000
  template <typename Stream>
  static kj::Own<capnp::MessageStream> messages(Stream& stream) {
    return kj::heap<capnp::BufferedMessageStream>(stream, capnp::IncomingRpcMessage::getShortLivedCallback());
  }
#else
  static kj::Own<capnp::MessageStream> messages(kj::AsyncIoStream& stream) {
    return kj::heap<capnp::AsyncIoMessageStream>(stream);
  }
  static kj::Own<capnp::MessageStream> messages(kj::AsyncCapabilityStream& stream) {
    return kj::heap<capnp::AsyncCapabilityMessageStream>(stream);
  }
#endif

  kj::Own<capnp::TwoPartyVatNetworkBase::Connection> asConnection() {
    ++disposer.count;
    return kj::Own<capnp::TwoPartyVatNetworkBase::Connection>(this, disposer);
  }

  capnp::rpc::twoparty::VatId::Reader getPeerVatId() override {
    return peer.getRoot<capnp::rpc::twoparty::VatId>();
  }
  kj::Own<capnp::RpcFlowController> newStream() override {
    return capnp::RpcFlowController::newVariableWindowController(*this);
  }
  size_t getWindow() override {
    KJ_IF_MAYBE(size, stream->getSendBufferSize()) {
      return *size;
    } else {
      return capnp::RpcFlowController::DEFAULT_WINDOW_SIZE;
    }
  }
  kj::Own<capnp::OutgoingRpcMessage> newOutgoingMessage(uint firstSegmentWordSize) override {
    return kj::refcounted<inside::Outgoing>(*this, end, firstSegmentWordSize);
  }

  kj::Promise<kj::Maybe<kj::Own<capnp::IncomingRpcMessage>>> receiveIncomingMessage() override {
    return kj::evalLater([this]() -> kj::Promise<kj::Maybe<kj::Own<capnp::IncomingRpcMessage>>> {
      KJ_IF_MAYBE(reason, readCancelReason) {
        return kj::cp(*reason);
      }
      auto room = maxFdsPerMessage > 0 ? kj::heapArray<kj::AutoCloseFd>(maxFdsPerMessage) : nullptr;
      auto read = readCanceler.wrap(stream->tryReadMessage(room, options));
      return read.then([this, room = kj::mv(room)](kj::Maybe<capnp::MessageReaderAndFds>&& message) mutable
                           -> kj::Maybe<kj::Own<capnp::IncomingRpcMessage>> {
        KJ_IF_MAYBE(came, message) {
          return kj::Own<capnp::IncomingRpcMessage>(
              kj::heap<inside::Incoming>(end, kj::mv(came->reader), kj::mv(room), came->fds));
        } else {
          return nullptr;
        }
      });
    });
  }

  kj::Promise<void> shutdown() override {
    auto result = KJ_ASSERT_NONNULL(previousWrite, "already shut down").then([this]() { return stream->end(); });
    previousWrite = nullptr;
    return result;
  }

  // Nobody looks at failed writes, so they fail the reads.
  void failReads(kj::Exception&& exception) {
    readCancelReason = kj::cp(exception);
    if (!readCanceler.isEmpty()) readCanceler.cancel(kj::cp(exception));
    kj::throwRecoverableException(kj::mv(exception));
  }

  void write(kj::Own<inside::Outgoing> message);
#if CAPNP_VERSION >= 1000000
  kj::Promise<void> writeFrom(kj::ArrayPtr<kj::Own<inside::Outgoing>> messages);
#endif
};

inline void inside::Outgoing::setFds(kj::Array<int> given) {
  if (network.maxFdsPerMessage > 0) fds = kj::mv(given);
}

// SEND is recorded as the frame is handed over, not when its bytes are written: what the program does next may
// already name what the message brought.
inline void inside::Outgoing::send() {
  KJ_REQUIRE(sizeInWords() < network.options.traversalLimitInWords,
             "Trying to send Cap'n Proto message larger than our single-message size limit.") { return; }
  record();
  leave();
  network.write(kj::addRef(*this));
}

#if CAPNP_VERSION >= 1000000

// What is sent in one turn of the loop is written at once, at the end of the turn.
inline void Network::write(kj::Own<inside::Outgoing> message) {
  auto now = clock.now();
  if (queueCount == 0) writtenSince = now;
  auto& before = KJ_ASSERT_NONNULL(previousWrite, "already shut down");
  queueSize += message->sizeInWords() * sizeof(capnp::word);
  queue.add(kj::addRef(*message));
  if (queueCount++ > 0) return;
  previousWrite = before.then([this, now]() {
    return kj::evalLast([this, now]() -> kj::Promise<void> {
      writtenSince = now;
      auto messages = kj::mv(queue);
      queueSize = queueCount = 0;
      auto written = writeFrom(messages);
      return written.attach(kj::mv(messages));
    }).catch_([this](kj::Exception&& exception) { failReads(kj::mv(exception)); });
  }).attach(kj::mv(message)).eagerlyEvaluate(nullptr);
}

// Messages without descriptors go together, each with descriptors alone.
inline kj::Promise<void> Network::writeFrom(kj::ArrayPtr<kj::Own<inside::Outgoing>> messages) {
  kj::Vector<kj::ArrayPtr<const kj::ArrayPtr<const capnp::word>>> plain(messages.size());
  for (auto& message: messages) {
    if (message->fds.size() > 0) break;
    plain.add(message->message.getSegmentsForOutput());
  }
  auto written = plain.empty()
      ? stream->writeMessage(messages[0]->fds, messages[0]->message.getSegmentsForOutput())
      : stream->writeMessages(plain.asPtr());
  auto rest = messages.slice(kj::max(plain.size(), size_t(1)), messages.size());
  written = written.attach(kj::mv(plain));
  return rest.size() == 0 ? kj::mv(written) : written.then([this, rest]() { return writeFrom(rest); });
}

#else

inline void Network::write(kj::Own<inside::Outgoing> message) {
  auto& outgoing = *message;
  size_t size = outgoing.sizeInWords() * sizeof(capnp::word);
  queueSize += size, queueCount++;
  auto leaveQueue = kj::defer([this, size]() { queueSize -= size, queueCount--; });
  auto now = clock.now();
  previousWrite = KJ_ASSERT_NONNULL(previousWrite, "already shut down").then([this, &outgoing, now]() {
    return kj::evalNow([&]() {
      writtenSince = now;
      return stream->writeMessage(outgoing.fds, outgoing.message);
    }).catch_([this](kj::Exception&& exception) { failReads(kj::mv(exception)); });
  }).attach(kj::mv(message), kj::mv(leaveQueue)).eagerlyEvaluate(nullptr);
}

#endif

}  // namespace vataudit

// =========================================================================== The recorder's own code

namespace vataudit {

inline Recorder::Recorder(const char* path, uint32_t vat): vat(std::make_shared<inside::Vat>(path, vat)) {}
inline Recorder::~Recorder() { vat->end(); }
inline void Recorder::flush() { vat->flush(); }
inline void Recorder::bufferRecords(size_t bytes) { vat->bufferRecords(bytes); }
inline bool Recorder::isRecording() const { return vat->isRecording(); }
inline uint64_t Recorder::records() const { return vat->records(); }
inline std::string Recorder::whyStopped() const { return vat->whyStopped(); }
inline std::vector<uint32_t> Recorder::connections() const { return vat->connections; }

template <typename Implementation, typename... Arguments>
typename Implementation::Serves::Client Recorder::host(Arguments&&... arguments) {
  static_assert(!std::is_final<Implementation>::value,
                "vataudit: host<FooImpl>() derives a class from FooImpl, so FooImpl can't be `final`");
  auto object = kj::heap<inside::Hosted<Implementation>>(vat, kj::fwd<Arguments>(arguments)...);
  auto& hosted = *object;
  typename Implementation::Serves::Client client(kj::mv(object));
  auto hook = capnp::ClientHook::from(kj::mv(client));
  hosted.isHeldBy(*hook);
  return capnp::Capability::Client(inside::wrapped(vat, hosted.reference, kj::mv(hook)))
      .castAs<typename Implementation::Serves>();
}

template <typename Client>
Client Recorder::promise(kj::Promise<Client>&& promised) {
  if (!vat->isRecording()) return Client(kj::mv(promised));
  auto vow = vat->vow();
  auto hook = promised.then(
      [vat = vat, vow](Client&& client) {
        auto became = capnp::ClientHook::from(kj::mv(client));
        if (vat->isRecording()) vat->turn(vow, vat->asNumbered(inside::referenceOf(*vat, *became)));
        return inside::unwrapped(kj::mv(became));
      },
      [vat = vat, vow](kj::Exception&& exception) -> kj::Own<capnp::ClientHook> {
        vat->breakPromise(vow);
        kj::throwFatalException(kj::mv(exception));
      });
  return capnp::Capability::Client(inside::wrapped(vat, vow, capnp::newLocalPromiseClient(kj::mv(hook))))
      .template castAs<typename Client::Calls>();
}

}  // namespace vataudit
#endif

// =========================================================================== Clients and servers

namespace vataudit {

// In the place of capnp::TwoPartyClient.
class TwoPartyClient {
public:
  using Side = capnp::rpc::twoparty::Side;

  TwoPartyClient(Recorder& recorder, kj::AsyncIoStream& stream, uint32_t connection)
      : network(recorder, stream, connection, Side::CLIENT), system(network.client()) {}
  TwoPartyClient(Recorder& recorder, kj::AsyncCapabilityStream& stream, uint32_t connection, uint maxFdsPerMessage)
      : network(recorder, stream, connection, maxFdsPerMessage, Side::CLIENT), system(network.client()) {}
  TwoPartyClient(Recorder& recorder, kj::AsyncIoStream& stream, uint32_t connection,
                 capnp::Capability::Client bootstrap, Side side = Side::CLIENT)
      : network(recorder, stream, connection, side), system(network.serve(kj::mv(bootstrap))) {}
  TwoPartyClient(Recorder& recorder, kj::AsyncCapabilityStream& stream, uint32_t connection, uint maxFdsPerMessage,
                 capnp::Capability::Client bootstrap, Side side = Side::CLIENT)
      : network(recorder, stream, connection, maxFdsPerMessage, side), system(network.serve(kj::mv(bootstrap))) {}

  capnp::Capability::Client bootstrap() { return network.bootstrap(system); }
  kj::Promise<void> onDisconnect() { return network.onDisconnect(); }
  void setTraceEncoder(kj::Function<kj::String(const kj::Exception&)> encode) {
    system.setTraceEncoder(kj::mv(encode));
  }
  size_t getCurrentQueueSize() { return network.getCurrentQueueSize(); }
  size_t getCurrentQueueCount() { return network.getCurrentQueueCount(); }
  kj::Duration getOutgoingMessageWaitTime() { return network.getOutgoingMessageWaitTime(); }

private:
  Network network;
  Network::RpcSystem system;
};

// In the place of capnp::TwoPartyServer. The connections get the numbers that you say.
class TwoPartyServer final: private kj::TaskSet::ErrorHandler {
public:
  // `encodeTrace` says what goes to the clients beside an exception.
  TwoPartyServer(Recorder& recorder, capnp::Capability::Client bootstrap,
                 kj::Maybe<kj::Function<kj::String(const kj::Exception&)>> encodeTrace = nullptr)
      : recorder(recorder), bootstrap(kj::mv(bootstrap)), encodeTrace(kj::mv(encodeTrace)), tasks(*this) {}

  void accept(kj::Own<kj::AsyncIoStream>&& stream, uint32_t connection) {
    auto served = accept(*stream, connection);
    tasks.add(served.attach(kj::mv(stream)));
  }
  void accept(kj::Own<kj::AsyncCapabilityStream>&& stream, uint32_t connection, uint maxFdsPerMessage) {
    auto served = accept(*stream, connection, maxFdsPerMessage);
    tasks.add(served.attach(kj::mv(stream)));
  }

  // Serves a stream that stays yours, until the client is gone or you drop the promise.
  kj::Promise<void> accept(kj::AsyncIoStream& stream, uint32_t connection) KJ_WARN_UNUSED_RESULT {
    return served(kj::heap<Accepted>(*this, stream, connection, Network::Side::SERVER));
  }
  kj::Promise<void> accept(kj::AsyncCapabilityStream& stream, uint32_t connection, uint maxFdsPerMessage)
      KJ_WARN_UNUSED_RESULT {
    return served(kj::heap<Accepted>(*this, stream, connection, maxFdsPerMessage, Network::Side::SERVER));
  }

  // Serves each client that comes, under the numbers `first`, `first` + 1 and so on.
  kj::Promise<void> listen(kj::ConnectionReceiver& listener, uint32_t first) {
    return listener.accept().then([this, &listener, first](kj::Own<kj::AsyncIoStream>&& stream) {
      accept(kj::mv(stream), first);
      return listen(listener, first + 1);
    });
  }
  kj::Promise<void> listenCapStreamReceiver(kj::ConnectionReceiver& listener, uint32_t first, uint maxFdsPerMessage) {
    return listener.accept().then([this, &listener, first, maxFdsPerMessage](kj::Own<kj::AsyncIoStream>&& stream) {
      accept(stream.downcast<kj::AsyncCapabilityStream>(), first, maxFdsPerMessage);
      return listenCapStreamReceiver(listener, first + 1, maxFdsPerMessage);
    });
  }

  kj::Promise<void> drain() { return tasks.onEmpty(); }

private:
  struct Accepted {
    template <typename... Connection>
    explicit Accepted(TwoPartyServer& server, Connection&&... connection)
        : network(server.recorder, kj::fwd<Connection>(connection)...), system(network.serve(server.bootstrap)) {
      KJ_IF_MAYBE(encode, server.encodeTrace) {
        system.setTraceEncoder([encode](const kj::Exception& exception) { return (*encode)(exception); });
      }
    }
    Network network;
    Network::RpcSystem system;
  };

  Recorder& recorder;
  capnp::Capability::Client bootstrap;
  kj::Maybe<kj::Function<kj::String(const kj::Exception&)>> encodeTrace;
  kj::TaskSet tasks;

  static kj::Promise<void> served(kj::Own<Accepted>&& accepted) {
    auto promise = accepted->network.onDisconnect();
    return promise.attach(kj::mv(accepted));
  }

  void taskFailed(kj::Exception&& exception) override { KJ_LOG(ERROR, exception); }
};

}  // namespace vataudit
