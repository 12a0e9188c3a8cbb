// What is known
#pragma once

#include "base.h"

namespace vataudit {
namespace inside {

struct Call;
struct View;
class End;
using Path = std::vector<uint16_t>;

// A connection, as its number and 1. 0 is none.
using Way = uint64_t;

// A number of a capability in the log, and what it stands for. Number 0 is none.
struct Reference {
  uint64_t number = 0;
  std::shared_ptr<View> view;
};

// What a reference stands for, as far as it is known here. One that came back stands for what went out (`same`), the
// field of a call for one of its results; a promise turns to what it became.
struct View {
  Reference same, turn;
  std::shared_ptr<Call> call;
  Path path;
  bool isSettled = false;    // an object, a broken promise, or what came as senderHosted: it turns no more
  bool isBroken = false;     // a broken promise
  bool isUnsaid = false;     // it turned, and no record says so yet
  uint64_t result = 0;       // of the promise of an open result: its reference, at `path` of this call
  std::weak_ptr<Call> resultOf;
  Way import = 0;            // the way by which it came as a number of the peer
  Way cameBack = 0;          // the way by which it came back
  bool isProxy = false;      // the runtime put a proxy of its own before it
  uint64_t proxyNumber = 0;  // the reference of the object that this proxy is
  std::weak_ptr<View> proxy;
  Reference wrapped;         // of such an object: what it makes its calls on
  uint64_t object = 0;       // and its number
};

// A capability met in a message's content: its index in the capability table, and its path of pointer fields.
// A capability in a list has no path.
struct Met {
  uint32_t index;
  bool hasPath;
  Path path;
};

// The references of capabilities met, in their order.
inline std::vector<Reference> asMet(const std::vector<Met>& met, const std::vector<Reference>& byIndex) {
  std::vector<Reference> list;
  for (auto& one: met) list.push_back(one.index < byIndex.size() ? byIndex[one.index] : Reference());
  return list;
}

// The same by the indexes of a copy: a copy keeps the order in which capabilities are met.
inline std::vector<Reference> byIndexOf(const std::vector<Met>& met, const std::vector<Reference>& asMet) {
  std::vector<Reference> byIndex;
  for (size_t at = 0; at < met.size() && at < asMet.size(); at++) {
    if (byIndex.size() <= met[at].index) byIndex.resize(met[at].index + 1);
    byIndex[met[at].index] = asMet[at];
  }
  return byIndex;
}

// A promise that the vat gave away for a result of a call, before it was known. If the vat answers the call itself, the
// promise is the result; if the call is sent on, the promise turns to the result.
struct Vow {
  Path path;
  uint64_t number = 0;
  std::weak_ptr<View> view;
  uint64_t result = 0;  // the reference of the result
  std::weak_ptr<Call> call;
  bool isKept = false;  // FULFIL or BREAK stands

  Reference promise() const {
    Reference promise;
    promise.view = view.lock();
    if (promise.view != nullptr) promise.number = number;
    return promise;
  }
};

// A call that was made or received here. Lists "by index" go by the index in the capability table of the message
// in which they were written or came; lists "as met" by their order in the content, which every copy keeps.
struct Call: std::enable_shared_from_this<Call> {
  uint64_t number = 0;
  uint64_t interfaceId = 0;
  uint16_t methodId = 0;
  Reference goal;                    // through which it was made, or the number to which its frame is addressed
  std::shared_ptr<Call> goalCall;    // or the call of whose results it is addressed to the one at this path
  Path goalPath;
  std::vector<Reference> paramsByIndex, paramsAsMet;
  std::vector<Reference> resultsByIndex, resultsAsMet;
  std::vector<std::pair<Path, Reference>> fields;
  std::vector<Vow> vows;             // the promises of its results that the vat gave away
  std::vector<Path> goesBack;        // the results that its Return said to be the peer's own
  std::vector<Path> named;           // the results of it that somebody named before they were there
  std::shared_ptr<Call> answeredBy;  // whose results are this one's: by `tailCall`, or by a Return that says so
  std::vector<std::weak_ptr<Call>> handedOn;  // the calls whose results are this one's
  bool isReceived = false;
  Way cameBy = 0, wentBy = 0;        // the connections over which it was received, and sent
  bool isForPipeline = false;        // it was sent to be pipelined on, and without a Return
  bool isAtProxy = false;            // it came to a proxy of the runtime; what goes on is the call that answers it
  const void* params = nullptr;      // where its parameters lie, while it may be delivered
  bool isGone = false;               // sent, or delivered
  bool isLocallyAnswered = false;    // by ANSWER
  bool isReflected = false;          // it came back, and its results are this vat's own
  bool isUnheard = false;            // no Return says how it ends: it is for its pipeline, or its results go elsewhere
  bool isOver = false;               // its results are known, or it has none

  void setResults(std::vector<Reference>&& byIndex, const std::vector<Met>& met) {
    resultsByIndex = kj::mv(byIndex);
    resultsAsMet = asMet(met, resultsByIndex);
    for (size_t at = 0; at < met.size(); at++) {
      if (met[at].hasPath) fields.push_back({ met[at].path, resultsAsMet[at] });
    }
  }

  // Nobody asks any more what it was meant for.
  void dropGoal() {
    goal = Reference();
    goalCall = nullptr;
  }

  Reference* fieldAt(const Path& path) {
    for (auto& field: fields) {
      if (field.first == path) return &field.second;
    }
    return nullptr;
  }
};

// The call whose results are this one's in the end.
inline Call& answering(Call& call) {
  Call* at = &call;
  while (at->answeredBy != nullptr) at = at->answeredBy.get();
  return *at;
}

// What a reference turned to: one step on its way. None where it is open, or turns no more.
inline const Reference* next(const View& view) {
  if (view.same.number != 0) return &view.same;
  if (view.call != nullptr) return answering(*view.call).fieldAt(view.path);
  return view.turn.number != 0 ? &view.turn : nullptr;
}

// Goes from a reference on to all that it leads to, itself first, until `visit` answers true. Whether it did.
template <typename Visit>
bool follow(const Reference& from, Visit&& visit) {
  const Reference* at = from.number != 0 ? &from : nullptr;
  for (int steps = 0; at != nullptr && steps < 1000; steps++) {
    if (visit(*at)) return true;
    at = at->view == nullptr ? nullptr : next(*at->view);
  }
  return false;
}

// Where a way ends, as far as it is known. From no reference it is this one.
inline const Reference& lastOf(const Reference& from) {
  const Reference* last = &from;
  follow(from, [&](const Reference& at) { return last = &at, false; });
  return *last;
}

// The promise that was given away for the result at which a way ends, if it isn't known yet.
inline Reference vowOf(const Reference& from) {
  const View* view = lastOf(from).view.get();
  if (view == nullptr || view->call == nullptr) return Reference();
  for (auto& vow: answering(*view->call).vows) {
    Reference promise = vow.path == view->path ? vow.promise() : Reference();
    if (promise.number != 0) return promise;
  }
  return Reference();
}

// What a reference stands for, behind all that came back.
inline const View* standsFor(const Reference& reference) {
  const View* view = reference.view.get();
  for (int steps = 0; view != nullptr && view->same.number != 0 && steps < 1000; steps++) view = view->same.view.get();
  return view;
}

inline bool areSame(const Reference& one, const Reference& other) {
  const View* first = standsFor(one);
  const View* second = standsFor(other);
  if (first == second) return true;
  return first != nullptr && second != nullptr && first->call != nullptr && first->call == second->call &&
      first->path == second->path;
}

inline bool leadsTo(const Reference& from, const Reference& to) {
  return follow(from, [&](const Reference& at) { return areSame(at, to); });
}

// Whether what is given may go out under the number of a promise: that became it, or the promise of it, or another
// promise on its way. A broken capability gets a promise each time that it is given away, and goes out under the number
// of the first one.
inline bool takesOver(const Reference& promise, const Reference& given) {
  if (promise.view->isBroken && given.view->isBroken) return true;
  Reference vow = vowOf(given);
  return follow(promise, [&](const Reference& at) {
    if (areSame(at, given) || (vow.number != 0 && areSame(at, vow))) return true;
    return at.view != nullptr && !at.view->isSettled && leadsTo(given, at);
  });
}

// Whether nothing more can be known of where it leads.
inline bool isSettled(const Reference& from) {
  auto view = lastOf(from).view.get();
  if (view == nullptr || view->isSettled) return true;
  return view->call != nullptr && answering(*view->call).isOver;
}

// Where the way of a call begins: none while it is addressed to a result that isn't known.
inline const Reference& startOfGoal(const Call& call) {
  static const Reference none;
  if (call.goalCall == nullptr) return call.goal;
  auto field = answering(*call.goalCall).fieldAt(call.goalPath);
  return field == nullptr ? none : *field;
}

// What a call has come to lead to.
inline Reference endOfGoal(const Call& call) { return lastOf(startOfGoal(call)); }

// Whether a reference leads to an object, also through proxies of the runtime.
inline bool leadsBehindProxies(Reference from, const Reference& object) {
  for (int steps = 0; steps < 100; steps++) {
    if (leadsTo(from, object)) return true;
    auto end = lastOf(from).view;
    if (end == nullptr || end->wrapped.number == 0) return false;
    from = end->wrapped;
  }
  return false;
}

// The connection over which a call was sent, or the one that answers it.
inline Way wayOf(const Call& call) {
  const Call* at = &call;
  while (at->wentBy == 0 && at->answeredBy != nullptr) at = at->answeredBy.get();
  return at->wentBy;
}

// The connection over which the runtime reaches what a reference leads to: of the first of these on its way.
inline Way wayOf(const Reference& from) {
  Way way = 0;
  follow(from, [&](const Reference& at) {
    if (at.view == nullptr) return false;
    way = at.view->call != nullptr ? wayOf(*at.view->call) : at.view->import;
    return way != 0;
  });
  return way;
}

// The connection over which a call's results go out, if they do and it is known.
inline Way returnsBy(const Call& call) {
  Way way = call.isReflected ? 0 : call.cameBy;
  for (size_t at = 0; way == 0 && at < call.handedOn.size(); at++) {
    auto handed = call.handedOn[at].lock();
    if (handed != nullptr) way = returnsBy(*handed);
  }
  return way;
}

// Whether a reference leads to a result that never comes, of a call that was sent for its pipeline alone. The runtime
// takes that for what it is, and not for a promise.
inline bool neverComes(const Reference& from) {
  auto view = lastOf(from).view.get();
  return view != nullptr && view->call != nullptr && answering(*view->call).isForPipeline;
}

// Notes which capability was asked for, and gives none out.
class Spy final: public capnp::_::CapTableReader {
public:
  kj::Maybe<kj::Own<ClientHook>> extractCap(uint index) override {
    last = index;
    if (nothing.get() == nullptr) nothing = capnp::newBrokenCap("looked at by a recorder");
    return nothing->addRef();
  }
  uint32_t last = 0;

private:
  kj::Own<ClientHook> nothing;
};

// The capabilities in a content, depth first by pointer number.
class Content {
public:
  explicit Content(AnyPointer::Reader content) {
    auto reader = capnp::_::PointerHelpers<AnyPointer>::getInternalReader(content);
    Path path;
    visit(AnyPointer::Reader(reader.imbue(&spy)), path, true);
  }

  std::vector<Met> met;

private:
  Spy spy;

  void visit(AnyPointer::Reader pointer, Path& path, bool hasPath) {
    switch (pointer.getPointerType()) {
      case capnp::PointerType::NULL_:
        break;
      case capnp::PointerType::STRUCT:
        visitStruct(pointer.getAs<AnyStruct>(), path, hasPath);
        break;
      case capnp::PointerType::LIST:
        visitList(pointer.getAs<AnyList>(), path);
        break;
      case capnp::PointerType::CAPABILITY:
        pointer.getAs<capnp::Capability>();
        met.push_back(Met { spy.last, hasPath, hasPath ? path : Path() });
        break;
    }
  }

  void visitStruct(AnyStruct::Reader structure, Path& path, bool hasPath) {
    uint16_t field = 0;
    for (auto pointer: structure.getPointerSection()) {
      path.push_back(field++);
      visit(pointer, path, hasPath);
      path.pop_back();
    }
  }

  void visitList(AnyList::Reader list, Path& path) {
    if (list.getElementSize() == capnp::ElementSize::POINTER) {
      for (auto pointer: list.as<capnp::List<AnyPointer>>()) visit(pointer, path, false);
    } else if (list.getElementSize() == capnp::ElementSize::INLINE_COMPOSITE) {
      for (auto element: list.as<capnp::List<AnyStruct>>()) visitStruct(element, path, false);
    }
  }
};

// Opens a member that a class keeps to itself: naming a private member in an explicit instantiation is allowed.
template <typename Tag, typename Tag::Type member>
struct Opened {
  friend typename Tag::Type open(Tag) { return member; }
};
struct PlaceOfReader {
  using Type = const capnp::_::WirePointer* capnp::_::PointerReader::*;
  friend Type open(PlaceOfReader);
};
template struct Opened<PlaceOfReader, &capnp::_::PointerReader::pointer>;

// Where the pointer to a call's parameters lies in memory: DELIVER finds its call by this.
inline const void* placeOf(AnyPointer::Reader params) {
  auto reader = capnp::_::PointerHelpers<AnyPointer>::getInternalReader(params);
  return reader.*open(PlaceOfReader());
}

}  // namespace inside
}  // namespace vataudit
