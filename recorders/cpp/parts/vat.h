// The vat
#pragma once

#include "known.h"
#include "log.h"

namespace vataudit {
namespace inside {

// A message that the runtime makes by itself, until it is handed over: a Call passes on the call whose parameters were
// let go meanwhile.
struct Unsent {
  std::shared_ptr<Call> passedOn;
  Unsent* before = nullptr;
  capnp::MessageBuilder* message = nullptr;

  bool isCall() { return message->getRoot<AnyPointer>().asReader().getAs<capnp::rpc::Message>().isCall(); }
};

// What the vat has recorded, and what later records need of it. The numbers of references and calls rise from 1,
// each used once.
class Vat {
public:
  Vat(const char* path, uint32_t number): log(path, number), number(number) {
    if (!log.isOpen()) stop(becauseOf("the log can't be made"));
    flush();
  }

  bool isRecording() const { return recording; }
  uint64_t records() const { return log.records; }
  const std::string& whyStopped() const { return reason; }

  // Recording ends here. Nothing of the record that was begun is in the log.
  void stop(const std::string& why) {
    if (!recording) return;
    recording = false;
    std::string place = log.setAside();
    reason = "no further than record " + std::to_string(log.records) + ": " + why;
    if (!place.empty()) reason += "; the log is " + place;
    say("is recorded");
  }

  void end() {
    if (!reason.empty()) say("was recorded");
    sayAllTurns();
    flush();
    recording = false;
    log.close();
  }

  void flush() {
    if (recording && !log.flush()) stop(becauseOf("the log can't be written"));
  }

  // Each record is written when it is whole; MAKE with the SEND or DELIVER right behind it, or, if there is none,
  // before the program goes on.
  void settle() {
    if (recording && !log.settle()) stop(becauseOf("the log can't be written"));
  }
  void bufferRecords(size_t bytes) { log.room = bytes; }

  // ------------------------------------------------------------------------- records, but SEND and RECV

  Reference host(uint64_t object) {
    Reference reference = newReference();
    reference.view->isSettled = true;
    begin(0x01, [&] { log.number(reference.number), log.number(object); });
    return reference;
  }

  Reference vow() {
    Reference reference = newReference();
    begin(0x02, [&] { log.number(reference.number); });
    return reference;
  }

  // FULFIL stands before all that uses what the promise became.
  void fulfil(const Reference& promise, const Reference& became) {
    if (became.number == 0) return stop("a promise became a capability that isn't known here");
    promise.view->turn = became;
    sayTurn(promise);
  }

  // A promise became one that is open. Of promises that lead to one result the runtime sends on under the number of
  // one, and only then can be said which turned to which: so FULFIL waits for the first record that needs it.
  void turn(const Reference& promise, const Reference& became) {
    if (became.number == 0 || isSettled(became)) return fulfil(promise, became);
    promise.view->turn = became;
    promise.view->isUnsaid = true;
    unsaid.push_back({ promise.number, promise.view });
    if (unsaid.size() < mostUnsaid) return;
    unsaid.erase(std::remove_if(unsaid.begin(), unsaid.end(), [](auto& one) {
      auto view = one.second.lock();
      return view == nullptr || !view->isUnsaid;
    }), unsaid.end());
    mostUnsaid = 2 * unsaid.size() + 16;
  }

  // What is on the way of a reference has turned, as far as to what it is to lead to: a record needs it now.
  void sayTurns(const Reference& from, const Reference& to = Reference()) {
    if (unsaid.empty()) return;
    follow(from, [&](const Reference& at) {
      if (to.number != 0 && areSame(at, to)) return true;
      if (at.view != nullptr && at.view->isUnsaid) sayTurn(at);
      return false;
    });
  }

  void sayAllTurns() {
    auto all = kj::mv(unsaid);
    unsaid.clear();
    for (auto& one: all) {
      auto view = one.second.lock();
      if (view != nullptr && view->isUnsaid) sayTurn({ one.first, view });
    }
  }

  // What is given is to go out as what is known by a number, and both lead to one end. Then a promise on the way of
  // what is given turned to what is known: one of which nothing was said yet, or the promise of the result there.
  void leadTo(const Reference& given, const Reference& known) {
    Reference turning;
    follow(given, [&](const Reference& at) {
      if (at.view != nullptr && at.view->isUnsaid && !leadsTo(known, at)) turning = at;
      return false;
    });
    if (turning.number == 0) {
      follow(given, [&](const Reference& at) { return isFreed(at, known) && (turning = at, true); });
    }
    if (turning.number == 0) return;
    turning.view->turn = known;
    sayTurn(turning);
  }

  // A promise that is settled without a capability: it isn't hosted, so it must not go out as if it were.
  void breakPromise(const Reference& promise) {
    promise.view->isSettled = promise.view->isBroken = true;
    begin(0x04, [&] { log.number(promise.number); });
  }

  // A capability whose calls all fail, and which no object stands behind.
  Reference broken() {
    Reference reference = vow();
    breakPromise(reference);
    return reference;
  }

  // A promise that became such a capability.
  Reference nullPromise() {
    Reference promise = vow();
    fulfil(promise, broken());
    return promise;
  }

  // Which reference is named of a promise that the vat makes the result of a call, or of another promise: it may go out
  // under a number that it has already. The runtime gives the number of a promise to what this became, without a word;
  // then it is the first promise that goes out, and leads to this one. `way` is where a result goes out.
  Reference asNumbered(const Reference& given, Way way = 0);

  // What the runtime gives out for a result that isn't known yet is a promise of its own.
  Reference promiseOf(const Reference& result) {
    auto view = standsFor(result);
    if (view == nullptr || view->call == nullptr || next(*view) != nullptr) return result;
    Reference promise = vowOf(result);
    if (promise.number != 0) return promise;
    Call& call = answering(*view->call);
    promise = openPromise(result.number, view->call, view->path);
    Vow given;
    given.path = view->path;
    given.number = promise.number;
    given.view = promise.view;
    given.result = result.number;
    given.call = view->call;
    call.vows.push_back(given);
    if (wayOf(*view->call) != 0 || call.isOver) keepVows(call);
    return promise;
  }

  // What the runtime gives out for such a result under another number is the promise to which the first one turned.
  Reference promiseBehind(const Reference& promise, const Reference& result) {
    auto view = lastOf(result).view;
    if (view == nullptr || view->call == nullptr) return promise;
    for (auto& given: answering(*view->call).vows) {
      if (given.number != promise.number) continue;
      if (given.isKept && !promise.view->isUnsaid) return result;
      Reference behind = openPromise(given.result, given.call.lock(), given.path);
      if (given.isKept) {
        turn(behind, promise.view->turn);
        promise.view->turn = behind;
      } else {
        fulfil(promise, behind);
      }
      given.number = behind.number;
      given.view = behind.view;
      return behind;
    }
    return promise;
  }

  // A promise of a result that isn't known yet.
  Reference openPromise(uint64_t result, const std::shared_ptr<Call>& call, const Path& path) {
    Reference promise = vow();
    promise.view->result = result;
    promise.view->resultOf = call;
    promise.view->path = path;
    return promise;
  }

  // The result of a call, with the number that was noted for it.
  static Reference resultAt(uint64_t number, const std::shared_ptr<Call>& call, const Path& path) {
    Reference result;
    result.number = number;
    result.view = std::make_shared<View>();
    result.view->call = call;
    result.view->path = path;
    return result;
  }

  // The call is sent, so its results will come by a Return: what was promised for them turns to them. Where they never
  // come, the runtime gives another vat a proxy.
  void keepVows(Call& call);

  // The call is handed on: what was promised is promised for the other one's results.
  static void passVows(Call& call, Call& by) {
    by.vows.insert(by.vows.end(), call.vows.begin(), call.vows.end());
    call.vows.clear();
  }

  // The call is answered here: what was promised is its result, and turns to what that is.
  void answerVows(Call& call) {
    for (auto& vow: call.vows) {
      Reference promise = vow.promise();
      if (promise.number == 0 || vow.isKept) continue;
      vow.isKept = true;
      if (call.fieldAt(vow.path) == nullptr) call.fields.push_back({ vow.path, broken() });
      Reference& field = *call.fieldAt(vow.path);
      turn(promise, field);
      field = promise;
    }
  }

  // The call has failed.
  void breakVows(Call& call) {
    for (auto& vow: call.vows) {
      Reference promise = vow.promise();
      if (promise.number == 0 || vow.isKept) continue;
      vow.isKept = true;
      breakPromise(promise);
    }
  }

  // On the way of a reference, what the runtime put its proxy before: the first that surely has one, or else the first
  // that came back. Number 0 where there is none.
  static Reference proxiedOn(const Reference& reference) {
    Reference sure, maybe;
    follow(reference, [&](const Reference& at) {
      if (at.view == nullptr) return false;
      if (at.view->isProxy) sure = at;
      bool isBack = at.view->cameBack != 0 && at.view->cameBack == wayOf(at);
      if (isBack && maybe.number == 0) maybe = at;
      return at.view->isProxy;
    });
    if (sure.number == 0 && maybe.number != 0) maybe.view->isProxy = true;
    return sure.number == 0 ? maybe : sure;
  }

  // The object that such a proxy was given away as. Number 0 where it wasn't.
  static Reference givenProxy(const Reference& wrapped) {
    Reference proxy;
    proxy.view = wrapped.view->proxy.lock();
    if (proxy.view != nullptr) proxy.number = wrapped.view->proxyNumber;
    return proxy;
  }

  // The object that a proxy of the runtime is: a vat that gives it away hosts it, and it calls what it stands before.
  Reference proxyOf(const Reference& wrapped) {
    auto& view = *wrapped.view;
    Reference proxy = givenProxy(wrapped);
    if (proxy.number != 0) return proxy;
    hasProxies = true;
    uint64_t object = newObject();
    proxy = host(object);
    proxy.view->wrapped = wrapped;
    proxy.view->object = object;
    view.proxyNumber = proxy.number;
    view.proxy = proxy.view;
    return proxy;
  }

  // Of a call that came to a proxy: the one that goes on from there.
  static std::shared_ptr<Call> goingOn(std::shared_ptr<Call> call) {
    while (call->isAtProxy) call = call->answeredBy;
    return call;
  }

  // A call that leads to a proxy has come to that object, which makes the same call on what it stands before, and
  // answers by that one. What goes on. `isSentBefore` says of a call whether the runtime hasn't come so far yet.
  template <typename IsSentBefore>
  std::shared_ptr<Call> throughProxies(std::shared_ptr<Call> call, IsSentBefore&& isSentBefore) {
    if (!hasProxies) return call;
    for (int steps = 0;; steps++) {
      call = goingOn(kj::mv(call));
      if (isSentBefore(*call)) return call;
      Reference end = endOfGoal(*call);
      if (end.view == nullptr || end.view->wrapped.number == 0 || steps == 100) return call;
      auto made = newCall(call->interfaceId, call->methodId);
      deliver(*call, end.view->object);
      call->isGone = false;
      call->isAtProxy = true;
      make(*made, end.view->wrapped);
      answerBy(call, made);
    }
  }

  // MAKE is what the program calls, not what a frame says: else the audit would compare frames with themselves.
  void make(Call& call, const Reference& target) {
    if (target.number == 0) return stop("a call is made through a capability that isn't known here");
    call.number = ++lastCall;
    call.goal = target;
    begin(0x05, [&] {
      log.number(call.number), log.number(target.number), log.number(call.interfaceId), log.number(call.methodId);
    });
  }

  Reference field(const std::shared_ptr<Call>& call, const Path& path) {
    Reference reference = newReference();
    reference.view->call = call;
    reference.view->path = path;
    call->named.push_back(path);
    begin(0x06, [&] { log.number(reference.number), log.number(call->number), addPath(path); });
    return reference;
  }

  // Each call that is delivered is delivered once, to the object that was really entered.
  void deliver(Call& call, uint64_t object) {
    sayTurns(startOfGoal(call));
    call.isGone = true;
    call.dropGoal();
    begin(0x07, [&] { log.number(call.number), log.number(object); });
  }

  // ANSWER stands before the Return, and before each call that goes on to one of the results. A result that was named
  // before and isn't there is a null capability to C++: its calls fail, and it may go out as senderHosted.
  void answer(Call& call) {
    call.isLocallyAnswered = call.isOver = true;
    answerVows(call);
    breakNamed(call, call);
    begin(0x08, [&] {
      log.number(call.number), log.count(call.fields.size());
      for (auto& field: call.fields) log.number(field.second.number), addPath(field.first);
    });
    shareResults(call);
  }

  // ANSWERBY: the method of the first call ends by handing it on to the second one. It stands behind the second one's
  // MAKE and before its SEND or DELIVER: what the runtime does next may already go by it. No ANSWER or FAULT of the
  // first call follows.
  void answerBy(const std::shared_ptr<Call>& call, const std::shared_ptr<Call>& by) {
    if (call->answeredBy != nullptr) return;
    begin(0x0c, [&] { log.number(call->number), log.number(by->number); });
    passVows(*call, *by);
    handOn(call, by);
  }

  // A Return came by which the first call's results are those of the second one. Where these are said to be the first
  // one's themselves, nothing is noted: then there are none.
  static void takeResults(const std::shared_ptr<Call>& call, const std::shared_ptr<Call>& of) {
    for (const Call* at = of.get(); at != nullptr; at = at->answeredBy.get()) {
      if (at == call.get()) return;
    }
    passVows(*call, *of);
    handOn(call, of);
    shareResults(*of);
  }

  // The results of a call are those of each call that was handed on to it.
  static void shareResults(const Call& call) {
    for (auto& one: call.handedOn) {
      auto handed = one.lock();
      if (handed == nullptr) continue;
      handed->resultsAsMet = call.resultsAsMet;
      shareResults(*handed);
    }
  }

  // Of a call that was delivered and failed: where it came from another vat its Return says so as well, where it is
  // the vat's own no frame does. A call that was sent on has left, and gets none; nor does one that was canceled, or
  // one that was handed on: the other call fails.
  void fault(Call& call) {
    if (call.answeredBy != nullptr) return;
    call.isOver = true;
    breakVows(call);
    begin(0x09, [&] { log.number(call.number); });
  }

  void frame(bool isSent, uint32_t connection, uint64_t call, const std::vector<Reference>& references,
             kj::ArrayPtr<const kj::ArrayPtr<const capnp::word>> segments) {
    begin(isSent ? 0x0a : 0x0b, [&] {
      log.number(connection), log.number(call), log.count(references.size());
      for (auto& reference: references) log.number(reference.number);
      addFrame(segments);
    });
  }

  // ------------------------------------------------------------------------- numbers and capabilities

  Reference newReference() {
    Reference reference;
    reference.number = ++lastReference;
    reference.view = std::make_shared<View>();
    return reference;
  }

  std::shared_ptr<Call> newCall(uint64_t interfaceId, uint16_t methodId) {
    auto call = std::make_shared<Call>();
    call->interfaceId = interfaceId;
    call->methodId = methodId;
    return call;
  }

  void bind(Call& call) { call.number = ++lastCall; }
  uint64_t newObject() { return ++lastObject; }

  // A call whose parameters lie in this vat's memory, where it may be delivered from.
  void keep(const std::shared_ptr<Call>& call, AnyPointer::Reader params) {
    call->params = placeOf(params);
    callAt[call->params] = call;
  }

  std::shared_ptr<Call> callOf(AnyPointer::Reader params, uint64_t interfaceId, uint16_t methodId) {
    auto found = callAt.find(placeOf(params));
    if (found == callAt.end()) return nullptr;
    auto call = found->second;
    return call->interfaceId == interfaceId && call->methodId == methodId ? call : nullptr;
  }

  void forget(Call& call) {
    auto found = callAt.find(call.params);
    if (found != callAt.end() && found->second.get() == &call) callAt.erase(found);
  }

  // ------------------------------------------------------------------------- which call is being sent

  std::shared_ptr<Call> building;   // the call whose request is being made
  std::shared_ptr<Call> sending;    // the call whose request is being sent
  // The runtime's hooks of objects. An entry goes with its object, for addresses are used again.
  std::unordered_map<const ClientHook*, Reference> hosted;
  std::vector<End*> ends;           // of its connections
  std::vector<uint32_t> connections;
  Unsent* unsent = nullptr;         // the messages that are being made, the latest first

  // The runtime lets go of a call's parameters. Where it has just copied them into a message, that passes the call on.
  // Else the call was dropped, and where no Return says that, FAULT does.
  void letGo(const std::shared_ptr<Call>& call) {
    if (!call->isGone && unsent != nullptr && unsent->isCall()) {
      unsent->passedOn = call;
    } else if (!call->isGone && call->isUnheard) {
      fault(*call);
    }
    forget(*call);
  }

  // A call through a proxy of the runtime, where what this stands before has turned meanwhile: the runtime sends a copy
  // there, of which nobody knows where it lies.
  void noteTurned(const std::shared_ptr<Call>& call) {
    auto on = goingOn(call);
    if (on->isGone) return;
    turned.erase(std::remove_if(turned.begin(), turned.end(), [](auto& one) { return one.expired(); }), turned.end());
    on->paramsAsMet = call->paramsAsMet;
    turned.push_back(on);
  }

  // The first of these that may be what is delivered to an object, or sent on, with these parameters.
  std::shared_ptr<Call> turnedCall(AnyPointer::Reader params, uint64_t interfaceId, uint16_t methodId,
                                   const Reference& object) {
    for (size_t at = 0; at < turned.size(); at++) {
      auto call = turned[at].lock();
      if (call == nullptr || call->isGone || call->interfaceId != interfaceId || call->methodId != methodId) continue;
      if (object.number != 0 && !leadsBehindProxies(call->goal, object)) continue;
      turned.erase(turned.begin() + at);
      call->paramsByIndex = byIndexOf(Content(params).met, call->paramsAsMet);
      return call;
    }
    return nullptr;
  }

private:
  Log log;
  uint32_t number;
  bool recording = true;
  std::string reason;  // why it stopped
  uint64_t lastReference = 0, lastCall = 0, lastObject = 0;
  std::unordered_map<const void*, std::shared_ptr<Call>> callAt;
  std::vector<std::weak_ptr<Call>> turned;
  std::vector<std::pair<uint64_t, std::weak_ptr<View>>> unsaid;  // the promises that turned and may still be unsaid
  size_t mostUnsaid = 16;
  bool hasProxies = false;  // some were given away

  template <typename Fields>
  void begin(uint8_t kind, Fields&& fields) {
    if (!recording) return;
    if (log.records == 4294967295) return stop("a log has no room for more records");
    size_t place = log.unwritten();
    log.kind(kind);
    fields();
    if (log.dropTooLong(place)) return stop("a log has no room for so long a list");
    log.endRecord();
    if (kind != 0x05) settle();
  }

  // What can't be done, and what the system says of it.
  static std::string becauseOf(const char* what) { return std::string(what) + ": " + strerror(errno); }

  void say(const char* how) const { fprintf(stderr, "vataudit: vat %u %s %s\n", number, how, reason.c_str()); }

  void addPath(const Path& path) {
    log.count(path.size());
    for (uint16_t field: path) log.number(field);
  }

  // A frame in the standard's stream framing, as the bytes pass the wire.
  void addFrame(kj::ArrayPtr<const kj::ArrayPtr<const capnp::word>> segments) {
    size_t table = (segments.size() / 2 + 1) * sizeof(capnp::word);
    size_t length = table;
    for (auto& segment: segments) length += segment.asBytes().size();
    log.number(static_cast<uint32_t>(length));
    log.number(static_cast<uint32_t>(segments.size() - 1));
    for (auto& segment: segments) log.number(static_cast<uint32_t>(segment.size()));
    if (segments.size() % 2 == 0) log.number(static_cast<uint32_t>(0));
    for (auto& segment: segments) log.add(segment.begin(), segment.asBytes().size());
  }

  static void handOn(const std::shared_ptr<Call>& call, const std::shared_ptr<Call>& by) {
    call->answeredBy = by;
    by->handedOn.push_back(call);
  }

  void sayTurn(const Reference& promise) {
    promise.view->isUnsaid = false;
    begin(0x03, [&] { log.number(promise.number), log.number(promise.view->turn.number); });
  }

  // Where what is known by a number leads to a promise by a turn of which nothing was said yet, that turn went to what
  // the promise leads to, and the promise is free. Whether it is so.
  static bool isFreed(const Reference& promise, const Reference& known) {
    if (promise.view == nullptr) return false;
    std::shared_ptr<View> before;
    follow(known, [&](const Reference& at) {
      bool isBefore = at.view != nullptr && at.view->isUnsaid && at.view->turn.view == promise.view;
      if (isBefore) before = at.view;
      return isBefore;
    });
    if (before == nullptr) return false;
    Reference behind = promise.view->isUnsaid ? promise.view->turn : keptResult(promise);
    if (behind.number != 0) before->turn = behind;
    return behind.number != 0;
  }

  // The result of which this is the promise, if that is open; it is no more its promise then.
  static Reference keptResult(const Reference& promise) {
    auto call = promise.view->resultOf.lock();
    if (call == nullptr) return Reference();
    for (auto& vow: answering(*call).vows) {
      if (vow.number != promise.number || vow.isKept) continue;
      vow.isKept = true;
      return resultAt(promise.view->result, call, promise.view->path);
    }
    return Reference();
  }

  // Gives the results that were named and aren't there, of this call and of those that were handed on to it.
  void breakNamed(const Call& of, Call& call) {
    for (auto& path: of.named) {
      if (call.fieldAt(path) == nullptr) call.fields.push_back({ path, broken() });
    }
    for (auto& one: of.handedOn) {
      auto handed = one.lock();
      if (handed != nullptr) breakNamed(*handed, call);
    }
  }
};

using SharedVat = std::shared_ptr<Vat>;

}  // namespace inside
}  // namespace vataudit
