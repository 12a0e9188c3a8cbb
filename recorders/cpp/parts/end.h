// One end of a connection
#pragma once

#include "vat.h"

namespace vataudit {
namespace inside {

namespace rpc = capnp::rpc;

// A question that was asked, at the asking or the answering end. Its number may be opened again behind a Return that
// says so, without a Finish; and one that was sent by `sendForPipeline` mostly gets no Return.
struct Question {
  std::shared_ptr<Call> call;
  bool isBootstrap = false, isReturned = false;
  bool isFinished = false, isLate = false;  // a Return that is still to come is late: its capabilities are given back
  std::vector<uint32_t> broughtByCall, broughtByReturn;  // the sender's numbers in their capability tables
};

// A number of the sender's table: how often it was introduced more than given back, and what it stands for.
struct Number {
  uint64_t count = 0;
  Reference reference;
  bool isPromise = false, isResolved = false;
  bool goesBack = false;  // it was resolved to something of the peer
};

// What the numbers of one connection stand for at this end. Read from the frames; MAKE, DELIVER and ANSWER aren't.
class End {
public:
  End(SharedVat vat, uint32_t connection): vat(kj::mv(vat)), connection(connection) {
    this->vat->ends.push_back(this);
    this->vat->connections.push_back(connection);
  }
  ~End() { vat->ends.erase(std::find(vat->ends.begin(), vat->ends.end(), this)); }
  KJ_DISALLOW_COPY(End);

  SharedVat vat;
  std::shared_ptr<Call> lastBootstrap;
  Reference bootstrap;  // of the object that the peer gets as the bootstrap object
  uint32_t number() const { return connection; }
  Way way() const { return Way(connection) + 1; }

  // A message that is handed to the transport: the SEND of docs/FORMATS.md. A Call comes with the call whose
  // request it is, or that it passes on, and says whether the program wrote its parameters right there.
  void sent(rpc::Message::Reader message, kj::ArrayPtr<const kj::ArrayPtr<const capnp::word>> segments,
            std::shared_ptr<Call> call, bool isWrittenHere) {
    std::vector<Reference> references;
    uint64_t number = 0;
    switch (message.which()) {
      case rpc::Message::BOOTSTRAP: {
        lastBootstrap = vat->newCall(0, 0);
        vat->bind(*lastBootstrap);
        lastBootstrap->wentBy = way();
        number = lastBootstrap->number;
        asked[message.getBootstrap().getQuestionId()] = question(lastBootstrap, true);
        break;
      }
      case rpc::Message::CALL:
        if (!sentCall(message.getCall(), kj::mv(call), isWrittenHere, number, references)) return;
        break;
      case rpc::Message::RETURN:
        if (!sentReturn(message.getReturn(), references)) return;
        break;
      case rpc::Message::RESOLVE:
        if (!sentResolve(message.getResolve(), references)) return;
        break;
      case rpc::Message::FINISH:
        finish(asked, imports, message.getFinish());
        break;
      case rpc::Message::RELEASE:
        giveBack(imports, message.getRelease().getId(), message.getRelease().getReferenceCount());
        break;
      case rpc::Message::DISEMBARGO:
        vat->sayAllTurns();
        break;
      default:
        break;
    }
    vat->frame(true, connection, number, references, segments);
  }

  // A message that is looked at for the first time: the RECV. Answers the call that a Call brings.
  std::shared_ptr<Call> received(rpc::Message::Reader message,
                                 kj::ArrayPtr<const kj::ArrayPtr<const capnp::word>> segments) {
    std::vector<Reference> references;
    std::shared_ptr<Call> call;
    switch (message.which()) {
      case rpc::Message::BOOTSTRAP:
        call = vat->newCall(0, 0);
        vat->bind(*call);
        answering[message.getBootstrap().getQuestionId()] = question(call, true);
        break;
      case rpc::Message::CALL:
        call = receivedCall(message.getCall(), references);
        break;
      case rpc::Message::RETURN:
        receivedReturn(message.getReturn(), references);
        break;
      case rpc::Message::RESOLVE:
        receivedResolve(message.getResolve(), references);
        break;
      case rpc::Message::FINISH:
        finish(answering, exports, message.getFinish());
        break;
      case rpc::Message::RELEASE:
        giveBack(exports, message.getRelease().getId(), message.getRelease().getReferenceCount());
        break;
      case rpc::Message::DISEMBARGO:
        vat->sayAllTurns();
        break;
      default:
        break;
    }
    vat->frame(false, connection, call == nullptr ? 0 : call->number, references, segments);
    return message.isCall() ? call : nullptr;
  }

  // The promise of which the peer knows by a number, and hasn't heard what it became, if it became what is given.
  Reference numbered(const Reference& given) {
    for (size_t at = 0; at < promises.size();) {
      auto found = exports.find(promises[at]);
      if (found == exports.end() || !found->second.isPromise || found->second.isResolved) {
        promises[at] = promises.back();
        promises.pop_back();
        continue;
      }
      auto& known = found->second.reference;
      bool isBroken = known.view->isBroken && given.view->isBroken;
      Reference vow = vowOf(given);
      if (isBroken || leadsTo(known, given) || (vow.number != 0 && leadsTo(known, vow))) return known;
      at++;
    }
    return Reference();
  }

  // Whether the peer has a number for it.
  bool gave(const Reference& given) const {
    for (auto& number: exports) {
      if (number.second.reference.number == given.number) return true;
    }
    return false;
  }

private:
  using Questions = std::unordered_map<uint32_t, Question>;
  using Numbers = std::unordered_map<uint32_t, Number>;
  using Table = capnp::List<rpc::CapDescriptor>::Reader;

  uint32_t connection;
  Questions asked, answering;
  Numbers imports, exports;
  std::vector<uint32_t> promises;  // the numbers of promises that went out, but those that were found to be over

  static Question question(std::shared_ptr<Call> call, bool isBootstrap) {
    Question question;
    question.call = kj::mv(call);
    question.isBootstrap = isBootstrap;
    return question;
  }

  // ------------------------------------------------------------------------- sent

  bool sentCall(rpc::Call::Reader message, std::shared_ptr<Call> call, bool isWrittenHere, uint64_t& number,
                std::vector<Reference>& references) {
    if (call == nullptr) {
      call = vat->turnedCall(message.getParams().getContent(), message.getInterfaceId(), message.getMethodId(), {});
    }
    if (call == nullptr || call->number == 0) {
      vat->stop("a Call is sent, and no MAKE or received Call stands before it: was it made through a client of a "
                "promise that isn't from `promise`?");
      return false;
    }
    auto payload = message.getParams();
    auto given = isWrittenHere ? call->paramsByIndex : copied(payload, call->paramsAsMet);
    call->isGone = true;
    auto isSentBefore = [&](const Call& on) { return goesTo(startOfGoal(on), message.getTarget()); };
    Question opened = question(vat->throughProxies(call, isSentBefore), false);
    opened.call->isGone = true;
    vat->sayTurns(startOfGoal(*opened.call));
    opened.call->dropGoal();
    opened.call->wentBy = way();
#if CAPNP_VERSION >= 1000000
    opened.call->isForPipeline = message.getOnlyPromisePipeline();
#endif
    vat->keepVows(*opened.call);
    number = opened.call->number;
    if (!give(payload.getCapTable(), given, true, references, opened.broughtByCall)) return false;
    asked[message.getQuestionId()] = kj::mv(opened);
    return true;
  }

  // Whether a reference leads to the target of a Call.
  bool goesTo(const Reference& from, rpc::MessageTarget::Reader target) const {
    return follow(from, [&](const Reference& at) { return at.view != nullptr && isTarget(*at.view, target); });
  }

  bool isTarget(const View& view, rpc::MessageTarget::Reader target) const {
    if (target.isImportedCap()) {
      auto found = imports.find(target.getImportedCap());
      return found != imports.end() && found->second.reference.view.get() == &view;
    }
    auto found = target.isPromisedAnswer() ? asked.find(target.getPromisedAnswer().getQuestionId()) : asked.end();
    if (found == asked.end() || view.path != pathOf(target.getPromisedAnswer())) return false;
    const Call* at = view.call.get();
    while (at != nullptr && at != found->second.call.get()) at = at->answeredBy.get();
    return at != nullptr;
  }

  bool sentReturn(rpc::Return::Reader message, std::vector<Reference>& references) {
    auto found = answering.find(message.getAnswerId());
    if (found == answering.end()) return true;  // to no question: the audit says so
    Question& answered = found->second;
    if (message.isResults() && !answered.isLate) {
      auto payload = message.getResults();
      if (!give(payload.getCapTable(), results(answered, payload), false, references, answered.broughtByReturn)) {
        return false;
      }
      noteBack(*answered.call, payload);
    }
    answered.isReturned = true;
    if (message.isResultsSentElsewhere()) answered.call->isUnheard = true;
    if (message.getReleaseParamCaps()) giveBack(imports, answered.broughtByCall);
    if (answered.isFinished) answering.erase(found);
    return true;
  }

  // Which results of a Return are the peer's own.
  static void noteBack(Call& call, rpc::Payload::Reader payload) {
    auto table = payload.getCapTable();
    bool hasBack = false;
    for (auto entry: table) hasBack = hasBack || entry.isReceiverHosted() || entry.isReceiverAnswer();
    if (!hasBack) return;
    for (auto& met: Content(payload.getContent()).met) {
      if (!met.hasPath || met.index >= table.size()) continue;
      if (table[met.index].isReceiverHosted() || table[met.index].isReceiverAnswer()) call.goesBack.push_back(met.path);
    }
  }

  // What the capabilities of a Return are: the bootstrap object, those that the program wrote there, or a copy of
  // what another Return brought.
  std::vector<Reference> results(Question& answered, rpc::Payload::Reader payload) {
    Call& call = *answered.call;
    if (answered.isBootstrap) {
      if (payload.getCapTable().size() > 0) {
        call.resultsByIndex = { bootstrap };
        call.fields = { { Path(), bootstrap } };
      }
      if (bootstrap.number != 0) vat->answer(call);
    }
    if (answered.isBootstrap) return call.resultsByIndex;
    auto byIndex = call.isLocallyAnswered ? call.resultsByIndex : copied(payload, call.resultsAsMet);
    return asAnswered(call, payload, kj::mv(byIndex));
  }

  // What ANSWER named, of this call or of the one by which it was answered: a result that was promised before is that
  // promise.
  static std::vector<Reference> asAnswered(Call& call, rpc::Payload::Reader payload, std::vector<Reference> byIndex) {
    Call& by = inside::answering(call);
    if (!by.isLocallyAnswered || by.vows.empty() || byIndex.empty()) return byIndex;
    for (auto& met: Content(payload.getContent()).met) {
      auto field = met.hasPath && met.index < byIndex.size() ? by.fieldAt(met.path) : nullptr;
      if (field != nullptr) byIndex[met.index] = *field;
    }
    return byIndex;
  }

  // A Resolve notes what the promise turned out to be, where that is a new number. Of what goes back, or was sent
  // before, the promise itself will do: it leads there.
  bool sentResolve(rpc::Resolve::Reader message, std::vector<Reference>& references) {
    if (!message.isCap() || message.getCap().isNone()) return true;
    auto found = exports.find(message.getPromiseId());
    if (found == exports.end()) {
      vat->stop("a Resolve is sent of a promise that isn't known here");
      return false;
    }
    auto became = message.getCap();
    found->second.isResolved = true;
    found->second.goesBack = became.isReceiverHosted() || became.isReceiverAnswer();
    Reference promise = found->second.reference;
    std::vector<uint32_t> brought;
    references.push_back(introduce(became, promise, false, brought));
    return true;
  }

  // The references of a copy, by index: a copy keeps the order in which capabilities are met in the content.
  static std::vector<Reference> copied(rpc::Payload::Reader payload, const std::vector<Reference>& asMet) {
    if (payload.getCapTable().size() == 0) return {};
    return byIndexOf(Content(payload.getContent()).met, asMet);
  }

  // Notes the reference of each entry that isn't none, in the table's order. In a Call the vat gives what it likes; in
  // a Return it gives what the call's results are.
  bool give(Table table, const std::vector<Reference>& byIndex, bool isCall, std::vector<Reference>& references,
            std::vector<uint32_t>& brought) {
    for (uint at = 0; at < table.size(); at++) {
      if (table[at].isNone()) continue;
      if (at >= byIndex.size() || byIndex[at].number == 0) {
        vat->stop("a capability is sent that isn't known here");
        return false;
      }
      references.push_back(introduce(table[at], byIndex[at], isCall, brought));
    }
    return true;
  }

  // The reference that is noted for what goes out.
  Reference introduce(rpc::CapDescriptor::Reader descriptor, const Reference& given, bool isCall,
                      std::vector<uint32_t>& brought) {
    if (!descriptor.isSenderHosted() && !descriptor.isSenderPromise()) {
      Reference back = isCall ? withoutProxy(given) : given;
      vat->sayTurns(back);
      return back;
    }
    uint32_t id = descriptor.isSenderHosted() ? descriptor.getSenderHosted() : descriptor.getSenderPromise();
    Number& number = exports[id];
    brought.push_back(id);
    if (number.count++ > 0) {
      Reference again = introducedAgain(number.reference, given, isCall);
      vat->sayTurns(isCall ? again : given, number.reference);
      return again;
    }
    number.isPromise = descriptor.isSenderPromise();
    number.reference = !number.isPromise ? hosted(given, isCall) : isCall ? promised(given) : firstPromise(given);
    if (number.isPromise) {
      promises.push_back(id);
      if (!isCall) vat->sayTurns(given, number.reference);
    } else {
      vat->sayTurns(given), vat->sayTurns(number.reference);
    }
    return number.reference;
  }

  // What goes out as a new senderPromise in a Return: the first promise on the way of the result without a number, and
  // not a call's result that leads there. The results of that call may go out under the same number.
  Reference firstPromise(const Reference& given) const {
    Reference first;
    follow(given, [&](const Reference& at) {
      if (isPromised(at)) return false;
      if (first.number == 0 || isPromise(at)) first = at;
      return isPromise(at);
    });
    return first.number == 0 ? given : first;
  }

  // Whether it is a promise, of this vat or of another, and none of a call's results.
  static bool isPromise(const Reference& reference) {
    auto view = reference.view.get();
    return view != nullptr && view->call == nullptr && view->same.number == 0 && !view->isSettled;
  }

  // What goes out as a new senderPromise: where it has a number already, the runtime is further on its way.
  Reference promised(const Reference& given) {
    const Reference* open = nullptr;
    follow(given, [&](const Reference& at) {
      if (isPromised(at) || isPromised(vowOf(at))) return false;
      if (open == nullptr || isPromise(at)) open = &at;
      return isPromise(at);
    });
    if (open == nullptr) open = &given;
    Reference promise = vat->promiseOf(*open);
    return isPromised(promise) ? vat->promiseBehind(promise, *open) : promise;
  }

  bool isPromised(const Reference& reference) const {
    for (uint32_t id: promises) {
      auto found = exports.find(id);
      if (found == exports.end() || !found->second.isPromise || found->second.isResolved) continue;
      if (reference.number != 0 && areSame(found->second.reference, reference)) return true;
    }
    return false;
  }

  // Over the connection where a result without a Return is, the runtime gives back what it is, and no proxy.
  static Reference withoutProxy(const Reference& given) {
    Reference wrapped = lastOf(given).view->wrapped;
    return wrapped.number != 0 && neverComes(wrapped) ? wrapped : given;
  }

  // The runtime gives the number of a promise to the promise that it became, without a word: then what goes out is the
  // first one, too.
  Reference introducedAgain(const Reference& known, const Reference& given, bool isCall) {
    if (leadsTo(given, known)) return given;
    if (takesOver(known, given)) {
      if (!isCall) vat->leadTo(given, known);
      return known;
    }
    return isCall && known.view->wrapped.number != 0 && leadsTo(given, known.view->wrapped) ? known : given;
  }

  // What goes out as senderHosted is what its reference became: of a promise the runtime sends the object. Where that
  // is still open, the runtime gives out a proxy.
  Reference hosted(const Reference& given, bool isCall) {
    Reference proxied;
    follow(given, [&](const Reference& at) { return at.view->isProxy && (proxied = at, true); });
    if (proxied.number == 0 && isSettled(given)) return lastOf(given);
    if (proxied.number == 0) proxied = Vat::proxiedOn(given);
    if (proxied.number == 0) proxied = lastOf(given);
    return isSettled(proxied) || !isCall ? proxied : vat->proxyOf(proxied);
  }

  // ------------------------------------------------------------------------- received

  std::shared_ptr<Call> receivedCall(rpc::Call::Reader message, std::vector<Reference>& references) {
    auto call = vat->newCall(message.getInterfaceId(), message.getMethodId());
    vat->bind(*call);
    call->isReceived = true;
    call->cameBy = way();
    call->isReflected = message.getSendResultsTo().isYourself();
#if CAPNP_VERSION >= 1000000
    call->isUnheard = message.getOnlyPromisePipeline();
#endif
    addressTo(*call, message.getTarget());
    Question opened = question(call, false);
    auto payload = message.getParams();
    call->paramsByIndex = take(payload.getCapTable(), references, opened.broughtByCall);
    if (!call->paramsByIndex.empty()) {
      call->paramsAsMet = asMet(Content(payload.getContent()).met, call->paramsByIndex);
    }
    vat->keep(call, payload.getContent());
    answering[message.getQuestionId()] = kj::mv(opened);
    return call;
  }

  void addressTo(Call& call, rpc::MessageTarget::Reader target) {
    if (target.isImportedCap()) {
      auto found = exports.find(target.getImportedCap());
      if (found != exports.end()) call.goal = found->second.reference;
    } else if (target.isPromisedAnswer()) {
      auto answer = target.getPromisedAnswer();
      auto found = answering.find(answer.getQuestionId());
      if (found == answering.end()) return;
      call.goalCall = found->second.call;
      call.goalPath = pathOf(answer);
    }
  }

  static Path pathOf(rpc::PromisedAnswer::Reader answer) {
    Path path;
    for (auto op: answer.getTransform()) {
      if (op.isGetPointerField()) path.push_back(op.getGetPointerField());
    }
    return path;
  }

  // The field of a call that came in.
  void standForAnswer(View& view, rpc::PromisedAnswer::Reader answer) {
    auto found = answering.find(answer.getQuestionId());
    if (found == answering.end()) return;
    view.call = found->second.call;
    view.path = pathOf(answer);
    if (!view.call->isOver) view.call->named.push_back(view.path);
  }

  // Whether the runtime has something of the peer at a result that is named here: then it puts a proxy before it. So it
  // is where the call went back to the peer, and where its Return said that the result is the peer's.
  bool isBack(const View& view) const {
    if (view.call == nullptr) return false;
    auto& back = view.call->goesBack;
    return wayOf(*view.call) == way() || std::find(back.begin(), back.end(), view.path) != back.end();
  }

  // A late Return, one after a Finish with releaseResultCaps, notes no reference.
  void receivedReturn(rpc::Return::Reader message, std::vector<Reference>& references) {
    auto found = asked.find(message.getAnswerId());
    if (found == asked.end()) return;
    Question& answered = found->second;
    std::vector<Reference> byIndex;
    if (message.isResults() && !answered.isLate) {
      byIndex = take(message.getResults().getCapTable(), references, answered.broughtByReturn);
    }
    if (!isUnasked(message.getAnswerId())) takeReturn(message, answered, kj::mv(byIndex));
    answered.isReturned = true;
    if (message.getReleaseParamCaps()) giveBack(exports, answered.broughtByCall);
    if (answered.isFinished) asked.erase(found);
  }

  // From 1.0 on the runtime gives such a number to a call that it sends for its pipeline alone. It doesn't look at a
  // Return that comes for one: what was named of the results stays the answer's, and never comes.
  static bool isUnasked(uint32_t question) { return question >> 31 != 0; }

  // What a Return says of the results of its call.
  void takeReturn(rpc::Return::Reader message, Question& answered, std::vector<Reference>&& byIndex) {
    Call& call = *answered.call;
    if (message.isResults() && !answered.isLate) {
      if (!byIndex.empty()) call.setResults(kj::mv(byIndex), Content(message.getResults().getContent()).met);
      call.isOver = true;
      Vat::shareResults(call);
    } else if (message.isException()) {
      call.isOver = true;
    } else if (message.isTakeFromOtherQuestion() && !answered.isLate) {
      auto other = answering.find(message.getTakeFromOtherQuestion());
      if (other != answering.end()) Vat::takeResults(answered.call, other->second.call);
    }
  }

  void receivedResolve(rpc::Resolve::Reader message, std::vector<Reference>& references) {
    if (!message.isCap() || message.getCap().isNone()) return;
    std::vector<uint32_t> brought;
    auto found = imports.find(message.getPromiseId());
    std::shared_ptr<View> promise = found == imports.end() ? nullptr : found->second.reference.view;
    Reference became = arrived(message.getCap(), brought);
    references.push_back(became);
    if (promise != nullptr) promise->turn = became;
  }

  // New references for what came in, by index.
  std::vector<Reference> take(Table table, std::vector<Reference>& references, std::vector<uint32_t>& brought) {
    std::vector<Reference> byIndex(table.size());
    for (uint at = 0; at < table.size(); at++) {
      if (table[at].isNone()) continue;
      byIndex[at] = arrived(table[at], brought);
      references.push_back(byIndex[at]);
    }
    return byIndex;
  }

  Reference arrived(rpc::CapDescriptor::Reader descriptor, std::vector<uint32_t>& brought) {
    Reference reference = vat->newReference();
    switch (descriptor.which()) {
      case rpc::CapDescriptor::SENDER_HOSTED:
      case rpc::CapDescriptor::SENDER_PROMISE: {
        uint32_t id = descriptor.isSenderHosted() ? descriptor.getSenderHosted() : descriptor.getSenderPromise();
        Number& number = imports[id];
        if (number.count++ == 0) number.reference = reference;
        reference.view = number.reference.view;
        reference.view->import = way();
        if (descriptor.isSenderHosted()) reference.view->isSettled = true;
        brought.push_back(id);
        break;
      }
      case rpc::CapDescriptor::RECEIVER_HOSTED: {
        auto found = exports.find(descriptor.getReceiverHosted());
        if (found == exports.end()) break;
        reference.view->same = found->second.reference;
        reference.view->isProxy = found->second.goesBack;
        if (reference.view->isProxy) reference.view->cameBack = way();
        break;
      }
      case rpc::CapDescriptor::RECEIVER_ANSWER:
        standForAnswer(*reference.view, descriptor.getReceiverAnswer());
        reference.view->cameBack = way();
        reference.view->isProxy = isBack(*reference.view);
        break;
      default:
        break;
    }
    return reference;
  }

  // ------------------------------------------------------------------------- given back

  static void giveBack(Numbers& numbers, uint32_t id, uint64_t count) {
    auto found = numbers.find(id);
    if (found == numbers.end()) return;
    if (found->second.count <= count) {
      numbers.erase(found);
    } else {
      found->second.count -= count;
    }
  }
  static void giveBack(Numbers& numbers, const std::vector<uint32_t>& ids) {
    for (uint32_t id: ids) giveBack(numbers, id, 1);
  }

  // After a Finish with releaseResultCaps the Return that may still come is late.
  static void finish(Questions& questions, Numbers& numbers, rpc::Finish::Reader message) {
    auto found = questions.find(message.getQuestionId());
    if (found == questions.end()) return;
    if (found->second.isReturned) {
      if (message.getReleaseResultCaps()) giveBack(numbers, found->second.broughtByReturn);
      questions.erase(found);
    } else {
      found->second.isFinished = true;
      found->second.isLate = message.getReleaseResultCaps();
    }
  }
};

inline Reference Vat::asNumbered(const Reference& given, Way way) {
  if (given.view == nullptr || (given.view->isSettled && !given.view->isBroken)) return given;
  if (way != 0 && neverComes(given) && wayOf(given) != way) return proxyOf(lastOf(given));
  Reference wrapped = lastOf(given).view->wrapped;
  bool isOpen = wrapped.number != 0 && !wrapped.view->isProxy && neverComes(wrapped);
  if (way != 0 && isOpen && wayOf(wrapped) == way) return wrapped;
  for (auto end: ends) {
    Reference known = end->numbered(given);
    if (known.number != 0) return known;
  }
  return promiseOf(given);
}

inline void Vat::keepVows(Call& call) {
  for (auto& vow: call.vows) {
    Reference promise = vow.promise();
    if (promise.number == 0 || vow.isKept) continue;
    vow.isKept = true;
    auto of = vow.call.lock();
    Reference result = resultAt(vow.result, of == nullptr ? call.shared_from_this() : of, vow.path);
    bool isElsewhere = false;
    for (auto end: ends) isElsewhere = isElsewhere || (end->way() != call.wentBy && end->gave(promise));
    turn(promise, call.isForPipeline && isElsewhere ? proxyOf(result) : result);
  }
}

}  // namespace inside
}  // namespace vataudit
