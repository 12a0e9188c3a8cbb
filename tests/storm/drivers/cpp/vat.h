// A vat as the scripts have it: what it holds under which name, and what each line of a script does with that.
#pragma once

#include "planted.h"
#include "storm.capnp.h"
#include "streams.h"
#ifdef STORM_PLAIN
#include "plain.h"
#else
#include "vataudit/recorder.h"
#endif

#include <functional>
#include <map>
#include <memory>
#include <sstream>
#include <string>
#include <vector>

using Side = capnp::rpc::twoparty::Side;
using Words = std::vector<std::string>;

inline std::string word(const Words& words, size_t at) { return at < words.size() ? words[at] : std::string(); }

// One end of a connection, of the runtime as it is or of one with a planted fault.
class End {
public:
  virtual ~End() noexcept(false) {}
  virtual capnp::Capability::Client bootstrap() = 0;
  virtual kj::Promise<void> onDisconnect() = 0;
};

class SoundEnd final: public End {
public:
  SoundEnd(vataudit::Recorder& recorder, kj::AsyncIoStream& stream, uint32_t connection,
           capnp::Capability::Client own, Side side)
      : end(recorder, stream, connection, kj::mv(own), side) {}
  capnp::Capability::Client bootstrap() override { return end.bootstrap(); }
  kj::Promise<void> onDisconnect() override { return end.onDisconnect(); }

private:
  vataudit::TwoPartyClient end;
};

class FaultyEnd final: public End {
public:
  FaultyEnd(vataudit::Recorder& recorder, kj::AsyncIoStream& stream, uint32_t connection,
            capnp::Capability::Client own, Side side, const std::string& fault)
      : network(recorder, stream, connection, side), faulty(network, fault),
        system(capnp::makeRpcServer(faulty, network.asBootstrap(kj::mv(own)))) {}
  capnp::Capability::Client bootstrap() override { return network.bootstrap(system); }
  kj::Promise<void> onDisconnect() override { return network.onDisconnect(); }

private:
  vataudit::Network network;
  planted::Network<vataudit::Network> faulty;
  capnp::RpcSystem<capnp::rpc::twoparty::VatId> system;
};

class Vat {
public:
  // Writes FOLDER/vatN.log. What happens is told line by line. The fault of its runtime is none, or one of planted.h.
  Vat(uint32_t number, const std::string& folder, const std::string& fault,
      std::function<void(const std::string&)> tell)
      : number(number), folder(folder), fault(fault),
        recorder((folder + "/vat" + std::to_string(number) + ".log").c_str(), number), tell(kj::mv(tell)) {
    hold(own(), host(own()));
  }

  // Joins this vat to another one. What it writes is kept in FOLDER/linkC.vatN.
  void join(uint32_t connection, uint32_t peer, Side side, kj::Own<kj::AsyncIoStream> stream) {
    auto path = folder + "/link" + std::to_string(connection) + ".vat" + std::to_string(number);
    auto tap = kj::heap<Tap>(kj::mv(stream), path);
    auto end = newEnd(connection, side, *tap);
    lost.push_back(end->onDisconnect().then([this, connection]() { say("lost", std::to_string(connection)); })
                       .eagerlyEvaluate(nullptr));
    taps.push_back(kj::mv(tap));
    ends[peer] = kj::mv(end);
    // A client's connection is used from here on: else nothing that comes in is looked at.
    if (side == Side::CLIENT) find("b" + std::to_string(number) + std::to_string(peer));
  }

  // Does what a line says, and answers whether it named only what is there.
  bool run(const Words& words);

  // The calls that never ended.
  void tellStuck() {
    for (auto& call: calls) {
      if (!call.second->isEnded) say("stuck", call.first);
    }
  }
  void dropAll() {
    promises.clear();
    slow.clear();
    calls.clear();
    held.clear();
  }

  // ------------------------------------------------------------------------- for its objects

  void say(const std::string& what, const std::string& of) { tell(what + " " + std::to_string(number) + " " + of); }
  std::string own() { return "o" + std::to_string(number); }
  Thing::Client host(const std::string& name);
  void hold(const std::string& name, Thing::Client client) { held.emplace(name, kj::mv(client)); }

  // What is held under a name: an object or a promise of its own, a peer's bootstrap object (`bVW`), the field of a call
  // (`c.f`), the capability of its response (`c.r`), what it was given to keep (`c.h`).
  std::unique_ptr<Thing::Client> find(const std::string& name);
  kj::Promise<void> waitFor(const std::string& name) {
    auto paf = kj::newPromiseAndFulfiller<void>();
    slow[name] = kj::mv(paf.fulfiller);
    return kj::mv(paf.promise);
  }

private:
  struct Call {
    Given::Pipeline pipeline;
    kj::Promise<void> done = nullptr;
    bool isEnded = false;
    explicit Call(Given::Pipeline&& pipeline): pipeline(kj::mv(pipeline)) {}
  };

  uint32_t number;
  std::string folder, fault;
  vataudit::Recorder recorder;
  std::function<void(const std::string&)> tell;
  std::vector<kj::Own<Tap>> taps;
  std::map<uint32_t, std::unique_ptr<End>> ends;
  std::vector<kj::Promise<void>> lost;
  std::map<std::string, Thing::Client> held;
  std::map<std::string, std::unique_ptr<Call>> calls;
  std::map<std::string, kj::Own<kj::PromiseFulfiller<Thing::Client>>> promises;
  std::map<std::string, kj::Own<kj::PromiseFulfiller<void>>> slow;
  std::vector<kj::Promise<void>> streams;

  std::unique_ptr<End> newEnd(uint32_t connection, Side side, kj::AsyncIoStream& stream) {
    capnp::Capability::Client object = *find(own());
    if (fault.empty()) return std::make_unique<SoundEnd>(recorder, stream, connection, object, side);
    return std::make_unique<FaultyEnd>(recorder, stream, connection, object, side, fault);
  }
  bool call(const Words& words, bool isOnly);
  bool mute(const std::string& name, Thing::Client target);
  bool stream(const Words& words);
  bool vow(const std::string& name);
  bool settlePromise(const Words& words);
  void await(const std::string& name, capnp::RemotePromise<Given>&& remote, bool isOnly);
  void ended(const std::string& name, const std::string& how);
};

// ============================================================================ Objects

class Object: public Thing::Server {
public:
  Object(Vat& vat, std::string name): vat(vat), name(name) {}
  ~Object() noexcept { vat.say("gone", name); }

protected:
  kj::Promise<void> mute(MuteContext) override {
    vat.say("got", name + " mute");
    return kj::READY_NOW;
  }
  kj::Promise<void> ping(PingContext context) override {
    enter("ping", context.getParams());
    return kj::READY_NOW;
  }
  kj::Promise<void> self(SelfContext context) override {
    enter("self", context.getParams());
    context.getResults().setCap(thisCap());
    return kj::READY_NOW;
  }
  kj::Promise<void> get(GetContext context) override {
    enter("get", context.getParams());
    auto found = vat.find(context.getParams().getName().cStr());
    context.getResults().setCap(found ? *found : thisCap());
    return kj::READY_NOW;
  }
  kj::Promise<void> make(MakeContext context) override {
    enter("make", context.getParams());
    context.getResults().setCap(vat.host(context.getParams().getCall().cStr()));
    return kj::READY_NOW;
  }
  kj::Promise<void> echo(EchoContext context) override {
    enter("echo", context.getParams());
    context.getResults().setCap(context.getParams().getCap());
    return kj::READY_NOW;
  }
  kj::Promise<void> hold(HoldContext context) override {
    enter("hold", context.getParams());
    vat.hold(std::string(context.getParams().getCall().cStr()) + ".h", context.getParams().getCap());
    return kj::READY_NOW;
  }
  kj::Promise<void> slow(SlowContext context) override {
    enter("slow", context.getParams());
    std::string call = context.getParams().getCall().cStr();
#if CAPNP_VERSION < 1000000
    context.allowCancellation();
    context.releaseParams();
#endif
    return vat.waitFor(call).then([this, context]() mutable {
      context.getResults().setCap(thisCap());
    });
  }
  kj::Promise<void> slowecho(SlowechoContext context) override {
    enter("slowecho", context.getParams());
    return vat.waitFor(context.getParams().getCall().cStr()).then([context]() mutable {
      context.getResults().setCap(context.getParams().getCap());
    });
  }
  kj::Promise<void> slowget(SlowgetContext context) override {
    enter("slowget", context.getParams());
    return vat.waitFor(context.getParams().getCall().cStr()).then([this, context]() mutable {
      auto found = vat.find(context.getParams().getName().cStr());
      context.getResults().setCap(found ? *found : thisCap());
    });
  }
  kj::Promise<void> fail(FailContext context) override {
    enter("fail", context.getParams());
    return KJ_EXCEPTION(FAILED, "as asked for");
  }
  kj::Promise<void> tail(TailContext context) override {
    enter("tail", context.getParams());
    auto asked = context.getParams();
    auto cap = asked.getCap();
    auto request = asked.hasCall() ? cap.slowgetRequest() : asked.hasName() ? cap.getRequest() : cap.selfRequest();
    if (asked.hasName()) request.setName(asked.getName());
    if (asked.hasCall()) request.setCall(asked.getCall());
    if (asked.getK() != 0) request.setK(asked.getK());
    return context.tailCall(kj::mv(request));
  }
  kj::Promise<void> callback(CallbackContext context) override {
    enter("callback", context.getParams());
    auto cap = context.getParams().getCap();
    auto request = cap.pingRequest();
    request.setK(context.getParams().getK());
    return request.send().then([context, cap](capnp::Response<Given>&&) mutable { context.getResults().setCap(cap); });
  }
  kj::Promise<void> stream(StreamContext context) override {
    enter("stream", context.getParams());
    return kj::READY_NOW;
  }

private:
  Vat& vat;
  std::string name;

  void enter(const char* mode, Asked::Reader asked) {
    vat.say("got", name + " " + mode + (asked.getK() == 0 ? "" : " " + std::to_string(asked.getK())));
  }
};

inline Thing::Client Vat::host(const std::string& name) { return recorder.host<Object>(*this, name); }

inline std::unique_ptr<Thing::Client> Vat::find(const std::string& name) {
  auto found = held.find(name);
  if (found != held.end()) return std::make_unique<Thing::Client>(found->second);
  if (name.size() == 3 && name[0] == 'b' && name[1] == '0' + char(number)) {
    auto end = ends.find(name[2] - '0');
    if (end == ends.end()) return nullptr;
    hold(name, end->second->bootstrap().castAs<Thing>());
    return find(name);
  }
  if (name.size() > 2 && name.substr(name.size() - 2) == ".f") {
    auto call = calls.find(name.substr(0, name.size() - 2));
    if (call == calls.end()) return nullptr;
    hold(name, call->second->pipeline.getCap());
    return find(name);
  }
  return nullptr;
}

// ============================================================================ Lines

inline bool Vat::run(const Words& words) {
  auto& verb = words[0];
  auto name = word(words, 2);
  if (verb == "host") return hold(name, host(name)), true;
  if (verb == "vow") return vow(name);
  if (verb == "fulfil" || verb == "break") return settlePromise(words);
  if (verb == "call" || verb == "only") return call(words, verb == "only");
  if (verb == "stream") return stream(words);
  if (verb == "cancel") return calls.erase(name) > 0;
  if (verb == "drop") return say("drop", name), held.erase(name) > 0;
  if (verb == "release") {
    auto found = slow.find(name);
    if (found == slow.end()) return false;
    found->second->fulfill();
    slow.erase(found);
    return true;
  }
  KJ_FAIL_REQUIRE("no such line", verb);
}

inline bool Vat::vow(const std::string& name) {
  auto paf = kj::newPromiseAndFulfiller<Thing::Client>();
  promises[name] = kj::mv(paf.fulfiller);
  hold(name, recorder.promise(kj::mv(paf.promise)));
  return true;
}

inline bool Vat::settlePromise(const Words& words) {
  auto promise = promises.find(words[2]);
  if (promise == promises.end()) return false;
  if (words[0] == "break") {
    promise->second->reject(KJ_EXCEPTION(FAILED, "broken as asked for"));
  } else {
    auto found = find(word(words, 3));
    if (!found) return false;
    promise->second->fulfill(kj::mv(*found));
  }
  promises.erase(promise);
  return true;
}

// `call V NAME TARGET MODE [OPERAND|-] [K]`. OPERAND/NAME of a tail call: it asks OPERAND for what its vat calls NAME,
// and as a slowtail it gets that only when the call is released.
inline bool Vat::call(const Words& words, bool isOnly) {
  auto name = words[2], mode = word(words, 4), operand = word(words, 5), behind = word(words, 5);
  auto slash = operand.find('/');
  operand = operand.substr(0, slash);
  behind = slash == std::string::npos ? "" : behind.substr(slash + 1);
  auto target = find(words[3]);
  if (!target) return false;
  if (mode == "mute") return say("sent", words[3] + " mute"), mute(name, *target);
  bool hasCap = mode == "echo" || mode == "hold" || mode == "slowecho" || mode == "tail" || mode == "slowtail" ||
      mode == "callback";
  auto cap = hasCap && operand != "-" ? find(operand) : nullptr;
  if (hasCap && operand != "-" && !cap) return false;
  using Request = capnp::Request<Asked, Given>;
  Request request = mode == "ping" ? target->pingRequest() : mode == "self" ? target->selfRequest()
      : mode == "get" ? target->getRequest() : mode == "make" ? target->makeRequest()
      : mode == "echo" ? target->echoRequest() : mode == "hold" ? target->holdRequest()
      : mode == "slow" ? target->slowRequest() : mode == "slowecho" ? target->slowechoRequest()
      : mode == "slowget" ? target->slowgetRequest() : mode == "fail" ? target->failRequest()
      : mode == "callback" ? target->callbackRequest() : target->tailRequest();
  if (cap) request.setCap(*cap);
  if (behind != "") request.setName(behind.c_str());
  if ((mode == "get" || mode == "slowget") && operand != "-") request.setName(operand.c_str());
  if (mode == "make" || mode == "hold" || mode.substr(0, 4) == "slow") request.setCall(name.c_str());
  uint32_t k = atoi(word(words, 6).c_str());
  if (k != 0) request.setK(k);
  say("sent", words[3] + " " + mode + (k == 0 ? "" : " " + std::to_string(k)));
#if CAPNP_VERSION >= 1000000
  if (isOnly) {
    calls[name] = std::make_unique<Call>(request.sendForPipeline());
    calls[name]->isEnded = true;
    return true;
  }
#endif
  await(name, request.send(), isOnly);
  return true;
}

inline void Vat::await(const std::string& name, capnp::RemotePromise<Given>&& remote, bool isOnly) {
  auto call = std::make_unique<Call>(kj::mv(static_cast<Given::Pipeline&>(remote)));
  kj::Promise<capnp::Response<Given>> response = kj::mv(remote);
  if (isOnly) {
    call->isEnded = true;
  } else {
    call->done = response.then([this, name](capnp::Response<Given>&& response) {
      if (response.hasCap()) hold(name + ".r", response.getCap());
      ended(name, response.hasCap() ? " cap" : " null");
    }, [this, name](kj::Exception&& exception) {
      ended(name, std::string(" failed ") + exception.getDescription().cStr());
    }).eagerlyEvaluate(nullptr);
  }
  calls[name] = kj::mv(call);
}

inline void Vat::ended(const std::string& name, const std::string& how) {
  auto call = calls.find(name);
  if (call != calls.end()) call->second->isEnded = true;
  std::string line = name + how;
  for (char& byte: line) {
    if (byte == '\n') byte = ' ';
  }
  say("ended", line.substr(0, 300));
}

// A call whose parameters nobody writes or reads, and whose results neither.
inline bool Vat::mute(const std::string& name, Thing::Client target) {
  streams.push_back(target.muteRequest().send().then(
      [this, name](capnp::Response<Thing::MuteResults>&&) { ended(name, " null"); },
      [this, name](kj::Exception&& exception) {
        ended(name, std::string(" failed ") + exception.getDescription().cStr());
      }).eagerlyEvaluate(nullptr));
  return true;
}

inline bool Vat::stream(const Words& words) {
  auto target = find(words[2]);
  if (!target) return false;
  auto request = target->streamRequest();
  uint32_t k = atoi(word(words, 3).c_str());
  request.setK(k);
  say("sent", words[2] + " stream" + (k == 0 ? "" : " " + std::to_string(k)));
  streams.push_back(request.send().catch_([this](kj::Exception&& exception) {
    say("stream", exception.getDescription().cStr());
  }).eagerlyEvaluate(nullptr));
  return true;
}
