// The object that the scenarios call, and two or three vats in one process.
#pragma once

#include "test.capnp.h"
#include "vataudit/recorder.h"

#include <kj/async-io.h>
#include <kj/debug.h>
#include <memory>
#include <string>
#include <vector>

// Does as its methods' names say. It keeps its recorder, for the objects and promises that it makes.
class CounterObject: public Counter::Server {
public:
  explicit CounterObject(vataudit::Recorder& recorder, uint32_t value = 0): recorder(recorder), value(value) {}

protected:
  kj::Promise<void> next(NextContext context) override {
    value += context.getParams().getBy();
    context.getResults().setValue(value);
    return kj::READY_NOW;
  }
  kj::Promise<void> same(SameContext context) override {
    context.getResults().setCounter(thisCap().castAs<Counter>());
    return kj::READY_NOW;
  }
  kj::Promise<void> call(CallContext context) override {
    auto back = context.getParams().getBack();
    auto request = back.nextRequest();
    request.setBy(5);
    return request.send().then([context, back](capnp::Response<Counter::NextResults>&& response) mutable {
      context.getResults().setValue(response.getValue());
      context.getResults().setBack(back);
    });
  }
  kj::Promise<void> make(MakeContext context) override {
    auto results = context.getResults();
    results.setCounter(recorder.host<CounterObject>(recorder, 100));
    auto list = results.initList(2);
    list.set(0, recorder.host<CounterObject>(recorder, 200));
    list.set(1, recorder.host<CounterObject>(recorder, 300));
    return kj::READY_NOW;
  }
  kj::Promise<void> fail(FailContext) override {
    return KJ_EXCEPTION(FAILED, "as asked for");
  }
  kj::Promise<void> never(NeverContext context) override {
#if CAPNP_VERSION < 1000000
    context.allowCancellation();
#else
    (void)context;
#endif
    return kj::Promise<void>(kj::NEVER_DONE);
  }
  kj::Promise<void> hold(HoldContext context) override {
    kept = context.getParams().getCounter();
    return kj::READY_NOW;
  }
  kj::Promise<void> held(HeldContext context) override {
    context.getResults().setCounter(KJ_ASSERT_NONNULL(kept));
    return kj::READY_NOW;
  }
  kj::Promise<void> later(LaterContext context) override {
    auto paf = kj::newPromiseAndFulfiller<Counter::Client>();
    fulfiller = kj::mv(paf.fulfiller);
    context.getResults().setCounter(recorder.promise(kj::mv(paf.promise)));
    return kj::READY_NOW;
  }
  kj::Promise<void> settle(SettleContext context) override {
    switch (context.getParams().getHow()) {
      case 0: fulfiller->fulfill(recorder.host<CounterObject>(recorder, 1000)); break;
      case 1: fulfiller->reject(KJ_EXCEPTION(FAILED, "broken as asked for")); break;
      case 2: fulfiller->fulfill(Counter::Client(KJ_ASSERT_NONNULL(kept))); break;
      case 3: fulfiller->fulfill(nullptr); break;
    }
    return kj::READY_NOW;
  }
  kj::Promise<void> pass(PassContext context) override {
    auto given = context.getParams().getCounters();
    auto results = context.getResults().initCounters(given.size());
    for (uint at = 0; at < given.size(); at++) results.set(at, given[given.size() - 1 - at]);
    return kj::READY_NOW;
  }
  kj::Promise<void> handOn(HandOnContext context) override {
    KJ_IF_MAYBE(counter, kept) {
      return context.tailCall(counter->handOnRequest());
    }
    context.getResults().setCounter(thisCap().castAs<Counter>());
    return kj::READY_NOW;
  }
  kj::Promise<void> push(PushContext context) override {
    value += context.getParams().getBy();
    return kj::READY_NOW;
  }
  kj::Promise<void> nothing(NothingContext) override { return kj::READY_NOW; }
  kj::Promise<void> mine(MineContext context) override {
    uint32_t steps = context.getParams().getSteps();
    auto request = thisCap().mineRequest();
    request.setSteps(steps - 1);
    if (steps % 2 == 1) return context.tailCall(kj::mv(request));
    context.getResults().setCounter(steps == 0 ? thisCap() : request.send().getCounter());
    return kj::READY_NOW;
  }

  kj::Promise<void> none(NoneContext) override { return kj::READY_NOW; }
  kj::Promise<void> named(NamedContext context) override {
    auto paf = kj::newPromiseAndFulfiller<Counter::Client>();
    fulfiller = kj::mv(paf.fulfiller);
    Counter::Client promise = recorder.promise(kj::mv(paf.promise));
    capnp::PipelineBuilder<Counter::NamedResults> pipeline;
    pipeline.setCounter(promise);
    context.setPipeline(pipeline.build());
    context.getResults().setCounter(promise);
    return kj::evalLast([]() {});
  }
  kj::Promise<void> echo(EchoContext context) override {
    context.getResults().setCounter(context.getParams().getCounter());
    return kj::READY_NOW;
  }
  // The result is that of a call which the given object doesn't answer yet.
  kj::Promise<void> open(OpenContext context) override {
    context.getResults().setCounter(context.getParams().getCounter().waitRequest().send().getCounter());
    return kj::READY_NOW;
  }
  kj::Promise<void> wait(WaitContext context) override {
    auto paf = kj::newPromiseAndFulfiller<Counter::Client>();
    fulfiller = kj::mv(paf.fulfiller);
    return paf.promise.then([context](Counter::Client&& counter) mutable {
      context.getResults().setCounter(kj::mv(counter));
    });
  }

private:
  vataudit::Recorder& recorder;
  uint32_t value;
  kj::Maybe<Counter::Client> kept;
  kj::Own<kj::PromiseFulfiller<Counter::Client>> fulfiller;
};

// One that has a file descriptor.
class FileObject: public CounterObject {
public:
  FileObject(vataudit::Recorder& recorder, int fd): CounterObject(recorder), fd(fd) {}

protected:
  kj::Maybe<int> getFd() override { return fd; }

private:
  int fd;
};

inline capnp::Request<Counter::NextParams, Counter::NextResults> nextBy(Counter::Client counter, uint32_t by) {
  auto request = counter.nextRequest();
  request.setBy(by);
  return request;
}

inline capnp::Request<Counter::HoldParams, Counter::HoldResults> holdOf(Counter::Client at, Counter::Client counter) {
  auto request = at.holdRequest();
  request.setCounter(counter);
  return request;
}

inline capnp::Request<Counter::SettleParams, Counter::SettleResults> settleAs(Counter::Client at, uint32_t how) {
  auto request = at.settleRequest();
  request.setHow(how);
  return request;
}

// Any of the requests that only give a capability.
template <typename Request>
Request giving(Request&& request, Counter::Client counter) {
  request.setCounter(counter);
  return kj::mv(request);
}

// A call of `nothing` without even a struct of parameters.
inline capnp::Request<capnp::AnyPointer, capnp::AnyPointer> nothingAtAll(Counter::Client counter) {
  capnp::Capability::Client client = counter;
#if CAPNP_VERSION >= 1000000
  return client.typelessRequest(capnp::typeId<Counter>(), 11, nullptr, {});
#else
  return client.typelessRequest(capnp::typeId<Counter>(), 11, nullptr);
#endif
}
