// A program that asks for the bootstrap object of a connection that was aborted is ended, by std::terminate.
#include "found.h"

#include <capnp/rpc.capnp.h>
#include <capnp/serialize-async.h>

#include <exception>

#include <unistd.h>

static void terminated() {
  try {
    throw;
  } catch (kj::Exception& exception) {
    printf("the program is ended by std::terminate: %s\n", exception.getDescription().cStr());
  }
  fflush(stdout);
  _exit(1);
}

int main() {
  std::set_terminate(terminated);
  kj::EventLoop loop;
  kj::WaitScope scope(loop);
  auto pipe = kj::newTwoWayPipe();
  capnp::TwoPartyClient client(*pipe.ends[0]);
  auto before = client.bootstrap();
  capnp::MallocMessageBuilder message;
  message.initRoot<capnp::rpc::Message>().initAbort().setReason("as the peer says");
  auto abort = capnp::writeMessage(*pipe.ends[1], message);        // the peer is this program
  scope.poll();
  auto exception = kj::runCatchingExceptions([&]() {
    ping(client.bootstrap().castAs<Thing>(), 1).wait(scope);
  });
  scope.poll();
  printf("the call fails: %s\n", KJ_ASSERT_NONNULL(exception).getDescription().cStr());
}
