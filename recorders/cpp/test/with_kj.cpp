// vataudit/test.h with KJ_TEST.

#include "objects.h"
#include "vataudit/test.h"

#include <kj/test.h>

namespace {

using capnp::rpc::twoparty::Side;

KJ_TEST("a pipelined call is audited") {
  kj::AsyncIoContext io = kj::setupAsyncIo();
  vataudit::Audit audit;
  {
    kj::TwoWayPipe pipe = io.provider->newTwoWayPipe();
    auto& second = audit.vat(2);
    vataudit::TwoPartyClient server(second, *pipe.ends[1], 0, second.host<CounterObject>(second), Side::SERVER);
    vataudit::TwoPartyClient client(audit.vat(1), *pipe.ends[0], 0);
    auto same = client.bootstrap().castAs<Counter>().sameRequest().send();
    KJ_EXPECT(nextBy(same.getCounter(), 3).send().wait(io.waitScope).getValue() == 3);
  }
  KJ_EXPECT(audit.check() == "", audit.check());
}

}  // namespace
