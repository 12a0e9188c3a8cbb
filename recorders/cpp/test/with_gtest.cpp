// vataudit/test.h with GoogleTest: each test of the fixture is recorded, and audited at its end.

#include "objects.h"
#include "vataudit/test.h"

#include <gtest/gtest.h>

namespace {

using capnp::rpc::twoparty::Side;

class Conversation: public testing::Test {
public:
  ~Conversation() noexcept {}

protected:
  kj::AsyncIoContext io = kj::setupAsyncIo();
  vataudit::Audit audit;

  // Vat 1 asks vat 2 to call back an object.
  uint32_t callBack(Counter::Client object) {
    kj::TwoWayPipe pipe = io.provider->newTwoWayPipe();
    auto& second = audit.vat(2);
    vataudit::TwoPartyClient server(second, *pipe.ends[1], 0, second.host<CounterObject>(second), Side::SERVER);
    vataudit::TwoPartyClient client(audit.vat(1), *pipe.ends[0], 0);
    auto request = client.bootstrap().castAs<Counter>().callRequest();
    request.setBack(kj::mv(object));
    return request.send().wait(io.waitScope).getValue();
  }
};

class Audited: public Conversation {
protected:
  void TearDown() override { EXPECT_EQ("", audit.check()); }
};

TEST_F(Audited, CallsBack) {
  EXPECT_EQ(15u, callBack(audit.vat(1).host<CounterObject>(audit.vat(1), 10)));
}

#ifndef VATAUDIT_OFF
// The object isn't from `host`: the recorder of vat 1 stops, and the audit has to say so.
TEST_F(Conversation, SaysWhatIsNotRecorded) {
  EXPECT_EQ(15u, callBack(kj::heap<CounterObject>(audit.vat(1), 10)));
  auto said = audit.check();
  EXPECT_NE(std::string::npos, said.find("vat 1 is recorded no further than record")) << said;
  EXPECT_NE(std::string::npos, said.find(audit.folder())) << said;
}
#endif

}  // namespace
