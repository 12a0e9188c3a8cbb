// A library: it serves one client at the address given, and ends when the client is gone.

#include "library.capnp.h"

#include <capnp/rpc-twoparty.h>
#include <kj/async-io.h>
#include <kj/debug.h>
#include <string>

class BookObject: public Book::Server {
public:
  explicit BookObject(std::string title): title(kj::mv(title)) {}

  kj::Promise<void> read(ReadContext context) override {
    context.getResults().setText("The text of " + title);
    return kj::READY_NOW;
  }

private:
  std::string title;
};

Book::Client makeBook(const std::string& title) {
  return kj::heap<BookObject>(title);
}

class LibraryObject: public Library::Server {
public:
  explicit LibraryObject(kj::Timer& timer): timer(timer) {}

  kj::Promise<void> find(FindContext context) override {
    context.getResults().setBook(makeBook(context.getParams().getTitle().cStr()));
    return kj::READY_NOW;
  }

  kj::Promise<void> order(OrderContext context) override {
    std::string title = context.getParams().getTitle().cStr();
    auto arrival = timer.afterDelay(50 * kj::MILLISECONDS).then([this, title]() {
      auto request = KJ_REQUIRE_NONNULL(listener).arrivedRequest();
      request.setTitle(title);
      return request.send().then([title](auto&&) { return makeBook(title); });
    });
    context.getResults().setBook(Book::Client(kj::mv(arrival)));
    return kj::READY_NOW;
  }

  kj::Promise<void> tell(TellContext context) override {
    listener = context.getParams().getListener();
    return kj::READY_NOW;
  }

private:
  kj::Timer& timer;
  kj::Maybe<Listener::Client> listener;
};

int main(int, char** words) {
  auto io = kj::setupAsyncIo();
  auto address = io.provider->getNetwork().parseAddress(words[1]).wait(io.waitScope);
  auto stream = address->listen()->accept().wait(io.waitScope);
  auto side = capnp::rpc::twoparty::Side::SERVER;
  capnp::TwoPartyClient peer(*stream, kj::heap<LibraryObject>(io.provider->getTimer()), side);
  peer.onDisconnect().wait(io.waitScope);
}
