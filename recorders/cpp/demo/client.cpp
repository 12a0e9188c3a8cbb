// A reader: reads a book of the library at the address given, orders another, and reads it when it has come.

#include "library.capnp.h"

#include <capnp/rpc-twoparty.h>
#include <kj/async-io.h>
#include <kj/debug.h>
#include <cstdio>

class ListenerObject: public Listener::Server {
public:
  kj::Promise<void> arrived(ArrivedContext context) override {
    printf("arrived: %s\n", context.getParams().getTitle().cStr());
    return kj::READY_NOW;
  }
};

int main(int, char** words) {
  auto io = kj::setupAsyncIo();
  auto address = io.provider->getNetwork().parseAddress(words[1]).wait(io.waitScope);
  auto stream = address->connect().wait(io.waitScope);
  capnp::TwoPartyClient client(*stream);
  auto library = client.bootstrap().castAs<Library>();

  // A pipelined call: `read` goes out before `find` has returned.
  auto find = library.findRequest();
  find.setTitle("Robust Composition");
  auto text = find.send().getBook().readRequest().send().wait(io.waitScope);
  printf("%s\n", text.getText().cStr());

  // A callback: the library calls an object of this program.
  auto tell = library.tellRequest();
  tell.setListener(kj::heap<ListenerObject>());
  tell.send().wait(io.waitScope);

  // A promise: `read` waits at the library until the book has come.
  auto order = library.orderRequest();
  order.setTitle("Capability Myths Demolished");
  auto book = order.send().wait(io.waitScope).getBook();
  printf("%s\n", book.readRequest().send().wait(io.waitScope).getText().cStr());
}
