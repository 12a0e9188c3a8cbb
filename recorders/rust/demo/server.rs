//! A library: it serves one client at the address given, and ends when the client is gone.

#[allow(dead_code)]
mod library;

use async_io::{Async, Timer};
use capnp::capability::{self, Params, Promise, Results};
use capnp::Error;
use capnp_rpc::pry;
use capnp_rpc::rpc_twoparty_capnp::Side;
use futures::{AsyncReadExt, FutureExt};
use library::{book, library as shelf, listener};
use std::os::unix::net::UnixListener;
use std::time::Duration;
use support::fields::Owned;

struct Book {
    title: String,
}

impl book::Server for Book {
    fn read(
        &mut self,
        _params: Params<Owned<0, 0>>,
        mut results: Results<Owned<0, 1>>,
    ) -> Promise<(), Error> {
        let text = format!("The text of {}", self.title);
        results.get().set_text(0, &text);
        Promise::ok(())
    }
}

#[derive(Clone)]
struct Books;

impl Books {
    fn make(&self, title: &str) -> capability::Client {
        let title = title.to_string();
        let book: book::Client = capnp_rpc::new_client(Book { title });
        book.client
    }
}

struct Library {
    books: Books,
    listener: Option<listener::Client>,
}

impl shelf::Server for Library {
    fn find(
        &mut self,
        params: Params<Owned<0, 1>>,
        mut results: Results<Owned<0, 1>>,
    ) -> Promise<(), Error> {
        let book = self.books.make(pry!(pry!(params.get()).text(0)));
        results.get().set_capability(0, book);
        Promise::ok(())
    }

    fn order(
        &mut self,
        params: Params<Owned<0, 1>>,
        mut results: Results<Owned<0, 1>>,
    ) -> Promise<(), Error> {
        let title = pry!(pry!(params.get()).text(0)).to_string();
        let books = self.books.clone();
        let listener = pry!(self
            .listener
            .clone()
            .ok_or_else(|| Error::failed("nobody to tell".to_string())));
        let arrival = async move {
            Timer::after(Duration::from_millis(50)).await;
            let mut request = listener.arrived_request();
            request.get().set_text(0, &title);
            request.send().promise.await?;
            Ok(books.make(&title))
        };
        let arrival = arrival.boxed_local();
        let book: book::Client = capnp_rpc::new_promise_client(arrival);
        results.get().set_capability(0, book.client);
        Promise::ok(())
    }

    fn tell(
        &mut self,
        params: Params<Owned<0, 1>>,
        _results: Results<Owned<0, 0>>,
    ) -> Promise<(), Error> {
        self.listener = pry!(params.get()).capability(0);
        Promise::ok(())
    }
}

fn main() -> Result<(), Box<dyn std::error::Error>> {
    let address = std::env::args().nth(1).ok_or("an address is missing")?;
    async_io::block_on(async {
        let (stream, _) = Async::<UnixListener>::bind(address)?.accept().await?;
        let (reader, writer) = stream.split();
        let network =
            capnp_rpc::twoparty::VatNetwork::new(reader, writer, Side::Server, Default::default());
        let library: shelf::Client = capnp_rpc::new_client(Library {
            books: Books,
            listener: None,
        });
        let rpc_system = capnp_rpc::RpcSystem::new(Box::new(network), Some(library.client));
        Ok(rpc_system.await?)
    })
}
