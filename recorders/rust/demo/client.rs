//! A reader: reads a book of the library at the address given, orders another, and reads it when it has come.

#[allow(dead_code)]
mod library;

use async_io::Async;
use capnp::capability::{FromClientHook, Params, Promise, Results};
use capnp::Error;
use capnp_rpc::pry;
use capnp_rpc::rpc_twoparty_capnp::Side;
use futures::{AsyncReadExt, FutureExt};
use library::{book, library as shelf, listener};
use std::os::unix::net::UnixStream;
use support::fields::Owned;

struct Listener;

impl listener::Server for Listener {
    fn arrived(
        &mut self,
        params: Params<Owned<0, 1>>,
        _results: Results<Owned<0, 0>>,
    ) -> Promise<(), Error> {
        println!("arrived: {}", pry!(pry!(params.get()).text(0)));
        Promise::ok(())
    }
}

async fn read(book: &book::Client) -> Result<(), Error> {
    let response = book.read_request().send().promise.await?;
    println!("{}", response.get()?.text(0)?);
    Ok(())
}

async fn visit(library: shelf::Client) -> Result<(), Error> {
    // A pipelined call: `read` goes out before `find` has returned.
    let mut find = library.find_request();
    find.get().set_text(0, "Robust Composition");
    let found = find.send();
    read(&book::Client::new(found.pipeline.capability(0).hook)).await?;

    // A callback: the library calls an object of this program.
    let mut tell = library.tell_request();
    let listener: listener::Client = capnp_rpc::new_client(Listener);
    tell.get().set_capability(0, listener.client);
    tell.send().promise.await?;

    // A promise: `read` waits at the library until the book has come.
    let mut order = library.order_request();
    order.get().set_text(0, "Capability Myths Demolished");
    let ordered = order.send().promise.await?;
    let book: Option<book::Client> = ordered.get()?.capability(0);
    read(&book.ok_or_else(|| Error::failed("no book".to_string()))?).await
}

fn main() -> Result<(), Box<dyn std::error::Error>> {
    let address = std::env::args().nth(1).ok_or("an address is missing")?;
    async_io::block_on(async {
        let stream = Async::<UnixStream>::connect(address).await?;
        let (reader, writer) = stream.split();
        let network =
            capnp_rpc::twoparty::VatNetwork::new(reader, writer, Side::Client, Default::default());
        let mut rpc_system = capnp_rpc::RpcSystem::new(Box::new(network), None);
        let library: shelf::Client = rpc_system.bootstrap(Side::Server);
        let visit = visit(library).boxed_local();
        match futures::future::select(visit, rpc_system).await {
            futures::future::Either::Left((outcome, _)) => Ok(outcome?),
            futures::future::Either::Right((outcome, _)) => Ok(outcome?),
        }
    })
}
