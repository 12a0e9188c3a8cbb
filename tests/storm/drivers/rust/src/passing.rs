//! A network that notes in which order the messages of a vat pass: which connection's next message is handed to the
//! transport, and which one's next message comes to the runtime.

use capnp::capability::Promise;
use capnp::message::{Builder, HeapAllocator};
use capnp::{any_pointer, Error};
use capnp_rpc::rpc_twoparty_capnp::Side;
use capnp_rpc::{IncomingMessage, OutgoingMessage};
use futures::TryFutureExt;
use std::cell::RefCell;
use std::fs::File;
use std::io::Write;
use std::path::Path;
use std::rc::Rc;

/// The order of a vat's messages on all its connections: a line `sent C` or `received C` for each.
#[derive(Clone)]
pub struct Order(Rc<RefCell<File>>);

impl Order {
    pub fn new(path: &Path) -> Order {
        let file = File::create(path).expect("the file of an order can be made");
        Order(Rc::new(RefCell::new(file)))
    }

    fn note(&self, what: &str, connection: u32) {
        let line = format!("{} {}\n", what, connection);
        let written = self.0.borrow_mut().write_all(line.as_bytes());
        written.expect("the order can be written");
    }
}

/// A network of the runtime's, or of the recorder's, whose messages are noted.
pub struct Network {
    pub inner: Box<dyn capnp_rpc::VatNetwork<Side>>,
    pub order: Order,
    pub connection: u32,
}

impl Network {
    fn noted(
        inner: Box<dyn capnp_rpc::Connection<Side>>,
        order: Order,
        number: u32,
    ) -> Box<dyn capnp_rpc::Connection<Side>> {
        Box::new(Connection {
            inner,
            order,
            number,
        })
    }
}

impl capnp_rpc::VatNetwork<Side> for Network {
    fn connect(&mut self, side: Side) -> Option<Box<dyn capnp_rpc::Connection<Side>>> {
        let inner = self.inner.connect(side)?;
        Some(Network::noted(inner, self.order.clone(), self.connection))
    }

    fn accept(&mut self) -> Promise<Box<dyn capnp_rpc::Connection<Side>>, Error> {
        let (order, number) = (self.order.clone(), self.connection);
        let accepted = self.inner.accept();
        Promise::from_future(accepted.map_ok(move |inner| Network::noted(inner, order, number)))
    }

    fn drive_until_shutdown(&mut self) -> Promise<(), Error> {
        self.inner.drive_until_shutdown()
    }
}

struct Connection {
    inner: Box<dyn capnp_rpc::Connection<Side>>,
    order: Order,
    number: u32,
}

impl capnp_rpc::Connection<Side> for Connection {
    fn get_peer_vat_id(&self) -> Side {
        self.inner.get_peer_vat_id()
    }

    fn new_outgoing_message(&mut self, size: u32) -> Box<dyn OutgoingMessage> {
        Box::new(Outgoing {
            inner: self.inner.new_outgoing_message(size),
            order: self.order.clone(),
            number: self.number,
        })
    }

    // The runtime acts on a message in the poll in which it gets it.
    fn receive_incoming_message(&mut self) -> Promise<Option<Box<dyn IncomingMessage>>, Error> {
        let (order, number) = (self.order.clone(), self.number);
        let coming = self.inner.receive_incoming_message();
        Promise::from_future(coming.map_ok(move |came| {
            if came.is_some() {
                order.note("received", number);
            }
            came
        }))
    }

    fn shutdown(&mut self, result: capnp::Result<()>) -> Promise<(), Error> {
        self.inner.shutdown(result)
    }
}

struct Outgoing {
    inner: Box<dyn OutgoingMessage>,
    order: Order,
    number: u32,
}

impl OutgoingMessage for Outgoing {
    fn get_body(&mut self) -> capnp::Result<any_pointer::Builder<'_>> {
        self.inner.get_body()
    }

    fn get_body_as_reader(&self) -> capnp::Result<any_pointer::Reader<'_>> {
        self.inner.get_body_as_reader()
    }

    fn send(self: Box<Self>) -> (Promise<Rc<Message>, Error>, Rc<Message>) {
        self.order.note("sent", self.number);
        self.inner.send()
    }

    fn take(self: Box<Self>) -> Message {
        self.inner.take()
    }
}

type Message = Builder<HeapAllocator>;
