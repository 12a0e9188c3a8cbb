//! Conversations with a planted fault, which sits between the runtime and the recorder: a call that goes to another
//! object, two calls in another order, a capability that is released too early, and a frame that is changed on its way.

#[allow(dead_code)]
mod world;

use capnp::capability::Promise;
use capnp::message::{Builder, HeapAllocator};
use capnp::{any_pointer, Error};
use capnp_rpc::rpc_capnp::{message, message_target};
use capnp_rpc::rpc_twoparty_capnp::Side;
use capnp_rpc::{Connection, IncomingMessage, OutgoingMessage, VatNetwork};
use futures::{FutureExt, TryFutureExt};
use std::cell::RefCell;
use std::rc::Rc;
use vataudit_recorder::{Recorder, RpcSystem};
use world::{host, next_by, run_all, streams, Client, Stream, World};

fn main() {
    run_all(&[
        ("wrong_object", wrong_object),
        ("exchanged", exchanged),
        ("early_release", early_release),
        ("changed", changed),
    ]);
}

/// What a faulty network does to the messages that pass it.
#[derive(Clone, Copy, PartialEq)]
enum Fault {
    /// The runtime gets each call to an export as one to the next export.
    WrongObject,
    /// The runtime gets the first two calls of `next` in the other order.
    Exchanged,
    /// Import 0 is released before the first call of `next`.
    EarlyRelease,
}

const NEXT: u16 = 0;

/// A network between the runtime and the recorder's.
struct Faulty {
    inner: Box<dyn VatNetwork<Side>>,
    fault: Fault,
}

struct FaultyConnection {
    inner: Box<dyn Connection<Side>>,
    fault: Fault,
    held: Rc<RefCell<Held>>,
}

#[derive(Default)]
struct Held {
    first: Option<Box<dyn IncomingMessage>>,
    is_done: bool,
}

impl VatNetwork<Side> for Faulty {
    fn connect(&mut self, side: Side) -> Option<Box<dyn Connection<Side>>> {
        let inner = self.inner.connect(side)?;
        Some(faulty(inner, self.fault))
    }

    fn accept(&mut self) -> Promise<Box<dyn Connection<Side>>, Error> {
        let fault = self.fault;
        let accepted = self.inner.accept();
        Promise::from_future(accepted.map_ok(move |inner| faulty(inner, fault)))
    }

    fn drive_until_shutdown(&mut self) -> Promise<(), Error> {
        self.inner.drive_until_shutdown()
    }
}

fn faulty(inner: Box<dyn Connection<Side>>, fault: Fault) -> Box<dyn Connection<Side>> {
    Box::new(FaultyConnection {
        inner,
        fault,
        held: Rc::default(),
    })
}

impl Connection<Side> for FaultyConnection {
    fn get_peer_vat_id(&self) -> Side {
        self.inner.get_peer_vat_id()
    }

    fn new_outgoing_message(&mut self, size: u32) -> Box<dyn OutgoingMessage> {
        if self.fault != Fault::EarlyRelease {
            return self.inner.new_outgoing_message(size);
        }
        Box::new(Releasing {
            release: self.inner.new_outgoing_message(size),
            inner: self.inner.new_outgoing_message(size),
            held: self.held.clone(),
        })
    }

    fn receive_incoming_message(&mut self) -> Promise<Option<Box<dyn IncomingMessage>>, Error> {
        let fault = self.fault;
        let held = self.held.clone();
        if let Some(first) = take_held(&held) {
            return Promise::ok(Some(first));
        }
        let first = self.inner.receive_incoming_message();
        if fault == Fault::WrongObject {
            return Promise::from_future(first.map_ok(|came| came.map(redirected)));
        }
        // The runtime asks for the next message when it has acted on this one: so the one that is held stands for none.
        Promise::from_future(first.map_ok(move |came| match came {
            Some(came) if fault == Fault::Exchanged => Some(exchanged_with(&held, came)),
            came => came,
        }))
    }

    fn shutdown(&mut self, result: capnp::Result<()>) -> Promise<(), Error> {
        self.inner.shutdown(result)
    }
}

fn take_held(held: &Rc<RefCell<Held>>) -> Option<Box<dyn IncomingMessage>> {
    let mut held = held.borrow_mut();
    match held.is_done {
        true => held.first.take(),
        false => None,
    }
}

/// The first call of `next` is held, and a message that nobody minds is given in its place.
fn exchanged_with(
    held: &Rc<RefCell<Held>>,
    came: Box<dyn IncomingMessage>,
) -> Box<dyn IncomingMessage> {
    if !is_next(came.get_body()) {
        return came;
    }
    let mut held = held.borrow_mut();
    if held.first.is_none() && !held.is_done {
        held.first = Some(came);
        return Box::new(Replaced {
            message: nothing(),
            _inner: None,
        });
    }
    held.is_done = true;
    came
}

/// A message of no consequence: a Resolve of a promise that nobody has.
fn nothing() -> Builder<HeapAllocator> {
    let mut message = Builder::new_default();
    let root: message::Builder<'_> = message.init_root();
    let mut resolve = root.init_resolve();
    resolve.set_promise_id(1000);
    resolve.init_exception();
    message
}

fn is_next(body: capnp::Result<any_pointer::Reader<'_>>) -> bool {
    let root = body.and_then(|body| body.get_as::<message::Reader<'_>>());
    match root.map(|root| root.which()) {
        Ok(Ok(message::Call(Ok(call)))) => call.get_method_id() == NEXT,
        _ => false,
    }
}

/// What the runtime gets in the place of a message that came.
struct Replaced {
    message: Builder<HeapAllocator>,
    _inner: Option<Box<dyn IncomingMessage>>,
}

impl IncomingMessage for Replaced {
    fn get_body(&self) -> capnp::Result<any_pointer::Reader<'_>> {
        self.message.get_root_as_reader()
    }
}

fn redirected(inner: Box<dyn IncomingMessage>) -> Box<dyn IncomingMessage> {
    let mut message = Builder::new_default();
    let is_redirected = inner
        .get_body()
        .and_then(|body| message.set_root(body))
        .and_then(|()| redirect(&mut message));
    match is_redirected {
        Ok(true) => Box::new(Replaced {
            message,
            _inner: Some(inner),
        }),
        _ => inner,
    }
}

fn redirect(message: &mut Builder<HeapAllocator>) -> capnp::Result<bool> {
    let root: message::Reader<'_> = message.get_root_as_reader()?;
    let id = match root.which()? {
        message::Call(call) => match call?.get_target()?.which()? {
            message_target::ImportedCap(id) => id,
            _ => return Ok(false),
        },
        _ => return Ok(false),
    };
    let root: message::Builder<'_> = message.get_root()?;
    if let message::Call(call) = root.which()? {
        call?.get_target()?.set_imported_cap(id + 1);
    }
    Ok(true)
}

/// A message before which import 0 is released, if it is the first call of `next`.
struct Releasing {
    release: Box<dyn OutgoingMessage>,
    inner: Box<dyn OutgoingMessage>,
    held: Rc<RefCell<Held>>,
}

impl OutgoingMessage for Releasing {
    fn get_body(&mut self) -> capnp::Result<any_pointer::Builder<'_>> {
        self.inner.get_body()
    }

    fn get_body_as_reader(&self) -> capnp::Result<any_pointer::Reader<'_>> {
        self.inner.get_body_as_reader()
    }

    fn send(mut self: Box<Self>) -> Sent {
        let is_next = is_next(self.inner.get_body_as_reader());
        if is_next && !std::mem::replace(&mut self.held.borrow_mut().is_done, true) {
            if let Ok(body) = self.release.get_body() {
                let root: message::Builder<'_> = body.init_as();
                let mut release = root.init_release();
                release.set_id(0);
                release.set_reference_count(1);
            }
            let _ = self.release.send();
        }
        self.inner.send()
    }

    fn take(self: Box<Self>) -> Builder<HeapAllocator> {
        self.inner.take()
    }
}

type Sent = (
    Promise<Rc<Builder<HeapAllocator>>, Error>,
    Rc<Builder<HeapAllocator>>,
);

/// One end of a connection with a fault.
fn faulty_end(
    recorder: &Recorder,
    (reader, writer): Stream,
    side: Side,
    fault: Fault,
    object: Option<Client>,
) -> RpcSystem {
    let network = recorder.network(reader, writer, side, Default::default(), 0);
    let end = network.end();
    let faulty = Faulty {
        inner: Box::new(network),
        fault,
    };
    recorder.rpc_system_around(Box::new(faulty), &end, object.map(|object| object.client))
}

/// Vat 1 calls an object of vat 2, whose runtime gives the call to another one.
fn wrong_object(world: World) {
    let (first, second) = (world.recorder(1), world.recorder(2));
    let (near, far) = streams();
    let object = host(&second, 0);
    let system = faulty_end(&second, far, Side::Server, Fault::WrongObject, Some(object));
    world.turns.spawn(system.map(|_| ()));
    let (counter, _) = world.ask(&first, near, 0);
    world.next(&counter, 1);
    let made = world.wait(counter.make_request().send().promise);
    let made = made.expect("make succeeds");
    let other: Client = made
        .get()
        .expect("results")
        .capability(0)
        .expect("a counter");
    assert_ne!(world.next(&other, 1), 101);
}

/// Two calls through one reference, which vat 2's runtime handles in the other order.
fn exchanged(world: World) {
    let (first, second) = (world.recorder(1), world.recorder(2));
    let (near, far) = streams();
    let object = host(&second, 0);
    let system = faulty_end(&second, far, Side::Server, Fault::Exchanged, Some(object));
    world.turns.spawn(system.map(|_| ()));
    let (counter, _) = world.ask(&first, near, 0);
    let one = next_by(&counter, 1);
    let two = next_by(&counter, 10);
    assert_eq!(world.value(two), 10);
    assert_eq!(world.value(one), 11);
}

/// Vat 1 releases what it then calls.
fn early_release(world: World) {
    let (first, second) = (world.recorder(1), world.recorder(2));
    let (near, far) = streams();
    world.serve(&second, far, 0, host(&second, 0));
    let mut system = faulty_end(&first, near, Side::Client, Fault::EarlyRelease, None);
    let counter: Client = system.bootstrap(Side::Server);
    world.turns.spawn(system.map(|_| ()));
    world.settle();
    let _ = world.wait(next_by(&counter, 1));
}

/// A byte of a call's parameters is another one when it comes to vat 2.
fn changed(world: World) {
    let (first, second) = (world.recorder(1), world.recorder(2));
    let (near, (reader, writer)) = streams();
    world.serve_changed(&second, reader, writer, host(&second, 0));
    let (counter, _) = world.ask(&first, near, 0);
    world.settle();
    assert_eq!(world.next(&counter, 0x5a5a_5a5a), 0x5a5a_5a5b);
}
