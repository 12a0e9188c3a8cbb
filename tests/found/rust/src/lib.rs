//! What the programs share: two vats in one process, joined in memory, each with an executor of its own, so that a
//! program says whose turn it is; and objects of the interface in thing.capnp, whose one method is a closure.

use capnp::capability::{Params, Promise, Results, Server};
use capnp::message::{Reader as Message, ReaderOptions};
use capnp::serialize::{self, OwnedSegments};
use capnp::{any_pointer, Error};
use capnp_rpc::rpc_twoparty_capnp::Side;
use capnp_rpc::{pry, twoparty, RpcSystem};
use futures::channel::oneshot;
use futures::executor::LocalPool;
use futures::future::RemoteHandle;
use futures::task::LocalSpawnExt;
use futures::{AsyncReadExt, FutureExt, TryFutureExt};
use std::cell::RefCell;
use std::rc::Rc;
use support::fields::{Builder, Reader};

pub use support::fields::{Capability as Thing, Sent};
pub use support::turns::{pipe, PipeReader, PipeWriter};

/// The number of the interface.
pub const THING: u64 = 0xc3a1_b2d4_e5f6_0719;

/// What a method answers: a thing, or null.
pub type Answer = Promise<Option<Thing>, Error>;

struct Object<F>(F);

impl<F: FnMut(u32, Option<Thing>) -> Answer> Server for Object<F> {
    fn dispatch_call(
        &mut self,
        _interface: u64,
        _method: u16,
        params: Params<any_pointer::Owned>,
        mut results: Results<any_pointer::Owned>,
    ) -> Promise<(), Error> {
        let asked: Reader<'_> = pry!(pry!(params.get()).get_as());
        let answer = (self.0)(asked.u32(0), asked.capability(0));
        Promise::from_future(async move {
            let answer = answer.await?;
            let mut given: Builder<'_, 0, 1> = results.get().get_as()?;
            if let Some(thing) = answer {
                given.set_capability(0, thing.0);
            }
            Ok(())
        })
    }
}

/// An object that answers each call as the closure says.
pub fn object(method: impl FnMut(u32, Option<Thing>) -> Answer + 'static) -> Thing {
    capnp_rpc::new_client(Object(method))
}

/// An object that answers each call with what it is given.
pub fn echo() -> Thing {
    object(|_, thing| Promise::ok(thing))
}

/// An object that answers null, and the numbers of the calls that it got, in their order.
pub fn noting() -> (Thing, Rc<RefCell<Vec<u32>>>) {
    let numbers = Rc::new(RefCell::new(Vec::new()));
    let noted = numbers.clone();
    let thing = object(move |number, _| {
        noted.borrow_mut().push(number);
        Promise::ok(None)
    });
    (thing, numbers)
}

/// An object that answers its one call with what it is told, when it is told.
pub fn slow() -> (Thing, oneshot::Sender<Option<Thing>>) {
    let (answer, answered) = oneshot::channel();
    let mut waiting = Some(answered.map_err(|_| Error::failed("no answer came".to_string())));
    let thing = object(move |_, _| Promise::from_future(waiting.take().expect("one call")));
    (thing, answer)
}

/// A promise for a thing, and what fulfils it.
pub fn promise() -> (Thing, oneshot::Sender<Thing>) {
    let (fulfil, coming) = oneshot::channel();
    let coming = coming.map_ok(|thing: Thing| thing.0);
    let coming = coming.map_err(|_| Error::failed("the promise was dropped".to_string()));
    (capnp_rpc::new_promise_client(coming), fulfil)
}

/// Calls a thing.
pub fn ask(target: &Thing, number: u32, thing: Option<&Thing>) -> Sent {
    let mut request = target.request::<1, 1>(THING, 0);
    let mut asked = request.get();
    asked.set_u32(0, number);
    if let Some(thing) = thing {
        asked.set_capability(0, thing.clone().0);
    }
    request.send()
}

/// What a call answers or will answer.
pub fn result_of(sent: &Sent) -> Thing {
    Thing(sent.pipeline.capability(0))
}

/// Goes on until nothing is left to do. In futures 0.3.21 `run_until_stalled` stops where a task has woken itself.
pub fn run(pool: &mut LocalPool) {
    for _ in 0..100 {
        pool.run_until_stalled();
    }
}

/// A vat with one connection.
pub struct Vat {
    /// The bootstrap object of the other end.
    pub peer: Thing,
    pool: LocalPool,
    lost: Rc<RefCell<Option<String>>>,
}

impl Vat {
    /// A vat that serves `own`.
    pub fn new(own: &Thing, side: Side, reader: PipeReader, writer: PipeWriter) -> Vat {
        let network = twoparty::VatNetwork::new(reader, writer, side, ReaderOptions::new());
        let mut system = RpcSystem::new(Box::new(network), Some(own.clone().0));
        let peer = system.bootstrap(match side {
            Side::Client => Side::Server,
            Side::Server => Side::Client,
        });
        let lost = Rc::new(RefCell::new(None));
        let (pool, why) = (LocalPool::new(), lost.clone());
        let running = system.map(move |outcome| {
            *why.borrow_mut() = outcome.err().map(|error| error.to_string());
        });
        pool.spawner().spawn_local(running).expect("it is spawned");
        Vat { peer, pool, lost }
    }

    /// Waits for the end of a call within the turns of the vat. Dropping the outcome cancels the call.
    pub fn start(&self, sent: Sent) -> RemoteHandle<Result<(), Error>> {
        let ending = sent.promise.map_ok(|_| ());
        let spawner = self.pool.spawner();
        spawner
            .spawn_local_with_handle(ending)
            .expect("it is spawned")
    }

    /// Goes on until nothing is left to do.
    pub fn run(&mut self) {
        run(&mut self.pool);
    }

    /// Why the connection was lost.
    pub fn lost(&self) -> Option<String> {
        self.lost.borrow().clone()
    }
}

/// Two vats that serve these, joined by a connection.
pub fn two_vats(first: &Thing, second: &Thing) -> (Vat, Vat) {
    let ((to_first, from_second), (to_second, from_first)) = (pipe(), pipe());
    let first = Vat::new(first, Side::Client, to_first, from_first);
    (
        first,
        Vat::new(second, Side::Server, to_second, from_second),
    )
}

/// Both go on until nothing is left to do.
pub fn settle(first: &mut Vat, second: &mut Vat) {
    for _ in 0..20 {
        first.run();
        second.run();
    }
}

/// The messages that came out of a pipe.
pub fn messages(reader: &mut PipeReader) -> Vec<Message<OwnedSegments>> {
    let mut bytes = vec![0; 65536];
    let count = reader.read(&mut bytes).now_or_never();
    let mut rest = &bytes[..count.map_or(0, |count| count.expect("a pipe is read"))];
    let mut messages = Vec::new();
    while !rest.is_empty() {
        messages.push(serialize::read_message(&mut rest, ReaderOptions::new()).expect("a message"));
    }
    messages
}

/// Ends the program: whether it shows its fault, and what came.
pub fn tell(is_shown: bool, what: &str) -> ! {
    println!("{}", what);
    std::process::exit(i32::from(is_shown))
}

/// From now on a panic of the runtime ends the program, which shows its fault so. `right` is what should be instead.
pub fn watch_for_panics(right: &'static str) {
    std::panic::set_hook(Box::new(move |info| {
        let what = info.to_string().replace('\n', " ");
        println!("{}, but the program {}", right, what);
        let place = info.location().map_or("", |place| place.file());
        std::process::exit(if place.contains("/capnp-") { 1 } else { 2 });
    }));
}
