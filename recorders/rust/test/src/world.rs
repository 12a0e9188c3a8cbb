//! The object that the conversations call, and two or three vats in one process. The schema is that of
//! recorders/cpp/test/test.capnp.

use capnp::capability::{self, FromClientHook, Params, Promise, Results};
use capnp::Error;
use capnp_rpc::pry;
use capnp_rpc::rpc_twoparty_capnp::Side;
use futures::channel::oneshot;
use futures::{AsyncRead, FutureExt};
use std::cell::RefCell;
use std::path::PathBuf;
use std::pin::Pin;
use std::rc::Rc;
use std::task::{Context, Poll};
use support::fields::{Owned, Pipeline};
use support::interface;
use support::turns::{pipe, Loop, PipeReader, PipeWriter};
use vataudit_recorder::Recorder;

interface!(counter 0x9497_72aa_337b_db5c {
    next next_request 0 (1, 0) -> (1, 0);
    same same_request 1 (0, 0) -> (0, 1);
    call call_request 2 (0, 1) -> (1, 1);
    make make_request 3 (0, 0) -> (0, 2);
    fail fail_request 4 (0, 0) -> (0, 1);
    never never_request 5 (0, 0) -> (0, 1);
    hold hold_request 6 (0, 1) -> (0, 0);
    held held_request 7 (0, 0) -> (0, 1);
    later later_request 8 (0, 0) -> (0, 1);
    settle settle_request 9 (1, 0) -> (0, 0);
    pass pass_request 10 (0, 1) -> (0, 1);
    nothing nothing_request 11 (0, 0) -> (0, 0);
});

pub use counter::Client;

/// What settles a promise for a counter.
pub type Fulfiller = oneshot::Sender<Result<capability::Client, Error>>;

/// Does as its methods' names say.
struct Counter {
    recorder: Recorder,
    value: u32,
    own: Rc<RefCell<Option<Client>>>,
    kept: Option<Client>,
    fulfiller: Option<Fulfiller>,
}

/// An object of a vat.
pub fn host(recorder: &Recorder, value: u32) -> Client {
    let own = Rc::new(RefCell::new(None));
    let client: Client = recorder.new_client(Counter {
        recorder: recorder.clone(),
        value,
        own: own.clone(),
        kept: None,
        fulfiller: None,
    });
    *own.borrow_mut() = Some(client.clone());
    client
}

/// A promise of a vat, and what settles it.
pub fn promise(recorder: &Recorder) -> (Client, Fulfiller) {
    let (sender, receiver) = oneshot::channel();
    let promise = receiver.map(|outcome| {
        outcome.unwrap_or_else(|_| Err(Error::failed("the promise was dropped".to_string())))
    });
    (recorder.new_promise_client(promise), sender)
}

fn missing() -> Error {
    Error::failed("nothing is kept".to_string())
}

impl counter::Server for Counter {
    fn next(
        &mut self,
        params: Params<Owned<1, 0>>,
        mut results: Results<Owned<1, 0>>,
    ) -> Promise<(), Error> {
        self.value += pry!(params.get()).u32(0);
        results.get().set_u32(0, self.value);
        Promise::ok(())
    }

    fn same(
        &mut self,
        _params: Params<Owned<0, 0>>,
        mut results: Results<Owned<0, 1>>,
    ) -> Promise<(), Error> {
        if let Some(own) = self.own.borrow().clone() {
            results.get().set_capability(0, own.client);
        }
        Promise::ok(())
    }

    fn call(
        &mut self,
        params: Params<Owned<0, 1>>,
        mut results: Results<Owned<1, 1>>,
    ) -> Promise<(), Error> {
        let back: Client = pry!(pry!(params.get()).capability(0).ok_or_else(missing));
        let mut request = back.next_request();
        request.get().set_u32(0, 5);
        let sent = request.send();
        Promise::from_future(async move {
            let response = sent.promise.await?;
            let mut given = results.get();
            given.set_u32(0, response.get()?.u32(0));
            given.set_capability(0, back.client);
            Ok(())
        })
    }

    fn make(
        &mut self,
        _params: Params<Owned<0, 0>>,
        mut results: Results<Owned<0, 2>>,
    ) -> Promise<(), Error> {
        let made = [100, 200, 300].map(|value| host(&self.recorder, value).client);
        let [first, second, third] = made;
        let mut given = results.get();
        given.set_capability(0, first);
        given.set_capabilities(1, vec![second, third]);
        Promise::ok(())
    }

    fn fail(
        &mut self,
        _params: Params<Owned<0, 0>>,
        _results: Results<Owned<0, 1>>,
    ) -> Promise<(), Error> {
        Promise::err(Error::failed("as asked for".to_string()))
    }

    fn never(
        &mut self,
        _params: Params<Owned<0, 0>>,
        results: Results<Owned<0, 1>>,
    ) -> Promise<(), Error> {
        Promise::from_future(async move {
            futures::future::pending::<()>().await;
            drop(results);
            Ok(())
        })
    }

    fn hold(
        &mut self,
        params: Params<Owned<0, 1>>,
        _results: Results<Owned<0, 0>>,
    ) -> Promise<(), Error> {
        self.kept = pry!(params.get()).capability(0);
        Promise::ok(())
    }

    fn held(
        &mut self,
        _params: Params<Owned<0, 0>>,
        mut results: Results<Owned<0, 1>>,
    ) -> Promise<(), Error> {
        let kept = pry!(self.kept.clone().ok_or_else(missing));
        results.get().set_capability(0, kept.client);
        Promise::ok(())
    }

    fn later(
        &mut self,
        _params: Params<Owned<0, 0>>,
        mut results: Results<Owned<0, 1>>,
    ) -> Promise<(), Error> {
        let (client, fulfiller) = promise(&self.recorder);
        self.fulfiller = Some(fulfiller);
        results.get().set_capability(0, client.client);
        Promise::ok(())
    }

    fn settle(
        &mut self,
        params: Params<Owned<1, 0>>,
        _results: Results<Owned<0, 0>>,
    ) -> Promise<(), Error> {
        let outcome = match pry!(params.get()).u32(0) {
            0 => Ok(host(&self.recorder, 1000).client),
            2 => Ok(pry!(self.kept.clone().ok_or_else(missing)).client),
            _ => Err(Error::failed("broken as asked for".to_string())),
        };
        let fulfiller = pry!(self.fulfiller.take().ok_or_else(missing));
        let _ = fulfiller.send(outcome);
        Promise::ok(())
    }

    fn pass(
        &mut self,
        params: Params<Owned<0, 1>>,
        mut results: Results<Owned<0, 1>>,
    ) -> Promise<(), Error> {
        let mut counters: Vec<Client> = pry!(pry!(params.get()).capabilities(0));
        counters.reverse();
        let clients = counters.into_iter().map(|one| one.client).collect();
        results.get().set_capabilities(0, clients);
        Promise::ok(())
    }

    fn nothing(
        &mut self,
        _params: Params<Owned<0, 0>>,
        _results: Results<Owned<0, 0>>,
    ) -> Promise<(), Error> {
        Promise::ok(())
    }
}

/// The folder of the logs, and the loop in which the vats live.
pub struct World {
    pub folder: PathBuf,
    pub name: &'static str,
    pub turns: Loop,
}

/// A stream on which the first byte 5a of each piece becomes 5b.
struct Changed(PipeReader);

impl AsyncRead for Changed {
    fn poll_read(
        mut self: Pin<&mut Self>,
        context: &mut Context<'_>,
        buffer: &mut [u8],
    ) -> Poll<std::io::Result<usize>> {
        let outcome = Pin::new(&mut self.0).poll_read(context, buffer);
        if let Some(byte) = buffer.iter_mut().find(|byte| **byte == 0x5a) {
            *byte = 0x5b;
        }
        outcome
    }
}

/// One end of a stream.
pub type Stream = (PipeReader, PipeWriter);

/// Both ends of a stream.
pub fn streams() -> (Stream, Stream) {
    let (to_server, to_client) = (pipe(), pipe());
    ((to_client.0, to_server.1), (to_server.0, to_client.1))
}

impl World {
    pub fn recorder(&self, vat: u32) -> Recorder {
        let path = self.folder.join(format!("{}.vat{}.log", self.name, vat));
        Recorder::new(path, vat).expect("the log can be made")
    }

    pub fn settle(&self) {
        assert!(self.turns.settle(100_000), "the loop comes to rest");
    }

    /// Has a vat serve an object.
    pub fn serve(&self, recorder: &Recorder, stream: Stream, connection: u32, object: Client) {
        let (reader, writer) = stream;
        let network =
            recorder.network(reader, writer, Side::Server, Default::default(), connection);
        let system = recorder.rpc_system(network, Some(object.client));
        self.turns.spawn(system.map(|_| ()));
    }

    /// Has a vat serve an object over a stream on which the bytes 5a are changed.
    pub fn serve_changed(
        &self,
        recorder: &Recorder,
        reader: PipeReader,
        writer: PipeWriter,
        object: Client,
    ) {
        let reader = Changed(reader);
        let network = recorder.network(reader, writer, Side::Server, Default::default(), 0);
        let system = recorder.rpc_system(network, Some(object.client));
        self.turns.spawn(system.map(|_| ()));
    }

    /// Has a vat ask for what the other side serves. Answers that, and the number of the connection's task.
    pub fn ask(&self, recorder: &Recorder, stream: Stream, connection: u32) -> (Client, usize) {
        let (reader, writer) = stream;
        let network =
            recorder.network(reader, writer, Side::Client, Default::default(), connection);
        let mut system = recorder.rpc_system(network, None);
        let client = system.bootstrap(Side::Server);
        (client, self.turns.spawn(system.map(|_| ())))
    }

    /// The outcome of a call.
    pub fn wait<T: 'static>(&self, promise: Promise<T, Error>) -> Result<T, Error> {
        self.turns
            .wait(promise)
            .unwrap_or_else(|| Err(Error::failed("the call never ended".to_string())))
    }

    /// Calls `next`, and answers the value.
    pub fn next(&self, counter: &Client, by: u32) -> u32 {
        self.value(next_by(counter, by))
    }

    /// The value in results.
    pub fn value(&self, promise: Promise<u32, Error>) -> u32 {
        self.wait(promise).expect("the call succeeds")
    }

    /// Has a counter keep another one.
    pub fn hold(&self, at: &Client, counter: &Client) {
        let mut request = at.hold_request();
        request.get().set_capability(0, counter.clone().client);
        self.wait(request.send().promise).expect("hold succeeds");
    }

    /// Has a counter settle its promise.
    pub fn settle_promise(&self, at: &Client, how: u32) {
        let mut request = at.settle_request();
        request.get().set_u32(0, how);
        self.wait(request.send().promise).expect("settle succeeds");
    }
}

/// Calls `next` now; the value comes later.
pub fn next_by(counter: &Client, by: u32) -> Promise<u32, Error> {
    let mut request = counter.next_request();
    request.get().set_u32(0, by);
    let sent = request.send();
    Promise::from_future(async move { Ok(sent.promise.await?.get()?.u32(0)) })
}

/// The counter at a pointer of results that are still to come.
pub fn piped(pipeline: &Pipeline, at: u16) -> Client {
    Client::new(pipeline.capability(at).hook)
}

/// Vat 1 asks vat 2, over connection 0.
pub struct Two {
    pub world: World,
    pub first: Recorder,
    pub second: Recorder,
    pub counter: Client,
    pub task: usize,
}

impl Two {
    pub fn new(world: World) -> Two {
        let (first, second) = (world.recorder(1), world.recorder(2));
        let (near, far) = streams();
        world.serve(&second, far, 0, host(&second, 0));
        let (counter, task) = world.ask(&first, near, 0);
        Two {
            world,
            first,
            second,
            counter,
            task,
        }
    }
}

impl std::ops::Deref for Two {
    type Target = World;
    fn deref(&self) -> &World {
        &self.world
    }
}

/// Vat 1 asks vat 2 over connection 0, and vat 2 gives it what vat 3 serves over connection 1.
pub struct Three {
    pub world: World,
    pub first: Recorder,
    pub counter: Client,
}

impl Three {
    pub fn new(world: World) -> Three {
        let recorders = [1, 2, 3].map(|vat| world.recorder(vat));
        let [first, second, third] = recorders;
        let ((near, near_end), (far, far_end)) = (streams(), streams());
        world.serve(&third, far_end, 1, host(&third, 0));
        let (given, _) = world.ask(&second, far, 1);
        world.serve(&second, near_end, 0, given);
        let (counter, _) = world.ask(&first, near, 0);
        Three {
            world,
            first,
            counter,
        }
    }
}

impl std::ops::Deref for Three {
    type Target = World;
    fn deref(&self) -> &World {
        &self.world
    }
}

/// A conversation: its name, and what runs it.
pub type Conversation = (&'static str, fn(World));

/// Runs the conversations of a program into the folder that its command line names.
pub fn run_all(conversations: &[Conversation]) {
    let folder = PathBuf::from(std::env::args().nth(1).expect("a folder"));
    for (name, conversation) in conversations {
        conversation(World {
            folder: folder.clone(),
            name,
            turns: Loop::default(),
        });
    }
}
