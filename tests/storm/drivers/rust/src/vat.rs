//! A vat as the scripts have it: what it holds under which name, and what each line of a script does with that.

use crate::recording::{Recording, System};
use crate::streams::Tap;
use crate::thing::{self, Asked, Given, Object, CALL, CAP, K, NAME, THING};
use capnp::capability::{Client, Request};
use capnp::Error;
use capnp_rpc::rpc_twoparty_capnp::Side;
use futures::channel::oneshot;
use futures::{AsyncRead, AsyncWrite, FutureExt};
use std::cell::RefCell;
use std::collections::BTreeMap;
use std::fs::File;
use std::path::{Path, PathBuf};
use std::rc::Rc;
use support::fields::{Capability, Pipeline, Sent};
use support::turns::Loop;

type Tell = Rc<dyn Fn(&str)>;

struct Call {
    pipeline: Option<Pipeline>,
    task: Option<usize>,
    is_ended: bool,
}

#[derive(Default)]
struct Names {
    held: BTreeMap<String, Capability>,
    own: BTreeMap<String, Capability>,
    calls: BTreeMap<String, Call>,
    promises: BTreeMap<String, oneshot::Sender<Result<Client, Error>>>,
    slow: BTreeMap<String, oneshot::Sender<()>>,
}

struct Inside {
    number: u32,
    folder: PathBuf,
    recording: Recording,
    turns: Loop,
    tell: Tell,
    names: RefCell<Names>,
    systems: RefCell<BTreeMap<u32, (Side, System)>>,
    bootstraps: RefCell<BTreeMap<u32, Capability>>,
}

/// One vat of a script.
#[derive(Clone)]
pub struct Vat(Rc<Inside>);

impl Vat {
    /// Writes FOLDER/vatN.log. What happens is told line by line.
    pub fn new(number: u32, folder: &Path, is_recorded: bool, turns: &Loop, tell: Tell) -> Vat {
        let log = folder.join(format!("vat{}.log", number));
        let order = folder.join(format!("order.vat{}", number));
        let vat = Vat(Rc::new(Inside {
            number,
            folder: folder.to_path_buf(),
            recording: Recording::new(is_recorded, &log, &order, number),
            turns: turns.clone(),
            tell,
            names: RefCell::default(),
            systems: RefCell::default(),
            bootstraps: RefCell::default(),
        }));
        // A recorded run may have its contents elsewhere in its frames than an unrecorded one: so trees are compared.
        File::create(folder.join(format!("copied.vat{}", number))).expect("a file can be made");
        let own = vat.own_name();
        let client = vat.host(&own);
        vat.hold(&own, client);
        vat
    }

    /// Joins this vat to another one. What it writes is kept in FOLDER/linkC.vatN.
    pub fn join<R, W>(&self, connection: u32, peer: u32, side: Side, (reader, writer): (R, W))
    where
        R: AsyncRead + Unpin + 'static,
        W: AsyncWrite + Unpin + 'static,
    {
        let inside = &self.0;
        let name = format!("link{}.vat{}", connection, inside.number);
        let tap = Tap::new(writer, &inside.folder.join(name));
        let bootstrap = self
            .own_client(&self.own_name())
            .expect("a vat has its object");
        let system = inside
            .recording
            .system((reader, tap), side, connection, bootstrap);
        inside.systems.borrow_mut().insert(peer, (side, system));
    }

    // A system has to be polled to go on, and then it gives no bootstrap object any more: so the vat asks for all of
    // them before.
    fn bootstrap(&self, peer: u32) -> Option<Capability> {
        self.0.bootstraps.borrow_mut().remove(&peer)
    }

    /// Asks each peer for its bootstrap object, and has the connections go on.
    pub fn start(&self) {
        let systems = std::mem::take(&mut *self.0.systems.borrow_mut());
        for (peer, (side, mut system)) in systems {
            let other = match side {
                Side::Client => Side::Server,
                Side::Server => Side::Client,
            };
            let bootstrap = system.bootstrap(other);
            self.0.bootstraps.borrow_mut().insert(peer, bootstrap);
            let vat = self.clone();
            self.0.turns.spawn(system.run().map(move |outcome| {
                let how = outcome
                    .err()
                    .map_or(String::new(), |error| one_line(&error));
                vat.say("lost", &format!("{} {}", peer, how));
            }));
        }
    }

    /// Tells what happened.
    pub fn say(&self, what: &str, of: &str) {
        (self.0.tell)(&format!("{} {} {}", what, self.0.number, of));
    }

    fn own_name(&self) -> String {
        format!("o{}", self.0.number)
    }

    /// Makes an object.
    pub fn host(&self, name: &str) -> Capability {
        let client = self.0.recording.client(Object::new(self, name));
        let mut names = self.0.names.borrow_mut();
        names.own.insert(name.to_string(), client.clone());
        client
    }

    /// An object of the vat's own.
    pub fn own_client(&self, name: &str) -> Option<Capability> {
        self.0.names.borrow().own.get(name).cloned()
    }

    /// Keeps a capability under a name, where that has none.
    pub fn hold(&self, name: &str, client: Capability) {
        let mut names = self.0.names.borrow_mut();
        names.held.entry(name.to_string()).or_insert(client);
    }

    /// What is held under a name: an object or a promise of its own, a peer's bootstrap object (`bVW`), the field of a
    /// call (`c.f`), the capability of its response (`c.r`), what it was given to keep (`c.h`).
    pub fn find(&self, name: &str) -> Option<Capability> {
        let held = self.0.names.borrow().held.get(name).cloned();
        if held.is_some() {
            return held;
        }
        let found = match name.strip_suffix(".f") {
            Some(call) => self.field_of(call)?,
            None => {
                let peer = name.strip_prefix(&format!("b{}", self.0.number))?;
                self.bootstrap(peer.parse().ok()?)?
            }
        };
        self.hold(name, found.clone());
        Some(found)
    }

    fn field_of(&self, call: &str) -> Option<Capability> {
        let names = self.0.names.borrow();
        let pipeline = names.calls.get(call)?.pipeline.as_ref()?;
        Some(Capability(pipeline.capability(0)))
    }

    /// Ends when the script releases the call of this name.
    pub fn wait_for(&self, name: &str) -> oneshot::Receiver<()> {
        let (sender, receiver) = oneshot::channel();
        let mut names = self.0.names.borrow_mut();
        names.slow.insert(name.to_string(), sender);
        receiver
    }

    /// The calls that never ended.
    pub fn tell_stuck(&self) {
        let names = self.0.names.borrow();
        for (name, _) in names.calls.iter().filter(|(_, call)| !call.is_ended) {
            self.say("stuck", name);
        }
    }

    /// Lets go of all that has a name.
    pub fn drop_all(&self) {
        let names = std::mem::take(&mut *self.0.names.borrow_mut());
        let bootstraps = std::mem::take(&mut *self.0.bootstraps.borrow_mut());
        drop(names.promises);
        drop(names.slow);
        for call in names.calls.values() {
            if let Some(task) = call.task {
                self.0.turns.cancel(task);
            }
        }
        drop(names.calls);
        drop(names.held);
        drop(names.own);
        drop(bootstraps);
    }

    /// Does what a line says, and answers whether it named only what is there.
    pub fn run(&self, words: &[String]) -> bool {
        let name = word(words, 2);
        match words[0].as_str() {
            "host" => {
                let client = self.host(name);
                self.hold(name, client);
                true
            }
            "vow" => self.vow(name),
            "fulfil" => self.fulfil(name, word(words, 3)),
            "break" => self.settle_promise(name, Err(Error::failed("broken as asked for".into()))),
            "call" | "only" => self.call(words).is_some(),
            "stream" => self.stream(words).is_some(),
            "cancel" => self.cancel(name),
            "drop" => {
                self.say("drop", name);
                let held = self.0.names.borrow_mut().held.remove(name);
                held.is_some()
            }
            "release" => {
                let slow = self.0.names.borrow_mut().slow.remove(name);
                slow.map(|slow| slow.send(())).is_some()
            }
            verb => panic!("no such line: {}", verb),
        }
    }

    fn cancel(&self, name: &str) -> bool {
        let call = self.0.names.borrow_mut().calls.remove(name);
        if let Some(task) = call.as_ref().and_then(|call| call.task) {
            self.0.turns.cancel(task);
        }
        call.is_some()
    }

    fn vow(&self, name: &str) -> bool {
        let (sender, receiver) = oneshot::channel();
        let promise = receiver.map(|outcome| {
            outcome.unwrap_or_else(|_| Err(Error::failed("the promise was dropped".to_string())))
        });
        let client = self.0.recording.promise(promise);
        self.0
            .names
            .borrow_mut()
            .promises
            .insert(name.to_string(), sender);
        // Nothing polls a promise but who waits for it: this does.
        let resolved = client.0.when_resolved();
        self.0.turns.spawn(resolved.map(|_| ()));
        self.hold(name, client);
        true
    }

    fn fulfil(&self, name: &str, became: &str) -> bool {
        if !self.0.names.borrow().promises.contains_key(name) {
            return false;
        }
        match self.find(became) {
            Some(client) => self.settle_promise(name, Ok(client.0)),
            None => false,
        }
    }

    fn settle_promise(&self, name: &str, outcome: Result<Client, Error>) -> bool {
        let promise = self.0.names.borrow_mut().promises.remove(name);
        promise.map(|promise| promise.send(outcome)).is_some()
    }

    // `call V NAME TARGET MODE [OPERAND|-] [K]`. OPERAND/NAME of a tail call: it asks OPERAND for what its vat calls
    // NAME, and as a slowtail it gets that only when the call is released.
    fn call(&self, words: &[String]) -> Option<()> {
        let (name, mode) = (word(words, 2), word(words, 4));
        let target = self.find(word(words, 3))?;
        if mode == "mute" {
            self.say("sent", &format!("{} mute", word(words, 3)));
            let request: Request<Given, Given> =
                target.0.new_call(THING, thing::number_of("mute"), None);
            self.wait_for_end(name, request.send());
            return Some(());
        }
        let request = self.asked(words, &target)?;
        let number = number_of_call(word(words, 6));
        let sent = request.send();
        self.say("sent", &format!("{} {}{}", word(words, 3), mode, number));
        self.wait_for_response(name, sent, words[0] == "only");
        Some(())
    }

    fn asked(&self, words: &[String], target: &Capability) -> Option<Request<Asked, Given>> {
        let (name, mode) = (word(words, 2), word(words, 4));
        let (operand, behind) = match word(words, 5).split_once('/') {
            Some((operand, behind)) => (operand, behind),
            None => (word(words, 5), ""),
        };
        let takes = matches!(
            mode,
            "echo" | "hold" | "slowecho" | "tail" | "slowtail" | "callback"
        );
        let capability = match takes && operand != "-" {
            true => Some(self.find(operand)?),
            false => None,
        };
        let method = if mode == "slowtail" { "tail" } else { mode };
        let mut request: Request<Asked, Given> =
            target.0.new_call(THING, thing::number_of(method), None);
        let mut asked = request.get();
        if let Some(capability) = capability {
            asked.set_capability(CAP, capability.0);
        }
        if !behind.is_empty() {
            asked.set_text(NAME, behind);
        }
        if matches!(mode, "get" | "slowget") && operand != "-" {
            asked.set_text(NAME, operand);
        }
        if mode == "make" || mode == "hold" || mode.starts_with("slow") {
            asked.set_text(CALL, name);
        }
        if let Ok(k) = word(words, 6).parse() {
            asked.set_u32(K, k);
        }
        Some(request)
    }

    fn wait_for_response(&self, name: &str, sent: Sent, is_only: bool) {
        let Sent { promise, pipeline } = sent;
        let mut call = Call {
            pipeline: Some(pipeline),
            task: None,
            is_ended: is_only,
        };
        if !is_only {
            let (vat, of) = (self.clone(), name.to_string());
            call.task = Some(self.0.turns.spawn(async move {
                let outcome = promise.await;
                let outcome = outcome.and_then(|response| Ok(response.get()?.capability(0)));
                vat.ended(&of, outcome);
            }));
        }
        self.0
            .names
            .borrow_mut()
            .calls
            .insert(name.to_string(), call);
    }

    fn wait_for_end(&self, name: &str, sent: Sent) {
        let (vat, of) = (self.clone(), name.to_string());
        self.0.turns.spawn(async move {
            let outcome = sent.promise.await;
            vat.ended(&of, outcome.map(|_| None));
        });
    }

    fn ended(&self, name: &str, outcome: Result<Option<Capability>, Error>) {
        if let Some(call) = self.0.names.borrow_mut().calls.get_mut(name) {
            call.is_ended = true;
            call.task = None;
        }
        let how = match outcome {
            Ok(Some(capability)) => {
                self.hold(&format!("{}.r", name), capability);
                "cap".to_string()
            }
            Ok(None) => "null".to_string(),
            Err(error) => format!("failed {}", one_line(&error)),
        };
        self.say("ended", &format!("{} {}", name, how));
    }

    fn stream(&self, words: &[String]) -> Option<()> {
        let target = self.find(word(words, 2))?;
        let mut request: Request<Asked, Given> =
            target.0.new_call(THING, thing::number_of("stream"), None);
        let mut asked = request.get();
        if let Ok(k) = word(words, 3).parse() {
            asked.set_u32(K, k);
        }
        let number = number_of_call(word(words, 3));
        let (vat, sent) = (self.clone(), request.send());
        self.say("sent", &format!("{} stream{}", word(words, 2), number));
        self.0.turns.spawn(async move {
            if let Err(error) = sent.promise.await {
                vat.say("stream", &one_line(&error));
            }
        });
        Some(())
    }
}

/// A word of a line; empty where it has fewer.
pub fn word(words: &[String], at: usize) -> &str {
    words.get(at).map_or("", String::as_str)
}

fn number_of_call(word: &str) -> String {
    match word {
        "" | "0" => String::new(),
        number => format!(" {}", number),
    }
}

fn one_line(error: &Error) -> String {
    let text = error.to_string().replace('\n', " ");
    text.chars().take(300).collect()
}
