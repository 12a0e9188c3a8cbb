//! What the program and the runtime get in the place of each other's hooks.
//!
//! The program holds a `Handle` of each capability: calls through it are recorded. The runtime gets a `Shim`, which has
//! the brand and the pointer of its own hook, by which alone it tells hooks apart: so it does what it would do without a
//! recorder, and the shim sees each call that a queue, an export or a pipeline passes on.

use crate::content::{self, Content, Met};
use crate::made::{Copied, Request};
use crate::runtime::{Table, Writing};
use crate::vat::{Call, Given, Reference, Vat};
use capnp::any_pointer;
use capnp::capability::{self, Promise};
use capnp::private::capability::{ClientHook, ParamsHook, PipelineHook, RequestHook, ResultsHook};
use capnp::traits::{Imbue, ImbueMut};
use capnp::{Error, MessageSize};
use futures::TryFutureExt;
use std::cell::RefCell;
use std::rc::Rc;

/// A hook of the runtime, with its reference.
pub(crate) struct Held {
    pub(crate) vat: Rc<Vat>,
    pub(crate) reference: Reference,
    pub(crate) hook: Box<dyn ClientHook>,
    /// The hook's brand and pointer, where its reference is noted under them.
    key: Option<(usize, usize)>,
}

impl Drop for Held {
    fn drop(&mut self) {
        if let Some(key) = self.key {
            self.vat.forget_hook(key, &self.reference);
        }
    }
}

impl Held {
    fn new(vat: &Rc<Vat>, reference: &Reference, hook: Box<dyn ClientHook>) -> Rc<Held> {
        // What lies in a shim may be an object whose method is at work: then the runtime's hook can't be asked.
        let (hook, key) = match held_by(&*hook) {
            Some(held) => (held.hook.add_ref(), held.key),
            None => {
                let key = (hook.get_brand(), hook.get_ptr());
                (hook, Some(key))
            }
        };
        if let Some(key) = key {
            vat.note_hook(key, reference);
        }
        Rc::new(Held {
            vat: vat.clone(),
            reference: reference.clone(),
            hook,
            key,
        })
    }
}

fn resolved_hook(held: &Held) -> Box<dyn ClientHook> {
    let mut hook = held.hook.add_ref();
    while let Some(next) = hook.get_resolved() {
        hook = next;
    }
    hook
}

/// Whether the hook has resolved to one of no connection: an object, a queue, or a broken capability.
pub(crate) fn is_local(held: &Held) -> bool {
    resolved_hook(held).get_brand() == 0
}

/// The reference of the hook to which this one has resolved by now: of those that its handles have, the furthest on
/// the way of the given one. None if no handle of it is left.
pub(crate) fn resolved_reference(held: &Held) -> Option<Reference> {
    let hook = resolved_hook(held);
    let known = held.vat.references_of((hook.get_brand(), hook.get_ptr()));
    let way = held.reference.way();
    let on_way = way
        .iter()
        .rev()
        .find(|one| known.iter().any(|other| Rc::ptr_eq(&one.view, &other.view)));
    on_way.or_else(|| known.first()).cloned()
}

// --------------------------------------------------------------------------- whose hook it is

thread_local! {
    /// While a hook is asked whether it is one of ours: nothing yet, or what it holds.
    static ASKED: RefCell<Option<Option<Rc<Held>>>> = RefCell::new(None);
}

/// What a hook of ours holds. The runtime's traits let nobody ask for a type, so it is asked for its brand.
fn held_by(hook: &dyn ClientHook) -> Option<Rc<Held>> {
    ASKED.with(|asked| *asked.borrow_mut() = Some(None));
    hook.get_brand();
    ASKED.with(|asked| asked.borrow_mut().take()).flatten()
}

fn say_held(held: &Rc<Held>) {
    ASKED.with(|asked| {
        if let Some(answer @ None) = asked.borrow_mut().as_mut() {
            *answer = Some(held.clone());
        }
    });
}

/// For the program: a handle of a hook that the runtime gave.
pub(crate) fn handle(
    vat: &Rc<Vat>,
    reference: &Reference,
    hook: Box<dyn ClientHook>,
) -> Box<dyn ClientHook> {
    if !vat.is_recording() {
        return hook;
    }
    Box::new(Handle(Held::new(vat, reference, hook)))
}

/// For the runtime: a shim of a hook that it gave.
fn shim(vat: &Rc<Vat>, reference: &Reference, hook: Box<dyn ClientHook>) -> Box<dyn ClientHook> {
    if !vat.is_recording() || held_by(&*hook).is_some() {
        return hook;
    }
    Box::new(Shim(Held::new(vat, reference, hook)))
}

/// For the program: a handle of a hook that has its reference already.
pub(crate) fn handle_of_known(hook: Box<dyn ClientHook>) -> Box<dyn ClientHook> {
    match held_by(&*hook) {
        Some(held) => Box::new(Handle(held)),
        None => hook,
    }
}

/// For the runtime: a shim of a hook that the program gives away, and its reference. A hook that isn't known stays as
/// it is, and recording stops.
pub(crate) fn give(vat: &Rc<Vat>, hook: &dyn ClientHook) -> (Box<dyn ClientHook>, Option<Given>) {
    let held = match held_by(hook) {
        Some(held) => held,
        None => {
            vat.stop(
                "a capability is given away that is none of `new_client`, `new_promise_client`, a parameter or a result",
            );
            return (hook.add_ref(), None);
        }
    };
    if !Rc::ptr_eq(&held.vat, vat) {
        vat.stop(
            "a capability is given away that another recorder of this process knows: it has to come over a connection",
        );
    }
    if !vat.is_recording() {
        return (held.hook.add_ref(), None);
    }
    let given = Given {
        reference: held.reference.clone(),
        held: Rc::downgrade(&held),
        promise: None,
    };
    (Box::new(Shim(held)), Some(given))
}

/// The capabilities of a message that the program wrote, as they are met in it; and the table that the runtime gets.
pub(crate) fn give_all(
    vat: &Rc<Vat>,
    table: &Table,
    content: any_pointer::Reader<'_>,
) -> (Content, Vec<Option<Given>>, Table) {
    let walked = Content::read(content, table.len());
    let (hooks, given): (Table, Vec<Option<Given>>) = table
        .iter()
        .map(|entry| match entry {
            Some(hook) => {
                let (hook, given) = give(vat, &**hook);
                (Some(hook), given)
            }
            None => (None, None),
        })
        .unzip();
    let as_met = walked
        .met
        .iter()
        .map(|one| given.get(one.index).cloned().flatten())
        .collect();
    (walked, as_met, hooks)
}

/// Copies what the program wrote to the runtime's message.
pub(crate) fn copy(vat: &Vat, message: &Writing, hooks: &Table, to: any_pointer::Builder<'_>) {
    let copied = message
        .get_root_as_reader::<any_pointer::Reader<'_>>()
        .and_then(|mut content| {
            content.imbue(hooks);
            to.set_as(content)
        });
    if let Err(error) = copied {
        vat.stop(&format!("a message can't be copied: {}", error));
    }
}

/// The table of a message that came, in which each capability has the reference that was noted for it.
pub(crate) fn take_all(
    vat: &Rc<Vat>,
    content: any_pointer::Reader<'_>,
    met: &[Met],
    given: &[Option<Given>],
) -> Table {
    let mut table = Table::new();
    for ((index, hook), given) in content::hooks(content, met).into_iter().zip(given) {
        if table.len() <= index {
            table.resize_with(index + 1, || None);
        }
        table[index] = Some(match given {
            Some(given) => handle(vat, &given.reference, hook),
            None => hook,
        });
    }
    table
}

// --------------------------------------------------------------------------- capabilities

/// A capability in the program's hands.
pub(crate) struct Handle(Rc<Held>);

impl ClientHook for Handle {
    fn add_ref(&self) -> Box<dyn ClientHook> {
        Box::new(Handle(self.0.clone()))
    }

    fn new_call(
        &self,
        interface_id: u64,
        method_id: u16,
        size_hint: Option<MessageSize>,
    ) -> capability::Request<any_pointer::Owned, any_pointer::Owned> {
        let inner = self.0.hook.new_call(interface_id, method_id, size_hint);
        if !self.0.vat.is_recording() {
            return inner;
        }
        let request = Request::new(&self.0, interface_id, method_id, inner.hook);
        capability::Request::new(Box::new(request))
    }

    fn call(
        &self,
        interface_id: u64,
        method_id: u16,
        params: Box<dyn ParamsHook>,
        results: Box<dyn ResultsHook>,
    ) -> Promise<(), Error> {
        self.0.hook.call(interface_id, method_id, params, results)
    }

    fn get_brand(&self) -> usize {
        say_held(&self.0);
        self.get_ptr()
    }

    fn get_ptr(&self) -> usize {
        &*self.0 as *const Held as usize
    }

    fn get_resolved(&self) -> Option<Box<dyn ClientHook>> {
        Some(self.0.hook.add_ref())
    }

    fn when_more_resolved(&self) -> Option<Promise<Box<dyn ClientHook>, Error>> {
        self.0.hook.when_more_resolved()
    }

    fn when_resolved(&self) -> Promise<(), Error> {
        self.0.hook.when_resolved()
    }
}

/// A capability in the runtime's hands.
struct Shim(Rc<Held>);

impl Shim {
    /// A shim of what a capability became.
    fn over(
        vat: &Rc<Vat>,
        reference: &Reference,
        hook: Box<dyn ClientHook>,
    ) -> Box<dyn ClientHook> {
        if held_by(&*hook).is_some() {
            return hook;
        }
        Box::new(Shim(Rc::new(Held {
            vat: vat.clone(),
            reference: reference.clone(),
            hook,
            key: None,
        })))
    }

    /// The call that is passed on.
    fn passed_on(
        &self,
        interface_id: u64,
        method_id: u16,
        params: &dyn ParamsHook,
    ) -> Option<Rc<Call>> {
        let vat = &self.0.vat;
        if !vat.is_recording() {
            return None;
        }
        let content = params.get().ok()?;
        let call = vat.sending(interface_id, method_id).or_else(|| {
            vat.find_by_params(interface_id, method_id, params, &|goal| {
                goal.leads_to(&self.0.reference)
            })
        })?;
        vat.keep(&call, content::place_of(content));
        Some(call)
    }
}

impl ClientHook for Shim {
    fn add_ref(&self) -> Box<dyn ClientHook> {
        Box::new(Shim(self.0.clone()))
    }

    // The runtime calls this where a capability became another one while a request was written: it copies the request.
    fn new_call(
        &self,
        interface_id: u64,
        method_id: u16,
        size_hint: Option<MessageSize>,
    ) -> capability::Request<any_pointer::Owned, any_pointer::Owned> {
        let request = self.0.hook.new_call(interface_id, method_id, size_hint);
        match self.0.vat.sending(interface_id, method_id) {
            Some(call) => {
                let copied = Copied::new(&self.0.vat, call, request.hook);
                capability::Request::new(Box::new(copied))
            }
            None => request,
        }
    }

    fn call(
        &self,
        interface_id: u64,
        method_id: u16,
        params: Box<dyn ParamsHook>,
        results: Box<dyn ResultsHook>,
    ) -> Promise<(), Error> {
        let hook = &self.0.hook;
        let call = match self.passed_on(interface_id, method_id, &*params) {
            Some(call) => call,
            None => return hook.call(interface_id, method_id, params, results),
        };
        // What goes to another vat has results that the runtime copies.
        let results = match hook.get_brand() {
            0 => results,
            _ => PassedResults::over(&self.0.vat, &call, results),
        };
        self.0.vat.while_sending(&call, || {
            hook.call(interface_id, method_id, params, results)
        })
    }

    fn get_brand(&self) -> usize {
        say_held(&self.0);
        self.0.hook.get_brand()
    }

    fn get_ptr(&self) -> usize {
        self.0.hook.get_ptr()
    }

    fn get_resolved(&self) -> Option<Box<dyn ClientHook>> {
        let resolved = self.0.hook.get_resolved()?;
        Some(Shim::over(&self.0.vat, &self.0.reference, resolved))
    }

    fn when_more_resolved(&self) -> Option<Promise<Box<dyn ClientHook>, Error>> {
        let promise = self.0.hook.when_more_resolved()?;
        // Without the hook: who waits for a capability to resolve doesn't keep it.
        let (vat, reference) = (self.0.vat.clone(), self.0.reference.clone());
        Some(Promise::from_future(
            promise.map_ok(move |hook| Shim::over(&vat, &reference, hook)),
        ))
    }

    fn when_resolved(&self) -> Promise<(), Error> {
        self.0.hook.when_resolved()
    }
}

/// The results of a call that is passed on to another vat, into which the runtime copies those that come. It gets shims
/// of the capabilities in them, as of what the program writes.
struct PassedResults {
    vat: Rc<Vat>,
    call: Rc<Call>,
    message: Writing,
    table: Table,
    is_written: bool,
    inner: Option<Box<dyn ResultsHook>>,
}

impl PassedResults {
    fn over(vat: &Rc<Vat>, call: &Rc<Call>, inner: Box<dyn ResultsHook>) -> Box<dyn ResultsHook> {
        Box::new(PassedResults {
            vat: vat.clone(),
            call: call.clone(),
            message: Writing::new_default(),
            table: Table::new(),
            is_written: false,
            inner: Some(inner),
        })
    }

    fn hand_over(&mut self) {
        let mut inner = match self.inner.take() {
            Some(inner) if self.is_written => inner,
            _ => return,
        };
        let answered = self.call.answered();
        let given = answered.results.borrow();
        // A copy has its capabilities in the order in which they are met.
        let shims = std::mem::take(&mut self.table)
            .into_iter()
            .enumerate()
            .map(|(at, hook)| match given.get(at) {
                Some(Some(given)) => hook.map(|hook| shim(&self.vat, &given.reference, hook)),
                _ => hook,
            })
            .collect();
        if let Ok(to) = inner.get() {
            copy(&self.vat, &self.message, &shims, to);
        }
    }
}

impl Drop for PassedResults {
    fn drop(&mut self) {
        self.hand_over();
    }
}

impl ResultsHook for PassedResults {
    fn get(&mut self) -> capnp::Result<any_pointer::Builder<'_>> {
        self.is_written = true;
        let mut root: any_pointer::Builder<'_> = self.message.get_root()?;
        root.imbue_mut(&mut self.table);
        Ok(root)
    }

    fn allow_cancellation(&self) {
        if let Some(inner) = &self.inner {
            inner.allow_cancellation();
        }
    }

    fn tail_call(mut self: Box<Self>, request: Box<dyn RequestHook>) -> Promise<(), Error> {
        let inner = self.inner.take().expect("results are handed over once");
        inner.tail_call(request)
    }

    fn direct_tail_call(
        mut self: Box<Self>,
        request: Box<dyn RequestHook>,
    ) -> (Promise<(), Error>, Box<dyn PipelineHook>) {
        let inner = self.inner.take().expect("results are handed over once");
        inner.direct_tail_call(request)
    }
}
