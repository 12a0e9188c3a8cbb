//! Calls that the program makes: their requests, the results that are still to come, and those that came.

use crate::content::{self, Content};
use crate::hooks::{copy, give_all, handle, take_all, Held};
use crate::runtime::{Table, Writing};
use crate::vat::{Call, Reference, Vat};
use capnp::any_pointer;
use capnp::capability::{self, Promise, RemotePromise};
use capnp::private::capability::{ClientHook, PipelineHook, PipelineOp, RequestHook, ResponseHook};
use capnp::traits::{Imbue, ImbueMut};
use capnp::Error;
use futures::TryFutureExt;
use std::rc::Rc;

/// A request of the program. MAKE is recorded as it is sent, so before the runtime's SEND.
pub(crate) struct Request {
    target: Rc<Held>,
    interface_id: u64,
    method_id: u16,
    message: Writing,
    table: Table,
    is_written: bool,
    inner: Box<dyn RequestHook>,
}

impl Request {
    pub(crate) fn new(
        target: &Rc<Held>,
        interface_id: u64,
        method_id: u16,
        inner: Box<dyn RequestHook>,
    ) -> Request {
        Request {
            target: target.clone(),
            interface_id,
            method_id,
            message: Writing::new_default(),
            table: Table::new(),
            is_written: false,
            inner,
        }
    }

    /// Records MAKE, and copies what the program wrote to the runtime's request.
    fn begin(self) -> (Rc<Vat>, Rc<Call>, Box<dyn RequestHook>) {
        let Request {
            target,
            message,
            table,
            is_written,
            mut inner,
            ..
        } = self;
        let vat = target.vat.clone();
        let call = Call::new(
            self.interface_id,
            self.method_id,
            Some(target.reference.clone()),
        );
        let hooks = match message.get_root_as_reader::<any_pointer::Reader<'_>>() {
            Ok(content) if is_written => {
                let (walked, given, hooks) = give_all(&vat, &table, content);
                call.hash.set(walked.hash);
                *call.params_met.borrow_mut() = walked.met;
                *call.params.borrow_mut() = given;
                hooks
            }
            _ => {
                call.hash.set(Content::null().hash);
                Table::new()
            }
        };
        drop(table);
        vat.make(&call, &target.reference);
        drop(target);
        if is_written {
            copy(&vat, &message, &hooks, inner.get());
            // A request to another vat is sent at once, or copied; one to this vat keeps its place.
            if inner.get_brand() == 0 {
                let place = content::place_of(inner.get().into_reader());
                vat.keep(&call, place);
            }
        }
        (vat, call, inner)
    }
}

impl RequestHook for Request {
    fn get(&mut self) -> any_pointer::Builder<'_> {
        self.is_written = true;
        let mut root: any_pointer::Builder<'_> = self
            .message
            .get_root()
            .expect("a message of ours has a root");
        root.imbue_mut(&mut self.table);
        root
    }

    fn get_brand(&self) -> usize {
        self.inner.get_brand()
    }

    fn send(self: Box<Self>) -> RemotePromise<any_pointer::Owned> {
        let (vat, call, inner) = self.begin();
        let sent = vat.while_sending(&call, || inner.send());
        let is_lost = call.target.as_ref().map_or(false, Reference::is_broken);
        if !call.is_gone.get() && is_lost {
            vat.fault(&call);
        } else if !call.is_gone.get() {
            vat.wait(&call);
        }
        let wanted = Rc::new(Wanted(call.clone()));
        let pipeline = Pipeline {
            vat: vat.clone(),
            call: call.clone(),
            wanted: wanted.clone(),
            inner: sent.pipeline.hook,
        };
        let promise = sent.promise.map_ok(move |response| {
            drop(wanted);
            capability::Response::new(Response::over(&vat, &call, response.hook))
        });
        RemotePromise {
            promise: Promise::from_future(promise),
            pipeline: any_pointer::Pipeline::new(Box::new(pipeline)),
        }
    }

    fn tail_send(self: Box<Self>) -> Option<(u32, Promise<(), Error>, Box<dyn PipelineHook>)> {
        let (vat, call, inner) = self.begin();
        vat.while_sending(&call, || inner.tail_send())
    }
}

/// What the program keeps of a call that it made, its promise or its pipeline. A call that waits in this vat is dropped
/// with the last of it, if no client was made of its results.
struct Wanted(Rc<Call>);

impl Drop for Wanted {
    fn drop(&mut self) {
        self.0.is_dropped.set(!self.0.is_named.get());
    }
}

/// A request into which the runtime copies another one. Notes where the copy lies.
pub(crate) struct Copied {
    vat: Rc<Vat>,
    call: Rc<Call>,
    inner: Box<dyn RequestHook>,
}

impl Copied {
    pub(crate) fn new(vat: &Rc<Vat>, call: Rc<Call>, inner: Box<dyn RequestHook>) -> Copied {
        Copied {
            vat: vat.clone(),
            call,
            inner,
        }
    }

    fn note_place(&mut self) {
        if self.inner.get_brand() == 0 {
            let place = content::place_of(self.inner.get().into_reader());
            self.vat.keep(&self.call, place);
        }
    }
}

impl RequestHook for Copied {
    fn get(&mut self) -> any_pointer::Builder<'_> {
        self.inner.get()
    }

    fn get_brand(&self) -> usize {
        self.inner.get_brand()
    }

    fn send(mut self: Box<Self>) -> RemotePromise<any_pointer::Owned> {
        self.note_place();
        self.inner.send()
    }

    fn tail_send(mut self: Box<Self>) -> Option<(u32, Promise<(), Error>, Box<dyn PipelineHook>)> {
        self.note_place();
        self.inner.tail_send()
    }
}

/// The results of a call that are still to come. Each client that the program names there is recorded as a FIELD.
struct Pipeline {
    vat: Rc<Vat>,
    call: Rc<Call>,
    wanted: Rc<Wanted>,
    inner: Box<dyn PipelineHook>,
}

impl PipelineHook for Pipeline {
    fn add_ref(&self) -> Box<dyn PipelineHook> {
        Box::new(Pipeline {
            vat: self.vat.clone(),
            call: self.call.clone(),
            wanted: self.wanted.clone(),
            inner: self.inner.add_ref(),
        })
    }

    fn get_pipelined_cap(&self, ops: &[PipelineOp]) -> Box<dyn ClientHook> {
        let hook = self.inner.get_pipelined_cap(ops);
        self.call.is_named.set(true);
        if !self.vat.is_recording() {
            return hook;
        }
        let path: Vec<u16> = ops
            .iter()
            .filter_map(|op| match op {
                PipelineOp::GetPointerField(field) => Some(*field),
                PipelineOp::Noop => None,
            })
            .collect();
        handle(&self.vat, &self.vat.field(&self.call, &path), hook)
    }
}

/// Results that came. The table stands before the runtime's response: so capabilities are released in its order.
struct Response {
    table: Table,
    inner: Box<dyn ResponseHook>,
}

impl Response {
    fn over(vat: &Rc<Vat>, call: &Rc<Call>, inner: Box<dyn ResponseHook>) -> Box<dyn ResponseHook> {
        let answered = call.answered();
        let met = answered.results_met.borrow();
        if met.is_empty() || !vat.is_recording() {
            return inner;
        }
        let table = match inner.get() {
            Ok(content) => take_all(vat, content, &met, &answered.results.borrow()),
            Err(_) => return inner,
        };
        Box::new(Response { table, inner })
    }
}

impl ResponseHook for Response {
    fn get(&self) -> capnp::Result<any_pointer::Reader<'_>> {
        let mut content = self.inner.get()?;
        content.imbue(&self.table);
        Ok(content)
    }
}
