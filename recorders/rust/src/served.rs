//! Calls that the program serves: their parameters, their results, and the objects themselves.

use crate::content::Met;
use crate::hooks::{copy, give_all, take_all};
use crate::runtime::{Table, Writing};
use crate::vat::{Call, Given, Reference, Vat};
use capnp::any_pointer;
use capnp::capability::{self, Promise};
use capnp::private::capability::{ParamsHook, PipelineHook, RequestHook, ResultsHook};
use capnp::traits::{Imbue, ImbueMut};
use capnp::Error;
use std::cell::RefCell;
use std::rc::Rc;

/// Parameters that came. The table stands first, as with results.
struct Params {
    table: Table,
    inner: Box<dyn ParamsHook>,
}

impl Params {
    fn over(vat: &Rc<Vat>, call: &Call, inner: Box<dyn ParamsHook>) -> Box<dyn ParamsHook> {
        let met = call.params_met.borrow();
        if met.is_empty() {
            return inner;
        }
        let table = match inner.get() {
            Ok(content) => take_all(vat, content, &met, &call.params.borrow()),
            Err(_) => return inner,
        };
        Box::new(Params { table, inner })
    }
}

impl ParamsHook for Params {
    fn get(&self) -> capnp::Result<any_pointer::Reader<'_>> {
        let mut content = self.inner.get()?;
        content.imbue(&self.table);
        Ok(content)
    }
}

/// What results have: where their capabilities stand, and what these are.
type Written = (Vec<Met>, Vec<Option<Given>>);

/// How far a delivered call has come to its end: its results are those that were written when the method let go of
/// them, and they count when the method has ended well.
struct Ending {
    vat: Rc<Vat>,
    call: Rc<Call>,
    state: RefCell<(bool, Option<Written>)>,
}

impl Ending {
    fn method_ended(&self, outcome: &Result<(), Error>) {
        if outcome.is_err() {
            return self.vat.fault(&self.call);
        }
        self.state.borrow_mut().0 = true;
        self.settle();
    }

    fn results_written(&self, met: Vec<Met>, given: Vec<Option<Given>>) {
        self.state.borrow_mut().1 = Some((met, given));
        self.settle();
    }

    fn settle(&self) {
        let results = match &mut *self.state.borrow_mut() {
            (true, results) => results.take(),
            _ => None,
        };
        if let Some((met, given)) = results {
            self.vat.answer(&self.call, met, given);
        }
    }
}

/// A method that is at work. Where it is dropped before it has ended, as of a call that was canceled, its call ends
/// without results.
struct AtWork(Option<Rc<Ending>>);

impl AtWork {
    fn ended(&mut self, outcome: &Result<(), Error>) {
        if let Some(ending) = self.0.take() {
            ending.method_ended(outcome);
        }
    }
}

impl Drop for AtWork {
    fn drop(&mut self) {
        if let Some(ending) = self.0.take() {
            ending.vat.fault(&ending.call);
        }
    }
}

/// Results that the program writes. They are copied to the runtime's when the method lets go of them, which says in
/// Rust that they are done.
struct Results {
    ending: Rc<Ending>,
    message: Writing,
    table: Table,
    is_written: bool,
    inner: Option<Box<dyn ResultsHook>>,
}

impl Results {
    fn hand_over(&mut self) {
        let mut inner = match self.inner.take() {
            Some(inner) => inner,
            None => return,
        };
        let vat = &self.ending.vat;
        let mut written = (Vec::new(), Vec::new());
        let root = self.message.get_root_as_reader::<any_pointer::Reader<'_>>();
        if let (true, Ok(content)) = (self.is_written, root) {
            let (walked, given, hooks) = give_all(vat, &self.table, content);
            written = (walked.met, given);
            match inner.get() {
                Ok(to) => copy(vat, &self.message, &hooks, to),
                Err(error) => vat.stop(&format!("a message can't be copied: {}", error)),
            }
        }
        self.table.clear();
        self.ending.results_written(written.0, written.1);
    }
}

impl Drop for Results {
    fn drop(&mut self) {
        self.hand_over();
    }
}

impl ResultsHook for Results {
    fn get(&mut self) -> capnp::Result<any_pointer::Builder<'_>> {
        self.is_written = true;
        let mut root: any_pointer::Builder<'_> = self.message.get_root()?;
        root.imbue_mut(&mut self.table);
        Ok(root)
    }

    fn allow_cancellation(&self) {
        if let Some(inner) = &self.inner {
            inner.allow_cancellation();
        }
    }

    // 0.14 has no tail calls: both of these stop the program, as they do without a recorder.
    fn tail_call(mut self: Box<Self>, request: Box<dyn RequestHook>) -> Promise<(), Error> {
        let inner = self.inner.take().expect("results are handed over once");
        inner.tail_call(request)
    }

    fn direct_tail_call(
        mut self: Box<Self>,
        request: Box<dyn RequestHook>,
    ) -> (Promise<(), Error>, Box<dyn PipelineHook>) {
        let inner = self.inner.take().expect("results are handed over once");
        inner.direct_tail_call(request)
    }
}

/// An object of the vat. DELIVER is recorded where its method is entered, with the object that it really is.
pub(crate) struct Hosted<S> {
    pub(crate) vat: Rc<Vat>,
    pub(crate) object: u64,
    pub(crate) reference: Reference,
    pub(crate) server: S,
}

impl<S> Hosted<S> {
    // A call through a client that isn't recorded has no MAKE yet.
    fn delivered(&self, interface_id: u64, method_id: u16, params: &dyn ParamsHook) -> Rc<Call> {
        let found = self
            .vat
            .find_by_params(interface_id, method_id, params, &|goal| {
                goal.leads_to(&self.reference)
            });
        let call = found.unwrap_or_else(|| {
            let call = Call::new(interface_id, method_id, Some(self.reference.clone()));
            self.vat.make(&call, &self.reference);
            call
        });
        self.vat.deliver(&call, self.object);
        call
    }
}

impl<S: capability::Server> capability::Server for Hosted<S> {
    fn dispatch_call(
        &mut self,
        interface_id: u64,
        method_id: u16,
        params: capability::Params<any_pointer::Owned>,
        results: capability::Results<any_pointer::Owned>,
    ) -> Promise<(), Error> {
        if !self.vat.is_recording() {
            return self
                .server
                .dispatch_call(interface_id, method_id, params, results);
        }
        let call = self.delivered(interface_id, method_id, &*params.hook);
        let params = Params::over(&self.vat, &call, params.hook);
        let ending = Rc::new(Ending {
            vat: self.vat.clone(),
            call,
            state: RefCell::new((false, None)),
        });
        let results = Box::new(Results {
            ending: ending.clone(),
            message: Writing::new_default(),
            table: Table::new(),
            is_written: false,
            inner: Some(results.hook),
        });
        let promise = self.server.dispatch_call(
            interface_id,
            method_id,
            capability::Params::new(params),
            capability::Results::new(results),
        );
        let mut at_work = AtWork(Some(ending));
        Promise::from_future(async move {
            let outcome = promise.await;
            at_work.ended(&outcome);
            outcome
        })
    }
}
