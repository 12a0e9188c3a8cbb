//! The object that all scripts call: the interface Thing of drivers/cpp/storm.capnp.

use crate::vat::Vat;
use capnp::capability::{Params, Promise, Results, Server};
use capnp::{any_pointer, Error};
use support::fields::{Capability, Owned, Reader};

/// The interface's number.
pub const THING: u64 = 0xc0fd_9bfe_5d09_64de;

/// The methods, by their numbers.
pub const METHODS: [&str; 14] = [
    "mute", "ping", "self", "get", "make", "echo", "hold", "slow", "slowecho", "fail", "tail",
    "callback", "stream", "slowget",
];

/// The fields of Asked: of one word and three pointers.
pub const K: usize = 0;
pub const NAME: usize = 0;
pub const CAP: usize = 1;
pub const CALL: usize = 2;
pub type Asked = Owned<1, 3>;
pub type Given = Owned<0, 1>;

/// An object of a script.
pub struct Object {
    vat: Vat,
    name: String,
}

impl Object {
    pub fn new(vat: &Vat, name: &str) -> Object {
        Object {
            vat: vat.clone(),
            name: name.to_string(),
        }
    }

    fn enter(&self, method: &str, k: u32) {
        let number = match k {
            0 => String::new(),
            k => format!(" {}", k),
        };
        let text = format!("{} {}{}", self.name, method, number);
        self.vat.say("got", &text);
    }

    fn own(&self) -> Option<Capability> {
        self.vat.own_client(&self.name)
    }

    // What the object gives of a name: itself, where it has nothing of that name.
    fn get(&self, name: &str) -> Option<Capability> {
        self.vat.find(name).or_else(|| self.own())
    }
}

impl Drop for Object {
    fn drop(&mut self) {
        self.vat.say("gone", &self.name);
    }
}

fn give(results: &mut Results<any_pointer::Owned>, capability: Option<Capability>) {
    let mut given: support::fields::Builder<'_, 0, 1> = results
        .get()
        .get_as()
        .expect("results are a struct of one pointer");
    if let Some(capability) = capability {
        given.set_capability(0, capability.0);
    }
}

impl Server for Object {
    fn dispatch_call(
        &mut self,
        interface_id: u64,
        method_id: u16,
        params: Params<any_pointer::Owned>,
        results: Results<any_pointer::Owned>,
    ) -> Promise<(), Error> {
        match METHODS.get(method_id as usize) {
            Some(method) if interface_id == THING => self
                .dispatch(method, params, results)
                .unwrap_or_else(Promise::err),
            _ => Promise::err(Error::unimplemented("no such method".to_string())),
        }
    }
}

impl Object {
    fn dispatch(
        &mut self,
        method: &str,
        params: Params<any_pointer::Owned>,
        mut results: Results<any_pointer::Owned>,
    ) -> Result<Promise<(), Error>, Error> {
        if method == "mute" {
            self.enter(method, 0);
            return Ok(Promise::ok(()));
        }
        let asked: Reader<'_> = params.get()?.get_as()?;
        self.enter(method, asked.u32(K));
        let own = self.own();
        match method {
            "self" => give(&mut results, own),
            "get" => give(&mut results, self.get(asked.text(NAME)?)),
            "make" => {
                let made = self.vat.host(asked.text(CALL)?);
                give(&mut results, Some(made));
            }
            "echo" => give(&mut results, asked.capability(CAP)),
            "hold" => {
                if let Some(capability) = asked.capability(CAP) {
                    let name = format!("{}.h", asked.text(CALL)?);
                    self.vat.hold(&name, capability);
                }
            }
            "slow" | "slowecho" | "slowget" => return self.later(method, params, results),
            "fail" => return Ok(Promise::err(Error::failed("as asked for".to_string()))),
            "tail" => return self.tail(asked, results),
            "callback" => return self.call_back(asked, results),
            _ => {}
        }
        Ok(Promise::ok(()))
    }

    // Answers when the script releases the call.
    fn later(
        &self,
        method: &str,
        params: Params<any_pointer::Owned>,
        mut results: Results<any_pointer::Owned>,
    ) -> Result<Promise<(), Error>, Error> {
        let asked: Reader<'_> = params.get()?.get_as()?;
        let release = self.vat.wait_for(asked.text(CALL)?);
        let own = self.own();
        let vat = self.vat.clone();
        let method = method.to_string();
        Ok(Promise::from_future(async move {
            let _ = release.await;
            let asked: Reader<'_> = params.get()?.get_as()?;
            let given = match method.as_str() {
                "slowecho" => asked.capability(CAP),
                "slowget" => vat.find(asked.text(NAME)?).or(own),
                _ => own,
            };
            give(&mut results, given);
            Ok(())
        }))
    }

    // This version has no tail calls: the call is made, and its result passed on.
    fn tail(
        &self,
        asked: Reader<'_>,
        mut results: Results<any_pointer::Owned>,
    ) -> Result<Promise<(), Error>, Error> {
        let target: Capability = asked
            .capability(CAP)
            .ok_or_else(|| Error::failed("nothing to ask".to_string()))?;
        let (name, call) = (asked.text(NAME)?, asked.text(CALL)?);
        let method = match (call.is_empty(), name.is_empty()) {
            (false, _) => "slowget",
            (true, false) => "get",
            (true, true) => "self",
        };
        let mut request = target.request::<1, 3>(THING, number_of(method));
        let mut builder = request.get();
        if !name.is_empty() {
            builder.set_text(NAME, name);
        }
        if !call.is_empty() {
            builder.set_text(CALL, call);
        }
        builder.set_u32(K, asked.u32(K));
        let sent = request.send();
        Ok(Promise::from_future(async move {
            let response = sent.promise.await?;
            give(&mut results, response.get()?.capability(0));
            Ok(())
        }))
    }

    fn call_back(
        &self,
        asked: Reader<'_>,
        mut results: Results<any_pointer::Owned>,
    ) -> Result<Promise<(), Error>, Error> {
        let target: Capability = asked
            .capability(CAP)
            .ok_or_else(|| Error::failed("nobody to call".to_string()))?;
        let mut request = target.request::<1, 3>(THING, number_of("ping"));
        request.get().set_u32(K, asked.u32(K));
        let sent = request.send();
        Ok(Promise::from_future(async move {
            sent.promise.await?;
            give(&mut results, Some(target));
            Ok(())
        }))
    }
}

/// The number of a method.
pub fn number_of(method: &str) -> u16 {
    METHODS
        .iter()
        .position(|one| *one == method)
        .expect("the scripts' modes are methods") as u16
}
