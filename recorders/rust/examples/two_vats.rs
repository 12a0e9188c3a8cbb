//! Two vats in one program: the one asks the other for its object, and calls it. Leaves `first.log` and `second.log`.

use capnp::capability::{Params, Promise, Results};
use capnp::Error;
use capnp_rpc::rpc_twoparty_capnp::Side;
use futures::FutureExt;
use support::fields::Owned;
use support::interface;
use support::turns::{pipe, Loop};
use vataudit_recorder::Recorder;

// What capnpc would generate: one method, which takes a number and gives one.
interface!(doubler 0xd0c5_4a21_90be_7f03 {
    double double_request 0 (1, 0) -> (1, 0);
});

struct Doubler;

impl doubler::Server for Doubler {
    fn double(
        &mut self,
        params: Params<Owned<1, 0>>,
        mut results: Results<Owned<1, 0>>,
    ) -> Promise<(), Error> {
        let number = capnp_rpc::pry!(params.get()).u32(0);
        results.get().set_u32(0, 2 * number);
        Promise::ok(())
    }
}

fn main() -> Result<(), Box<dyn std::error::Error>> {
    let turns = Loop::default();
    let (from_first, to_second) = pipe();
    let (from_second, to_first) = pipe();

    let second = Recorder::new("second.log", 2)?;
    let object: doubler::Client = second.new_client(Doubler);
    let network = second.network(from_first, to_first, Side::Server, Default::default(), 0);
    let system = second.rpc_system(network, Some(object.client));
    turns.spawn(system.map(|_| ()));

    let first = Recorder::new("first.log", 1)?;
    let network = first.network(from_second, to_second, Side::Client, Default::default(), 0);
    let mut system = first.rpc_system(network, None);
    let object: doubler::Client = system.bootstrap(Side::Server);
    turns.spawn(system.map(|_| ()));

    let mut request = object.double_request();
    request.get().set_u32(0, 21);
    let sent = request.send();
    let response = turns.wait(sent.promise).ok_or("no answer came")??;
    println!("{}", response.get()?.u32(0));
    println!("{} and {} records", first.records(), second.records());
    Ok(())
}
