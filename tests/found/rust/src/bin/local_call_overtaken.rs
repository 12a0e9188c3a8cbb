//! Two calls are made to an object of the vat's own. What the first one calls, later, is delivered before the second.
use capnp::capability::Promise;
use found::{ask, object, run, tell};
use futures::executor::LocalPool;
use futures::task::LocalSpawnExt;
use futures::FutureExt;
use std::cell::RefCell;
use std::rc::Rc;

fn main() {
    let got = Rc::new(RefCell::new(Vec::new()));
    let noted = got.clone();
    // Call 1 makes call 3, to what it is given.
    let target = object(move |number, thing| {
        noted.borrow_mut().push(number);
        match thing {
            Some(thing) => Promise::from_future(ask(&thing, 3, None).promise.map(|_| Ok(None))),
            None => Promise::ok(None),
        }
    });
    let mut pool = LocalPool::new();
    for call in [ask(&target, 1, Some(&target)), ask(&target, 2, None)] {
        pool.spawner()
            .spawn_local(call.promise.map(|_| ()))
            .expect("it is spawned");
    }
    run(&mut pool);
    let got = got.borrow().clone();
    tell(
        got != [1, 2, 3],
        &format!(
            "made: call 1, call 2, and call 3 by call 1; delivered: {:?}",
            got
        ),
    );
}
