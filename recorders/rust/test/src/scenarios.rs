//! Conversations of two or three vats in one process. What the audit has to say of each log stands in expected.txt, with
//! the reason. The names are those of recorders/cpp/test.

#[allow(dead_code)]
mod world;

use capnp::capability::FromClientHook;
use capnp::private::capability::ClientHook;
use capnp_rpc::rpc_capnp::message;
use futures::AsyncWriteExt;
use world::{host, next_by, piped, promise, run_all, streams, Client, Three, Two, World};

fn main() {
    run_all(&[
        ("ping", ping),
        ("pipeline", pipeline),
        ("callback", callback),
        ("promised", promised),
        ("broken_promise", broken_promise),
        ("own_promise", own_promise),
        ("relay", relay),
        ("relayed_promise", relayed_promise),
        ("relayed_failure", relayed_failure),
        ("failure", failure),
        ("embargo", embargo),
        ("overtaking", overtaking),
        ("reflected", reflected),
        ("cancel", cancel),
        ("early_finish", early_finish),
        ("lists", lists),
        ("empty", empty),
        ("abort", abort),
        ("gone", gone),
        ("two_connections", two_connections),
        ("promise_twice", promise_twice),
        ("queued", queued),
        ("canceled_waiting", canceled_waiting),
        ("canceled_in_queue", canceled_in_queue),
        ("failed_result", failed_result),
        ("null_result_of_another", null_result_of_another),
        ("refused", refused),
    ]);
}

fn ping(world: World) {
    let two = Two::new(world);
    for by in 1..5 {
        two.next(&two.counter, by);
    }
}

fn pipeline(world: World) {
    let two = Two::new(world);
    let same = two.counter.same_request().send();
    let again = piped(&same.pipeline, 0).same_request().send();
    let value = next_by(&piped(&again.pipeline, 0), 3);
    assert_eq!(two.value(value), 3);
    let made = two.wait(two.counter.make_request().send().promise);
    let made = made.expect("make succeeds");
    let list: Vec<Client> = made
        .get()
        .and_then(|made| made.capabilities(1))
        .expect("a list");
    assert_eq!(two.next(&list[1], 1), 301);
}

fn call_back(world: &World, at: &Client, back: &Client) -> (u32, Client) {
    let mut request = at.call_request();
    request.get().set_capability(0, back.clone().client);
    let response = world.wait(request.send().promise).expect("call succeeds");
    let given = response.get().expect("results");
    (given.u32(0), given.capability(0).expect("what was given"))
}

fn callback(world: World) {
    let two = Two::new(world);
    let mine = host(&two.first, 10);
    let (value, back) = call_back(&two, &two.counter, &mine);
    assert_eq!(value, 15);
    assert_eq!(two.next(&back, 1), 16);
    assert_eq!(two.next(&mine, 1), 17);
}

fn later(world: &World, at: &Client) -> Client {
    let response = world.wait(at.later_request().send().promise);
    let response = response.expect("later succeeds");
    let results = response.get().expect("results");
    results.capability(0).expect("a promise")
}

/// An object that isn't there yet: a call through it waits at vat 2, and then both vats go on with what it became.
fn promised(world: World) {
    let two = Two::new(world);
    let later = two.counter.later_request().send();
    let waiting = next_by(&piped(&later.pipeline, 0), 7);
    let response = two.wait(later.promise).expect("later succeeds");
    let promise: Client = response
        .get()
        .expect("results")
        .capability(0)
        .expect("a promise");
    let second = next_by(&promise, 1);
    two.settle();
    two.settle_promise(&two.counter, 0);
    assert_eq!(two.value(waiting), 1007);
    assert_eq!(two.value(second), 1008);
    two.settle();
    assert_eq!(two.next(&promise, 1), 1009);
}

/// The same, but the promise is broken.
fn broken_promise(world: World) {
    let two = Two::new(world);
    let promise = later(&two, &two.counter);
    let waiting = next_by(&promise, 7);
    two.settle();
    two.settle_promise(&two.counter, 1);
    assert!(two.wait(waiting).is_err());
    two.settle();
}

/// Vat 1 promises an object of its own, gives it away, and settles it.
fn own_promise(world: World) {
    let two = Two::new(world);
    let (mine, fulfiller) = promise(&two.first);
    let mut request = two.counter.call_request();
    request.get().set_capability(0, mine.client);
    let sent = request.send();
    two.settle();
    let _ = fulfiller.send(Ok(host(&two.first, 10).client));
    let response = two.wait(sent.promise).expect("call succeeds");
    assert_eq!(response.get().expect("results").u32(0), 15);
    two.settle();
}

/// Calls, results and a callback through vat 2, which only passes them on.
fn relay(world: World) {
    let three = Three::new(world);
    assert_eq!(three.next(&three.counter, 2), 2);
    let same = three.counter.same_request().send();
    assert_eq!(three.next(&piped(&same.pipeline, 0), 1), 3);
    let (value, _) = call_back(&three, &three.counter, &host(&three.first, 10));
    assert_eq!(value, 15);
    let made = three.wait(three.counter.make_request().send().promise);
    let made = made.expect("make succeeds");
    let results = made.get().expect("results");
    let one: Client = results.capability(0).expect("a counter");
    assert_eq!(three.next(&one, 1), 101);
    let list: Vec<Client> = results.capabilities(1).expect("a list");
    assert_eq!(three.next(&list[0], 1), 201);
}

/// A promise of vat 3 that reaches vat 1 through vat 2, and a call that waits for it at vat 3.
fn relayed_promise(world: World) {
    let three = Three::new(world);
    let promise = later(&three, &three.counter);
    let waiting = next_by(&promise, 1);
    three.settle();
    three.settle_promise(&three.counter, 0);
    assert_eq!(three.value(waiting), 1001);
    three.settle();
    assert_eq!(three.next(&promise, 1), 1002);
}

/// An exception, through vat 2 too, with a call on the result that never came.
fn relayed_failure(world: World) {
    let three = Three::new(world);
    let failing = three.counter.fail_request().send();
    let on_result = next_by(&piped(&failing.pipeline, 0), 1);
    assert!(three.wait(on_result).is_err());
    three.settle();
}

fn failure(world: World) {
    let two = Two::new(world);
    let failing = two.counter.fail_request().send();
    let on_result = next_by(&piped(&failing.pipeline, 0), 1);
    assert!(two.wait(on_result).is_err());
    let mine = host(&two.first, 10);
    assert!(two.wait(mine.fail_request().send().promise).is_err());
    assert_eq!(two.next(&mine, 1), 11);
}

/// A promise of vat 2 that vat 1 also gave back to vat 2 becomes an object of vat 1: so vat 1 puts an embargo on it,
/// and the next call waits for the echo.
fn embargo(world: World) {
    let two = Two::new(world);
    two.hold(&two.counter, &host(&two.first, 10));
    let promise = later(&two, &two.counter);
    let early = next_by(&promise, 1);
    two.settle();
    two.settle_promise(&two.counter, 2);
    let late = next_by(&promise, 1);
    assert_eq!(two.value(early), 11);
    assert_eq!(two.value(late), 12);
    two.settle();
    assert_eq!(two.next(&promise, 1), 13);
}

/// A call through a result to come reaches vat 2 when the result is an object of vat 1: it goes back there. A later call
/// through the same result would overtake it, so vat 1 puts an embargo on it.
fn overtaking(world: World) {
    let two = Two::new(world);
    two.hold(&two.counter, &host(&two.first, 10));
    let held = two.counter.held_request().send();
    let counter = piped(&held.pipeline, 0);
    let early = next_by(&counter, 1);
    two.wait(held.promise).expect("held succeeds");
    let late = next_by(&counter, 1);
    assert_eq!(two.value(early), 11);
    assert_eq!(two.value(late), 12);
}

/// The same with calls whose results are capabilities.
fn reflected(world: World) {
    let two = Two::new(world);
    two.hold(&two.counter, &host(&two.first, 10));
    let held = two.counter.held_request().send();
    let counter = piped(&held.pipeline, 0);
    let early = counter.same_request().send();
    let on_early = next_by(&piped(&early.pipeline, 0), 1);
    two.wait(held.promise).expect("held succeeds");
    let late = next_by(&counter, 1);
    assert_eq!(two.value(on_early) + two.value(late), 23);
    two.settle();
}

/// The caller drops a call that was delivered, and then one with a call that waits for its result.
fn cancel(world: World) {
    let two = Two::new(world);
    let never = two.counter.never_request().send();
    two.settle();
    drop(never);
    two.settle();
    let never = two.counter.never_request().send();
    let on_result = next_by(&piped(&never.pipeline, 0), 1);
    two.settle();
    drop(on_result);
    drop(never);
    two.settle();
    two.next(&two.counter, 1);
}

/// The caller drops a call at once: its Finish goes out before the Return comes in, which is late then. And it drops one
/// whose method still waits.
fn early_finish(world: World) {
    let two = Two::new(world);
    two.settle();
    drop(two.counter.make_request().send());
    two.settle();
    let (mine, fulfiller) = promise(&two.first);
    let mut request = two.counter.call_request();
    request.get().set_capability(0, mine.client);
    let dropped = request.send();
    two.settle();
    drop(dropped);
    two.settle();
    let _ = fulfiller.send(Ok(host(&two.first, 10).client));
    two.settle();
    two.next(&two.counter, 1);
}

/// Capabilities in lists, of both vats.
fn lists(world: World) {
    let two = Two::new(world);
    let given = [
        host(&two.first, 10),
        two.counter.clone(),
        host(&two.first, 20),
    ];
    let mut request = two.counter.pass_request();
    let clients = given.iter().map(|one| one.clone().client).collect();
    request.get().set_capabilities(0, clients);
    let response = two.wait(request.send().promise).expect("pass succeeds");
    let results = response.get().expect("results");
    let list: Vec<Client> = results.capabilities(0).expect("a list");
    assert_eq!(two.next(&list[0], 1), 21);
    assert_eq!(two.next(&list[1], 1), 1);
}

/// Methods without parameters and results, and calls of a vat to its own object.
fn empty(world: World) {
    let two = Two::new(world);
    let first = two.counter.nothing_request().send();
    let mut request = two.counter.nothing_request();
    request.get();
    let second = request.send();
    two.wait(second.promise).expect("nothing succeeds");
    two.wait(first.promise).expect("nothing succeeds");
    let mine = host(&two.first, 10);
    let same = mine.same_request().send();
    let on_same = next_by(&piped(&same.pipeline, 0), 1);
    two.wait(same.promise).expect("same succeeds");
    assert_eq!(two.value(on_same), 11);
    two.wait(mine.nothing_request().send().promise)
        .expect("nothing succeeds");
}

/// A peer that isn't recorded ends the connection, and vat 1 answers its abort.
fn abort(world: World) {
    let first = world.recorder(1);
    let (near, (_reader, mut writer)) = streams();
    let (_counter, _) = world.ask(&first, near, 0);
    world.settle();
    let mut message = capnp::message::Builder::new_default();
    let root: message::Builder<'_> = message.init_root();
    root.init_abort().set_reason("no more");
    let bytes = capnp::serialize::write_message_to_words(&message);
    world.turns.spawn(async move {
        let _ = writer.write_all(&bytes).await;
        futures::future::pending::<()>().await;
        drop(writer);
    });
    world.settle();
}

/// The peer is gone without a word: no abort comes, so the abort that vat 2 sends is the first.
fn gone(world: World) {
    let two = Two::new(world);
    two.next(&two.counter, 1);
    two.turns.cancel(two.task);
    two.settle();
}

/// Two connections of one vat at once, and an object of the one given over the other.
fn two_connections(world: World) {
    let two = Two::new(world);
    let third = two.recorder(3);
    let (near, far) = streams();
    two.serve(&third, far, 1, host(&third, 30));
    let (other, _) = two.ask(&two.first, near, 1);
    let (value, back) = call_back(&two, &two.counter, &other);
    assert_eq!(value, 35);
    assert_eq!(two.next(&back, 1), 36);
    assert_eq!(two.next(&other, 1), 37);
}

/// A promise that is given away twice before it is settled.
fn promise_twice(world: World) {
    let two = Two::new(world);
    let (mine, fulfiller) = promise(&two.first);
    two.hold(&two.counter, &mine);
    two.hold(&two.counter, &mine);
    let _ = fulfiller.send(Ok(host(&two.first, 10).client));
    two.settle();
}

/// Calls that wait in vat 1 for a promise of its own, which becomes an object of vat 2; and others for one that becomes
/// an object of vat 1.
fn queued(world: World) {
    let two = Two::new(world);
    let (far, far_fulfiller) = promise(&two.first);
    let (near, near_fulfiller) = promise(&two.first);
    let one = next_by(&far, 1);
    let same = far.same_request().send();
    let second = next_by(&piped(&same.pipeline, 0), 2);
    let four = next_by(&near, 4);
    let five = next_by(&near, 4);
    two.settle();
    let _ = far_fulfiller.send(Ok(two.counter.clone().client));
    let _ = near_fulfiller.send(Ok(host(&two.first, 100).client));
    assert_eq!(two.value(one), 1);
    assert_eq!(two.value(second), 3);
    assert_eq!(two.value(four), 104);
    assert_eq!(two.value(five), 108);
    drop(same);
}

/// A call that was canceled while it waited for a promise of vat 2 isn't delivered, and gets no Return.
fn canceled_waiting(world: World) {
    let two = Two::new(world);
    let promise = later(&two, &two.counter);
    let canceled = next_by(&promise, 1);
    two.settle();
    drop(canceled);
    two.settle();
    two.settle_promise(&two.counter, 0);
    two.settle();
    assert_eq!(two.next(&promise, 1), 1001);
}

/// As embargo, but a call waits at vat 2 for the promise, and was canceled by then.
fn canceled_in_queue(world: World) {
    let two = Two::new(world);
    two.hold(&two.counter, &host(&two.first, 10));
    let promise = later(&two, &two.counter);
    let canceled = next_by(&promise, 1);
    two.settle();
    drop(canceled);
    two.settle();
    two.settle_promise(&two.counter, 2);
    two.settle();
    assert_eq!(two.next(&promise, 1), 11);
}

/// A promise for the result of a call goes out, and the call fails: the runtime resolves it to a broken capability.
fn failed_result(world: World) {
    let two = Two::new(world);
    let mine = host(&two.first, 10);
    let failing = mine.fail_request().send();
    two.hold(&two.counter, &piped(&failing.pipeline, 0));
    assert!(two.wait(failing.promise).is_err());
    two.settle();
}

/// Vat 2 returns a promise for the result of its call to vat 3, and that is null: the runtime resolves it to a broken
/// capability.
fn null_result_of_another(world: World) {
    let [first, second, third] = [1, 2, 3].map(|vat| world.recorder(vat));
    let ((near, near_end), (far, far_end)) = (streams(), streams());
    world.serve(&third, far_end, 1, host(&third, 0));
    let (other, _) = world.ask(&second, far, 1);
    let own = host(&second, 10);
    world.serve(&second, near_end, 0, own.clone());
    let (counter, _) = world.ask(&first, near, 0);
    let promise = later(&world, &other);
    let waiting = promise.nothing_request().send();
    world.hold(&own, &piped(&waiting.pipeline, 0));
    let given = counter.held_request().send();
    let broken = piped(&given.pipeline, 0);
    world.settle();
    world.settle_promise(&other, 0);
    world.wait(waiting.promise).expect("nothing succeeds");
    world.settle();
    assert!(world.wait(next_by(&broken, 1)).is_err());
}

/// An object goes out of which the recorder doesn't know: it stops.
fn refused(world: World) {
    let two = Two::new(world);
    two.settle();
    let unknown = Unknown;
    let mut request = two.counter.hold_request();
    let client: Client = FromClientHook::new(Box::new(unknown) as Box<dyn ClientHook>);
    request.get().set_capability(0, client.client);
    let sent = request.send();
    assert!(!two.first.is_recording());
    assert!(two
        .first
        .why_stopped()
        .contains("a capability is given away"));
    two.wait(sent.promise).expect("the program goes on");
    assert!(two.next(&two.counter, 1) == 1);
}

/// A capability of the program's own making.
struct Unknown;

impl ClientHook for Unknown {
    fn add_ref(&self) -> Box<dyn ClientHook> {
        Box::new(Unknown)
    }
    fn new_call(
        &self,
        _interface_id: u64,
        _method_id: u16,
        _size_hint: Option<capnp::MessageSize>,
    ) -> capnp::capability::Request<capnp::any_pointer::Owned, capnp::any_pointer::Owned> {
        unreachable!("nobody calls it")
    }
    fn call(
        &self,
        _interface_id: u64,
        _method_id: u16,
        _params: Box<dyn capnp::private::capability::ParamsHook>,
        _results: Box<dyn capnp::private::capability::ResultsHook>,
    ) -> capnp::capability::Promise<(), capnp::Error> {
        unreachable!("nobody calls it")
    }
    fn get_brand(&self) -> usize {
        0
    }
    fn get_ptr(&self) -> usize {
        1
    }
    fn get_resolved(&self) -> Option<Box<dyn ClientHook>> {
        None
    }
    fn when_more_resolved(
        &self,
    ) -> Option<capnp::capability::Promise<Box<dyn ClientHook>, capnp::Error>> {
        None
    }
    fn when_resolved(&self) -> capnp::capability::Promise<(), capnp::Error> {
        capnp::capability::Promise::ok(())
    }
}
