//! A promise is dropped by both vats. Its number goes to another promise, and then a Resolve by exception goes out for
//! the first one, which breaks the second.
use capnp::capability::Promise;
use found::{ask, echo, object, promise, result_of, settle, slow, tell, two_vats};
use futures::FutureExt;
use std::cell::RefCell;
use std::rc::Rc;

fn main() {
    let kept = Rc::new(RefCell::new(None));
    let keep = kept.clone();
    let holder = object(move |_, thing| {
        *keep.borrow_mut() = thing;
        Promise::ok(None)
    });
    let (slow, answer) = slow();
    let (mut one, mut two) = two_vats(&slow, &holder);
    let (first, _unfulfilled) = promise();
    let given = ask(&one.peer, 1, Some(&first));
    let asked = ask(&two.peer, 2, None);
    settle(&mut one, &mut two);
    drop((first, given));
    settle(&mut one, &mut two);
    drop(kept.borrow_mut().take());
    two.run(); // the Release of the first promise goes out
    let (second, fulfil) = promise();
    let _ = answer.send(Some(second));
    one.run(); // the second one goes out under its number, and then the Resolve
    settle(&mut one, &mut two);
    let _ = fulfil.send(echo());
    settle(&mut one, &mut two);
    let outcome = two.start(ask(&result_of(&asked), 3, None));
    settle(&mut one, &mut two);
    let what = "a call to the promise that was fulfilled should end well";
    match outcome.now_or_never() {
        Some(Ok(())) => tell(false, &format!("{}, and does", what)),
        Some(Err(why)) => tell(true, &format!("{}, but fails: {}", what, why)),
        None => tell(true, &format!("{}, but doesn't end", what)),
    }
}
