//! Two calls through one reference wait in a vat for one result; the first came back from the peer. The second goes on
//! first.
use capnp::capability::Promise;
use found::{ask, object, result_of, settle, slow, tell, two_vats};
use std::cell::RefCell;
use std::rc::Rc;

fn main() {
    let got = Rc::new(RefCell::new(Vec::new()));
    let open = Rc::new(RefCell::new(None));
    let (noted, giving) = (got.clone(), open.clone());
    let giver = object(move |number, _| {
        noted.borrow_mut().push(number);
        Promise::ok(giving.borrow().clone())
    });
    let (slow, answer) = slow();
    let (mut one, mut two) = two_vats(&slow, &giver);
    settle(&mut one, &mut two);
    let first = ask(&two.peer, 1, None);
    *open.borrow_mut() = Some(result_of(&first));
    let second = ask(&one.peer, 2, None); // the giver answers what the first call will answer
    let reference = result_of(&second);
    let third = one.start(ask(&reference, 3, None)); // goes to vat 2, comes back to vat 1, and waits
    settle(&mut one, &mut two);
    let fourth = one.start(ask(&reference, 4, None)); // waits in vat 1
    settle(&mut one, &mut two);
    let _ = answer.send(Some(one.peer.clone())); // the first call answers the giver
    settle(&mut one, &mut two);
    drop((third, fourth));
    let got = got.borrow().clone();
    tell(
        got != [2, 3, 4],
        &format!("made: call 2, call 3, call 4; delivered: {:?}", got),
    );
}
