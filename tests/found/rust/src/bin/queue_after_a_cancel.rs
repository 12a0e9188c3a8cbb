//! Three calls wait for a promise. The first is canceled before the third comes. The third is delivered before the
//! second.
use capnp::capability::Promise;
use found::{ask, echo, noting, object, promise, result_of, settle, tell, two_vats};

fn main() {
    let (target, got) = noting();
    let (open, fulfil) = promise();
    let giver = object(move |_, _| Promise::ok(Some(open.clone())));
    let (mut client, mut server) = two_vats(&echo(), &giver);
    let asked = ask(&client.peer, 1, None);
    let waiting = result_of(&asked);
    let canceled = ask(&waiting, 2, None);
    let third = ask(&waiting, 3, None);
    settle(&mut client, &mut server);
    drop(canceled);
    settle(&mut client, &mut server);
    let fourth = ask(&waiting, 4, None);
    settle(&mut client, &mut server);
    let _ = fulfil.send(target);
    settle(&mut client, &mut server);
    drop((asked, third, fourth));
    let got = got.borrow().clone();
    tell(
        got != [3, 4],
        &format!("made: call 3, call 4; delivered: {:?}", got),
    );
}
