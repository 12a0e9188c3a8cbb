//! A promise that was given to the peer is fulfilled with another promise.
use found::{ask, echo, promise, settle, tell, two_vats, watch_for_panics};

fn main() {
    watch_for_panics("the promise should become the other one");
    let (mut client, mut server) = two_vats(&echo(), &echo());
    let (first, fulfil) = promise();
    let (second, _unfulfilled) = promise();
    let call = ask(&client.peer, 1, Some(&first));
    settle(&mut client, &mut server);
    let _ = fulfil.send(second);
    settle(&mut client, &mut server);
    drop(call);
    tell(false, "the program goes on");
}
