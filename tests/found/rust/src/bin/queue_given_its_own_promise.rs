//! A call that waits for a promise has the promise itself as a parameter. The promise becomes an object of the peer.
use found::{ask, echo, promise, settle, tell, two_vats, watch_for_panics};

fn main() {
    watch_for_panics("the call should go to the peer");
    let (mut client, mut server) = two_vats(&echo(), &echo());
    let (open, fulfil) = promise();
    let call = client.start(ask(&open, 1, Some(&open)));
    settle(&mut client, &mut server);
    let _ = fulfil.send(client.peer.clone());
    settle(&mut client, &mut server);
    drop(call);
    tell(false, "the program goes on");
}
