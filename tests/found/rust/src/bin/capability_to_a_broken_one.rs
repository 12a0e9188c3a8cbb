//! A call with a capability goes to the result of a call that failed.
use capnp::capability::Promise;
use found::{ask, echo, object, result_of, settle, tell, two_vats, watch_for_panics};

fn main() {
    watch_for_panics("the call should fail");
    let own = echo();
    let failing = object(|_, _| Promise::err(capnp::Error::failed("as asked for".to_string())));
    let (mut client, mut server) = two_vats(&own, &failing);
    let first = ask(&client.peer, 1, None);
    settle(&mut client, &mut server);
    let second = ask(&result_of(&first), 2, Some(&own));
    drop(second);
    tell(false, "the program goes on");
}
