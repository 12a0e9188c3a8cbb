//! A call with a capability goes to the result of a call, which became an object of the vat's own.
use found::{ask, echo, result_of, settle, tell, two_vats, watch_for_panics};

fn main() {
    watch_for_panics("the call should be sent");
    let own = echo();
    let (mut client, mut server) = two_vats(&own, &echo());
    let first = ask(&client.peer, 1, Some(&own));
    let became = result_of(&first);
    settle(&mut client, &mut server);
    let second = ask(&became, 2, Some(&own));
    settle(&mut client, &mut server);
    drop(second);
    tell(false, "the program goes on");
}
