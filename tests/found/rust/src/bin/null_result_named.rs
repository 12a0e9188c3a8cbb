//! The result of a call is named when the call has answered null.
use found::{ask, echo, result_of, settle, tell, two_vats, watch_for_panics};

fn main() {
    watch_for_panics("the call should fail");
    let (mut client, mut server) = two_vats(&echo(), &echo());
    let first = ask(&client.peer, 1, None);
    settle(&mut client, &mut server);
    let second = ask(&result_of(&first), 2, None);
    settle(&mut client, &mut server);
    drop(second);
    tell(false, "the program goes on");
}
