//! A promise is given to the peer, and fulfilled with what a call to the peer will answer. The call answers null. The
//! peer's senderLoopback for the promise is refused, and the connection is lost.
use found::{ask, echo, promise, result_of, settle, tell, two_vats};

fn main() {
    let (mut server, mut client) = two_vats(&echo(), &echo());
    let (open, fulfil) = promise();
    let first = ask(&client.peer, 1, Some(&open));
    let second = ask(&client.peer, 2, None);
    let _ = fulfil.send(result_of(&second));
    settle(&mut server, &mut client);
    drop((first, second));
    match client.lost() {
        Some(why) => tell(
            true,
            &format!("the connection should stand, but is lost: {}", why),
        ),
        None => tell(false, "the connection stands"),
    }
}
