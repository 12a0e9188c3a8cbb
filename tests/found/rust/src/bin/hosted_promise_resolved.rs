//! A promise is given to the peer twice, and then fulfilled. The peer let go of it between the two, so it knows it only
//! as senderHosted, and loses the connection at its Resolve.
use capnp::capability::Promise;
use found::{ask, echo, object, promise, settle, tell, two_vats};

fn main() {
    let mut held = Vec::new();
    let holder = object(move |number, thing| {
        if number == 2 {
            held.push(thing);
        }
        Promise::ok(None)
    });
    let (mut client, mut server) = two_vats(&echo(), &holder);
    settle(&mut client, &mut server);
    let (open, fulfil) = promise();
    let first = client.start(ask(&client.peer, 1, Some(&open)));
    client.run();
    server.run();
    let second = client.start(ask(&client.peer, 2, Some(&open)));
    settle(&mut client, &mut server);
    let _ = fulfil.send(echo());
    settle(&mut client, &mut server);
    drop((first, second));
    match server.lost() {
        Some(why) => tell(
            true,
            &format!("the connection should stand, but is lost: {}", why),
        ),
        None => tell(false, "the connection stands"),
    }
}
