//! A vat sends a senderLoopback for a promise that it has broken itself. Its peer refuses it, and the connection is lost.
use capnp::capability::Promise;
use found::{ask, echo, object, result_of, settle, slow, tell, two_vats};

fn main() {
    let (slow, answer) = slow();
    let slow_call = ask(&slow, 0, None);
    let open = result_of(&slow_call);
    let giver = object(move |_, _| Promise::ok(Some(open.clone())));
    let (mut server, mut client) = two_vats(&echo(), &echo());
    let slow_call = client.start(slow_call);
    settle(&mut server, &mut client);
    let first = ask(&client.peer, 1, Some(&giver)); // answers the giver
    let second = ask(&result_of(&first), 2, None); // comes back to the giver, which answers the open result
    let result = result_of(&second);
    let third = ask(&result, 3, None);
    client.run();
    server.run();
    client.run(); // the giver's Return goes out
    drop(answer);
    client.run(); // the slow call fails: a Resolve by exception goes out
    settle(&mut server, &mut client);
    drop((first, second, third, result, slow_call));
    match server.lost() {
        Some(why) => tell(
            true,
            &format!("the connection should stand, but is lost: {}", why),
        ),
        None => tell(false, "the connection stands"),
    }
}
