//! A promise that is still open is given to the peer twice. The second time it goes out as senderHosted.
use capnp_rpc::rpc_capnp::{cap_descriptor, message};
use capnp_rpc::rpc_twoparty_capnp::Side;
use found::{ask, echo, messages, pipe, promise, tell, Vat};

fn main() {
    let ((reader, _writer), (mut sent, writer)) = (pipe(), pipe());
    let mut vat = Vat::new(&echo(), Side::Client, reader, writer);
    let (open, _fulfil) = promise();
    let first = ask(&vat.peer, 1, Some(&open));
    let second = ask(&vat.peer, 2, Some(&open));
    vat.run();
    let mut named = Vec::new();
    for frame in messages(&mut sent) {
        let root = frame.get_root::<message::Reader>().expect("a message");
        if let Ok(message::Call(call)) = root.which() {
            let params = call.expect("a call").get_params().expect("its parameters");
            let capability = params.get_cap_table().expect("their capabilities").get(0);
            named.push(match capability.which() {
                Ok(cap_descriptor::SenderPromise(number)) => format!("senderPromise {}", number),
                Ok(cap_descriptor::SenderHosted(number)) => format!("senderHosted {}", number),
                _ => "something else".to_string(),
            });
        }
    }
    drop((first, second));
    let named = named.join(", then ");
    tell(
        named != "senderPromise 0, then senderPromise 0",
        &format!(
            "the open promise should go out as senderPromise 0 each time; it is {}",
            named
        ),
    );
}
