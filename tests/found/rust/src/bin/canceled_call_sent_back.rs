//! A call is canceled. Behind it comes its Return, by which its peer takes the result from another call: the answer of a
//! peer that ends the call by a tail call back.
use capnp::message::Builder;
use capnp::serialize::write_message_to_words;
use capnp_rpc::rpc_capnp::message;
use capnp_rpc::rpc_twoparty_capnp::Side;
use found::{ask, echo, messages, pipe, tell, watch_for_panics, Vat, THING};

fn main() {
    watch_for_panics("the Return should be taken");
    let own = echo();
    let ((reader, back), (mut sent, writer)) = (pipe(), pipe());
    let mut vat = Vat::new(&own, Side::Client, reader, writer);
    // Question 0 is the Bootstrap, question 1 this call, export 0 what it gives.
    let call = ask(&vat.peer, 1, Some(&own));
    vat.run();
    assert_eq!(messages(&mut sent).len(), 2);
    drop(call);
    vat.run();

    let mut tail_call = Builder::new_default();
    let mut called = tail_call.init_root::<message::Builder>().init_call();
    called.set_question_id(0);
    called.set_interface_id(THING);
    called.reborrow().init_target().set_imported_cap(0);
    called.reborrow().init_params();
    called.get_send_results_to().set_yourself(());
    back.push(&write_message_to_words(&tail_call));

    let mut taken = Builder::new_default();
    let mut returned = taken.init_root::<message::Builder>().init_return();
    returned.set_answer_id(1);
    returned.set_take_from_other_question(0);
    back.push(&write_message_to_words(&taken));
    vat.run();
    tell(false, "the program goes on");
}
