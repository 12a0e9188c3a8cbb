//! The connection between two vats, in the place of `capnp_rpc::twoparty`.

use crate::content;
use crate::end::End;
use crate::hooks;
use crate::runtime::Writing;
use crate::vat::Call;
use capnp::capability::{FromClientHook, Promise};
use capnp::message::ReaderOptions;
use capnp::{any_pointer, Error};
use capnp_rpc::rpc_capnp::message;
use capnp_rpc::rpc_twoparty_capnp::Side;
use capnp_rpc::{twoparty, Disconnector, VatNetwork};
use futures::{AsyncRead, AsyncWrite, Future, FutureExt, TryFutureExt};
use std::cell::RefCell;
use std::pin::Pin;
use std::rc::Rc;
use std::task::{Context, Poll};

type Bytes = Rc<RefCell<Vec<u8>>>;

/// Keeps the bytes that are read: a message that came shows no segments.
struct Tap<R> {
    inner: R,
    bytes: Bytes,
}

impl<R: AsyncRead + Unpin> AsyncRead for Tap<R> {
    fn poll_read(
        mut self: Pin<&mut Self>,
        context: &mut Context<'_>,
        buffer: &mut [u8],
    ) -> Poll<std::io::Result<usize>> {
        let outcome = Pin::new(&mut self.inner).poll_read(context, buffer);
        if let Poll::Ready(Ok(count)) = outcome {
            self.bytes.borrow_mut().extend_from_slice(&buffer[..count]);
        }
        outcome
    }
}

/// Cuts the first message off.
fn cut(bytes: &Bytes) -> Option<Vec<u8>> {
    let mut bytes = bytes.borrow_mut();
    let word = |at: usize| -> Option<usize> {
        let word = bytes.get(at..at + 4)?;
        Some(u32::from_le_bytes([word[0], word[1], word[2], word[3]]) as usize)
    };
    let segments = word(0)? + 1;
    let mut length = (segments / 2 + 1) * 8;
    for segment in 0..segments {
        length += word(4 + 4 * segment)? * 8;
    }
    if bytes.len() < length {
        return None;
    }
    let rest = bytes.split_off(length);
    Some(std::mem::replace(&mut *bytes, rest))
}

/// One connection between two vats over a stream of bytes, in the place of `capnp_rpc::twoparty::VatNetwork`. Made by
/// [`Recorder::network`](crate::Recorder::network).
pub struct Network<R: AsyncRead + Unpin + 'static> {
    inner: twoparty::VatNetwork<Tap<R>>,
    pub(crate) end: Rc<End>,
    bytes: Bytes,
}

impl<R: AsyncRead + Unpin + 'static> Network<R> {
    pub(crate) fn new<W: AsyncWrite + Unpin + 'static>(
        end: Rc<End>,
        reader: R,
        writer: W,
        side: Side,
        options: ReaderOptions,
    ) -> Network<R> {
        let bytes = Bytes::default();
        let tap = Tap {
            inner: reader,
            bytes: bytes.clone(),
        };
        Network {
            inner: twoparty::VatNetwork::new(tap, writer, side, options),
            end,
            bytes,
        }
    }

    /// This end of the connection, for a network of yours around this one.
    pub fn end(&self) -> ConnectionEnd {
        ConnectionEnd(self.end.clone())
    }
}

/// One end of a recorded connection. Made by [`Network::end`], for
/// [`Recorder::rpc_system_around`](crate::Recorder::rpc_system_around).
pub struct ConnectionEnd(pub(crate) Rc<End>);

impl<R: AsyncRead + Unpin + 'static> VatNetwork<twoparty::VatId> for Network<R> {
    fn connect(
        &mut self,
        host_id: twoparty::VatId,
    ) -> Option<Box<dyn capnp_rpc::Connection<twoparty::VatId>>> {
        let inner = self.inner.connect(host_id)?;
        Some(Box::new(Connection {
            inner,
            end: self.end.clone(),
            bytes: self.bytes.clone(),
        }))
    }

    fn accept(&mut self) -> Promise<Box<dyn capnp_rpc::Connection<twoparty::VatId>>, Error> {
        let end = self.end.clone();
        let bytes = self.bytes.clone();
        Promise::from_future(self.inner.accept().map_ok(move |inner| {
            Box::new(Connection { inner, end, bytes })
                as Box<dyn capnp_rpc::Connection<twoparty::VatId>>
        }))
    }

    fn drive_until_shutdown(&mut self) -> Promise<(), Error> {
        self.inner.drive_until_shutdown()
    }
}

struct Connection {
    inner: Box<dyn capnp_rpc::Connection<twoparty::VatId>>,
    end: Rc<End>,
    bytes: Bytes,
}

impl capnp_rpc::Connection<twoparty::VatId> for Connection {
    fn get_peer_vat_id(&self) -> twoparty::VatId {
        self.inner.get_peer_vat_id()
    }

    fn new_outgoing_message(
        &mut self,
        first_segment_word_size: u32,
    ) -> Box<dyn capnp_rpc::OutgoingMessage> {
        Box::new(Outgoing {
            inner: self.inner.new_outgoing_message(first_segment_word_size),
            end: self.end.clone(),
        })
    }

    // The runtime acts on a message in the poll in which it gets it.
    fn receive_incoming_message(
        &mut self,
    ) -> Promise<Option<Box<dyn capnp_rpc::IncomingMessage>>, Error> {
        let end = self.end.clone();
        let bytes = self.bytes.clone();
        Promise::from_future(self.inner.receive_incoming_message().map_ok(move |came| {
            came.map(|inner| {
                Box::new(Incoming::new(inner, end, &bytes)) as Box<dyn capnp_rpc::IncomingMessage>
            })
        }))
    }

    fn shutdown(&mut self, result: capnp::Result<()>) -> Promise<(), Error> {
        self.inner.shutdown(result)
    }
}

/// A message of the runtime, until it is handed to the transport: then it is the SEND.
struct Outgoing {
    inner: Box<dyn capnp_rpc::OutgoingMessage>,
    end: Rc<End>,
}

impl capnp_rpc::OutgoingMessage for Outgoing {
    fn get_body(&mut self) -> capnp::Result<any_pointer::Builder<'_>> {
        self.inner.get_body()
    }

    fn get_body_as_reader(&self) -> capnp::Result<any_pointer::Reader<'_>> {
        self.inner.get_body_as_reader()
    }

    fn send(self: Box<Self>) -> (Promise<Rc<Writing>, Error>, Rc<Writing>) {
        let (promise, message) = self.inner.send();
        self.end.sent(&message);
        (promise, message)
    }

    fn take(self: Box<Self>) -> Writing {
        self.inner.take()
    }
}

/// A message that came. A Call that the runtime lets go of, and that was neither sent on nor delivered, ends there.
struct Incoming {
    inner: Box<dyn capnp_rpc::IncomingMessage>,
    end: Rc<End>,
    call: Option<Rc<Call>>,
}

impl Incoming {
    fn new(inner: Box<dyn capnp_rpc::IncomingMessage>, end: Rc<End>, bytes: &Bytes) -> Incoming {
        let call = cut(bytes).and_then(|frame| end.received(&frame));
        if let Some(call) = &call {
            end.vat.keep(call, place_of_params(&*inner));
        }
        Incoming { inner, end, call }
    }
}

fn place_of_params(message: &dyn capnp_rpc::IncomingMessage) -> Option<usize> {
    let message: message::Reader<'_> = message.get_body().ok()?.get_as().ok()?;
    match message.which() {
        Ok(message::Call(Ok(call))) => content::place_of(call.get_params().ok()?.get_content()),
        _ => None,
    }
}

impl capnp_rpc::IncomingMessage for Incoming {
    fn get_body(&self) -> capnp::Result<any_pointer::Reader<'_>> {
        if let Some(call) = &self.call {
            self.end.vat.note_read(call);
        }
        self.inner.get_body()
    }
}

impl Drop for Incoming {
    fn drop(&mut self) {
        let call = match self.call.take() {
            Some(call) => call,
            None => return,
        };
        self.end.vat.forget(&call);
        call.is_copied.set(true);
        // What is just passed on goes on as a copy, and so does what waits for the end of an embargo.
        let is_passed_on = self.end.vat.is_sending(&call) || self.end.is_on_way_back(&call);
        if call.is_waiting() && !is_passed_on {
            self.end.vat.fault(&call);
        }
    }
}

/// An RPC system whose connection is recorded, in the place of `capnp_rpc::RpcSystem`. Made by
/// [`Recorder::rpc_system`](crate::Recorder::rpc_system).
#[must_use = "futures do nothing unless polled"]
pub struct RpcSystem {
    inner: capnp_rpc::RpcSystem<twoparty::VatId>,
    end: Rc<End>,
}

impl RpcSystem {
    pub(crate) fn new(
        end: Rc<End>,
        network: Box<dyn VatNetwork<twoparty::VatId>>,
        bootstrap: Option<capnp::capability::Client>,
    ) -> RpcSystem {
        let given = bootstrap.map(|client| {
            let (hook, given) = hooks::give(&end.vat, &*client.hook);
            end.set_bootstrap(given.map(|given| given.reference));
            capnp::capability::Client::new(hook)
        });
        RpcSystem {
            inner: capnp_rpc::RpcSystem::new(network, given),
            end,
        }
    }

    /// The bootstrap object of the other side. Records SEND and FIELD.
    pub fn bootstrap<T: FromClientHook>(&mut self, side: Side) -> T {
        let client: capnp::capability::Client = Bare::bootstrap(&mut self.inner, side);
        let vat = &self.end.vat;
        match self.end.take_bootstrap() {
            Some(call) if vat.is_recording() => {
                let reference = vat.field(&call, &[]);
                T::new(hooks::handle(vat, &reference, client.hook))
            }
            _ => T::new(hooks::handle_of_known(client.hook)),
        }
    }

    /// As `capnp_rpc::RpcSystem::get_disconnector`.
    pub fn get_disconnector(&self) -> Disconnector<twoparty::VatId> {
        self.inner.get_disconnector()
    }
}

impl Future for RpcSystem {
    type Output = Result<(), Error>;
    fn poll(mut self: Pin<&mut Self>, context: &mut Context<'_>) -> Poll<Self::Output> {
        self.inner.poll_unpin(context)
    }
}

/// A client of no type.
struct Bare(Box<dyn capnp::private::capability::ClientHook>);

impl FromClientHook for Bare {
    fn new(hook: Box<dyn capnp::private::capability::ClientHook>) -> Bare {
        Bare(hook)
    }
}

impl Bare {
    fn bootstrap(
        system: &mut capnp_rpc::RpcSystem<twoparty::VatId>,
        side: Side,
    ) -> capnp::capability::Client {
        capnp::capability::Client::new(system.bootstrap::<Bare>(side).0)
    }
}
