//! The runtime, recorded or not. The unrecorded one doesn't touch the recorder's code.

use crate::passing::{self, Order};
use capnp::capability::{Client, FromClientHook, Server};
use capnp::Error;
use capnp_rpc::rpc_twoparty_capnp::Side;
use capnp_rpc::{new_client, new_promise_client, twoparty};
use futures::{AsyncRead, AsyncWrite, Future};
use std::path::Path;
use std::pin::Pin;
use support::fields::Capability;
use vataudit_recorder::Recorder;

/// A vat's recorder, if it has one, and the order of its messages.
pub struct Recording {
    recorder: Option<Recorder>,
    order: Order,
}

/// A connection's system.
pub enum System {
    Recorded(vataudit_recorder::RpcSystem),
    Plain(capnp_rpc::RpcSystem<Side>),
}

impl System {
    pub fn bootstrap(&mut self, side: Side) -> Capability {
        match self {
            System::Recorded(system) => system.bootstrap(side),
            System::Plain(system) => system.bootstrap(side),
        }
    }

    /// What has to be polled for the connection to go on.
    pub fn run(self) -> Pin<Box<dyn Future<Output = Result<(), Error>>>> {
        match self {
            System::Recorded(system) => Box::pin(system),
            System::Plain(system) => Box::pin(system),
        }
    }
}

impl Recording {
    pub fn new(is_recorded: bool, log: &Path, order: &Path, vat: u32) -> Recording {
        Recording {
            recorder: is_recorded.then(|| Recorder::new(log, vat).expect("the log can be made")),
            order: Order::new(order),
        }
    }

    pub fn system<R, W>(
        &self,
        (reader, writer): (R, W),
        side: Side,
        connection: u32,
        bootstrap: Capability,
    ) -> System
    where
        R: AsyncRead + Unpin + 'static,
        W: AsyncWrite + Unpin + 'static,
    {
        let options = Default::default();
        let noted = |inner| {
            Box::new(passing::Network {
                inner,
                order: self.order.clone(),
                connection,
            })
        };
        let bootstrap = Some(bootstrap.0);
        match &self.recorder {
            Some(recorder) => {
                let network = recorder.network(reader, writer, side, options, connection);
                let (end, network) = (network.end(), noted(Box::new(network)));
                System::Recorded(recorder.rpc_system_around(network, &end, bootstrap))
            }
            None => {
                let network = twoparty::VatNetwork::new(reader, writer, side, options);
                let network = noted(Box::new(network));
                System::Plain(capnp_rpc::RpcSystem::new(network, bootstrap))
            }
        }
    }

    pub fn client(&self, server: impl Server + 'static) -> Capability {
        match &self.recorder {
            Some(recorder) => recorder.new_client(server),
            None => new_client(server),
        }
    }

    pub fn promise<F>(&self, promise: F) -> Capability
    where
        F: Future<Output = Result<Client, Error>> + Unpin + 'static,
    {
        let client: Capability = match &self.recorder {
            Some(recorder) => recorder.new_promise_client(promise),
            None => new_promise_client(promise),
        };
        Capability::new(client.0.hook)
    }
}
