//! What differs between versions of capnp, and what its public types don't say outright. Compiled with 0.14.

use capnp::any_pointer;
use capnp::capability::{Client, FromClientHook, FromServer, Params, Promise, Results, Server};
use capnp::private::capability::ClientHook;
use capnp::private::layout::{ElementSize, ListReader, PointerReader, StructReader};
use capnp::traits::{FromPointerReader, IntoInternalListReader, IntoInternalStructReader};
use capnp::{Error, Word};
use futures::Future;
use std::ops::{Deref, DerefMut};

/// A list of capabilities, by whose indexes the capability pointers of a message go.
pub(crate) type Table = Vec<Option<Box<dyn ClientHook>>>;

/// A message that is being written.
pub(crate) type Writing = capnp::message::Builder<capnp::message::HeapAllocator>;

/// The pointer inside an untyped reader.
struct Inside<'a>(PointerReader<'a>);

impl<'a> FromPointerReader<'a> for Inside<'a> {
    fn get_from_pointer(
        reader: &PointerReader<'a>,
        _default: Option<&'a [Word]>,
    ) -> capnp::Result<Inside<'a>> {
        Ok(Inside(*reader))
    }
}

/// The pointer that an untyped reader reads.
pub(crate) fn pointer(reader: any_pointer::Reader<'_>) -> capnp::Result<PointerReader<'_>> {
    Ok(reader.get_as::<Inside<'_>>()?.0)
}

struct AnyStruct<'a>(StructReader<'a>);

impl<'a> IntoInternalStructReader<'a> for AnyStruct<'a> {
    fn into_internal_struct_reader(self) -> StructReader<'a> {
        self.0
    }
}

struct AnyList<'a>(ListReader<'a>);

impl<'a> IntoInternalListReader<'a> for AnyList<'a> {
    fn into_internal_list_reader(self) -> ListReader<'a> {
        self.0
    }
}

/// A list of any kind.
pub(crate) fn list(pointer: PointerReader<'_>) -> capnp::Result<ListReader<'_>> {
    pointer
        .get_list(ElementSize::Void, None)
        .or_else(|_| pointer.get_list(ElementSize::Bit, None))
}

pub(crate) fn element_size(list: ListReader<'_>) -> ElementSize {
    capnp::raw::get_list_element_size(AnyList(list))
}

pub(crate) fn list_bytes(list: ListReader<'_>) -> &[u8] {
    capnp::raw::get_list_bytes(AnyList(list))
}

/// Where a struct lies in memory. A struct without a word lies nowhere.
pub(crate) fn place(reader: StructReader<'_>) -> Option<usize> {
    let data = capnp::raw::get_struct_data_section(AnyStruct(reader));
    let pointers = list_bytes(reader.get_pointer_section_as_list());
    [data, pointers]
        .iter()
        .find(|bytes| !bytes.is_empty())
        .map(|bytes| bytes.as_ptr() as usize)
}

/// The clients that `capnp_rpc::new_client` makes for us.
struct AnyClient(Box<dyn ClientHook>);

impl FromClientHook for AnyClient {
    fn new(hook: Box<dyn ClientHook>) -> AnyClient {
        AnyClient(hook)
    }
}

/// What the runtime dispatches to.
struct Dispatch<S>(S);

impl<S> Deref for Dispatch<S> {
    type Target = S;
    fn deref(&self) -> &S {
        &self.0
    }
}

impl<S> DerefMut for Dispatch<S> {
    fn deref_mut(&mut self) -> &mut S {
        &mut self.0
    }
}

impl<S: Server> Server for Dispatch<S> {
    fn dispatch_call(
        &mut self,
        interface_id: u64,
        method_id: u16,
        params: Params<any_pointer::Owned>,
        results: Results<any_pointer::Owned>,
    ) -> Promise<(), Error> {
        self.0
            .dispatch_call(interface_id, method_id, params, results)
    }
}

impl<S: Server + 'static> FromServer<S> for AnyClient {
    type Dispatch = Dispatch<S>;
    fn from_server(server: S) -> Dispatch<S> {
        Dispatch(server)
    }
}

/// The runtime's hook of a new object.
pub(crate) fn host<S: Server + 'static>(server: S) -> Box<dyn ClientHook> {
    capnp_rpc::new_client::<AnyClient, S>(server).0
}

/// A client that queues its calls until the promise is settled.
pub(crate) fn promise<F>(promise: F) -> Client
where
    F: Future<Output = Result<Client, Error>> + 'static + Unpin,
{
    Client::new(capnp_rpc::new_promise_client::<AnyClient, F>(promise).0)
}
