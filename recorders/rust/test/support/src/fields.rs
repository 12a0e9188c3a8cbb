//! Structs by the places of their fields. Debian has no capnpc for Rust, so nothing generates them: a file beside each
//! schema says which field lies where.

use capnp::capability::{
    Client, FromClientHook, FromServer, FromTypelessPipeline, Params, Promise, RemotePromise,
    Request, Results, Server,
};
use capnp::private::capability::ClientHook;
use capnp::private::layout::{
    PointerBuilder, PointerReader, StructBuilder, StructReader, StructSize,
};
use capnp::traits::{self, FromPointerBuilder, FromPointerReader, SetPointerBuilder};
use capnp::{any_pointer, Error, Word};
use std::ops::{Deref, DerefMut};

/// A struct of `DATA` words and `POINTERS` pointers.
#[derive(Clone, Copy)]
pub struct Owned<const DATA: u16, const POINTERS: u16>;

impl<'a, const DATA: u16, const POINTERS: u16> traits::Owned<'a> for Owned<DATA, POINTERS> {
    type Reader = Reader<'a>;
    type Builder = Builder<'a, DATA, POINTERS>;
}

impl<const DATA: u16, const POINTERS: u16> traits::Pipelined for Owned<DATA, POINTERS> {
    type Pipeline = Pipeline;
}

/// A struct that is read.
#[derive(Clone, Copy)]
pub struct Reader<'a>(StructReader<'a>);

impl<'a> FromPointerReader<'a> for Reader<'a> {
    fn get_from_pointer(
        pointer: &PointerReader<'a>,
        default: Option<&'a [Word]>,
    ) -> capnp::Result<Reader<'a>> {
        Ok(Reader(pointer.get_struct(default)?))
    }
}

impl<'a> SetPointerBuilder for Reader<'a> {
    fn set_pointer_builder(
        pointer: PointerBuilder<'_>,
        from: Reader<'a>,
        canonicalize: bool,
    ) -> capnp::Result<()> {
        pointer.set_struct(&from.0, canonicalize)
    }
}

impl<'a> Reader<'a> {
    /// The number at 32 bits times `at`.
    pub fn u32(self, at: usize) -> u32 {
        self.0.get_data_field::<u32>(at)
    }

    /// The text at a pointer; empty where it is null.
    pub fn text(self, at: usize) -> capnp::Result<&'a str> {
        self.0.get_pointer_field(at).get_text(None)
    }

    /// The capability at a pointer; none where it is null.
    pub fn capability<T: FromClientHook>(self, at: usize) -> Option<T> {
        self.0
            .get_pointer_field(at)
            .get_capability()
            .ok()
            .map(T::new)
    }

    /// What is at a pointer.
    pub fn any(self, at: usize) -> any_pointer::Reader<'a> {
        any_pointer::Reader::new(self.0.get_pointer_field(at))
    }

    /// The capabilities in the list at a pointer.
    pub fn capabilities<T: FromClientHook>(self, at: usize) -> capnp::Result<Vec<T>> {
        let size = capnp::private::layout::ElementSize::Pointer;
        let list = self.0.get_pointer_field(at).get_list(size, None)?;
        (0..list.len())
            .map(|index| Ok(T::new(list.get_pointer_element(index).get_capability()?)))
            .collect()
    }
}

/// A struct that is written.
pub struct Builder<'a, const DATA: u16, const POINTERS: u16>(StructBuilder<'a>);

impl<'a, const DATA: u16, const POINTERS: u16> Builder<'a, DATA, POINTERS> {
    const SIZE: StructSize = StructSize {
        data: DATA,
        pointers: POINTERS,
    };

    fn pointer(&mut self, at: usize) -> PointerBuilder<'_> {
        self.0.get_pointer_field(at)
    }

    /// Sets the number at 32 bits times `at`.
    pub fn set_u32(&mut self, at: usize, value: u32) {
        self.0.set_data_field::<u32>(at, value);
    }

    /// Sets the text at a pointer.
    pub fn set_text(&mut self, at: usize, value: &str) {
        self.pointer(at).set_text(value);
    }

    /// Sets the capability at a pointer.
    pub fn set_capability(&mut self, at: usize, client: Client) {
        self.pointer(at).set_capability(client.hook);
    }

    /// Sets a list of capabilities at a pointer.
    pub fn set_capabilities(&mut self, at: usize, clients: Vec<Client>) {
        let size = capnp::private::layout::ElementSize::Pointer;
        let list = self.pointer(at).init_list(size, clients.len() as u32);
        for (index, client) in clients.into_iter().enumerate() {
            list.get_pointer_element(index as u32)
                .set_capability(client.hook);
        }
    }
}

impl<'a, const DATA: u16, const POINTERS: u16> FromPointerBuilder<'a>
    for Builder<'a, DATA, POINTERS>
{
    fn init_pointer(pointer: PointerBuilder<'a>, _length: u32) -> Self {
        Builder(pointer.init_struct(Self::SIZE))
    }

    fn get_from_pointer(
        pointer: PointerBuilder<'a>,
        default: Option<&'a [Word]>,
    ) -> capnp::Result<Self> {
        Ok(Builder(pointer.get_struct(Self::SIZE, default)?))
    }
}

/// The fields of results that are still to come.
pub struct Pipeline(any_pointer::Pipeline);

impl FromTypelessPipeline for Pipeline {
    fn new(typeless: any_pointer::Pipeline) -> Pipeline {
        Pipeline(typeless)
    }
}

impl Pipeline {
    /// The capability that will be at a pointer.
    pub fn capability(&self, at: u16) -> Client {
        Client::new(self.0.get_pointer_field(at).as_cap())
    }
}

/// A client of an interface that nothing is said of.
pub struct Capability(pub Client);

impl Clone for Capability {
    fn clone(&self) -> Capability {
        Capability(Client::new(self.0.hook.add_ref()))
    }
}

impl FromClientHook for Capability {
    fn new(hook: Box<dyn ClientHook>) -> Capability {
        Capability(Client::new(hook))
    }
}

impl Capability {
    /// A call with parameters of `DATA` words and `POINTERS` pointers, and results of one pointer.
    pub fn request<const DATA: u16, const POINTERS: u16>(
        &self,
        interface_id: u64,
        method_id: u16,
    ) -> Request<Owned<DATA, POINTERS>, Owned<0, 1>> {
        self.0.new_call(interface_id, method_id, None)
    }
}

/// What the runtime dispatches to.
pub struct Dispatch<S>(S);

impl<S> Deref for Dispatch<S> {
    type Target = S;
    fn deref(&self) -> &S {
        &self.0
    }
}

impl<S> DerefMut for Dispatch<S> {
    fn deref_mut(&mut self) -> &mut S {
        &mut self.0
    }
}

impl<S: Server> Server for Dispatch<S> {
    fn dispatch_call(
        &mut self,
        interface_id: u64,
        method_id: u16,
        params: Params<any_pointer::Owned>,
        results: Results<any_pointer::Owned>,
    ) -> Promise<(), Error> {
        self.0
            .dispatch_call(interface_id, method_id, params, results)
    }
}

impl<S: Server + 'static> FromServer<S> for Capability {
    type Dispatch = Dispatch<S>;
    fn from_server(server: S) -> Dispatch<S> {
        Dispatch(server)
    }
}

/// A call that was sent, whose results have one pointer.
pub type Sent = RemotePromise<Owned<0, 1>>;

/// An interface, as capnpc would generate it: a module with a `Client`, a trait `Server`, and what joins the two. Of
/// each method it takes the name, the name of its request, its number, and the words and pointers of its parameters
/// and of its results.
#[macro_export]
macro_rules! interface {
    ($module:ident $id:literal {
        $($method:ident $request:ident $number:literal
            ($words:literal, $pointers:literal) -> ($result_words:literal, $result_pointers:literal);)*
    }) => {
        /// An interface.
        pub mod $module {
            use ::capnp::capability::{
                self, FromClientHook, FromServer, Params, Promise, Request, Results,
            };
            use ::capnp::private::capability::{
                internal_get_typed_params, internal_get_typed_results, ClientHook,
            };
            use ::capnp::{any_pointer, Error};
            use ::std::ops::{Deref, DerefMut};
            use $crate::fields::Owned;

            /// A client of the interface.
            pub struct Client {
                pub client: capability::Client,
            }

            impl Clone for Client {
                fn clone(&self) -> Client {
                    FromClientHook::new(self.client.hook.add_ref())
                }
            }

            impl FromClientHook for Client {
                fn new(hook: Box<dyn ClientHook>) -> Client {
                    Client {
                        client: capability::Client::new(hook),
                    }
                }
            }

            impl Client {
                $(pub fn $request(
                    &self,
                ) -> Request<Owned<$words, $pointers>, Owned<$result_words, $result_pointers>> {
                    self.client.new_call($id, $number, None)
                })*
            }

            /// What an object of the interface does.
            pub trait Server {
                $(fn $method(
                    &mut self,
                    _params: Params<Owned<$words, $pointers>>,
                    _results: Results<Owned<$result_words, $result_pointers>>,
                ) -> Promise<(), Error> {
                    Promise::err(Error::unimplemented("no such method".to_string()))
                })*
            }

            /// What the runtime dispatches to.
            pub struct ServerDispatch<S>(S);

            impl<S> Deref for ServerDispatch<S> {
                type Target = S;
                fn deref(&self) -> &S {
                    &self.0
                }
            }

            impl<S> DerefMut for ServerDispatch<S> {
                fn deref_mut(&mut self) -> &mut S {
                    &mut self.0
                }
            }

            impl<S: Server + 'static> FromServer<S> for Client {
                type Dispatch = ServerDispatch<S>;
                fn from_server(server: S) -> ServerDispatch<S> {
                    ServerDispatch(server)
                }
            }

            impl<S: Server> capability::Server for ServerDispatch<S> {
                fn dispatch_call(
                    &mut self,
                    interface_id: u64,
                    method_id: u16,
                    params: Params<any_pointer::Owned>,
                    results: Results<any_pointer::Owned>,
                ) -> Promise<(), Error> {
                    match (interface_id, method_id) {
                        $(($id, $number) => self.0.$method(
                            internal_get_typed_params(params),
                            internal_get_typed_results(results),
                        ),)*
                        _ => Promise::err(Error::unimplemented("no such method".to_string())),
                    }
                }
            }
        }
    };
}
