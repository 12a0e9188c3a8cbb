//! The content of a message: which capabilities stand where in it, and a hash of the rest.

use crate::runtime::{self, Table};
use capnp::any_pointer;
use capnp::capability::{Promise, Request};
use capnp::private::capability::{ClientHook, ParamsHook, ResultsHook};
use capnp::private::layout::{ElementSize, ListReader, PointerReader, PointerType, StructReader};
use capnp::traits::Imbue;
use capnp::{Error, MessageSize};

/// A step from a pointer to one below it.
#[derive(Clone, Copy, PartialEq, Eq, Debug)]
pub(crate) enum Step {
    /// A pointer field of a struct.
    Field(u16),
    /// An element of a list.
    Element(u32),
}

/// A capability that stands in a content.
#[derive(Clone, Debug)]
pub(crate) struct Met {
    /// Its index in the message's capability table.
    pub(crate) index: usize,
    /// How it is reached from the root.
    pub(crate) steps: Vec<Step>,
}

impl Met {
    /// Its path of pointer fields. A capability in a list has none.
    pub(crate) fn path(&self) -> Option<Vec<u16>> {
        self.steps
            .iter()
            .map(|step| match step {
                Step::Field(field) => Some(*field),
                Step::Element(_) => None,
            })
            .collect()
    }
}

/// The capabilities of a content, depth first by pointer number, which every copy keeps; and a hash of the rest.
pub(crate) struct Content {
    pub(crate) met: Vec<Met>,
    pub(crate) hash: u64,
}

impl Content {
    /// Reads a content of a message with so many capabilities in its table. What can't be read is left out.
    pub(crate) fn read(content: any_pointer::Reader<'_>, table_size: usize) -> Content {
        let spies = spies(table_size);
        let mut content = content;
        content.imbue(&spies);
        let mut walk = Content::null();
        if let Ok(pointer) = runtime::pointer(content) {
            let _ = walk.visit(pointer, &mut Vec::new());
        }
        walk
    }

    /// A content that nobody wrote.
    pub(crate) fn null() -> Content {
        Content {
            met: Vec::new(),
            hash: 14_695_981_039_346_656_037,
        }
    }

    fn mix(&mut self, bytes: &[u8]) {
        for byte in bytes {
            self.hash = (self.hash ^ u64::from(*byte)).wrapping_mul(1_099_511_628_211);
        }
        self.hash = (self.hash ^ bytes.len() as u64).wrapping_mul(1_099_511_628_211);
    }

    fn visit(&mut self, pointer: PointerReader<'_>, steps: &mut Vec<Step>) -> capnp::Result<()> {
        match pointer.get_pointer_type()? {
            PointerType::Null => Ok(()),
            PointerType::Struct => self.visit_struct(pointer.get_struct(None)?, steps),
            PointerType::List => self.visit_list(runtime::list(pointer)?, steps),
            PointerType::Capability => {
                self.mix(b"capability");
                if let Ok(spy) = pointer.get_capability() {
                    self.met.push(Met {
                        index: spy.get_ptr(),
                        steps: steps.clone(),
                    });
                }
                Ok(())
            }
        }
    }

    fn visit_struct(
        &mut self,
        reader: StructReader<'_>,
        steps: &mut Vec<Step>,
    ) -> capnp::Result<()> {
        self.mix(reader.get_data_section_as_blob());
        for field in 0..reader.get_pointer_section_size() {
            steps.push(Step::Field(field));
            self.visit(reader.get_pointer_field(field as usize), steps)?;
            steps.pop();
        }
        Ok(())
    }

    fn visit_list(&mut self, list: ListReader<'_>, steps: &mut Vec<Step>) -> capnp::Result<()> {
        let size = runtime::element_size(list);
        if !matches!(size, ElementSize::Pointer | ElementSize::InlineComposite) {
            self.mix(runtime::list_bytes(list));
            return Ok(());
        }
        for element in 0..list.len() {
            steps.push(Step::Element(element));
            if matches!(size, ElementSize::Pointer) {
                self.visit(list.get_pointer_element(element), steps)?;
            } else {
                self.visit_struct(list.get_struct_element(element), steps)?;
            }
            steps.pop();
        }
        Ok(())
    }
}

fn spies(table_size: usize) -> Table {
    (0..table_size)
        .map(|index| Some(Box::new(Spy(index)) as Box<dyn ClientHook>))
        .collect()
}

/// The capabilities at these places of a content, in their order: each hook, and its index in the content's table,
/// which needn't be that of the message in which the places were met. Reads nothing but what lies on the way.
pub(crate) fn hooks(
    content: any_pointer::Reader<'_>,
    met: &[Met],
) -> Vec<(usize, Box<dyn ClientHook>)> {
    let most = met.iter().map(|one| one.index + 1).max().unwrap_or(0);
    let spies = spies(most.max(met.len()));
    let mut spied = content;
    spied.imbue(&spies);
    let indexes = at_places(spied, met);
    at_places(content, met)
        .into_iter()
        .zip(indexes)
        .map(|(hook, spy)| (spy.get_ptr(), hook))
        .collect()
}

fn at_places(content: any_pointer::Reader<'_>, met: &[Met]) -> Vec<Box<dyn ClientHook>> {
    let mut found = Vec::with_capacity(met.len());
    if let Ok(pointer) = runtime::pointer(content) {
        let _ = follow(Node::Pointer(pointer), met, 0, &mut found);
    }
    found
}

enum Node<'a> {
    Pointer(PointerReader<'a>),
    Struct(StructReader<'a>),
    List(ListReader<'a>),
}

impl<'a> Node<'a> {
    /// The struct or list that a pointer points to.
    fn opened(self) -> capnp::Result<Node<'a>> {
        match self {
            Node::Pointer(pointer) => Ok(match pointer.get_pointer_type()? {
                PointerType::List => Node::List(runtime::list(pointer)?),
                _ => Node::Struct(pointer.get_struct(None)?),
            }),
            other => Ok(other),
        }
    }

    fn at(&self, step: Step) -> capnp::Result<Node<'a>> {
        match (self, step) {
            (Node::Struct(reader), Step::Field(field)) => {
                Ok(Node::Pointer(reader.get_pointer_field(field as usize)))
            }
            (Node::List(list), Step::Element(element)) if element < list.len() => {
                Ok(match runtime::element_size(*list) {
                    ElementSize::Pointer => Node::Pointer(list.get_pointer_element(element)),
                    _ => Node::Struct(list.get_struct_element(element)),
                })
            }
            _ => Err(Error::failed("no such place in a content".to_string())),
        }
    }
}

fn follow(
    node: Node<'_>,
    met: &[Met],
    depth: usize,
    found: &mut Vec<Box<dyn ClientHook>>,
) -> capnp::Result<()> {
    if let (Node::Pointer(pointer), [only]) = (&node, met) {
        if only.steps.len() == depth {
            found.push(pointer.get_capability()?);
            return Ok(());
        }
    }
    let opened = node.opened()?;
    let mut rest = met;
    while let Some(first) = rest.first() {
        let step = first.steps.get(depth).copied();
        let step = step.ok_or_else(|| Error::failed("no such place in a content".to_string()))?;
        let count = rest
            .iter()
            .take_while(|one| one.steps.get(depth) == Some(&step))
            .count();
        follow(opened.at(step)?, &rest[..count], depth + 1, found)?;
        rest = &rest[count..];
    }
    Ok(())
}

/// Where a content lies in memory. Null lies nowhere.
pub(crate) fn place_of(content: any_pointer::Reader<'_>) -> Option<usize> {
    let pointer = runtime::pointer(content).ok()?;
    runtime::place(pointer.get_struct(None).ok()?)
}

/// Says which index of a capability table was asked for, by its pointer, and can do nothing else.
struct Spy(usize);

impl ClientHook for Spy {
    fn add_ref(&self) -> Box<dyn ClientHook> {
        Box::new(Spy(self.0))
    }
    fn new_call(
        &self,
        _interface_id: u64,
        _method_id: u16,
        _size_hint: Option<MessageSize>,
    ) -> Request<any_pointer::Owned, any_pointer::Owned> {
        unreachable!("a recorder's table is never called")
    }
    fn call(
        &self,
        _interface_id: u64,
        _method_id: u16,
        _params: Box<dyn ParamsHook>,
        _results: Box<dyn ResultsHook>,
    ) -> Promise<(), Error> {
        unreachable!("a recorder's table is never called")
    }
    fn get_brand(&self) -> usize {
        0
    }
    fn get_ptr(&self) -> usize {
        self.0
    }
    fn get_resolved(&self) -> Option<Box<dyn ClientHook>> {
        None
    }
    fn when_more_resolved(&self) -> Option<Promise<Box<dyn ClientHook>, Error>> {
        None
    }
    fn when_resolved(&self) -> Promise<(), Error> {
        Promise::ok(())
    }
}
