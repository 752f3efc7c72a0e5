//! The port's library, called as a C program would: a slice goes as its pointer and its length.
//! A call whose feature is off gives None.
use crate::built::Built;

/// What is linked.
pub const CHECK: bool = cfg!(feature = "check");
pub const QUESTIONS: bool = cfg!(feature = "questions");
pub const BUILD: bool = cfg!(feature = "build");
pub const EXCHANGE: bool = cfg!(feature = "exchange");

/// With the variable HOST_EXACT every call is made on copies in allocations of just their length, so that a memory checker
/// sees a read past an end.
#[cfg(any(feature = "check", feature = "questions", feature = "build"))]
fn is_exact() -> bool {
    use std::sync::atomic::{AtomicBool, Ordering};
    static ASKED: std::sync::Once = std::sync::Once::new();
    static EXACT: AtomicBool = AtomicBool::new(false);
    ASKED.call_once(|| EXACT.store(std::env::var_os("HOST_EXACT").is_some(), Ordering::Relaxed));
    EXACT.load(Ordering::Relaxed)
}

#[cfg(feature = "check")]
pub fn check(script: &[u8], characters: &[u8]) -> Option<u32> {
    if is_exact() { call_check(&script.to_vec(), &characters.to_vec()) } else { call_check(script, characters) }
}

#[cfg(feature = "check")]
fn call_check(script: &[u8], characters: &[u8]) -> Option<u32> {
    #[link(name = "svgtree", kind = "static")]
    extern "C" {
        fn svgtree_check(script: *const u8, script_length: usize, characters: *const u8, characters_length: usize) -> u32;
    }
    // SAFETY: each pointer and length are those of one slice that lives through the call, and the library only reads.
    Some(unsafe { svgtree_check(script.as_ptr(), script.len(), characters.as_ptr(), characters.len()) })
}

#[cfg(not(feature = "check"))]
pub fn check(_: &[u8], _: &[u8]) -> Option<u32> {
    None
}

#[cfg(feature = "questions")]
#[rustfmt::skip]
mod questions {
    use crate::questions::{Answer, Counts, Part, Tables};

    #[link(name = "svgtree", kind = "static")]
    extern "C" {
        fn svgtree_attribute(
            nodes: *const u32, nodes_length: usize, attributes: *const u32, attributes_length: usize, text: *const u8, text_length: usize,
            characters: *const u8, characters_length: usize, counts: Counts, node: u32, name: u32) -> Answer;
        fn svgtree_find_attribute(
            nodes: *const u32, nodes_length: usize, attributes: *const u32, attributes_length: usize, text: *const u8, text_length: usize,
            characters: *const u8, characters_length: usize, counts: Counts, node: u32, name: u32) -> Answer;
        fn svgtree_element_by_id(
            nodes: *const u32, nodes_length: usize, attributes: *const u32, attributes_length: usize, text: *const u8, text_length: usize,
            characters: *const u8, characters_length: usize, counts: Counts, id: *const u8, id_length: usize) -> Answer;
        fn svgtree_text(
            nodes: *const u32, nodes_length: usize, attributes: *const u32, attributes_length: usize, text: *const u8, text_length: usize,
            characters: *const u8, characters_length: usize, counts: Counts, node: u32) -> Part;
    }

    /// Calls with the tables, or with copies of them.
    fn lent<R>(t: &Tables, call: impl Fn(&Tables) -> R) -> Option<R> {
        if !super::is_exact() { return Some(call(t)); }
        let (nodes, attributes, text, characters) = (t.nodes.to_vec(), t.attributes.to_vec(), t.text.to_vec(), t.characters.to_vec());
        Some(call(&Tables { nodes: &nodes, attributes: &attributes, text: &text, characters: &characters, counts: t.counts }))
    }

    // SAFETY, for all calls: as for check.

    pub fn attribute(t: &Tables, node: u32, name: u32) -> Option<Answer> {
        lent(t, |t| unsafe { svgtree_attribute(
            t.nodes.as_ptr(), t.nodes.len(), t.attributes.as_ptr(), t.attributes.len(), t.text.as_ptr(), t.text.len(),
            t.characters.as_ptr(), t.characters.len(), t.counts, node, name) })
    }

    pub fn find_attribute(t: &Tables, node: u32, name: u32) -> Option<Answer> {
        lent(t, |t| unsafe { svgtree_find_attribute(
            t.nodes.as_ptr(), t.nodes.len(), t.attributes.as_ptr(), t.attributes.len(), t.text.as_ptr(), t.text.len(),
            t.characters.as_ptr(), t.characters.len(), t.counts, node, name) })
    }

    pub fn element_by_id(t: &Tables, id: &[u8]) -> Option<Answer> {
        lent(t, |t| unsafe { svgtree_element_by_id(
            t.nodes.as_ptr(), t.nodes.len(), t.attributes.as_ptr(), t.attributes.len(), t.text.as_ptr(), t.text.len(),
            t.characters.as_ptr(), t.characters.len(), t.counts, id.as_ptr(), id.len()) })
    }

    pub fn text(t: &Tables, node: u32) -> Option<Part> {
        lent(t, |t| unsafe { svgtree_text(
            t.nodes.as_ptr(), t.nodes.len(), t.attributes.as_ptr(), t.attributes.len(), t.text.as_ptr(), t.text.len(),
            t.characters.as_ptr(), t.characters.len(), t.counts, node) })
    }
}

#[cfg(not(feature = "questions"))]
#[rustfmt::skip]
mod questions {
    use crate::questions::{Answer, Part, Tables};

    pub fn attribute(_: &Tables, _: u32, _: u32) -> Option<Answer> { None }
    pub fn find_attribute(_: &Tables, _: u32, _: u32) -> Option<Answer> { None }
    pub fn element_by_id(_: &Tables, _: &[u8]) -> Option<Answer> { None }
    pub fn text(_: &Tables, _: u32) -> Option<Part> { None }
}

pub use questions::{attribute, element_by_id, find_attribute, text};

/// The three tables, lent to be written to.
pub struct Lent<'a> {
    pub nodes: &'a mut [u32],
    pub attributes: &'a mut [u32],
    pub text: &'a mut [u8],
}

/// A number and counts, as build and exchange give them.
#[repr(C)]
#[derive(Clone, Copy, Debug, PartialEq)]
pub struct Told {
    pub number: u32,
    pub nodes: u32,
    pub attributes: u32,
    pub text: u32,
}

/// Build and exchange as they are.
#[rustfmt::skip]
pub mod plain {
    use super::{Lent, Told};

    #[cfg(feature = "build")]
    #[link(name = "svgtree", kind = "static")]
    extern "C" {
        fn svgtree_build(
            script: *const u8, script_length: usize, characters: *const u8, characters_length: usize,
            nodes: *mut u32, nodes_length: usize, attributes: *mut u32, attributes_length: usize, text: *mut u8, text_length: usize,
        ) -> Told;
        #[cfg(feature = "exchange")]
        fn svgtree_exchange(
            script: *const u8, script_length: usize, characters: *mut u8, characters_length: usize,
            number: u32, bytes: *const u8, bytes_length: usize,
            nodes: *mut u32, nodes_length: usize, attributes: *mut u32, attributes_length: usize, text: *mut u8, text_length: usize,
        ) -> Told;
    }

    // SAFETY: each pointer and length are those of one slice that lives through the call, and what the library writes to is borrowed
    // by nobody else.

    #[cfg(feature = "build")]
    pub fn build(script: &[u8], characters: &[u8], t: Lent) -> Option<Told> {
        Some(unsafe { svgtree_build(
            script.as_ptr(), script.len(), characters.as_ptr(), characters.len(),
            t.nodes.as_mut_ptr(), t.nodes.len(), t.attributes.as_mut_ptr(), t.attributes.len(), t.text.as_mut_ptr(), t.text.len()) })
    }

    #[cfg(feature = "exchange")]
    pub fn exchange(script: &[u8], characters: &mut [u8], number: u32, new: &[u8], t: Lent) -> Option<Told> {
        Some(unsafe { svgtree_exchange(
            script.as_ptr(), script.len(), characters.as_mut_ptr(), characters.len(), number, new.as_ptr(), new.len(),
            t.nodes.as_mut_ptr(), t.nodes.len(), t.attributes.as_mut_ptr(), t.attributes.len(), t.text.as_mut_ptr(), t.text.len()) })
    }

    #[cfg(not(feature = "build"))]
    pub fn build(_: &[u8], _: &[u8], _: Lent) -> Option<Told> { None }
    #[cfg(not(feature = "exchange"))]
    pub fn exchange(_: &[u8], _: &mut [u8], _: u32, _: &[u8], _: Lent) -> Option<Told> { None }
}

/// Tables and characters as they are lent in a test: each lies between words of its own that no call may change, or, with HOST_EXACT,
/// in an allocation of just its length.
struct Guarded<T> {
    all: Vec<T>,
    mark: T,
    around: usize,
}

impl<T: Copy + PartialEq> Guarded<T> {
    fn new(content: &[T], mark: T) -> Guarded<T> {
        let around = if guards() { 16 } else { 0 };
        let mut all = Vec::with_capacity(content.len() + 2 * around);
        all.extend(std::iter::repeat(mark).take(around));
        all.extend(content);
        all.extend(std::iter::repeat(mark).take(around));
        Guarded { all, mark, around }
    }

    fn lent(&mut self) -> &mut [T] {
        let end = self.all.len() - self.around;
        &mut self.all[self.around..end]
    }

    /// What is left between the words around it.
    fn left(mut self) -> Vec<T> {
        let end = self.all.len() - self.around;
        let mark = self.mark;
        assert!(
            self.all[..self.around].iter().chain(&self.all[end..]).all(|w| *w == mark),
            "a call wrote outside of what it was lent"
        );
        self.all.truncate(end);
        self.all.drain(..self.around);
        self.all
    }
}

#[cfg(feature = "build")]
fn guards() -> bool {
    !is_exact()
}

#[cfg(not(feature = "build"))]
fn guards() -> bool {
    true
}

/// The three tables of a test.
struct Tested {
    nodes: Guarded<u32>,
    attributes: Guarded<u32>,
    text: Guarded<u8>,
}

impl Tested {
    fn new(before: &Built) -> Tested {
        Tested {
            nodes: Guarded::new(&before.nodes, 0x5e5e_5e5e),
            attributes: Guarded::new(&before.attributes, 0x5e5e_5e5e),
            text: Guarded::new(&before.text, 0x5e),
        }
    }

    fn lent(&mut self) -> Lent<'_> {
        Lent { nodes: self.nodes.lent(), attributes: self.attributes.lent(), text: self.text.lent() }
    }

    fn left(self, told: Told) -> Built {
        Built {
            number: told.number,
            counts: [told.nodes, told.attributes, told.text],
            nodes: self.nodes.left(),
            attributes: self.attributes.left(),
            text: self.text.left(),
        }
    }
}

/// Build with tables that hold `before`: its answer with the tables. Script and characters must stay as they are.
pub fn build(script: &[u8], characters: &[u8], before: &Built) -> Option<Built> {
    let (s, c) = (script.to_vec(), characters.to_vec());
    let mut tested = Tested::new(before);
    let told = plain::build(&s, &c, tested.lent())?;
    assert!(s == script && c == characters, "build changed script or characters");
    Some(tested.left(told))
}

/// Exchange with tables that hold `before`: the characters afterwards, and its answer with the tables.
pub fn exchange(script: &[u8], characters: &[u8], number: u32, new: &[u8], before: &Built) -> Option<(Vec<u8>, Built)> {
    let (s, n) = (script.to_vec(), new.to_vec());
    let mut c = Guarded::new(characters, 0x5e);
    let mut tested = Tested::new(before);
    let told = plain::exchange(&s, c.lent(), number, &n, tested.lent())?;
    assert!(s == script && n == new, "exchange changed the script or the new bytes");
    Some((c.left(), tested.left(told)))
}
