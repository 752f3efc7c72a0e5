//! A drawing script and its characters, decoded for the stand-ins of roxmltree, simplecss and svgtypes, and the log of what the Rust
//! asks them for. Every string of the script is copied to a place of its own in one allocation, with one byte more than it has, so that
//! the address of a `&str` that the Rust hands on tells which command it comes from, an empty one's too.
use std::cell::{Cell, RefCell};
use std::ops::Range;

/// The names of the codes, as an XML document spells them.
pub struct Names {
    pub elements: Vec<&'static str>,
    pub attributes: Vec<&'static str>,
}

/// A name that stands in no list.
const UNLISTED: &str = "-unlisted";

impl Names {
    pub fn element(&self, code: u8) -> &'static str {
        self.elements.get(code as usize).copied().unwrap_or(UNLISTED)
    }

    pub fn attribute(&self, code: u8) -> &'static str {
        self.attributes.get(code as usize).copied().unwrap_or(UNLISTED)
    }

    pub fn declaration(&self, code: u8) -> &'static str {
        if code == 254 { "marker" } else { self.attribute(code) }
    }
}

/// The namespaces by their codes.
pub fn namespace(code: u8) -> Option<&'static str> {
    match code {
        0 => None,
        1 => Some("http://www.w3.org/2000/svg"),
        2 => Some("http://www.w3.org/1999/xlink"),
        3 => Some("http://www.w3.org/XML/1998/namespace"),
        _ => Some("another"),
    }
}

/// The value of an attribute or a declaration, or a text: where it lies in the characters, and which node has it.
pub struct Value {
    pub command: u32,
    pub start: u32,
    pub length: u32,
    pub node: usize,
    at: usize,
    readings: Range<usize>,
}

struct Reading {
    kind: u8,
    offset: u32,
    length: u32,
}

pub struct Attribute {
    pub name: u8,
    pub namespace: u8,
    pub value: usize,
}

pub struct Declaration {
    pub name: u8,
    pub important: bool,
    pub value: usize,
}

#[derive(Clone, Copy, PartialEq)]
pub enum Kind {
    Root,
    Element {
        code: u8,
        namespace: u8,
    },
    /// A text: its number, counted from 1, and its value.
    Text {
        number: u32,
        value: usize,
    },
    Other,
}

/// A node of the XML document. Nodes stand in document order: those below node n are n + 1 to `end`.
pub struct Node {
    pub kind: Kind,
    pub parent: usize,
    pub end: usize,
    pub attributes: Range<usize>,
    pub declarations: Range<usize>,
}

/// What the Rust did, as the stand-ins see it: one step for every node that it is about to append.
#[derive(Clone, Debug, PartialEq)]
pub enum Step {
    /// An element of the document whose entries are all there: how many the tree has now.
    Element { node: usize, entries: u32 },
    /// A text node and the numbers of the texts that it is made from.
    Text { numbers: Vec<u32> },
}

#[derive(Default)]
pub struct Log {
    pub steps: Vec<Step>,
    /// The texts that a tref has read so far.
    quoted: Vec<u32>,
    /// What was dropped since the last step: the commands of values, 0 for a value without a place, and whether a list of filters was
    /// read before. Behind the last step these are the values that the repairs replace.
    pub dropped: Vec<(u32, bool)>,
    filters_read: bool,
    /// Values alive, less those of the document itself.
    live: i64,
    /// Trefs that led to an element: with text, and without.
    pub quotes: u32,
    pub empty_quotes: u32,
}

pub struct Drawing {
    pub names: &'static Names,
    arena: Vec<u8>,
    owners: Vec<u32>,
    pub values: Vec<Value>,
    readings: Vec<Reading>,
    pub attributes: Vec<Attribute>,
    pub declarations: Vec<Declaration>,
    pub nodes: Vec<Node>,
    /// The value of each text, by its number less 1.
    pub texts: Vec<usize>,
    pub log: RefCell<Log>,
}

struct Reader<'a> {
    script: &'a [u8],
    at: usize,
    characters: &'a [u8],
    taken: usize,
}

impl Reader<'_> {
    fn byte(&mut self) -> u8 {
        self.at += 1;
        self.script[self.at - 1]
    }

    fn word(&mut self) -> u32 {
        self.at += 4;
        u32::from_le_bytes(self.script[self.at - 4..self.at].try_into().unwrap())
    }
}

impl Drawing {
    /// Decodes a drawing that check takes.
    pub fn read(script: &[u8], characters: &[u8], names: &'static Names) -> Drawing {
        let mut d = Drawing {
            names,
            arena: Vec::with_capacity(characters.len() + script.len()),
            owners: Vec::new(),
            values: Vec::new(),
            readings: Vec::new(),
            attributes: Vec::new(),
            declarations: Vec::new(),
            nodes: vec![Node { kind: Kind::Root, parent: 0, end: 0, attributes: 0..0, declarations: 0..0 }],
            texts: Vec::new(),
            log: RefCell::default(),
        };
        let mut r = Reader { script, at: 0, characters, taken: 0 };
        let mut here = 0;
        let mut command = 0;
        while r.at < script.len() {
            command += 1;
            match r.byte() {
                1 => {
                    let kind = Kind::Element { code: r.byte(), namespace: r.byte() };
                    here = d.node(kind, here);
                }
                2 => {
                    let (name, namespace) = (r.byte(), r.byte());
                    let value = d.value(&mut r, command, here);
                    d.attributes.push(Attribute { name, namespace, value });
                    d.nodes[here].attributes.end += 1;
                }
                3 => {
                    let (name, important) = (r.byte(), r.byte() == 1);
                    let value = d.value(&mut r, command, here);
                    d.declarations.push(Declaration { name, important, value });
                    d.nodes[here].declarations.end += 1;
                }
                4 => {
                    let (kind, offset, length) = (r.byte(), r.word(), r.word());
                    d.readings.push(Reading { kind, offset, length });
                    d.values.last_mut().unwrap().readings.end += 1;
                }
                5 => {
                    let number = d.texts.len() as u32 + 1;
                    let value = d.value(&mut r, command, d.nodes.len());
                    d.texts.push(value);
                    d.node(Kind::Text { number, value }, here);
                }
                6 => {
                    d.node(Kind::Other, here);
                }
                _ => {
                    d.nodes[here].end = d.nodes.len();
                    here = d.nodes[here].parent;
                }
            }
        }
        d.nodes[0].end = d.nodes.len();
        d
    }

    fn node(&mut self, kind: Kind, parent: usize) -> usize {
        let here = self.nodes.len();
        let (a, b) = (self.attributes.len(), self.declarations.len());
        self.nodes.push(Node { kind, parent, end: here + 1, attributes: a..a, declarations: b..b });
        here
    }

    fn value(&mut self, r: &mut Reader, command: u32, node: usize) -> usize {
        let length = r.word();
        let (start, at) = (r.taken, self.arena.len());
        r.taken += length as usize;
        self.arena.extend(&r.characters[start..r.taken]);
        self.arena.push(0);
        let (index, first) = (self.values.len(), self.readings.len());
        self.owners.resize(self.arena.len(), index as u32);
        self.values.push(Value { command, start: start as u32, length, node, at, readings: first..first });
        index
    }

    /// The string of a value.
    pub fn string(&self, value: usize) -> &str {
        let v = &self.values[value];
        // SAFETY: check took the drawing, so each of its strings is UTF-8.
        unsafe { std::str::from_utf8_unchecked(&self.arena[v.at..v.at + v.length as usize]) }
    }

    /// The value that the bytes at an address are part of, and how far behind its beginning they lie.
    fn owner(&self, address: *const u8) -> Option<(usize, u32)> {
        let at = (address as usize).checked_sub(self.arena.as_ptr() as usize)?;
        let value = *self.owners.get(at)? as usize;
        Some((value, (at - self.values[value].at) as u32))
    }

    /// Where a string that the Rust has lies in the characters, and the command that it comes from.
    pub fn place(&self, string: &str) -> Option<(u32, u32)> {
        let (value, offset) = self.owner(string.as_ptr())?;
        let v = &self.values[value];
        Some((v.start + offset, v.command))
    }

    /// The declarations of an element in three parts: those of two rules, and those of its style attribute, if it has one.
    /// What is given is where one part stands among all declarations.
    pub fn declared(&self, node: usize, part: usize) -> Range<usize> {
        let Range { start, end } = self.nodes[node].declarations;
        let parts = if self.has_style(node) { 3 } else { 2 };
        start + (end - start) * part / parts..start + (end - start) * (part + 1) / parts
    }

    /// Whether an element has an unprefixed style attribute.
    fn has_style(&self, node: usize) -> bool {
        let mut own = self.attributes[self.nodes[node].attributes.clone()].iter();
        own.any(|a| a.namespace == 0 && self.names.attribute(a.name) == "style")
    }
}

thread_local! {
    static CURRENT: Cell<*const Drawing> = const { Cell::new(std::ptr::null()) };
    static ASKED: Cell<usize> = const { Cell::new(0) };
}

struct Reset(*const Drawing);

impl Drop for Reset {
    fn drop(&mut self) {
        CURRENT.with(|c| c.set(self.0));
    }
}

/// Runs something with a drawing behind the stand-ins.
pub fn within<R>(drawing: &Drawing, run: impl FnOnce() -> R) -> R {
    let _reset = Reset(CURRENT.with(|c| c.replace(drawing)));
    run()
}

/// The drawing behind the stand-ins, if there is one.
pub fn current<R>(ask: impl FnOnce(&Drawing) -> R) -> Option<R> {
    let drawing = CURRENT.with(|c| c.get());
    // SAFETY: `within` borrows the drawing for as long as its address stands here.
    unsafe { drawing.as_ref() }.map(ask)
}

/// The part of a value that its reading of a kind names.
pub fn reading<'a>(value: &'a str, kind: u8) -> Option<&'a str> {
    parts(value, kind).first().copied()
}

/// The parts of a value that its readings of a kind name.
pub fn parts<'a>(value: &'a str, kind: u8) -> Vec<&'a str> {
    let found = current(|d| {
        let owner = match d.owner(value.as_ptr()) {
            Some((owner, _)) => &d.values[owner],
            None => return Vec::new(),
        };
        let bytes = d.arena[owner.at..].as_ptr();
        let named = d.readings[owner.readings.clone()].iter().filter(|r| r.kind == kind);
        // SAFETY: check took the drawing, so the part lies in the value and is UTF-8; the value is alive, so the arena is.
        let part = |r: &Reading| unsafe {
            let part = std::slice::from_raw_parts(bytes.add(r.offset as usize), r.length as usize);
            std::str::from_utf8_unchecked(part)
        };
        named.map(part).collect::<Vec<&'a str>>()
    });
    found.unwrap_or_default()
}

/// Whether nothing is noted.
const QUIET: bool = cfg!(feature = "quiet");

/// Notes which node was last asked for its name, so that a selector can tell which node it is matched with.
pub fn asked_for_name(node: usize) {
    ASKED.with(|a| a.set(node));
}

pub fn last_asked() -> usize {
    ASKED.with(|a| a.get())
}

#[inline]
fn log(note: impl FnOnce(&mut Log)) {
    if !QUIET {
        current(|d| note(&mut d.log.borrow_mut()));
    }
}

/// A value of an attribute begins to live.
#[inline]
pub fn born() {
    log(|l| l.live += 1);
}

/// A value of an attribute is dropped.
#[inline]
pub fn dropped(value: &str) {
    if QUIET {
        return;
    }
    current(|d| {
        let command = d.place(value).map_or(0, |p| p.1);
        let mut l = d.log.borrow_mut();
        l.live -= 1;
        let filters_read = l.filters_read;
        l.dropped.push((command, filters_read));
    });
}

/// A list of filters is read, as only the last repair does.
#[inline]
pub fn filters_read() {
    log(|l| l.filters_read = true);
}

/// All entries of an element stand in the tree.
#[inline]
pub fn entered(node: usize) {
    log(|l| {
        l.dropped.clear();
        let entries = l.live as u32;
        l.steps.push(Step::Element { node, entries });
    });
}

/// The node that a value of the drawing stands in.
pub fn node_of(value: &str) -> usize {
    current(|d| d.owner(value.as_ptr()).map(|(owner, _)| d.values[owner].node)).flatten().unwrap()
}

/// A text is read: by a tref, or to become a text node.
#[inline]
pub fn text_read(number: u32, by_tref: bool) {
    log(|l| {
        if by_tref {
            l.quoted.push(number);
        } else {
            l.dropped.clear();
            l.steps.push(Step::Text { numbers: vec![number] });
        }
    });
}

/// Everything below an element has been walked through: where it was for a tref, its texts become a text node, unless all are empty.
#[inline]
pub fn walked() {
    if QUIET {
        return;
    }
    current(|d| {
        let mut l = d.log.borrow_mut();
        let numbers = std::mem::take(&mut l.quoted);
        if numbers.iter().any(|&n| d.values[d.texts[n as usize - 1]].length > 0) {
            l.dropped.clear();
            l.quotes += 1;
            l.steps.push(Step::Text { numbers });
        } else if !numbers.is_empty() {
            l.empty_quotes += 1;
        }
    });
}
