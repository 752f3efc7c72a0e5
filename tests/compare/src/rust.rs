//! The Rust's answer for a drawing: `Document::parse_tree` runs on the stand-ins, and its tree is set out as document 01, section 3, has
//! it. The tables' rooms, which the Rust does not know, are counted along the steps that the Rust took.
use crate::events::Events;
use crate::places::Places;
use crate::svgtree::{self, seen};
use drawing::{Drawing, Kind, Names, Step};
use host::built::{Built, Exchanged};
use host::check::check;
use host::names::FIXED;
use host::rooms::{self, Taken};
use std::time::{Duration, Instant};

/// What the Rust made of a drawing that check takes.
pub struct Tree {
    /// 0, or 20 or 21 where the Rust gives an error.
    pub end: u32,
    /// The steps of the Rust, as far as rooms go.
    taken: Vec<Taken>,
    pub nodes: Vec<[u32; 8]>,
    pub entries: Vec<[u32; 5]>,
    pub text: Vec<u8>,
    /// For every text node its index and the numbers of the texts that it is made from.
    pub sources: Vec<(u32, Vec<u32>)>,
    pub events: Events,
}

/// The names of the codes, made once.
pub fn names() -> &'static Names {
    thread_local! {
        static NAMES: &'static Names = Box::leak(Box::new(seen::names()));
    }
    NAMES.with(|n| *n)
}

/// Runs the Rust on a drawing that check takes.
pub fn tree(script: &[u8], characters: &[u8]) -> Tree {
    tree_asked(script, characters, |_, _| ()).0
}

/// Runs the Rust on a drawing that check takes, and asks something of the tree if there is one.
pub fn tree_asked<R>(script: &[u8], characters: &[u8], ask: impl FnOnce(&svgtree::Document, &Tree) -> R) -> (Tree, Option<R>) {
    let drawing = Drawing::read(script, characters, names());
    let document = roxmltree::Document::new(&drawing);
    let parsed = drawing::within(&drawing, || svgtree::Document::parse_tree(&document, None));
    let log = drawing.log.take();
    let length = |numbers: &[u32]| numbers.iter().map(|&n| drawing.values[drawing.texts[n as usize - 1]].length).sum();
    let step = |step: &Step| match step {
        Step::Element { entries, .. } => Taken::Element(*entries),
        Step::Text { numbers } => Taken::Text(length(numbers)),
    };
    let mut tree = Tree {
        end: 0,
        taken: log.steps.iter().map(step).collect(),
        nodes: Vec::new(),
        entries: Vec::new(),
        text: Vec::new(),
        sources: Vec::new(),
        events: Events::default(),
    };
    tree.events.add("tref: quoted", log.quotes as u64);
    tree.events.add("tref: nothing but empty texts", log.empty_quotes as u64);
    let answer = match parsed {
        Ok(doc) => {
            tree.set_out(&drawing, &doc, &log, characters);
            Some(ask(&doc, &tree))
        }
        Err(error) => {
            tree.end = if error == roxmltree::Error::NodesLimitReached { 20 } else { 21 };
            if tree.end == 20 {
                let most = tree.needed()[0] > 1_000_001;
                tree.events.note(if most { "20: more than 1,000,000 nodes" } else { "20: the depth limit" });
            }
            None
        }
    };
    (tree, answer)
}

/// `parse_tree` again and again of a drawing that check takes: what is run gets a function that runs it once, and gives its time and how
/// many nodes the tree has. The tree is dropped behind that time.
pub fn timed<R>(script: &[u8], characters: &[u8], run: impl FnOnce(&dyn Fn() -> (Duration, usize)) -> R) -> R {
    let drawing = Drawing::read(script, characters, names());
    let document = roxmltree::Document::new(&drawing);
    run(&|| {
        drawing::within(&drawing, || {
            let start = Instant::now();
            let parsed = svgtree::Document::parse_tree(&document, None);
            let time = start.elapsed();
            (time, parsed.map_or(0, |doc| seen::nodes(&doc).count()))
        })
    })
}

impl Tree {
    fn set_out(&mut self, drawing: &Drawing, doc: &svgtree::Document, log: &drawing::Log, characters: &[u8]) {
        for (name, important, value) in seen::entries(doc) {
            self.entries.push(match drawing.place(value) {
                Some((start, command)) => [name, important as u32, start, value.len() as u32, command],
                None => {
                    let number = FIXED.iter().position(|f| *f == value).expect("a value from nowhere") as u32 + 1;
                    [name, important as u32, number, 0, 0]
                }
            });
        }
        let mut strings = Vec::new();
        for (index, n) in seen::nodes(doc).enumerate() {
            let [kind, code, from, to] = match n.kind {
                seen::Kind::Root => [1, 0, 0, 0],
                seen::Kind::Element { code, from, to } => [2, code, from, to],
                seen::Kind::Text(string) => {
                    strings.push((index, string));
                    [3, 0, 0, 0]
                }
            };
            self.nodes.push([kind, n.parent, n.next, n.first, n.last, code, from, to]);
        }
        let sources = self.sources_of(drawing, log);
        let Tree { nodes, entries, text, events, .. } = self;
        Places { nodes, entries, characters, sources: &sources, text, events }.place();
        for (index, string) in strings {
            let [.., from, to] = self.nodes[index];
            assert_eq!(string.as_bytes(), &self.text[from as usize..to as usize], "the text of node {index}");
        }
        self.note(drawing, log);
    }

    /// The bytes that each text node is made from. The steps that the stand-ins saw are the nodes of the tree.
    fn sources_of(&mut self, drawing: &Drawing, log: &drawing::Log) -> Vec<Vec<u8>> {
        assert_eq!(log.steps.len() + 1, self.nodes.len(), "a step for every node");
        let mut sources = Vec::new();
        for (index, step) in (1..).zip(&log.steps) {
            let [kind, .., to] = self.nodes[index];
            match step {
                Step::Element { entries, .. } => assert_eq!((kind, to), (2, *entries), "an element's entries"),
                Step::Text { numbers } => {
                    assert_eq!(kind, 3, "a text node");
                    let strings = numbers.iter().map(|&n| drawing.string(drawing.texts[n as usize - 1]).as_bytes());
                    sources.push(strings.collect::<Vec<_>>().concat());
                    self.sources.push((index as u32, numbers.clone()));
                }
            }
        }
        sources
    }

    /// What happened in a build that the Rust finished.
    fn note(&mut self, drawing: &Drawing, log: &drawing::Log) {
        for &(command, filters_read) in &log.dropped {
            let attributes = drawing.attributes.iter().map(|a| (a.name, a.value));
            let declarations = drawing.declarations.iter().map(|d| (d.name, d.value));
            let name = attributes.chain(declarations).find(|d| drawing.values[d.1].command == command);
            self.events.note(match name.map(|d| drawing.names.declaration(d.0)) {
                _ if filters_read && command == 0 => "repair: feImage, cut again",
                _ if filters_read => "repair: feImage",
                Some("fill") => "repair: pattern, fill",
                Some("stroke") => "repair: pattern, stroke",
                Some("clip-path") => "repair: clip path",
                Some("mask") => "repair: mask",
                Some("filter") => "repair: filter",
                _ => "repair: unknown",
            });
        }
        if log.dropped.len() > 1 {
            self.events.note("repair: several cuts");
        }
        for (index, step) in (1..).zip(&log.steps) {
            if let Step::Element { node, .. } = step {
                let code = match drawing.nodes[*node].kind {
                    Kind::Element { code, .. } => code as u32,
                    _ => unreachable!(),
                };
                let [_, _, _, first, _, made, from, to] = self.nodes[index];
                if code != made {
                    self.events.note(if made == 31 { "element: a becomes g" } else { "element: a or tref becomes tspan" });
                }
                if made == 52 {
                    self.events.note(if first == 0 { "use: nothing copied" } else { "use: copied" });
                }
                for entry in &self.entries[from as usize..to as usize] {
                    if entry[4] == 0 {
                        self.events.note("entry: fixed value");
                    } else if entry[1] == 1 {
                        self.events.note("entry: important");
                    }
                }
            }
        }
    }

    /// The number of build with tables of these lengths.
    pub fn number(&self, words: [usize; 3]) -> u32 {
        rooms::number(&self.taken, self.end, words)
    }

    /// How many nodes, entries and bytes of text are taken, whatever the end.
    pub fn needed(&self) -> [usize; 3] {
        rooms::needed(&self.taken)
    }

    /// What build gives with tables of these lengths.
    pub fn built(&self, words: [usize; 3]) -> Built {
        let mut built = Built::refused(self.number(words), words);
        if built.number == 0 {
            built.counts = [self.nodes.len() as u32, self.entries.len() as u32, self.text.len() as u32];
            for (k, record) in self.nodes.iter().enumerate() {
                built.nodes[8 * k..8 * k + 8].copy_from_slice(record);
            }
            for (k, record) in self.entries.iter().enumerate() {
                built.attributes[5 * k..5 * k + 5].copy_from_slice(record);
            }
            built.text[..self.text.len()].copy_from_slice(&self.text);
        }
        built
    }
}

/// Build: check's numbers, then the Rust.
pub fn build(script: &[u8], characters: &[u8], words: [usize; 3]) -> Built {
    match check(script, characters) {
        0 => tree(script, characters).built(words),
        number => Built::refused(number, words),
    }
}

/// The place of a text in the characters, and whether it stands inside an element named style.
fn text_place(drawing: &Drawing, number: u32) -> Option<(std::ops::Range<usize>, bool)> {
    let value = &drawing.values[*drawing.texts.get((number as usize).checked_sub(1)?)?];
    let is_style =
        |n: usize| matches!(drawing.nodes[n].kind, Kind::Element { code, .. } if drawing.names.element(code) == "style");
    let above = std::iter::successors(Some(value.node), |&n| Some(drawing.nodes[n].parent).filter(|_| n != 0));
    Some((value.start as usize..(value.start + value.length) as usize, above.into_iter().any(is_style)))
}

/// The number of an exchange before it builds, or the changed characters.
pub fn changed(script: &[u8], characters: &[u8], number: u32, bytes: &[u8]) -> Result<Vec<u8>, u32> {
    match check(script, characters) {
        0 => {}
        refused => return Err(refused),
    }
    let drawing = Drawing::read(script, characters, names());
    let (place, in_style) = text_place(&drawing, number).ok_or(30u32)?;
    if in_style {
        return Err(31);
    }
    if place.len() != bytes.len() {
        return Err(32);
    }
    if std::str::from_utf8(bytes).is_err() {
        return Err(33);
    }
    let mut changed = characters.to_vec();
    changed[place].copy_from_slice(bytes);
    Ok(changed)
}

/// Exchange: its own tests, then the Rust on the changed drawing.
pub fn exchange(script: &[u8], characters: &[u8], number: u32, bytes: &[u8], words: [usize; 3]) -> Exchanged {
    match changed(script, characters, number, bytes) {
        Err(number) => Exchanged { number, characters: characters.to_vec(), tables: None },
        Ok(changed) => {
            let built = build(script, &changed, words);
            let characters = if built.number == 0 { changed } else { characters.to_vec() };
            Exchanged { number: built.number, characters, tables: Some(built) }
        }
    }
}
