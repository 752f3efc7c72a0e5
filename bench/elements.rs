//! Times of elements with their entries and of text elements, by the static library of the crate `elements`, beside plain Rust over `Vec`,
//! which does it as the Rust does: an entry is appended, then swapped with the first of its name and taken off again, and a declared value
//! is owned (`Arc`); a text is a `String`, and the text nodes of a text element are collected before they are trimmed. A leaner one only
//! borrows the values. All without check. See bench/run. No test: it only prints; but all must come to the same entries and texts.
use std::collections::HashMap;
use std::sync::Arc;
use std::time::Instant;

#[repr(C)]
struct Built {
    number: u32,
    nodes: u32,
    attributes: u32,
    text: u32,
}

extern "C" {
    fn elements_check(script: *const u8, script_len: usize, characters: *const u8, characters_len: usize) -> u32;
    #[rustfmt::skip]
    fn elements_build(script: *const u8, script_len: usize, characters: *const u8, characters_len: usize,
        nodes: *mut u32, nodes_len: usize, attributes: *mut u32, attributes_len: usize, text: *mut u8, text_len: usize,
        ignored: bool) -> Built;
}

/// The codes and classes of names, from tools/names.lists.
struct Names {
    element: HashMap<String, u8>,
    attribute: HashMap<String, u8>,
    presentation: [bool; 256],
    inheritable: [bool; 256],
    inherit: [bool; 256],
    declared_only: [bool; 256],
    defaults: [u8; 256],
    resets: Vec<(u8, u8)>,
}

impl Names {
    fn read() -> Names {
        const FIXED: &str = "none auto normal black 1 nonzero baseline linearRGB ltr inline medium visible 0 butt miter 4 start lr-tb";
        let text = std::fs::read_to_string("tools/names.lists").expect("run it in the project's folder");
        let list = |name: &str| -> Vec<String> {
            let line = text.lines().find(|l| l.starts_with(&format!("{name} "))).unwrap();
            line.split(' ').skip(2).map(String::from).collect()
        };
        let coded = |l: Vec<String>| -> HashMap<String, u8> { l.into_iter().enumerate().map(|(i, n)| (n, i as u8)).collect() };
        let attribute = coded(list("AId"));
        let fixed = |v: &str| FIXED.split(' ').position(|f| f == v).unwrap() as u8 + 1;
        let marked = |name: &str| {
            let mut m = [false; 256];
            list(name).iter().for_each(|n| m[attribute[n] as usize] = true);
            m
        };
        let paired = |name: &str| -> Vec<(u8, u8)> {
            list(name).iter().map(|l| l.split_once('=').map(|(n, v)| (attribute[n], fixed(v))).unwrap()).collect()
        };
        let (presentation, not) = (marked("is_presentation"), marked("is_non_inheritable"));
        let mut inheritable = presentation;
        (0..256).filter(|k| not[*k]).for_each(|k| inheritable[k] = false);
        let mut defaults = [0; 256];
        paired("inherit_defaults").iter().for_each(|(n, v)| defaults[*n as usize] = *v);
        Names {
            element: coded(list("EId")),
            presentation,
            inheritable,
            inherit: marked("allows_inherit_value"),
            declared_only: marked("is_declared_only"),
            defaults,
            resets: paired("font_resets"),
            attribute,
        }
    }

    fn a(&self, name: &str) -> u8 {
        self.attribute[name]
    }
}

// PLAIN RUST

#[derive(Clone)]
enum Value<'a> {
    Text(&'a [u8]),
    Owned(Arc<[u8]>),
    Fixed(u8),
}

impl<'a> Value<'a> {
    fn bytes(&self) -> &[u8] {
        match self {
            Value::Text(v) => v,
            Value::Owned(v) => v,
            Value::Fixed(_) => b"",
        }
    }

    /// A declared value.
    fn declared(v: &'a [u8], owned: bool) -> Value<'a> {
        if owned { Value::Owned(Arc::from(v)) } else { Value::Text(v) }
    }
}

#[derive(Clone)]
struct Attribute<'a> {
    name: u8,
    important: bool,
    value: Value<'a>,
    command: u32,
}

struct Node {
    parent: usize,
    tag: u8,
    from: usize,
    to: usize,
    first: usize,
    last: usize,
    next: usize,
}

struct Plain<'a> {
    owned: bool,
    names: &'a Names,
    codes: [u8; 12],
    nodes: Vec<Node>,
    attributes: Vec<Attribute<'a>>,
    texts: Vec<String>,
}

/// Where the script is read.
struct Reader<'a> {
    script: &'a [u8],
    characters: &'a [u8],
    at: usize,
    chars: usize,
    command: u32,
}

impl<'a> Reader<'a> {
    fn word(&self, at: usize) -> usize {
        u32::from_le_bytes(self.script[at..at + 4].try_into().unwrap()) as usize
    }

    /// The next `len` characters.
    fn take(&mut self, len: usize) -> &'a [u8] {
        let part = &self.characters[self.chars..self.chars + len];
        self.chars += len;
        part
    }
}

const FONT: usize = 0;
const STYLE: usize = 1;
const CLASS: usize = 2;
const HREF: usize = 3;
const IMAGE_RENDERING: usize = 5;
const MARKERS: [&str; 3] = ["MarkerStart", "MarkerMid", "MarkerEnd"];
const PARTS: [&str; 6] = ["FontStretch", "FontWeight", "FontVariant", "FontStyle", "FontSize", "FontFamily"];

impl<'a> Plain<'a> {
    fn attribute(&self, node: usize, name: u8) -> Option<&Attribute<'a>> {
        let n = &self.nodes[node];
        self.attributes[n.from..n.to].iter().find(|a| a.name == name)
    }

    fn resolve_inherit(&mut self, parent: usize, name: u8) -> bool {
        let found = if self.names.inheritable[name as usize] {
            let mut node = parent;
            loop {
                if let Some(a) = self.attribute(node, name) {
                    break Some(a.clone());
                }
                if node == 0 {
                    break None;
                }
                node = self.nodes[node].parent;
            }
        } else {
            self.attribute(parent, name).cloned()
        };
        let default = self.names.defaults[name as usize];
        match found {
            Some(a) => self.attributes.push(a),
            None if default != 0 => self.attributes.push(Attribute { name, important: false, value: Value::Fixed(default), command: 0 }),
            None => return false,
        }
        true
    }

    fn append_attribute(&mut self, parent: usize, tag: u8, a: Attribute<'a>) -> bool {
        let left_out = a.name == self.codes[STYLE] || a.name == self.codes[CLASS] || tag == self.codes[11] && a.name == self.codes[HREF];
        if left_out {
            return false;
        }
        if self.names.inherit[a.name as usize] && a.value.bytes() == b"inherit" {
            return self.resolve_inherit(parent, a.name);
        }
        self.attributes.push(a);
        true
    }

    fn insert_attribute(&mut self, start: usize, parent: usize, tag: u8, a: Attribute<'a>) {
        let name = a.name;
        let existing = self.attributes[start..].iter().position(|x| x.name == name);
        if self.append_attribute(parent, tag, a) {
            if let Some(i) = existing {
                let last = self.attributes.len() - 1;
                if !self.attributes[start + i].important {
                    self.attributes.swap(start + i, last);
                }
                self.attributes.pop();
            }
        }
    }

    fn add(&mut self, start: usize, parent: usize, tag: u8, space: u8, a: Attribute<'a>) {
        if space > 3 || a.name > 210 || self.names.declared_only[a.name as usize] {
            return;
        }
        if a.name == self.codes[IMAGE_RENDERING] {
            if let b"smooth" | b"high-quality" | b"crisp-edges" | b"pixelated" = a.value.bytes() {
                return;
            }
        }
        if a.name == self.codes[HREF] {
            if space != 0 && space != 2 {
                return;
            }
            if let Some(i) = self.attributes[start..].iter().position(|x| x.name == a.name) {
                if space == 0 {
                    let old = &mut self.attributes[start + i];
                    (old.value, old.command) = (a.value, a.command);
                }
                return;
            }
        }
        self.append_attribute(parent, tag, a);
    }

    #[rustfmt::skip]
    fn declare(&mut self, start: usize, parent: usize, tag: u8, name: u8, important: bool, whole: &'a [u8], command: u32,
        readings: &[(u8, &'a [u8])]) {
        let owned = self.owned;
        let with = |name: u8, v: &'a [u8]| Attribute { name, important, value: Value::declared(v, owned), command };
        if name == 254 {
            for n in 0..3 {
                self.insert_attribute(start, parent, tag, with(self.codes[6 + n], whole));
            }
        } else if name == self.codes[FONT] {
            let read = |kind: u8| readings.iter().find(|r| r.0 == kind).map(|r| r.1);
            if read(9).is_none() || read(10).is_none() {
                return;
            }
            let names = self.names;
            for (name, value) in &names.resets {
                self.insert_attribute(start, parent, tag, Attribute { name: *name, important, value: Value::Fixed(*value), command: 0 });
            }
            for (kind, name) in (5..=10).zip(PARTS) {
                if let Some(v) = read(kind) {
                    self.insert_attribute(start, parent, tag, with(names.a(name), v));
                }
            }
        } else if self.names.presentation[name as usize] {
            self.insert_attribute(start, parent, tag, with(name, whole));
        }
    }

    fn append(&mut self, parent: usize, tag: u8, from: usize) -> usize {
        let i = self.nodes.len();
        self.nodes.push(Node { parent, tag, from, to: self.attributes.len(), first: 0, last: 0, next: 0 });
        let last = self.nodes[parent].last;
        if last != 0 {
            self.nodes[last].next = i;
        }
        if self.nodes[parent].first == 0 {
            self.nodes[parent].first = i;
        }
        self.nodes[parent].last = i;
        i
    }

    /// An element with its entries, from its open on.
    fn element(&mut self, r: &mut Reader<'a>, readings: &mut Vec<(u8, &'a [u8])>, parent: usize) -> usize {
        let (tag, space, start) = (r.script[r.at + 1], r.script[r.at + 2], self.attributes.len());
        assert!(space <= 1 && tag <= 52 && tag != self.codes[9]);
        r.at += 3;
        while r.at < r.script.len() && (2..=4).contains(&r.script[r.at]) {
            r.command += 1;
            let at = r.at;
            if r.script[at] == 4 {
                r.at += 10;
                continue;
            }
            let (kind, name, second, command) = (r.script[at], r.script[at + 1], r.script[at + 2], r.command);
            let whole = r.take(r.word(at + 3));
            r.at += 7;
            if kind == 2 {
                self.add(start, parent, tag, second, Attribute { name, important: false, value: Value::Text(whole), command });
            } else {
                readings.clear();
                let mut k = r.at;
                while k < r.script.len() && r.script[k] == 4 {
                    let (from, size) = (r.word(k + 2), r.word(k + 6));
                    readings.push((r.script[k + 1], &whole[from..from + size]));
                    k += 10;
                }
                self.declare(start, parent, tag, name, second == 1, whole, command, readings);
            }
        }
        self.append(parent, tag, start)
    }

    fn build(names: &'a Names, script: &'a [u8], characters: &'a [u8], owned: bool) -> Plain<'a> {
        let code = |n: &str| names.a(n);
        let codes = [
            code("Font"), code("Style"), code("Class"), code("Href"), code("Space"), code("ImageRendering"),
            code(MARKERS[0]), code(MARKERS[1]), code(MARKERS[2]), names.element["Style"], names.element["Text"], names.element["Tspan"],
        ];
        let mut t = Plain { owned, names, codes, nodes: vec![], attributes: vec![], texts: vec![] };
        t.nodes.push(Node { parent: 0, tag: 255, from: 0, to: 0, first: 0, last: 0, next: 0 });
        let mut r = Reader { script, characters, at: 0, chars: 0, command: 0 };
        let (mut node, mut readings) = (0, vec![]);
        while r.at < script.len() {
            r.command += 1;
            match script[r.at] {
                1 => {
                    node = t.element(&mut r, &mut readings, node);
                    if t.nodes[node].tag == t.codes[10] {
                        t.text_element(&mut r, &mut readings, node);
                        node = t.nodes[node].parent;
                    }
                }
                7 => {
                    node = t.nodes[node].parent;
                    r.at += 1;
                }
                other => panic!("command {other}"),
            }
        }
        t
    }
}

// TEXT ELEMENTS IN PLAIN RUST

#[derive(Clone, Copy, PartialEq)]
enum Space {
    Default,
    Preserve,
}

/// The tag of a text node; its `from` is its number among the texts.
const TEXT_NODE: u8 = 254;

/// Carriage return, newline and tab become a space; Default drops a space after a space.
fn trimmed(text: &str, space: Space) -> String {
    let mut out = String::with_capacity(text.len());
    let mut before = None;
    for c in text.chars() {
        let c = if matches!(c, '\r' | '\n' | '\t') { ' ' } else { c };
        if space == Space::Preserve || c != ' ' || before != Some(' ') {
            out.push(c);
        }
        before = Some(c);
    }
    out
}

impl<'a> Plain<'a> {
    fn space_of(&self, node: usize, handed: Space) -> Space {
        match self.attribute(node, self.codes[4]) {
            None => handed,
            Some(a) if a.value.bytes() == b"preserve" => Space::Preserve,
            Some(_) => Space::Default,
        }
    }

    /// A text element, from behind its own attributes to behind its close.
    fn text_element(&mut self, r: &mut Reader<'a>, readings: &mut Vec<(u8, &'a [u8])>, node: usize) {
        let mut holder = node;
        while holder != 0 && self.attribute(holder, self.codes[4]).is_none() {
            holder = self.nodes[holder].parent;
        }
        let space = if holder == 0 { Space::Default } else { self.space_of(holder, Space::Default) };
        self.inside(r, readings, node, space);
        self.trim(node, space);
    }

    fn inside(&mut self, r: &mut Reader<'a>, readings: &mut Vec<(u8, &'a [u8])>, node: usize, space: Space) {
        loop {
            r.command += 1;
            match r.script[r.at] {
                1 => {
                    let child = self.element(r, readings, node);
                    assert_eq!(self.nodes[child].tag, self.codes[11]);
                    let own = self.space_of(child, space);
                    self.inside(r, readings, child, own);
                }
                5 => {
                    let source = r.take(r.word(r.at + 1));
                    r.at += 5;
                    // SAFETY: check has found the texts well-formed.
                    let text = trimmed(unsafe { std::str::from_utf8_unchecked(source) }, space);
                    let child = self.append(node, TEXT_NODE, self.texts.len());
                    self.nodes[child].to = 0;
                    self.texts.push(text);
                }
                6 => r.at += 1,
                7 => {
                    r.at += 1;
                    return;
                }
                other => panic!("command {other}"),
            }
        }
    }

    fn collect(&self, node: usize, depth: usize, list: &mut Vec<(usize, usize)>) {
        let mut child = self.nodes[node].first;
        while child != 0 {
            if self.nodes[child].tag == TEXT_NODE {
                list.push((child, depth));
            } else {
                self.collect(child, depth + 1, list);
            }
            child = self.nodes[child].next;
        }
    }

    fn text(&self, node: usize) -> &str {
        &self.texts[self.nodes[node].from]
    }

    fn cut_first(&mut self, node: usize) {
        self.texts[self.nodes[node].from].drain(0..1);
    }

    fn cut_last(&mut self, node: usize) {
        self.texts[self.nodes[node].from].pop();
    }

    fn trim(&mut self, element: usize, space: Space) {
        let mut list = vec![];
        self.collect(element, 0, &mut list);
        match list.len() {
            0 => {}
            1 => self.trim_single(list[0].0, space),
            n => {
                let mut kept = None;
                for i in 0..n - 1 {
                    let (mut a, b) = (list[i].0, list[i + 1].0);
                    if self.text(a).is_empty() {
                        a = kept.unwrap_or(a);
                    }
                    self.trim_pair(a, b, list[i].1 < list[i + 1].1, i == 0, i == n - 2, space);
                    if !self.text(a).trim().is_empty() {
                        kept = Some(a);
                    }
                }
            }
        }
    }

    fn trim_single(&mut self, node: usize, space: Space) {
        let text = self.text(node);
        let (first, last) = (text.starts_with(' '), text.ends_with(' '));
        if space == Space::Preserve {
        } else if text.len() == 1 {
            if first {
                self.cut_last(node);
            }
        } else {
            if first {
                self.cut_first(node);
            }
            if last {
                self.cut_last(node);
            }
        }
    }

    fn trim_pair(&mut self, a: usize, b: usize, deeper: bool, is_first: bool, is_last: bool, space: Space) {
        let one = self.space_of(self.nodes[a].parent, space);
        let two = self.space_of(self.nodes[b].parent, space);
        let (v, w) = (self.text(a), self.text(b));
        let (begins, ends, next_begins, next_ends) = (v.starts_with(' '), v.ends_with(' '), w.starts_with(' '), w.ends_with(' '));
        if deeper {
            if next_begins && two == Space::Default {
                self.cut_first(b);
            }
        } else if ends && next_begins && two == Space::Default {
            if one == Space::Default {
                self.cut_last(a);
            } else {
                self.cut_first(b);
            }
        }
        if is_first && begins && one == Space::Default && !self.text(a).is_empty() {
            self.cut_first(a);
        } else if is_last && next_ends && !self.text(b).is_empty() && two == Space::Default {
            self.cut_last(b);
        }
        if is_last && ends && self.text(b).is_empty() && self.text(a).ends_with(' ') {
            self.cut_last(a);
        }
    }
}

// THE DRAWINGS

struct Drawing<'n> {
    names: &'n Names,
    script: Vec<u8>,
    characters: Vec<u8>,
    texts: usize,
}

impl Drawing<'_> {
    fn open(&mut self, e: &str) {
        self.script.extend([1, self.names.element[e], 1]);
    }

    fn close(&mut self) {
        self.script.push(7);
    }

    fn string(&mut self, head: [u8; 3], value: &str) {
        self.script.extend(head);
        self.script.extend((value.len() as u32).to_le_bytes());
        self.characters.extend(value.bytes());
    }

    fn a(&mut self, name: &str, value: &str) {
        self.string([2, self.names.a(name), 0], value);
    }

    fn t(&mut self, value: &str) {
        self.script.push(5);
        self.script.extend((value.len() as u32).to_le_bytes());
        self.characters.extend(value.bytes());
        self.texts += value.len();
    }

    fn xml_space(&mut self, value: &str) {
        self.string([2, self.names.a("Space"), 3], value);
    }

    fn d(&mut self, name: &str, value: &str) {
        self.string([3, self.names.a(name), 0], value);
    }

    fn r(&mut self, kind: u8, from: u32, size: u32) {
        self.script.extend([4, kind]);
        self.script.extend(from.to_le_bytes());
        self.script.extend(size.to_le_bytes());
    }
}

/// A drawing of about 300 KB: the same element again and again, below `depth` groups.
fn drawing<'n>(names: &'n Names, depth: usize, element: &dyn Fn(&mut Drawing)) -> Drawing<'n> {
    let mut d = Drawing { names, script: vec![], characters: vec![], texts: 0 };
    d.open("Svg");
    d.a("Fill", "black");
    d.a("Stroke", "none");
    (0..depth).for_each(|_| d.open("G"));
    while d.script.len() < 300_000 {
        d.open("Rect");
        element(&mut d);
        d.close();
    }
    (0..=depth).for_each(|_| d.close());
    d
}

/// The least time of each call, in microseconds, in turns.
fn times<const N: usize>(turns: usize, calls: [&mut dyn FnMut(); N]) -> [f64; N] {
    let mut least = [f64::MAX; N];
    for _ in 0..turns {
        for k in 0..N {
            let start = Instant::now();
            calls[k]();
            least[k] = least[k].min(start.elapsed().as_secs_f64() * 1e6);
        }
    }
    least
}

fn check(d: &Drawing) {
    // SAFETY: the slices are those of the vectors.
    let number = unsafe { elements_check(d.script.as_ptr(), d.script.len(), d.characters.as_ptr(), d.characters.len()) };
    assert_eq!(number, 0);
}

fn library(d: &Drawing, nodes: &mut [u32], attributes: &mut [u32], text: &mut [u8]) {
    // SAFETY: the slices are those of the vectors.
    let b = unsafe {
        elements_build(d.script.as_ptr(), d.script.len(), d.characters.as_ptr(), d.characters.len(), nodes.as_mut_ptr(), nodes.len(),
            attributes.as_mut_ptr(), attributes.len(), text.as_mut_ptr(), text.len(), false)
    };
    let full = (0, nodes.len(), attributes.len(), text.len());
    assert_eq!((b.number, 8 * b.nodes as usize, 5 * b.attributes as usize, b.text as usize), full);
}

/// Records, entries and texts are those of plain Rust.
fn compare(name: &str, plain: &Plain, characters: &[u8], nodes: &[u32], attributes: &[u32], text: &[u8]) {
    for (i, a) in plain.attributes.iter().enumerate() {
        let e = &attributes[5 * i..5 * i + 5];
        let value = match a.value {
            Value::Fixed(v) => e[2] == v as u32,
            _ => a.value.bytes() == &characters[e[2] as usize..][..e[3] as usize],
        };
        assert!(value && (e[0], e[1], e[4]) == (a.name as u32, a.important as u32, a.command), "{name}: entry {i}");
    }
    for (i, n) in plain.nodes.iter().enumerate().skip(1) {
        let r = &nodes[8 * i..8 * i + 8];
        if n.tag == TEXT_NODE {
            assert_eq!((r[0], r[1] as usize), (3, n.parent + 1), "{name}: node {i}");
            assert!(text[r[6] as usize..r[7] as usize] == *plain.texts[n.from].as_bytes(), "{name}: text of node {i}");
        } else {
            assert_eq!((r[1] as usize, r[5], r[6] as usize, r[7] as usize), (n.parent + 1, n.tag as u32, n.from, n.to), "{name}: node {i}");
        }
    }
}

fn measure(name: &str, d: &Drawing) {
    let plain = Plain::build(d.names, &d.script, &d.characters, true);
    let (mut nodes, mut attributes) = (vec![0u32; 8 * plain.nodes.len()], vec![0u32; 5 * plain.attributes.len()]);
    let rust = |owned| assert_eq!(Plain::build(d.names, &d.script, &d.characters, owned).attributes.len(), plain.attributes.len());
    let [checked, built, plainly, leanly] = times(200, [
        &mut || check(d),
        &mut || library(d, &mut nodes, &mut attributes, &mut []),
        &mut || rust(true),
        &mut || rust(false),
    ]);
    compare(name, &plain, &d.characters, &nodes, &attributes, &[]);
    let own = built - checked;
    println!("{name:<58}{own:>10.1}{plainly:>10.1}{:>8.2}{leanly:>10.1}{:>8.2}", own / plainly, own / leanly);
}

/// A drawing with texts, and one of half its size.
fn measure_texts<'n>(name: &str, size: usize, draw: &dyn Fn(usize) -> Drawing<'n>) {
    let [half, whole] = [size / 2, size].map(|n| {
        let d = draw(n);
        let plain = Plain::build(d.names, &d.script, &d.characters, true);
        let (mut nodes, mut attributes) = (vec![0u32; 8 * plain.nodes.len()], vec![0u32; 5 * plain.attributes.len()]);
        let mut text = vec![0u8; d.texts];
        let [checked, built, plainly] = times(100, [
            &mut || check(&d),
            &mut || library(&d, &mut nodes, &mut attributes, &mut text),
            &mut || assert_eq!(Plain::build(d.names, &d.script, &d.characters, true).nodes.len(), plain.nodes.len()),
        ]);
        compare(name, &plain, &d.characters, &nodes, &attributes, &text);
        (built - checked, plainly)
    });
    println!("{name:<58}{:>10.1}{:>10.1}{:>8.2}{:>10.1}{:>8.2}", whole.0, whole.1, whole.0 / whole.1, half.0, whole.0 / half.0);
}

fn elements(names: &Names) {
    let common: Vec<&str> = "X Y Width Height Fill Stroke".split(' ').collect();
    let mut many: Vec<&str> = names.attribute.keys().map(|s| s.as_str()).collect();
    many.sort_unstable();
    many.retain(|n| !["Style", "Class", "Href", "MixBlendMode", "Isolation", "FontKerning"].contains(n));
    many.truncate(60);
    let ten: Vec<&str> = "Fill Stroke StrokeWidth Opacity FillOpacity Display Color Visibility Overflow ClipRule".split(' ').collect();
    let title = "elements: microseconds for a drawing of 300 KB, less check";
    println!("{title:<58}{:>10}{:>10}{:>8}{:>10}{:>8}", "library", "Rust", "ratio", "lean", "ratio");
    measure("6 attributes", &drawing(names, 1, &|d| common.iter().for_each(|n| d.a(n, "12"))));
    measure("60 attributes", &drawing(names, 1, &|d| many.iter().for_each(|n| d.a(n, "12"))));
    measure("20 declarations, half of them replace", &drawing(names, 1, &|d| {
        for value in ["a", "b"] {
            ten.iter().for_each(|n| d.d(n, value));
        }
    }));
    measure("a font", &drawing(names, 1, &|d| {
        d.d("Font", "bold 12px Sans");
        d.r(6, 0, 4);
        d.r(9, 5, 4);
        d.r(10, 10, 4);
    }));
    measure("inherit below 1000 ancestors", &drawing(names, 1000, &|d| {
        d.a("Fill", "inherit");
        d.a("X", "1");
    }));
}

/// A drawing with one text element, below `depth` tspans of which each says its xml:space or none does.
fn label<'n>(names: &'n Names, depth: usize, says: bool, within: &dyn Fn(&mut Drawing)) -> Drawing<'n> {
    let mut d = Drawing { names, script: vec![], characters: vec![], texts: 0 };
    d.open("Svg");
    d.open("Text");
    for k in 0..depth {
        d.open("Tspan");
        if says {
            d.xml_space(if k % 2 == 0 { "preserve" } else { "" });
        }
    }
    within(&mut d);
    (0..depth + 2).for_each(|_| d.close());
    d
}

fn texts(names: &Names) {
    let title = "text elements: microseconds for a drawing, less check";
    println!("{title:<58}{:>10}{:>10}{:>8}{:>10}{:>8}", "library", "Rust", "ratio", "half", "growth");
    let one = |part: &'static str| move |n: usize| label(names, 0, false, &|d| d.t(&part.repeat(n / part.len())));
    measure_texts("100,000 texts, comments between them", 100_000, &|n| label(names, 0, false, &|d| {
        for _ in 0..n {
            d.t(" ab cd ");
            d.script.push(6);
        }
    }));
    measure_texts("100,000 tspans with a text each", 100_000, &|n| label(names, 0, false, &|d| {
        for _ in 0..n {
            d.open("Tspan");
            d.t(" ab cd ");
            d.close();
        }
    }));
    measure_texts("one text of 1 MB, ASCII", 1_000_000, &one("the quick brown fox jumps over it "));
    measure_texts("one text of 1 MB, runs of spaces", 1_000_000, &one("a     \n     b\t        "));
    measure_texts("one text of 1 MB, spaces alone", 1_000_000, &one(" "));
    measure_texts("one text of 1 MB, CJK", 1_000_000, &one("\u{4e2d}\u{6587}\u{5b57}\u{7b26}"));
    measure_texts("10,000 small text elements", 10_000, &|n| {
        let mut d = Drawing { names, script: vec![], characters: vec![], texts: 0 };
        d.open("Svg");
        for _ in 0..n {
            d.open("Text");
            d.a("X", "12");
            d.a("Y", "34");
            d.t(" Tank 12 is full ");
            d.close();
        }
        d.close();
        d
    });
    measure_texts("tspans nested 1,000 deep, a text at each level", 1_000, &|n| {
        let mut d = Drawing { names, script: vec![], characters: vec![], texts: 0 };
        d.open("Svg");
        d.open("Text");
        for _ in 0..n {
            d.open("Tspan");
            d.t(" ab cd ");
        }
        for _ in 0..n {
            d.close();
            d.t(" ef ");
        }
        d.close();
        d.close();
        d
    });
    for says in [true, false] {
        let which = if says { "that say xml:space" } else { "that say none" };
        measure_texts(&format!("90,000 texts below 1,900 tspans {which}"), 90_000, &|n| label(names, 1_900, says, &|d| {
            for _ in 0..n {
                d.t(" ab cd ");
                d.script.push(6);
            }
        }));
        measure_texts(&format!("50,000 tspans with xml:space below 1,900 {which}"), 50_000, &|n| label(names, 1_900, says, &|d| {
            for _ in 0..n {
                d.open("Tspan");
                d.xml_space("");
                d.t(" ab cd ");
                d.close();
            }
        }));
    }
}

fn main() {
    let names = Names::read();
    elements(&names);
    // The recursion of plain Rust goes as deep as the tspans.
    std::thread::scope(|s| {
        std::thread::Builder::new().stack_size(64 << 20).spawn_scoped(s, || texts(&names)).unwrap();
    });
}
