//! Where the text of each text node lies in the text table. A Rust String does not tell which end of it a space was taken from, so
//! trim_text_nodes of text.rs is followed here over places, branch by branch; what comes out is compared with the Rust's strings.
use crate::events::Events;
use host::names::AId;

const ELEMENT: u32 = 2;
const TEXT: u32 = 3;
const TEXT_ELEMENT: u32 = 48;

#[derive(Clone, Copy, PartialEq)]
enum Space {
    Default,
    Preserve,
}

/// A text node: its index, how many elements stand between it and the text element, and the space of its parent alone.
struct Piece {
    node: usize,
    depth: usize,
    own: Option<Space>,
}

pub struct Places<'a> {
    pub nodes: &'a mut [[u32; 8]],
    pub entries: &'a [[u32; 5]],
    pub characters: &'a [u8],
    /// The texts of the text nodes, in the order of the nodes: the bytes that each is made from.
    pub sources: &'a [Vec<u8>],
    pub text: &'a mut Vec<u8>,
    pub events: &'a mut Events,
}

/// `trim_text`.
fn trim_text(text: &[u8], space: Space) -> Vec<u8> {
    let mut out: Vec<u8> = Vec::with_capacity(text.len());
    for &byte in text {
        let byte = if matches!(byte, b'\r' | b'\n' | b'\t') { b' ' } else { byte };
        if !(space == Space::Default && byte == b' ' && out.last() == Some(&b' ')) {
            out.push(byte);
        }
    }
    out
}

impl Places<'_> {
    /// Gives every text node its from and to, and the text table its bytes.
    pub fn place(mut self) {
        let mut start = 0;
        let mut source = 0;
        let mut starts = vec![0; self.nodes.len()];
        let mut made_from = vec![0; self.nodes.len()];
        for node in 0..self.nodes.len() {
            if self.nodes[node][0] == TEXT {
                (starts[node], made_from[node]) = (start, source);
                start += self.sources[source].len();
                source += 1;
            }
        }
        self.text.resize(start, 0);
        for node in 0..self.nodes.len() {
            if self.nodes[node][0] == ELEMENT && self.nodes[node][5] == TEXT_ELEMENT {
                let space = self.inherited_space(node);
                let mut pieces = Vec::new();
                self.fill(node, 0, space, &starts, &made_from, &mut pieces);
                self.trim_text_nodes(&pieces, space);
            }
        }
        // What lies in no node's range is zero.
        for node in 0..self.nodes.len() {
            if let [TEXT, .., from, to] = self.nodes[node] {
                let end = starts[node] + self.sources[made_from[node]].len();
                self.text[starts[node]..from as usize].fill(0);
                self.text[to as usize..end].fill(0);
            }
        }
    }

    /// The space that an element's own attribute says.
    fn space(&self, node: usize) -> Option<Space> {
        let [kind, .., from, to] = self.nodes[node];
        if kind != ELEMENT {
            return None;
        }
        let own = self.entries[from as usize..to as usize].iter().find(|e| e[0] == AId::Space as u32)?;
        let [_, _, start, length, command] = *own;
        let preserve = command != 0 && &self.characters[start as usize..][..length as usize] == b"preserve";
        Some(if preserve { Space::Preserve } else { Space::Default })
    }

    /// The space of the element itself or of the nearest one above that has the attribute.
    fn inherited_space(&self, node: usize) -> Space {
        let mut above = std::iter::successors(Some(node), |&n| (self.nodes[n][1] as usize).checked_sub(1));
        above.find_map(|n| self.space(n)).unwrap_or(Space::Default)
    }

    fn children(&self, node: usize) -> Vec<usize> {
        let next = |link: u32| (link as usize).checked_sub(1);
        std::iter::successors(next(self.nodes[node][3]), |&n| next(self.nodes[n][2])).collect()
    }

    /// Writes what trim_text gives for each text below, by the space handed down, and lists the text nodes in order.
    fn fill(&mut self, node: usize, depth: usize, space: Space, starts: &[usize], made_from: &[usize], pieces: &mut Vec<Piece>) {
        for child in self.children(node) {
            if self.nodes[child][0] == TEXT {
                let trimmed = trim_text(&self.sources[made_from[child]], space);
                let from = starts[child];
                self.text[from..from + trimmed.len()].copy_from_slice(&trimmed);
                self.nodes[child][6] = from as u32;
                self.nodes[child][7] = (from + trimmed.len()) as u32;
                pieces.push(Piece { node: child, depth, own: self.space(node) });
            } else {
                let own = self.space(child).unwrap_or(space);
                self.fill(child, depth + 1, own, starts, made_from, pieces);
            }
        }
    }

    fn bytes(&self, node: usize) -> &[u8] {
        let [.., from, to] = self.nodes[node];
        &self.text[from as usize..to as usize]
    }

    fn remove_first(&mut self, node: usize, branch: &'static str) {
        self.events.note(branch);
        assert_eq!(self.bytes(node).first(), Some(&b' '), "a first space that is none");
        self.nodes[node][6] += 1;
    }

    fn remove_last(&mut self, node: usize, branch: &'static str) {
        self.events.note(branch);
        assert_eq!(self.bytes(node).last(), Some(&b' '), "a last space that is none");
        self.nodes[node][7] -= 1;
    }

    fn trim_text_nodes(&mut self, pieces: &[Piece], space: Space) {
        match pieces {
            [] => self.events.note("trim: no text"),
            [one] => self.trim_one(one.node, space),
            _ => self.trim_many(pieces, space),
        }
    }

    fn trim_one(&mut self, node: usize, space: Space) {
        let [.., from, _] = self.nodes[node];
        match self.bytes(node) {
            _ if space == Space::Preserve => self.events.note("trim: one, preserve"),
            [] => self.events.note("trim: one, empty"),
            [b' '] => {
                self.events.note("trim: one, a lone space");
                self.nodes[node][7] = from;
            }
            [_] => self.events.note("trim: one, a byte"),
            &[first, .., last] => {
                if first == b' ' {
                    self.remove_first(node, "trim: one, first");
                }
                if last == b' ' {
                    self.remove_last(node, "trim: one, last");
                }
                if first != b' ' && last != b' ' {
                    self.events.note("trim: one, no space");
                }
            }
        }
    }

    fn trim_many(&mut self, pieces: &[Piece], space: Space) {
        let len = pieces.len() - 1;
        let mut last_non_empty: Option<usize> = None;
        for i in 0..len {
            let (mut one, two) = (pieces[i].node, pieces[i + 1].node);
            let mut own = pieces[i].own;
            if self.bytes(one).is_empty() {
                if let Some(k) = last_non_empty {
                    one = pieces[k].node;
                    own = pieces[k].own;
                    self.events.note("trim: many, an earlier text stands for an empty one");
                }
            }
            let (space1, space2) = (own.unwrap_or(space), pieces[i + 1].own.unwrap_or(space));
            let edge = |bytes: &[u8]| (bytes.first() == Some(&b' '), bytes.last() == Some(&b' '));
            let ((c1, c2), (c3, c4)) = (edge(self.bytes(one)), edge(self.bytes(two)));
            if pieces[i].depth < pieces[i + 1].depth {
                if c3 && space2 == Space::Default {
                    self.remove_first(two, "trim: many, first of a deeper one");
                } else if c3 {
                    self.events.note("trim: many, a deeper one preserves");
                }
            } else if c2 && c3 {
                match (space1, space2) {
                    (Space::Default, Space::Default) => self.remove_last(one, "trim: many, last before a space"),
                    (Space::Preserve, Space::Default) => self.remove_first(two, "trim: many, first behind a preserved space"),
                    _ => self.events.note("trim: many, the second preserves"),
                }
            }
            let (is_first, is_last) = (i == 0, i == len - 1);
            if is_first && c1 && space1 == Space::Default && !self.bytes(one).is_empty() {
                self.remove_first(one, "trim: many, first of all");
                if is_last && c4 {
                    self.events.note("trim: many, both edges at one step");
                }
            } else if is_last && c4 && !self.bytes(two).is_empty() && space2 == Space::Default {
                self.remove_last(two, "trim: many, last of all");
            }
            if is_last && c2 && self.bytes(two).is_empty() && self.bytes(one).last() == Some(&b' ') {
                if space1 == Space::Preserve {
                    self.events.note("trim: many, last but one, preserved");
                }
                self.remove_last(one, "trim: many, last but one");
            }
            if !is_blank(self.bytes(one)) {
                last_non_empty = pieces.iter().position(|p| p.node == one);
            }
        }
    }
}

fn is_blank(bytes: &[u8]) -> bool {
    std::str::from_utf8(bytes).unwrap().trim().is_empty()
}
