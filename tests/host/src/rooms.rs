//! What the nodes of a tree take of the tables, and the number of a build that finds too little room.

/// What one node takes.
#[derive(Clone, Copy, Debug)]
pub enum Taken {
    /// An element, after which there are so many entries.
    Element(u32),
    /// A text node made from so many bytes.
    Text(u32),
}

/// The number of build with tables of these lengths: the first step that fails, in the Rust's order, or else how it ends.
pub fn number(taken: &[Taken], end: u32, words: [usize; 3]) -> u32 {
    let most = u32::MAX as usize;
    let rooms = [(words[0] / 8).min(most), (words[1] / 5).min(most), words[2].min(most)];
    let (mut nodes, mut text) = (1, 0);
    if rooms[0] == 0 {
        return 22;
    }
    for step in taken {
        match *step {
            Taken::Element(entries) if entries as usize > rooms[1] => return 23,
            Taken::Element(_) if nodes > 1_000_000 => {
                assert_eq!(end, 20);
                return 20;
            }
            Taken::Text(bytes) if text + bytes as usize > rooms[2] => return 24,
            _ if nodes == rooms[0] => return 22,
            Taken::Text(bytes) => text += bytes as usize,
            Taken::Element(_) => {}
        }
        nodes += 1;
    }
    end
}

/// How many nodes, entries and bytes of text are taken.
pub fn needed(taken: &[Taken]) -> [usize; 3] {
    let mut needed = [1, 0, 0];
    for step in taken {
        needed[0] += 1;
        match *step {
            Taken::Element(entries) => needed[1] = entries as usize,
            Taken::Text(bytes) => needed[2] += bytes as usize,
        }
    }
    needed
}
