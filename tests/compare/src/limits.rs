//! Drawings at the limits of check and of the Rust: sizes, open elements, depth, nodes.
use crate::codes::{a, e};
use crate::commands::{Bytes, Command, write};

fn open(code: u8) -> Command {
    Command::Open { code, namespace: 1 }
}

fn attribute(name: u8, namespace: u8, value: &str) -> Command {
    Command::Attribute { name, namespace, value: value.as_bytes().to_vec() }
}

/// Elements inside one another, and something at the bottom, which is handed over at a depth of `depth`.
fn nested(depth: usize, code: u8, bottom: &[Command]) -> Bytes {
    let mut commands = vec![open(e::Svg)];
    commands.extend((1..depth).map(|_| open(code)));
    commands.extend_from_slice(bottom);
    commands.extend((0..depth).map(|_| Command::Close));
    write(&commands)
}

/// A tree of so many nodes in all, the root counted, and something behind the last: uses of uses make most of them.
fn wide(nodes: usize, last: &[Command]) -> Bytes {
    let mut commands = vec![open(e::Svg)];
    // The root and the svg; each group holds two uses of the group before it.
    let mut made = 2;
    let mut size = 0;
    let mut level = 0;
    let id = |k: usize| format!("{k:02}");
    loop {
        let next = if level == 0 { 1 } else { 1 + 2 * (1 + size) };
        if made + next > nodes {
            break;
        }
        commands.extend([open(e::G), attribute(a::Id, 0, &id(level))]);
        if level > 0 {
            for _ in 0..2 {
                commands.extend([open(e::Use), attribute(a::Href, 0, &format!("#{}", id(level - 1)))]);
                commands.extend([Command::Reading { kind: 1, offset: 1, length: 2 }, Command::Close]);
            }
        }
        commands.push(Command::Close);
        (made, size, level) = (made + next, next, level + 1);
    }
    // What is left is made from the largest groups that fit, by a use of each, and from single elements.
    let mut sizes: Vec<usize> = vec![1];
    (1..level).for_each(|k| sizes.push(1 + 2 * (1 + sizes[k - 1])));
    for k in (0..level).rev() {
        while made + 1 + sizes[k] <= nodes {
            commands.extend([open(e::Use), attribute(a::Href, 0, &format!("#{}", id(k)))]);
            commands.extend([Command::Reading { kind: 1, offset: 1, length: 2 }, Command::Close]);
            made += 1 + sizes[k];
        }
    }
    while made < nodes {
        commands.extend([open(e::Rect), Command::Close]);
        made += 1;
    }
    commands.extend_from_slice(last);
    commands.push(Command::Close);
    write(&commands)
}

/// Calls with each drawing, its name, and the number that document 01 gives it with tables that are large enough.
pub fn all(see: &mut dyn FnMut(&str, &Bytes, u32)) {
    const MOST: usize = 1 << 20;
    for (more, number) in [(0, 0), (1, 1)] {
        let mut commands = vec![open(e::Svg)];
        commands.extend((0..MOST + more - 4).map(|_| Command::Other));
        commands.push(Command::Close);
        see("script of 1,048,576 bytes and one more", &write(&commands), number);
        let commands = [open(e::Svg), open(e::Text), Command::Text(vec![b' '; MOST + more]), Command::Close, Command::Close];
        see("characters of 1,048,576 bytes and one more", &write(&commands), number);
        see("2,048 open elements and one more", &nested(2048 + more, 255, &[]), 5 * number);
    }
    let use_a = [open(e::Use), attribute(a::Href, 2, "#a"), Command::Reading { kind: 1, offset: 1, length: 1 }, Command::Close];
    let bottoms: [(&str, Vec<Command>); 6] = [
        ("a comment", vec![Command::Other]),
        ("a text", vec![Command::Text(b"a".to_vec())]),
        ("an element", vec![open(e::Rect), Command::Close]),
        ("an unknown element", vec![open(255), Command::Close]),
        ("a style element", vec![open(e::Style), Command::Close]),
        (
            "a text element with a text below",
            vec![open(e::Text), open(e::Tspan), Command::Text(b" a".to_vec()), Command::Close, Command::Close],
        ),
    ];
    for (name, bottom) in &bottoms {
        for depth in [1023, 1024, 1025, 1026] {
            see(&format!("{name} at depth {depth}"), &nested(depth, e::G, bottom), if depth > 1024 { 20 } else { 0 });
        }
    }
    for depth in [1021, 1022, 1023] {
        // The used element is two deeper than its use.
        let mut drawing = vec![open(e::Rect), attribute(a::Id, 0, "a"), Command::Close];
        drawing.extend((0..depth - 1).map(|_| open(e::G)));
        drawing.extend(use_a.clone());
        drawing.extend((0..depth - 1).map(|_| Command::Close));
        let whole = [vec![open(e::Svg)], drawing, vec![Command::Close]].concat();
        see(&format!("a use at depth {depth}"), &write(&whole), if depth + 2 > 1024 { 20 } else { 0 });
    }
    let text = [open(e::Text), Command::Text(b"a".to_vec()), Command::Close];
    let rect = [open(e::Rect), Command::Close];
    see("the 1,000,001st node is an element", &wide(1_000_000, &rect), 0);
    see("the 1,000,002nd node is an element", &wide(1_000_001, &rect), 20);
    see("the 1,000,002nd node is a text", &wide(1_000_000, &text), 0);
    see("the text element is the 1,000,002nd node", &wide(1_000_001, &text), 20);
    let inside = |within: &[Command]| [&[open(e::Text), open(e::Tspan)], within, &[Command::Close, Command::Close]].concat();
    see("the 1,000,001st node is a tspan", &wide(999_999, &inside(&[Command::Text(b"a".to_vec())])), 0);
    see("the 1,000,002nd node is a tspan", &wide(1_000_000, &inside(&[])), 20);
    see("the 1,000,002nd node is a tspan in a tspan", &wide(999_999, &inside(&[open(e::Tspan), Command::Close])), 20);
}

/// A text of so many bytes in a text element, and one that quotes it.
pub fn long_text(length: usize) -> Bytes {
    let mut commands =
        vec![open(e::Svg), open(e::Text), attribute(a::Id, 0, "a"), Command::Text(b" x".repeat(length)[..length].to_vec())];
    commands.extend([Command::Close, open(e::Text), open(e::Tref), attribute(a::Href, 2, "#a")]);
    commands.extend([Command::Reading { kind: 1, offset: 1, length: 1 }, Command::Close, Command::Text(b" kg".to_vec())]);
    commands.extend([Command::Close, Command::Close]);
    write(&commands)
}
