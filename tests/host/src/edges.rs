//! Fixed inputs at every edge of check and of the questions.
use crate::check::{DEEPEST, LIMIT};
use crate::names::AId::{ClipPath, Fill, Id, Opacity, Stroke};
use crate::names::{FIXED, NAMES};
use crate::questions::{Counts, Tables};
use crate::scripts::Drawing;
use crate::tables::Lent;

type See<'a> = &'a mut dyn FnMut(&[u8], &[u8]);

/// A text in an svg.
fn one_text(text: &[u8]) -> Drawing {
    let mut d = Drawing::default();
    d.open(45, 1);
    d.text(text);
    d.close();
    d
}

/// A script with every command and every operand, and strings of all widths.
fn all_commands() -> Drawing {
    let mut d = Drawing::default();
    d.comment();
    d.open(45, 1);
    d.attribute(31, 2, "aé€😀".as_bytes());
    d.reading(3, 1, 2);
    d.attribute(255, 4, b"");
    d.declaration(38, 1, "é a".as_bytes());
    d.reading(9, 0, 2);
    d.reading(4, 2, 1);
    d.reading(4, 2, 1);
    d.reading(10, 3, 1);
    d.declaration(254, 0, b"m");
    d.open(255, 0);
    d.text("€".as_bytes());
    d.close();
    d.comment();
    d.close();
    d.comment();
    d
}

/// Script and characters around 1,048,576 bytes.
fn sizes(see: See) {
    for length in LIMIT - 1..=LIMIT + 1 {
        let mut d = Drawing::default();
        d.open(45, 1);
        (0..length - 4).for_each(|_| d.comment());
        d.close();
        see(&d.script, b"");
        let d = one_text(&b"x".repeat(length));
        see(&d.script, &d.characters);
        let text = "é".repeat(length / 2) + &"x".repeat(length % 2);
        let d = one_text(text.as_bytes());
        see(&d.script, &d.characters);
        see(&[0].repeat(length), b"");
        see(&[], &[255].repeat(length));
        see(&[0].repeat(length), &[255].repeat(length));
    }
}

/// Around 2,048 open elements.
fn depths(see: See) {
    for deepest in DEEPEST - 1..=DEEPEST + 1 {
        let mut d = Drawing::default();
        (0..deepest).for_each(|_| d.open(31, 1));
        see(&d.script, b"");
        see(&[&d.script[..], &[6]].concat(), b"");
        see(&[&d.script[..], &[5, 1, 0, 0, 0]].concat(), b"a");
        see(&[&d.script[..], &[7, 1, 31, 1]].concat(), b"");
        see(&[&d.script[..], &[1, 53, 1]].concat(), b"");
        see(&[&d.script[..], &[1, 31]].concat(), b"");
        see(&[&d.script[..], &[7].repeat(deepest)].concat(), b"");
        see(&[&d.script[..], &[7].repeat(deepest), &[1, 31, 1]].concat(), b"");
    }
}

/// Every byte in every place of a script with all commands, every cut of it and of its characters.
fn bytes_and_cuts(see: See) {
    let d = all_commands();
    for at in 0..d.script.len() {
        see(&d.script[..at], &d.characters);
        for byte in 0..=255 {
            let mut script = d.script.clone();
            script[at] = byte;
            see(&script, &d.characters);
        }
    }
    for at in 0..d.characters.len() {
        see(&d.script, &d.characters[..at]);
        see(&d.script, &[&d.characters[..], &d.characters[..at]].concat());
        for byte in 0..=255 {
            let mut characters = d.characters.clone();
            characters[at] = byte;
            see(&d.script, &characters);
        }
    }
}

/// Lengths of strings at 0, at the end, past it and at the end of the u32s; offsets and lengths of readings likewise.
fn lengths(see: See) {
    let words =
        [0, 1, 2, 3, 4, 5, 6, 1 << 16, 1 << 20, 1 << 31, u32::MAX - 4, u32::MAX - 3, u32::MAX - 2, u32::MAX - 1, u32::MAX];
    let value = "é€".as_bytes();
    for length in words {
        for head in [&[2, 31, 0][..], &[3, 31, 0], &[5]] {
            for have in 0..=value.len() {
                see(&[&[1, 45, 1], head, &length.to_le_bytes(), &[7]].concat(), &value[..have]);
            }
        }
        for offset in words {
            for kind in 1..=10 {
                let mut d = Drawing::default();
                d.open(45, 1);
                d.attribute(31, 0, value);
                if kind > 4 {
                    (9..=10).filter(|&k| k != kind).for_each(|k| d.reading(k, 0, 0));
                }
                d.reading(kind, offset, length);
                d.close();
                see(&d.script, &d.characters);
            }
        }
    }
}

/// Every order of up to six commands, and of bytes that are none.
fn orders(see: See) {
    let bytes: [&[u8]; 8] = [
        &[0],
        &[1, 45, 1],
        &[2, 31, 0, 0, 0, 0, 0],
        &[3, 31, 0, 0, 0, 0, 0],
        &[4, 1, 0, 0, 0, 0, 0, 0, 0, 0],
        &[5, 0, 0, 0, 0],
        &[6],
        &[7],
    ];
    for length in 0..=6 {
        for number in 0..8usize.pow(length) {
            let script: Vec<u8> = (0..length).flat_map(|k| bytes[number >> (3 * k) & 7]).copied().collect();
            see(&script, b"");
        }
    }
}

/// Every set of kinds of readings before every command, before a byte that is none, and before the end.
fn kinds(see: See) {
    let ends: [&[u8]; 11] = [
        &[],
        &[0],
        &[8],
        &[1, 45, 1, 7, 7],
        &[1],
        &[2, 31, 0, 0, 0, 0, 0, 7],
        &[3, 31, 0, 0, 0, 0, 0, 7],
        &[4],
        &[5, 0, 0, 0, 0, 7],
        &[6, 7],
        &[7],
    ];
    for set in 0..1024 {
        let kinds = || (1..=10).filter(|k| set >> (k - 1) & 1 == 1);
        for end in ends {
            for again in 0..=11 {
                let mut d = Drawing::default();
                d.open(45, 1);
                d.declaration(38, 0, "aé".as_bytes());
                kinds().for_each(|k| d.reading(k, 0, 1));
                if again > 0 {
                    // The part of the repeated kind is no UTF-8.
                    d.reading(again, 1, 1);
                }
                see(&[&d.script[..], end].concat(), &d.characters);
            }
        }
    }
}

/// First bytes and others at the edges of UTF-8.
const LEADS: [u8; 18] =
    [0x7f, 0x80, 0xc1, 0xc2, 0xdf, 0xe0, 0xe1, 0xec, 0xed, 0xee, 0xef, 0xf0, 0xf1, 0xf3, 0xf4, 0xf5, 0xf8, 0xff];
const OTHERS: [u8; 12] = [0x00, 0x7f, 0x80, 0x81, 0x8f, 0x90, 0x9f, 0xa0, 0xbf, 0xc0, 0xe0, 0xff];

/// Strings of up to two bytes, all of them, and of three to five bytes at the edges of UTF-8.
fn utf8(see: See) {
    let mut show = |text: &[u8]| {
        let d = one_text(text);
        see(&d.script, &d.characters);
    };
    for a in 0..=255 {
        show(&[a]);
        (0..=255).for_each(|b| show(&[a, b]));
    }
    for a in LEADS {
        for b in OTHERS {
            for c in OTHERS {
                show(&[a, b, c]);
                for d in OTHERS {
                    show(&[a, b, c, d]);
                    OTHERS.iter().for_each(|&e| show(&[a, b, c, d, e]));
                }
            }
        }
    }
}

/// Long strings of letters of one length and of all lengths: each of them begun and cut at every byte, with every byte
/// changed, and with three bytes at the edges of UTF-8 put in around the places where a block of 32 may begin.
fn long_utf8(see: See) {
    let mut show = |text: &[u8]| {
        let d = one_text(text);
        see(&d.script, &d.characters);
    };
    for letters in ["a", "é", "工", "😀", "aé工😀", "abcdefghijklmnopqrstuvwxyz, abcdefghijklmnopqrstuvwxyz é"] {
        let whole = letters.repeat(107 / letters.len() + 1).into_bytes();
        for at in 0..=whole.len() {
            show(&whole[..at]);
            show(&whole[at..]);
        }
        for at in 0..whole.len() {
            let mut changed = whole.clone();
            for b in LEADS.into_iter().chain(OTHERS) {
                changed[at] = b;
                show(&changed);
            }
        }
        for at in [0, 1, 2, 3, 28, 29, 30, 31, 32, 33, 34, 35, 36, 63, 64, 65, whole.len() - 2, whole.len() - 1, whole.len()] {
            for a in LEADS {
                for b in OTHERS {
                    for c in OTHERS {
                        show(&[&whole[..at], &[a, b, c], &whole[at..]].concat());
                    }
                }
            }
        }
    }
}

/// Every fixed drawing.
pub fn drawings(see: See) {
    see(b"", b"");
    see(b"", b"a");
    sizes(see);
    depths(see);
    bytes_and_cuts(see);
    lengths(see);
    orders(see);
    kinds(see);
    utf8(see);
    long_utf8(see);
}

/// A small tree as build leaves it: elements, texts, names of every class, a fixed value; and an entry in no range.
pub fn small_tree() -> Lent {
    Lent {
        nodes: [
            [1, 0, 0, 2, 2, 0, 0, 0],
            [2, 1, 0, 3, 7, 45, 0, 3],
            [2, 2, 5, 4, 4, 48, 3, 5],
            [3, 3, 0, 0, 0, 0, 0, 2],
            [2, 2, 7, 6, 6, 31, 5, 5],
            [3, 5, 0, 0, 0, 0, 2, 2],
            [2, 2, 0, 0, 0, 42, 5, 8],
        ]
        .concat(),
        attributes: [
            [Id as u32, 0, 0, 1, 2],
            [Fill as u32, 1, 1, 3, 3],
            [ClipPath as u32, 0, 4, 4, 4],
            [Id as u32, 0, 1, 1, 6],
            [Stroke as u32, 0, 1, 0, 0],
            [Id as u32, 0, 0, 1, 9],
            [Id as u32, 0, 1, 1, 10],
            [Opacity as u32, 0, 13, 0, 0],
            [Fill as u32, 0, 8, 0, 12],
        ]
        .concat(),
        text: b"hi".to_vec(),
        characters: b"arednone".to_vec(),
        counts: Counts { nodes: 7, attributes: 9, text: 2 },
    }
}

/// An svg with the value a under one name, a group in it with a value under another, two elements below, and texts below
/// texts.
fn holders(upper: u32, lower: u32, value: [u32; 3]) -> Lent {
    let [start, length, command] = value;
    Lent {
        nodes: [
            [1, 0, 0, 2, 2, 0, 0, 0],
            [2, 1, 0, 3, 8, 45, 0, 1],
            [2, 2, 8, 4, 4, 31, 1, 2],
            [2, 3, 0, 5, 5, 31, 2, 2],
            [2, 4, 0, 6, 6, 31, 2, 2],
            [3, 5, 0, 7, 7, 0, 0, 0],
            [3, 6, 0, 0, 0, 0, 0, 0],
            [3, 2, 0, 9, 9, 0, 0, 0],
            [3, 8, 0, 0, 0, 0, 0, 0],
        ]
        .concat(),
        attributes: vec![upper, 0, 5, 1, 1, lower, 0, start, length, command],
        text: vec![],
        characters: b"none a".to_vec(),
        counts: Counts { nodes: 9, attributes: 2, text: 0 },
    }
}

/// Every name with the value none, written or fixed, and with others, alone and below a holder of the same name.
pub fn names(see: &mut dyn FnMut(&Tables, u32)) {
    for name in 0..NAMES as u32 {
        for value in [[0, 4, 1], [0, 3, 1], [0, 5, 1], [1, 0, 0], [2, 0, 0], [5, 1, 1], [6, 0, 1]] {
            see(&holders(name, name, value).tables(), name);
            see(&holders((name + 1) % NAMES as u32, name, value).tables(), name);
        }
    }
}

/// Every fixed value as an id, asked for by the bytes of every one.
pub fn fixed(see: &mut dyn FnMut(&Tables, &[u8])) {
    for number in 1..=FIXED.len() as u32 {
        for value in FIXED {
            see(&holders(Fill as u32, Id as u32, [number, 0, 0]).tables(), value.as_bytes());
        }
    }
}

/// The small tree with each word changed to each value that may matter, each count likewise, and slices cut.
pub fn tables(see: &mut dyn FnMut(&Tables)) {
    let whole = small_tree();
    see(&whole.tables());
    let values = (0..22).chain(50..56).chain(208..214).chain(252..258);
    let far = [(1 << 29) - 1, 1 << 29, (1 << 29) + 7, 858_993_459, 858_993_460, 858_993_467, 1 << 31, u32::MAX - 1, u32::MAX];
    for value in values.chain(far) {
        for at in 0..whole.nodes.len() {
            let mut lent = whole.clone();
            lent.nodes[at] = value;
            see(&lent.tables());
        }
        for at in 0..whole.attributes.len() {
            let mut lent = whole.clone();
            lent.attributes[at] = value;
            see(&lent.tables());
        }
        for count in 0..3 {
            let mut lent = whole.clone();
            *[&mut lent.counts.nodes, &mut lent.counts.attributes, &mut lent.counts.text][count] = value;
            see(&lent.tables());
        }
    }
    for cut in 0..=whole.nodes.len() {
        see(&Tables { nodes: &whole.nodes[..cut], ..whole.tables() });
    }
    for cut in 0..=whole.attributes.len() {
        see(&Tables { attributes: &whole.attributes[..cut], ..whole.tables() });
    }
    for cut in 0..=whole.characters.len() {
        see(&Tables { characters: &whole.characters[..cut], ..whole.tables() });
    }
    for cut in 0..=whole.text.len() {
        see(&Tables { text: &whole.text[..cut], ..whole.tables() });
    }
}
