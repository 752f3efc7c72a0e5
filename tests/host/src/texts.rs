//! The texts of a drawing and its top element, read by document 01, section 2, alone.
use crate::random::Random;
use crate::smaller::commands;

/// The codes of the elements `style` and `svg`.
pub const STYLE: u8 = 44;
pub const SVG: u8 = 45;

/// Where a text lies in the characters, and whether it stands inside an element named style.
#[derive(Clone, Copy, Debug, PartialEq)]
pub struct Text {
    pub start: usize,
    pub length: usize,
    pub in_style: bool,
}

/// The texts in the script's order.
pub fn texts(script: &[u8], characters: &[u8]) -> Vec<Text> {
    let mut open = Vec::new();
    let mut all = Vec::new();
    for [command, string] in commands(script, characters) {
        match script[command.start] {
            1 => open.push(script.get(command.start + 1).copied().unwrap_or(255)),
            5 => all.push(Text { start: string.start, length: string.len(), in_style: open.contains(&STYLE) }),
            7 => drop(open.pop()),
            _ => {}
        }
    }
    all
}

/// Whether the top element is an `svg` for the Rust, in SVG's namespace or in none.
pub fn top_is_svg(script: &[u8]) -> bool {
    let at = script.iter().take_while(|&&b| b == 6).count();
    matches!(script.get(at..at + 3), Some([1, SVG, 0 | 1]))
}

/// The characters with one text exchanged, or the number that says why not.
pub fn exchanged(script: &[u8], characters: &[u8], number: u32, new: &[u8]) -> Result<Vec<u8>, u32> {
    let all = texts(script, characters);
    let text = (number as usize).checked_sub(1).and_then(|k| all.get(k)).ok_or(30u32)?;
    if text.in_style {
        return Err(31);
    }
    if text.length != new.len() {
        return Err(32);
    }
    if std::str::from_utf8(new).is_err() {
        return Err(33);
    }
    Ok([&characters[..text.start], new, &characters[text.start + text.length..]].concat())
}

/// A string of a length, with spaces of several kinds in it.
pub fn string(r: &mut Random, length: usize) -> Vec<u8> {
    let mut bytes = Vec::new();
    while bytes.len() < length {
        let piece = r.pick(&["a", " ", " ", "b", "\n", "\t", "é", "\u{a0}", "\u{2003}", "\u{10ffff}", "\u{0}"]);
        if bytes.len() + piece.len() <= length {
            bytes.extend(piece.as_bytes());
        }
    }
    bytes
}
