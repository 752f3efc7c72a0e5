//! A script in words, and back: a line for each command, indented by the elements that are open, with names instead of codes and quoted
//! strings. Every script can be written so, also one that check refuses.
//!
//! ```text
//! # A line that begins with # is a comment.
//! open svg (svg)
//!   attribute clip-path (none) "url(#a)"
//!     reading func-iri "a" at 5
//!   declaration fill "red" important
//!   text "12 kg\n"
//!   other
//! close
//! ```
//!
//! A namespace is none, svg, xlink, xml or another. The name `?` is one that the panel does not know; `#212` is the code 212 itself, for a
//! name, a namespace or a kind. `important=2` is an importance that is neither 0 nor 1. In a string `\n`, `\r`, `\t`, `\0`, `\"`, `\\`,
//! `\u{e9}` and, for a byte that is not UTF-8, `\xe9` are known. A reading that no part of its value is has the form
//! `reading iri at 3 length 9`. What is no command at all are `bytes 08 ff` of the script, and `leftover "abc"` of the characters.
use crate::commands::{Command, Commands};
use crate::{names, Drawing, Fault};

/// The namespaces by their codes.
static NAMESPACES: [&str; 5] = ["none", "svg", "xlink", "xml", "another"];

/// The kinds of readings by their codes. There is none with the code 0.
#[rustfmt::skip]
static KINDS: [&str; 11] = [
    "", "iri", "func-iri", "paint", "filter", "font-stretch", "font-weight", "font-variant", "font-style", "font-size", "font-family",
];

/// The script in words.
///
/// ```
/// let drawing = storkvanity::Drawing::from_xml("<svg width='2'><!-- --></svg>").unwrap();
/// let lines = "open svg (none)\n  attribute width (none) \"2\"\n  other\nclose\n";
/// assert_eq!(storkvanity::spell::spell(drawing.script(), drawing.characters()), lines);
/// assert_eq!(storkvanity::spell::read(lines).unwrap(), drawing);
/// ```
pub fn spell(script: &[u8], characters: &[u8]) -> String {
    lines(script, characters).concat()
}

/// The lines of a script in words: one for each command, then up to two for what is no command.
pub fn lines(script: &[u8], characters: &[u8]) -> Vec<String> {
    let mut commands = Commands::new(script, characters);
    let mut lines = Vec::new();
    let mut depth = 0usize;
    let mut value: &[u8] = &[];
    while let Some(command) = commands.next() {
        if let Command::Attribute { value: new, .. } | Command::Declaration { value: new, .. } = command {
            value = new;
        }
        if command == Command::Close {
            depth = depth.saturating_sub(1);
        }
        let indent = depth + matches!(command, Command::Reading { .. }) as usize;
        lines.push(format!("{}{}\n", "  ".repeat(indent), spelled(command, value)));
        if let Command::Open { .. } = command {
            depth += 1;
        }
    }
    let (bytes, leftover) = commands.rest();
    if !bytes.is_empty() {
        let bytes: String = bytes.iter().map(|byte| format!(" {byte:02x}")).collect();
        lines.push(format!("bytes{bytes}\n"));
    }
    if !leftover.is_empty() {
        lines.push(format!("leftover {}\n", quoted(leftover)));
    }
    lines
}

/// A command in words. `value` is the last attribute's or declaration's, of which a reading is a part.
fn spelled(command: Command, value: &[u8]) -> String {
    match command {
        Command::Open { element, namespace } => {
            format!("open {} ({})", name(&names::ELEMENTS, element), name(&NAMESPACES, namespace))
        }
        Command::Attribute { name: code, namespace, value } => {
            format!("attribute {} ({}) {}", name(&names::ATTRIBUTES, code), name(&NAMESPACES, namespace), quoted(value))
        }
        Command::Declaration { name: code, important, value } => {
            let name = if code == names::MARKER { "marker".to_string() } else { name(&names::ATTRIBUTES, code) };
            let important = match important {
                0 => String::new(),
                1 => " important".to_string(),
                other => format!(" important={other}"),
            };
            format!("declaration {name} {}{important}", quoted(value))
        }
        Command::Reading { kind, offset, length } => {
            let kind = if kind == 0 { "#0".to_string() } else { name(&KINDS, kind) };
            match part(value, offset, length) {
                Some(part) => format!("reading {kind} {} at {offset}", quoted(part)),
                None => format!("reading {kind} at {offset} length {length}"),
            }
        }
        Command::Text(bytes) => format!("text {}", quoted(bytes)),
        Command::Other => "other".to_string(),
        Command::Close => "close".to_string(),
    }
}

fn part(value: &[u8], offset: u32, length: u32) -> Option<&[u8]> {
    value.get(offset as usize..)?.get(..length as usize)
}

/// A name by its code, `?` for one that is in no list, and the code itself for one that is no code.
fn name(list: &[&str], code: u8) -> String {
    match list.get(code as usize) {
        Some(name) => name.to_string(),
        None if code == names::UNLISTED => "?".to_string(),
        None => format!("#{code}"),
    }
}

/// Bytes in quotes.
pub fn quoted(bytes: &[u8]) -> String {
    let mut words = "\"".to_string();
    let mut rest = bytes;
    loop {
        let (valid, bad) = match std::str::from_utf8(rest) {
            Ok(_) => rest.split_at(rest.len()),
            Err(error) => rest.split_at(error.valid_up_to()),
        };
        for letter in String::from_utf8_lossy(valid).chars() {
            if letter == '\'' {
                words.push(letter);
            } else {
                words.extend(letter.escape_debug());
            }
        }
        match bad.split_first() {
            None => return words + "\"",
            Some((byte, behind)) => {
                words += &format!("\\x{byte:02x}");
                rest = behind;
            }
        }
    }
}

/// The drawing that is written in words.
pub fn read(text: &str) -> Result<Drawing, Fault> {
    let mut written = Written::default();
    for (place, whole) in text.lines().enumerate() {
        let mut line = Line { at: whole, rest: whole.trim_start() };
        if line.rest.is_empty() || line.rest.starts_with('#') {
            continue;
        }
        written.add(&mut line).and_then(|()| line.end()).map_err(|words| {
            let column = whole[..whole.len() - line.at.len()].chars().count() as u32 + 1;
            Fault { line: place as u32 + 1, column, words, is_no_xml: false }
        })?;
    }
    Ok(Drawing::new(written.script, written.characters))
}

/// A line that is read word by word: what is left of it, and what was left before the last word.
struct Line<'a> {
    at: &'a str,
    rest: &'a str,
}

impl<'a> Line<'a> {
    fn end(&mut self) -> Result<(), String> {
        match self.word() {
            None => Ok(()),
            Some(_) => Err("the line has more than its command".to_string()),
        }
    }

    /// The next word, if there is one. It ends at a space.
    fn word(&mut self) -> Option<&'a str> {
        self.at = self.rest.trim_start();
        let length = self.at.find(char::is_whitespace).unwrap_or(self.at.len());
        let (word, behind) = self.at.split_at(length);
        self.rest = behind;
        Some(word).filter(|word| !word.is_empty())
    }

    /// A code by its name in a list, `?` or `#` and a number.
    fn code(&mut self, what: &str, list: &[&str]) -> Result<u8, String> {
        let word = self.word().ok_or_else(|| format!("{what} is missing"))?;
        let code = code(list, word.trim_start_matches('(').trim_end_matches(')'));
        code.ok_or_else(|| format!("'{word}' is not {what}"))
    }

    /// A word that must stand here, and the number behind it.
    fn number(&mut self, name: &str) -> Result<u32, String> {
        let number = if self.word() == Some(name) { self.word().and_then(|word| word.parse().ok()) } else { None };
        number.ok_or_else(|| format!("'{name}' and a number are missing"))
    }

    fn is_string(&self) -> bool {
        self.rest.trim_start().starts_with('"')
    }

    /// A string in quotes.
    fn string(&mut self) -> Result<Vec<u8>, String> {
        self.at = self.rest.trim_start();
        self.rest = self.at.strip_prefix('"').ok_or("a string in quotes is missing")?;
        let mut bytes = Vec::new();
        loop {
            let letter = self.rest.chars().next().ok_or("the string has no closing quote")?;
            let behind = &self.rest[letter.len_utf8()..];
            match letter {
                '"' => {
                    self.rest = behind;
                    return Ok(bytes);
                }
                '\\' => {
                    self.at = self.rest;
                    let (escaped, length) = escape(behind).ok_or("there is no such escape")?;
                    bytes.extend(escaped);
                    self.rest = &behind[length..];
                }
                _ => {
                    bytes.extend(letter.to_string().as_bytes());
                    self.rest = behind;
                }
            }
        }
    }
}

fn code(list: &[&str], word: &str) -> Option<u8> {
    match word.strip_prefix('#') {
        Some(number) => number.parse().ok(),
        None if word == "?" => Some(names::UNLISTED),
        None => list.iter().position(|name| !name.is_empty() && *name == word).map(|place| place as u8),
    }
}

/// A byte of two hexadecimal digits.
fn hex(word: &str) -> Option<u8> {
    let is_byte = word.len() == 2 && word.bytes().all(|digit| digit.is_ascii_hexdigit());
    u8::from_str_radix(word, 16).ok().filter(|_| is_byte)
}

/// What stands behind a backslash: its bytes, and how long it is written.
fn escape(rest: &str) -> Option<(Vec<u8>, usize)> {
    let one = |byte: u8| Some((vec![byte], 1));
    match rest.as_bytes().first()? {
        b'n' => one(b'\n'),
        b'r' => one(b'\r'),
        b't' => one(b'\t'),
        b'0' => one(0),
        byte @ (b'"' | b'\\' | b'\'') => one(*byte),
        b'x' => Some((vec![hex(rest.get(1..3)?)?], 3)),
        b'u' => {
            let (digits, _) = rest.strip_prefix("u{")?.split_once('}')?;
            let letter = char::from_u32(u32::from_str_radix(digits, 16).ok()?)?;
            Some((letter.to_string().into_bytes(), digits.len() + 3))
        }
        _ => None,
    }
}

/// What was read so far.
#[derive(Default)]
struct Written {
    script: Vec<u8>,
    characters: Vec<u8>,
    value: Vec<u8>,
}

impl Written {
    /// The command of a line.
    fn add(&mut self, line: &mut Line) -> Result<(), String> {
        let word = line.word().unwrap_or("");
        match word {
            "open" => {
                let (element, namespace) = (line.code("an element", &names::ELEMENTS)?, line.code("a namespace", &NAMESPACES)?);
                self.script.extend([1, element, namespace]);
            }
            "attribute" => {
                let (name, namespace) = (line.code("an attribute", &names::ATTRIBUTES)?, line.code("a namespace", &NAMESPACES)?);
                self.script.extend([2, name, namespace]);
                self.value = self.add_string(line)?;
            }
            "declaration" => {
                let name = match line.rest.trim_start().strip_prefix("marker ") {
                    Some(_) => line.word().map(|_| names::MARKER).unwrap_or(names::UNLISTED),
                    None => line.code("an attribute", &names::ATTRIBUTES)?,
                };
                self.script.extend([3, name, 0]);
                let place = self.script.len() - 1;
                self.value = self.add_string(line)?;
                self.script[place] = match line.word() {
                    None => 0,
                    Some("important") => 1,
                    Some(word) => {
                        let number = word.strip_prefix("important=").and_then(|number| number.parse().ok());
                        number.ok_or_else(|| format!("'{word}' is not 'important'"))?
                    }
                };
            }
            "reading" => self.add_reading(line)?,
            "text" => {
                self.script.push(5);
                self.add_string(line)?;
            }
            "other" => self.script.push(6),
            "close" => self.script.push(7),
            "bytes" => {
                while let Some(word) = line.word() {
                    self.script.push(hex(word).ok_or_else(|| format!("'{word}' is no byte of two digits"))?);
                }
            }
            "leftover" => self.characters.extend(line.string()?),
            _ => return Err(format!("there is no command '{word}'")),
        }
        Ok(())
    }

    /// A string: its length goes to the script, its bytes to the characters.
    fn add_string(&mut self, line: &mut Line) -> Result<Vec<u8>, String> {
        let string = line.string()?;
        self.add_number(string.len() as u32);
        self.characters.extend(&string);
        Ok(string)
    }

    fn add_number(&mut self, number: u32) {
        self.script.extend(number.to_le_bytes());
    }

    fn add_reading(&mut self, line: &mut Line) -> Result<(), String> {
        self.script.extend([4, line.code("a kind of reading", &KINDS)?]);
        if line.is_string() {
            let string = line.string()?;
            let offset = line.number("at")?;
            if part(&self.value, offset, string.len() as u32) != Some(&string) {
                return Err(format!("the value has no {} at {offset}", quoted(&string)));
            }
            self.add_number(offset);
            self.add_number(string.len() as u32);
        } else {
            let (offset, length) = (line.number("at")?, line.number("length")?);
            self.add_number(offset);
            self.add_number(length);
        }
        Ok(())
    }
}

#[cfg(test)]
mod tests {
    use super::*;

    fn there_and_back(script: &[u8], characters: &[u8]) {
        let written = spell(script, characters);
        let drawing = read(&written).unwrap_or_else(|fault| panic!("{fault}\n{written}"));
        assert_eq!((drawing.script(), drawing.characters()), (script, characters), "{written}");
    }

    /// All scripts of one and two bytes with up to three characters, and longer ones of bytes that a fixed seed gives.
    #[test]
    fn any_bytes_and_back() {
        let mut state = 1u64;
        let mut random = |most: u64| {
            state = state.wrapping_mul(6364136223846793005).wrapping_add(1442695040888963407);
            (state >> 33) % most
        };
        for first in 0..=255 {
            for second in 0..=255 {
                there_and_back(&[first, second], b"a\xff\"");
            }
        }
        for _ in 0..20_000 {
            let mut script = Vec::new();
            for _ in 0..random(8) {
                let command = random(8) as u8;
                script.push(command);
                let operands = [0, 2, 2, 2, 1, 0, 0, 0][command as usize];
                script.extend((0..operands).map(|_| if random(2) == 0 { random(256) as u8 } else { random(12) as u8 }));
                let numbers = [0, 0, 1, 1, 2, 1, 0, 0][command as usize];
                (0..numbers).for_each(|_| script.extend((random(5) as u32).to_le_bytes()));
            }
            let characters: Vec<u8> = (0..random(12)).map(|_| b"ab\"\\'\n\t\0\xc3\xa9\xe2#\x7f"[random(13) as usize]).collect();
            there_and_back(&script, &characters);
        }
    }

    #[test]
    fn what_is_written_by_hand() {
        let drawing = read("# a comment\n\nopen svg (svg)\n  text   \"a\\u{e9}\\x41\\\"é\"  \nclose").unwrap();
        assert_eq!(drawing.script(), [1, 45, 1, 5, 7, 0, 0, 0, 7]);
        assert_eq!(drawing.characters(), "aéA\"é".as_bytes());
        for (text, words) in [
            ("close\nopn", "line 2, column 1: there is no command 'opn'"),
            ("open tool (svg)", "line 1, column 6: 'tool' is not an element"),
            ("open svg", "line 1, column 9: a namespace is missing"),
            ("  text abc", "line 1, column 8: a string in quotes is missing"),
            ("text \"abc", "line 1, column 6: the string has no closing quote"),
            ("text \"é\\q\"", "line 1, column 8: there is no such escape"),
            ("close it", "line 1, column 7: the line has more than its command"),
            ("attribute fill (none) \"abc\"\nreading iri \"b\" at 2", "line 2, column 20: the value has no \"b\" at 2"),
            ("reading iri 5", "line 1, column 13: 'at' and a number are missing"),
            ("declaration fill \"a\" importent", "line 1, column 22: 'importent' is not 'important'"),
            ("bytes 1", "line 1, column 7: '1' is no byte of two digits"),
        ] {
            assert_eq!(read(text).unwrap_err().to_string(), words);
        }
    }
}
