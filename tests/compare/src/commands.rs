//! Drawings as lists of commands: written as bytes, read back, and printed.
use crate::codes::{ATTRIBUTES, ELEMENTS};

#[derive(Clone, Debug, PartialEq)]
pub enum Command {
    Open { code: u8, namespace: u8 },
    Attribute { name: u8, namespace: u8, value: Vec<u8> },
    Declaration { name: u8, important: u8, value: Vec<u8> },
    Reading { kind: u8, offset: u32, length: u32 },
    Text(Vec<u8>),
    Other,
    Close,
}

/// Script and characters.
#[derive(Clone, Debug, Default, PartialEq)]
pub struct Bytes {
    pub script: Vec<u8>,
    pub characters: Vec<u8>,
}

pub fn write(commands: &[Command]) -> Bytes {
    let mut bytes = Bytes::default();
    for command in commands {
        bytes.push(command);
    }
    bytes
}

impl Bytes {
    fn string(&mut self, string: &[u8]) {
        self.script.extend((string.len() as u32).to_le_bytes());
        self.characters.extend(string);
    }

    pub fn push(&mut self, command: &Command) {
        match command {
            Command::Open { code, namespace } => self.script.extend([1, *code, *namespace]),
            Command::Attribute { name, namespace, value } => {
                self.script.extend([2, *name, *namespace]);
                self.string(value);
            }
            Command::Declaration { name, important, value } => {
                self.script.extend([3, *name, *important]);
                self.string(value);
            }
            Command::Reading { kind, offset, length } => {
                self.script.extend([4, *kind]);
                self.script.extend(offset.to_le_bytes());
                self.script.extend(length.to_le_bytes());
            }
            Command::Text(text) => {
                self.script.push(5);
                self.string(text);
            }
            Command::Other => self.script.push(6),
            Command::Close => self.script.push(7),
        }
    }
}

/// The commands of a drawing, as far as every operand and every string is there; None otherwise.
pub fn read(bytes: &Bytes) -> Option<Vec<Command>> {
    let (mut rest, mut characters) = (&bytes.script[..], &bytes.characters[..]);
    let mut all = Vec::new();
    while let Some((&command, after)) = rest.split_first() {
        rest = after;
        let mut take = |n: usize| -> Option<&[u8]> {
            let taken = rest.get(..n)?;
            rest = &rest[n..];
            Some(taken)
        };
        let word = |b: &[u8]| u32::from_le_bytes(b.try_into().unwrap());
        let mut string = |length: u32| -> Option<Vec<u8>> {
            let taken = characters.get(..length as usize)?.to_vec();
            characters = &characters[length as usize..];
            Some(taken)
        };
        all.push(match command {
            1 => {
                let b = take(2)?;
                Command::Open { code: b[0], namespace: b[1] }
            }
            2 => {
                let b = take(6)?;
                Command::Attribute { name: b[0], namespace: b[1], value: string(word(&b[2..]))? }
            }
            3 => {
                let b = take(6)?;
                Command::Declaration { name: b[0], important: b[1], value: string(word(&b[2..]))? }
            }
            4 => {
                let b = take(9)?;
                Command::Reading { kind: b[0], offset: word(&b[1..5]), length: word(&b[5..]) }
            }
            5 => Command::Text(string(word(take(4)?))?),
            6 => Command::Other,
            7 => Command::Close,
            _ => return None,
        });
    }
    characters.is_empty().then_some(all)
}

pub fn element_name(code: u8) -> String {
    ELEMENTS.get(code as usize).map_or(format!("element {code}"), |n| n.to_string())
}

pub fn attribute_name(code: u8) -> String {
    match ATTRIBUTES.get(code as usize) {
        Some(name) => name.to_string(),
        None if code == 254 => "marker".to_string(),
        None => format!("name {code}"),
    }
}

fn quoted(bytes: &[u8]) -> String {
    match std::str::from_utf8(bytes) {
        Ok(text) if text.len() <= 200 => format!("{text:?}"),
        Ok(text) => format!("{:?}.. ({} bytes)", text.chars().take(100).collect::<String>(), text.len()),
        Err(_) => format!("{bytes:02x?}"),
    }
}

fn namespaced(namespace: u8) -> String {
    match namespace {
        0 => String::new(),
        1 => "svg:".to_string(),
        2 => "xlink:".to_string(),
        3 => "xml:".to_string(),
        _ => "other:".to_string(),
    }
}

/// A drawing in lines: the number of the command, an element with its namespace unless that is SVG's, attributes with theirs, then
/// declarations, each with its readings; texts; comments.
pub fn print(commands: &[Command]) -> String {
    let mut out = String::new();
    let mut depth = 0;
    let mut value: &[u8] = &[];
    for (number, command) in (1..).zip(commands) {
        let line = |depth: usize| format!("\n{number:>5} {}", "  ".repeat(depth.min(40)));
        match command {
            Command::Open { code, namespace } => {
                let prefix = match namespace {
                    1 => String::new(),
                    0 => "no:".to_string(),
                    n => namespaced(*n),
                };
                out += &format!("{}<{prefix}{}>", line(depth), element_name(*code));
                depth += 1;
            }
            Command::Attribute { name, namespace, value: v } => {
                out += &format!("{}{}{} = {}", line(depth), namespaced(*namespace), attribute_name(*name), quoted(v));
                value = v;
            }
            Command::Declaration { name, important, value: v } => {
                let important = if *important == 0 { "" } else { " !important" };
                out += &format!("{}{{{}: {}{important}}}", line(depth), attribute_name(*name), quoted(v));
                value = v;
            }
            Command::Reading { kind, offset, length } => {
                let part = value.get(*offset as usize..).and_then(|v| v.get(..*length as usize));
                out += &format!(" [{kind}: {offset}+{length} {}]", part.map_or("outside".to_string(), quoted));
            }
            Command::Text(text) => out += &format!("{}{}", line(depth), quoted(text)),
            Command::Other => out += &format!("{}<!-- -->", line(depth)),
            Command::Close => {
                depth = depth.saturating_sub(1);
                out += &format!("{}</>", line(depth));
            }
        }
    }
    out.trim_start_matches('\n').to_string()
}

/// A drawing as it is printed: its commands where it has some, and the word that stands for it.
pub fn shown(bytes: &Bytes) -> String {
    let commands = read(bytes).map_or("(no list of commands)".to_string(), |c| print(&c));
    let word = to_word(bytes);
    if word.len() > 4000 {
        return format!("{commands:.4000}\n(a script of {} bytes)", bytes.script.len());
    }
    format!("{commands}\ndrawing {word}")
}

/// A string in one word: bytes other than letters, digits and some signs are % and two hexadecimal digits.
pub fn escaped(bytes: &[u8]) -> String {
    let plain = |b: u8| b.is_ascii_alphanumeric() || b"#()-_;:/".contains(&b);
    bytes.iter().map(|&b| if plain(b) { (b as char).to_string() } else { format!("%{b:02x}") }).collect()
}

pub fn unescaped(text: &str) -> Option<Vec<u8>> {
    let mut bytes = Vec::new();
    let mut rest = text.as_bytes();
    while let Some((&byte, after)) = rest.split_first() {
        if byte == b'%' {
            bytes.push(u8::from_str_radix(std::str::from_utf8(after.get(..2)?).ok()?, 16).ok()?);
            rest = &after[2..];
        } else {
            bytes.push(byte);
            rest = after;
        }
    }
    Some(bytes)
}

/// A drawing in one word: its commands between commas, or where it has none, its bytes.
pub fn to_word(bytes: &Bytes) -> String {
    let commands = match read(bytes) {
        Some(commands) if !commands.is_empty() => commands,
        _ => return format!("!{}!{}", escaped(&bytes.script), escaped(&bytes.characters)),
    };
    let word = |command: &Command| match command {
        Command::Open { code, namespace } => format!("o{code}.{namespace}"),
        Command::Attribute { name, namespace, value } => format!("a{name}.{namespace}={}", escaped(value)),
        Command::Declaration { name, important, value } => format!("d{name}.{important}={}", escaped(value)),
        Command::Reading { kind, offset, length } => format!("r{kind}.{offset}.{length}"),
        Command::Text(text) => format!("t={}", escaped(text)),
        Command::Other => "n".to_string(),
        Command::Close => "c".to_string(),
    };
    commands.iter().map(word).collect::<Vec<_>>().join(",")
}

/// The drawing of such a word.
pub fn from_word(word: &str) -> Option<Bytes> {
    if let Some(bytes) = word.strip_prefix('!') {
        let (script, characters) = bytes.split_once('!')?;
        return Some(Bytes { script: unescaped(script)?, characters: unescaped(characters)? });
    }
    let mut commands = Vec::new();
    for part in word.split(',') {
        let (head, value) = part.split_once('=').unwrap_or((part, ""));
        let numbers: Vec<u32> = head.get(1..)?.split('.').filter_map(|n| n.parse().ok()).collect();
        let byte = |k: usize| numbers.get(k).and_then(|&n| u8::try_from(n).ok());
        let value = unescaped(value)?;
        commands.push(match head.as_bytes()[0] {
            b'o' => Command::Open { code: byte(0)?, namespace: byte(1)? },
            b'a' => Command::Attribute { name: byte(0)?, namespace: byte(1)?, value },
            b'd' => Command::Declaration { name: byte(0)?, important: byte(1)?, value },
            b'r' => Command::Reading { kind: byte(0)?, offset: *numbers.get(1)?, length: *numbers.get(2)? },
            b't' => Command::Text(value),
            b'n' => Command::Other,
            b'c' => Command::Close,
            _ => return None,
        });
    }
    Some(write(&commands))
}
