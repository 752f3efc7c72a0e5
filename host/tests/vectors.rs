//! Recorded builds and exchanges. Recorded drawings as XML, and back: the document that is written from a script becomes the same script
//! again. What no document gives is left out first. Readings are left out too: those of the recorded drawings need not agree with their
//! values.
use std::fmt::Write;
use storkvanity::refused::{self, Cause};
use storkvanity::{build, exchange, names, spell, texts, Counts, Drawing, Lent, Refusal, Tree};

/// A command of a script, with its string.
#[derive(Debug, PartialEq, Clone)]
enum Command {
    Open(u8, u8),
    Attribute(u8, u8, String),
    Declaration(u8, u8, String),
    Text(String),
    Other,
    Close,
}

/// The commands of a script that check takes, without its readings.
fn commands(script: &[u8], characters: &[u8]) -> Vec<Command> {
    let (mut at, mut taken) = (0, 0);
    let mut commands = Vec::new();
    let mut string = |at: usize| {
        let start = taken;
        taken += u32::from_le_bytes(script[at..at + 4].try_into().unwrap()) as usize;
        String::from_utf8(characters[start..taken].to_vec()).unwrap()
    };
    while at < script.len() {
        let operand = |place: usize| script[at + place];
        let (command, length) = match script[at] {
            1 => (Command::Open(operand(1), operand(2)), 3),
            2 => (Command::Attribute(operand(1), operand(2), string(at + 3)), 7),
            3 => (Command::Declaration(operand(1), operand(2), string(at + 3)), 7),
            4 => {
                at += 10;
                continue;
            }
            5 => (Command::Text(string(at + 1)), 5),
            6 => (Command::Other, 1),
            _ => (Command::Close, 1),
        };
        commands.push(command);
        at += length;
    }
    commands
}

/// The commands of a drawing in one word, as tests/compare/recorded.txt has it, without its readings.
fn commands_of_word(word: &str) -> Vec<Command> {
    let command = |item: &str| {
        let (codes, string) = item[1..].split_once('=').unwrap_or((&item[1..], ""));
        let code = |place: usize| codes.split('.').nth(place).unwrap().parse().unwrap();
        Some(match item.as_bytes()[0] {
            b'o' => Command::Open(code(0), code(1)),
            b'a' => Command::Attribute(code(0), code(1), unescaped(string)),
            b'd' => Command::Declaration(code(0), code(1), unescaped(string)),
            b't' => Command::Text(unescaped(string)),
            b'n' => Command::Other,
            b'c' => Command::Close,
            _ => return None,
        })
    };
    word.split(',').filter_map(command).collect()
}

fn unescaped(string: &str) -> String {
    let mut parts = string.split('%');
    let mut bytes = parts.next().unwrap().as_bytes().to_vec();
    for part in parts {
        bytes.push(u8::from_str_radix(&part[..2], 16).unwrap());
        bytes.extend(&part.as_bytes()[2..]);
    }
    String::from_utf8(bytes).unwrap()
}

/// Leaves out what no document gives: a name again in one element, an empty text and a text behind another, strings with letters that XML
/// does not have; and what is not written here: a style attribute, and declarations that need more than plain words. An element in the
/// namespace of XML stands in another one: Debian's roxmltree knows the prefix xml at attributes only.
fn documentable(commands: Vec<Command>) -> Vec<Command> {
    let mut kept: Vec<Command> = Vec::new();
    let mut seen = Vec::new();
    for command in commands {
        let fits = match &command {
            Command::Open(..) => {
                seen.clear();
                true
            }
            Command::Attribute(code, namespace, value) => {
                let attribute = (*code, *namespace);
                let fits = *code != names::attribute("style") && !seen.contains(&attribute) && escaped(value).is_some();
                seen.push(attribute);
                fits
            }
            Command::Declaration(_, _, value) => is_plain(value),
            Command::Text(text) => !text.is_empty() && escaped(text).is_some() && !matches!(kept.last(), Some(Command::Text(_))),
            Command::Other | Command::Close => true,
        };
        if fits {
            kept.push(if let Command::Open(code, 3) = command { Command::Open(code, 4) } else { command });
        }
    }
    kept
}

fn name(list: &[&'static str], code: u8) -> &'static str {
    list.get(code as usize).copied().unwrap_or(if code == names::MARKER { "marker" } else { "unlisted" })
}

fn prefixed(namespace: u8, name: &str) -> String {
    format!("{}{name}", ["", "s:", "x:", "xml:", "o:"][namespace as usize])
}

/// A string with references for all that XML would read otherwise. None if XML cannot have it.
fn escaped(string: &str) -> Option<String> {
    let mut written = String::new();
    for letter in string.chars() {
        match letter {
            '&' | '<' | '>' | '"' | '\t' | '\n' | '\r' => write!(written, "&#{};", letter as u32).ok()?,
            '\0'..='\u{1f}' | '\u{fffe}' | '\u{ffff}' => return None,
            _ => written.push(letter),
        }
    }
    Some(written)
}

/// A value that a style attribute can have.
fn is_plain(value: &str) -> bool {
    let ends = |c: char| c.is_ascii_lowercase() || matches!(c, '#' | ')');
    let is_plain = |c: char| c.is_ascii_alphanumeric() || matches!(c, '#' | '(' | ')' | ' ' | '-');
    value.starts_with(|c: char| c.is_ascii_lowercase()) && value.ends_with(ends) && value.chars().all(is_plain)
}

/// The document that the commands tell of: every declaration stands in a style attribute behind the other attributes.
fn document(commands: &[Command]) -> String {
    let mut xml = String::new();
    let mut open: Vec<String> = Vec::new();
    let mut style = String::new();
    let mut in_tag = false;
    for command in commands {
        let is_value = matches!(command, Command::Attribute(..) | Command::Declaration(..));
        if in_tag && !is_value {
            xml += &if style.is_empty() { ">".to_string() } else { format!(" style=\"{style}\">") };
            in_tag = false;
        }
        match command {
            Command::Open(code, namespace) => {
                let tag = prefixed(*namespace, name(&names::ELEMENTS, *code));
                write!(xml, "<{tag}").unwrap();
                if open.is_empty() {
                    let [svg, xlink, _] = names::NAMESPACES;
                    write!(xml, " xmlns:s=\"{svg}\" xmlns:x=\"{xlink}\" xmlns:o=\"other\"").unwrap();
                }
                open.push(tag);
                style.clear();
                in_tag = true;
            }
            Command::Attribute(code, namespace, value) => {
                let attribute = prefixed(*namespace, name(&names::ATTRIBUTES, *code));
                write!(xml, " {attribute}=\"{}\"", escaped(value).unwrap()).unwrap();
            }
            Command::Declaration(code, important, value) => {
                let mark = if *important == 1 { " !important" } else { "" };
                write!(style, "{}: {value}{mark}; ", name(&names::ATTRIBUTES, *code)).unwrap();
            }
            Command::Text(text) => xml += &escaped(text).unwrap(),
            Command::Other => xml += if xml.len() % 2 == 0 { "<!-- a -->" } else { "<?b c?>" },
            Command::Close => write!(xml, "</{}>", open.pop().unwrap()).unwrap(),
        }
    }
    xml
}

/// The commands without style attributes, which `document` adds.
fn without_style(commands: Vec<Command>) -> Vec<Command> {
    let style = names::attribute("style");
    commands.into_iter().filter(|c| !matches!(c, Command::Attribute(code, 0, _) if *code == style)).collect()
}

fn there_and_back(recorded: Vec<Command>) {
    let wanted = documentable(recorded);
    let xml = document(&wanted);
    let drawing = Drawing::from_xml(&xml).unwrap_or_else(|fault| panic!("{fault}: {xml}"));
    assert_eq!(without_style(commands(drawing.script(), drawing.characters())), wanted, "{xml}");
    assert_eq!(storkvanity::check(drawing.script(), drawing.characters()), Ok(()), "{xml}");
}

/// What stands behind the name of a field.
fn field<'a>(line: &'a str, name: &str) -> Option<&'a str> {
    Some(line.split_once(&format!("\"{name}\":"))?.1.trim_start())
}

fn bytes(line: &str, name: &str) -> Vec<u8> {
    let hex = field(line, name).and_then(|rest| rest.strip_prefix('"')?.split('"').next()).unwrap_or("");
    (0..hex.len() / 2).map(|i| u8::from_str_radix(&hex[2 * i..2 * i + 2], 16).unwrap()).collect()
}

fn read(file: &str) -> String {
    std::fs::read_to_string(format!(concat!(env!("CARGO_MANIFEST_DIR"), "/../tests/{}"), file)).unwrap()
}

#[test]
fn vectors_and_back() {
    let mut count = 0;
    for file in ["build", "build-more", "check", "exchange", "exchange-more"] {
        for line in read(&format!("vectors/{file}.jsonl")).lines() {
            let (script, characters) = (bytes(line, "script"), bytes(line, "characters"));
            if storkvanity::check(&script, &characters).is_ok() {
                there_and_back(commands(&script, &characters));
                count += 1;
            }
        }
    }
    assert!(count > 120, "{count} drawings");
}

/// A line has a drawing in one word, the lengths of three tables, and build's number: 1 to 9 are check's.
#[test]
fn recorded_drawings_and_back() {
    let mut count = 0;
    for line in read("compare/recorded.txt").lines().filter(|l| !l.starts_with('#')) {
        let mut fields = line.split(' ');
        let (word, number) = (fields.next().unwrap(), fields.nth(3).unwrap());
        if !matches!(number.parse(), Ok(1..=9)) {
            there_and_back(commands_of_word(word));
            count += 1;
        }
    }
    assert!(count > 2000, "{count} drawings");
}

/// A list of numbers. A record without it has None.
fn list(line: &str, name: &str) -> Option<Vec<u32>> {
    let list = field(line, name)?.strip_prefix('[')?.split(']').next()?;
    Some(list.split(',').filter(|word| !word.is_empty()).map(|word| word.trim().parse().unwrap()).collect())
}

fn number(line: &str, name: &str) -> u32 {
    field(line, name).unwrap().split(|c: char| !c.is_ascii_digit()).next().unwrap().parse().unwrap()
}

/// The number of an answer and its counts.
fn told(answer: Result<Counts, Refusal>) -> (u32, Vec<u32>) {
    match answer {
        Ok(counts) => (0, vec![counts.nodes, counts.attributes, counts.text]),
        Err(refusal) => (refusal.number(), vec![0; 3]),
    }
}

/// Every recorded build and exchange, with every word of every table. Tables that a record leaves out are all zero, or untouched.
#[test]
fn recorded_tables() {
    let mut count = 0;
    for file in ["build", "build-more", "exchange", "exchange-more"] {
        for line in read(&format!("vectors/{file}.jsonl")).lines() {
            let (script, mut characters) = (bytes(line, "script"), bytes(line, "characters"));
            let words = list(line, "words").unwrap();
            let (mut nodes, mut attributes) = (vec![7; words[0] as usize], vec![7; words[1] as usize]);
            let mut text = vec![7; words[2] as usize];
            let lent = Lent { nodes: &mut nodes, attributes: &mut attributes, text: &mut text };
            let left = if file.starts_with("build") {
                assert_eq!(told(build(&script, &characters, lent)), (number(line, "number"), list(line, "counts").unwrap()));
                0
            } else {
                let new = bytes(line, "bytes");
                let answer = told(exchange(&script, &mut characters, number(line, "text_number"), &new, lent));
                assert_eq!(answer, (number(line, "number"), list(line, "counts").unwrap()));
                assert_eq!(characters, bytes(line, "characters_after"));
                7 * !matches!(answer.0, 0 | 20..=24) as u32
            };
            assert_eq!(nodes, list(line, "nodes").unwrap_or_else(|| vec![left; words[0] as usize]));
            assert_eq!(attributes, list(line, "attributes").unwrap_or_else(|| vec![left; words[1] as usize]));
            let recorded = if line.contains("\"nodes\"") { bytes(line, "text") } else { vec![left as u8; words[2] as usize] };
            assert_eq!(text, recorded);
            count += 1;
        }
    }
    assert!(count > 140, "{count} records");
}

/// The texts that each text node is made from, where they are recorded: pairs of a node and its texts.
#[test]
fn recorded_sources() {
    let mut count = 0;
    for line in read("vectors/build-more.jsonl").lines().filter(|line| field(line, "sources").is_some()) {
        let (script, characters) = (bytes(line, "script"), bytes(line, "characters"));
        let tree = Tree::build(Drawing::new(script, characters)).unwrap();
        let texts = texts::texts(tree.drawing());
        let mut wanted = vec![Vec::new(); tree.len() as usize];
        let recorded = field(line, "sources").unwrap().trim_end_matches('}').trim_end_matches(']');
        for pair in recorded.split("]],").filter(|pair| pair.len() > 1) {
            let (node, numbers) = pair.trim_start_matches('[').split_once(",[").unwrap();
            let numbers = numbers.split(',').map(|number| number.parse::<u32>().unwrap());
            wanted[node.parse::<usize>().unwrap()] = numbers.filter(|n| !texts[*n as usize - 1].place.is_empty()).collect();
        }
        assert_eq!(texts::sources(&tree).unwrap(), wanted);
        count += 1;
    }
    assert!(count > 30, "{count} records");
}

/// Every recorded drawing in words, and back. Where one is refused a cause is found, and all before it is taken.
#[test]
fn recorded_scripts_in_words_and_back() {
    let mut count = 0;
    for file in ["build", "build-more", "check", "exchange", "exchange-more"] {
        for line in read(&format!("vectors/{file}.jsonl")).lines() {
            let drawing = Drawing::new(bytes(line, "script"), bytes(line, "characters"));
            let lines = spell::lines(drawing.script(), drawing.characters());
            assert_eq!(spell::read(&lines.concat()), Ok(drawing.clone()));
            if let Some((_, Cause::Command(number))) = refused::refused(drawing.script(), drawing.characters()) {
                let before = spell::read(&lines[..number - 1].concat()).unwrap();
                let cause = refused::refused(before.script(), before.characters()).map(|refused| refused.1);
                assert!(matches!(cause, None | Some(Cause::End)) || lines[number - 1].contains("reading"), "{lines:?}");
                count += 1;
            }
        }
    }
    assert!(count > 20, "{count} refused");
}
