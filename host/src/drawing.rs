//! The drawing script and its characters (document 01, section 2), from an XML document.
use crate::names;
use crate::readings::{readings, Kind, Place};
use crate::style::Sheet;
use roxmltree::{Document, Node, NodeType, ParsingOptions};
use std::borrow::Cow;
use std::collections::HashMap;
use std::fmt;
use xmlparser::{ElementEnd, EntityDefinition, StrSpan, Token, Tokenizer};

/// A drawing as the panel takes it: the commands, and the strings that they have, one after another.
///
/// ```
/// let drawing = storkvanity::Drawing::from_xml("<svg xmlns='http://www.w3.org/2000/svg'><!-- nothing --></svg>").unwrap();
/// assert_eq!(drawing.script(), [1, 45, 1, 6, 7]);
/// assert_eq!(drawing.characters(), b"");
/// ```
#[derive(Clone, Debug, Default, PartialEq, Eq)]
pub struct Drawing {
    script: Vec<u8>,
    characters: Vec<u8>,
}

/// Why there is no drawing of a file, and where: it is no XML document, or its style sheet cannot be matched. Or why there is none of a
/// script in words.
#[derive(Clone, Debug, PartialEq, Eq)]
pub struct Fault {
    /// The line, counted from 1.
    pub line: u32,
    /// The character within the line, counted from 1.
    pub column: u32,
    /// The cause, without the place.
    pub words: String,
    /// Whether the file is no XML document.
    pub is_no_xml: bool,
}

impl fmt::Display for Fault {
    fn fmt(&self, f: &mut fmt::Formatter) -> fmt::Result {
        write!(f, "line {}, column {}: {}", self.line, self.column, self.words)
    }
}

impl std::error::Error for Fault {}

impl Drawing {
    /// The drawing of a file's bytes.
    pub fn from_bytes(file: &[u8]) -> Result<Drawing, Fault> {
        match std::str::from_utf8(file) {
            Ok(text) => Drawing::from_xml(text),
            Err(error) => Err(not_utf8(file, error.valid_up_to())),
        }
    }

    /// The drawing of an XML document.
    pub fn from_xml(text: &str) -> Result<Drawing, Fault> {
        let text = &line_ends(text);
        let options = ParsingOptions { allow_dtd: true, ..ParsingOptions::default() };
        let xml = Document::parse_with_options(text, options).map_err(|error| no_xml(&error))?;
        all_closed(text, &xml)?;
        let sheet = Sheet::of(&xml)?;
        let mut drawing = Drawing::default();
        drawing.add_document(&xml, &sheet);
        sheet.was_matched(&xml)?;
        Ok(drawing)
    }

    /// A drawing of commands and strings that are there already. Nothing is asked of them.
    pub fn new(script: Vec<u8>, characters: Vec<u8>) -> Drawing {
        Drawing { script, characters }
    }

    /// The commands.
    pub fn script(&self) -> &[u8] {
        &self.script
    }

    /// The strings of the commands.
    pub fn characters(&self) -> &[u8] {
        &self.characters
    }

    /// The commands, and the strings to write to.
    pub(crate) fn parts_mut(&mut self) -> (&[u8], &mut [u8]) {
        (&self.script, &mut self.characters)
    }

    /// Every node of the document in its order, with a close behind the last child of each element. What stands deep takes no stack.
    fn add_document<'a>(&mut self, xml: &'a Document<'a>, sheet: &Sheet<'a>) {
        let mut next = xml.root().first_child();
        while let Some(mut node) = next {
            self.add_node(node, sheet);
            next = node.first_child();
            if node.is_element() && next.is_none() {
                self.script.push(7);
            }
            while next.is_none() && !node.is_root() {
                next = node.next_sibling();
                if next.is_none() {
                    node = node.parent().unwrap_or_else(|| xml.root());
                    if node.is_element() {
                        self.script.push(7);
                    }
                }
            }
        }
    }

    /// A node itself. An element comes with its attributes and declarations; comments and processing instructions are other nodes.
    fn add_node<'a>(&mut self, node: Node<'a, 'a>, sheet: &Sheet<'a>) {
        match node.node_type() {
            NodeType::Element => self.add_element(node, sheet),
            NodeType::Text => {
                self.script.push(5);
                self.add_string(node.text().unwrap_or(""));
            }
            NodeType::Comment | NodeType::PI => self.script.push(6),
            NodeType::Root => {}
        }
    }

    fn add_element<'a>(&mut self, node: Node<'a, 'a>, sheet: &Sheet<'a>) {
        let tag = node.tag_name();
        self.script.extend([1, names::element(tag.name()), names::namespace(tag.namespace())]);
        for attribute in node.attributes() {
            let (name, namespace) = (names::attribute(attribute.name()), names::namespace(attribute.namespace()));
            self.script.extend([2, name, namespace]);
            self.add_string(attribute.value());
            if namespace < 4 {
                self.add_readings(Place::Attribute, name, attribute.value());
            }
        }
        for declaration in sheet.declarations(node) {
            if self.script.len() + self.characters.len() > ENOUGH {
                break;
            }
            let name = names::declaration(declaration.name);
            self.script.extend([3, name, declaration.important as u8]);
            self.add_string(declaration.value);
            self.add_readings(Place::Declaration, name, declaration.value);
        }
    }

    /// The length of a string, and the string itself. A length past a u32 is only found where the drawing is refused for its size.
    fn add_string(&mut self, string: &str) {
        self.add_number(string.len());
        self.characters.extend(string.as_bytes());
    }

    fn add_number(&mut self, number: usize) {
        self.script.extend(u32::try_from(number).unwrap_or(u32::MAX).to_le_bytes());
    }

    fn add_readings(&mut self, place: Place, name: u8, value: &str) {
        for (kind, part) in readings(place, name, value) {
            self.add_reading(kind, part.as_ptr() as usize - value.as_ptr() as usize, part.len());
        }
    }

    fn add_reading(&mut self, kind: Kind, offset: usize, length: usize) {
        self.script.extend([4, kind as u8]);
        self.add_number(offset);
        self.add_number(length);
    }
}

/// A drawing of more bytes has no further declarations: the panel refuses it for its size, and a small file may have rules for very many.
const ENOUGH: usize = 1 << 24;

/// Each end of a line as one newline (XML 1.0, section 2.11). Debian's roxmltree leaves those within CDATA as they are.
fn line_ends(text: &str) -> Cow<'_, str> {
    if text.contains('\r') {
        Cow::Owned(text.replace("\r\n", "\n").replace('\r', "\n"))
    } else {
        Cow::Borrowed(text)
    }
}

/// What the first bytes of a file that is not UTF-8 tell about it.
fn not_utf8(file: &[u8], valid: usize) -> Fault {
    let words = match file {
        [0x1f, 0x8b, ..] => "the file is compressed; it must be unpacked first",
        [0xff, 0xfe, ..] | [0xfe, 0xff, ..] => "the file is written in UTF-16; it must be UTF-8",
        _ => "the file is not written in UTF-8",
    };
    let before = String::from_utf8_lossy(&file[..valid]);
    let line = before.matches('\n').count() + 1;
    let column = before.rsplit('\n').next().map_or(0, |last| last.chars().count()) + 1;
    Fault { line: line as u32, column: column as u32, words: words.to_string(), is_no_xml: true }
}

/// roxmltree's words, with the place taken out.
fn no_xml(error: &roxmltree::Error) -> Fault {
    let place = error.pos();
    let words = error.to_string().replacen(&format!(" at {place}"), "", 1);
    Fault { line: place.row, column: place.col, words, is_no_xml: true }
}

/// Debian's roxmltree takes a document that ends before its elements do, and one with an entity that leaves an element open, of which it
/// then loses what stands behind. This one takes neither: the place is that of the last element that was left open.
fn all_closed(text: &str, xml: &Document) -> Result<(), Fault> {
    let mut entities = HashMap::new();
    let mut asked = Vec::new();
    let mut open = left_open(Tokenizer::from(text), &mut entities, &mut asked);
    while let (None, Some(name)) = (open, asked.pop()) {
        if let Some(value) = entities.remove(name) {
            open = left_open(Tokenizer::from_fragment(text, value.range()), &mut entities, &mut asked);
        }
    }
    match open {
        None => Ok(()),
        Some(span) => {
            let place = xml.text_pos_at(span.start());
            let words = format!("the element '{}' is never closed", span.as_str().trim_start_matches('<'));
            Err(Fault { line: place.row, column: place.col, words, is_no_xml: true })
        }
    }
}

/// The last element that is left open by a document or by the text of an entity. The entities that it declares are added, and the names of
/// those that its texts ask for.
fn left_open<'a>(
    tokens: Tokenizer<'a>,
    entities: &mut HashMap<&'a str, StrSpan<'a>>,
    asked: &mut Vec<&'a str>,
) -> Option<StrSpan<'a>> {
    let mut open = Vec::new();
    for token in tokens.flatten() {
        match token {
            Token::EntityDeclaration { name, definition: EntityDefinition::EntityValue(value), .. } => {
                entities.entry(name.as_str()).or_insert(value);
            }
            Token::Text { text } => asked.extend(text.as_str().split('&').skip(1).filter_map(|part| part.split(';').next())),
            Token::ElementStart { span, .. } => open.push(span),
            Token::ElementEnd { end: ElementEnd::Close(..) | ElementEnd::Empty, .. } => drop(open.pop()),
            _ => {}
        }
    }
    open.pop()
}
