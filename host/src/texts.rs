//! The texts of a drawing, and which nodes of its tree are made from them.
use crate::commands::{Command, Commands};
use crate::library::{build, Lent};
use crate::{names, Drawing, Refusal, Tree};
use std::ops::Range;

/// A text of a drawing.
#[derive(Clone, Debug, PartialEq, Eq)]
pub struct Text {
    /// Its number: texts count from 1, in the order of the script.
    pub number: u32,
    /// Where its bytes stand in the characters.
    pub place: Range<usize>,
    /// The elements that it stands in, from the top element on: a name, and behind `#` the id if there is one.
    pub path: Vec<String>,
}

/// The texts of a drawing, in the order of their numbers.
///
/// ```
/// let drawing = storkvanity::Drawing::from_xml("<svg><g id='a'><text>bc</text></g></svg>").unwrap();
/// let texts = storkvanity::texts::texts(&drawing);
/// assert_eq!((texts[0].number, texts[0].path.join(" > ")), (1, "svg > g#a > text".to_string()));
/// assert_eq!(&drawing.characters()[texts[0].place.clone()], b"bc");
/// ```
pub fn texts(drawing: &Drawing) -> Vec<Text> {
    let (mut texts, mut path) = (Vec::new(), Vec::new());
    let mut commands = Commands::new(drawing.script(), drawing.characters());
    while let Some(command) = commands.next() {
        match command {
            Command::Open { element, .. } => path.push(names::ELEMENTS.get(element as usize).unwrap_or(&"?").to_string()),
            Command::Attribute { name: names::ID, namespace: 0, value } => add_id(path.last_mut(), value),
            Command::Text(bytes) => {
                let end = drawing.characters().len() - commands.rest().1.len();
                texts.push(Text { number: texts.len() as u32 + 1, place: end - bytes.len()..end, path: path.clone() });
            }
            Command::Close => drop(path.pop()),
            _ => {}
        }
    }
    texts
}

fn add_id(element: Option<&mut String>, id: &[u8]) {
    if let Some(element) = element.filter(|element| !element.contains('#')) {
        *element += &format!("#{}", String::from_utf8_lossy(id));
    }
}

/// For each node of a tree the numbers of the texts that it is made from. A text without a byte leaves no trace.
///
/// What a tree looks like depends on how long texts are and not on what they are. So trees are built of the drawing with texts of letters
/// alone, which nothing is trimmed from: each tree has one binary digit of a text's number at every byte that is made from it.
pub fn sources(tree: &Tree) -> Result<Vec<Vec<u32>>, Refusal> {
    let tables = tree.tables();
    let (mut nodes, mut attributes) = (tables.nodes.to_vec(), tables.attributes.to_vec());
    let mut text = tables.text.to_vec();
    let mut numbers = vec![0u32; text.len()];
    let texts = texts(tree.drawing());
    for digit in 0..u32::BITS - (texts.len() as u32).leading_zeros() {
        let mut characters = tables.characters.to_vec();
        for text in &texts {
            characters[text.place.clone()].fill(if text.number >> digit & 1 == 1 { b'b' } else { b'a' });
        }
        let lent = Lent { nodes: &mut nodes, attributes: &mut attributes, text: &mut text };
        build(tree.drawing().script(), &characters, lent)?;
        for (number, byte) in numbers.iter_mut().zip(&text) {
            *number |= ((*byte == b'b') as u32) << digit;
        }
    }
    let numbers_of = |record: &[u32]| match record {
        [3, .., from, to] if !texts.is_empty() => {
            let mut numbers = numbers[*from as usize..*to as usize].to_vec();
            numbers.dedup();
            numbers
        }
        _ => Vec::new(),
    };
    Ok(nodes.chunks_exact(8).take(tree.len() as usize).map(numbers_of).collect())
}
