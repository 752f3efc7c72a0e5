//! Recorded vectors of build and exchange.
use crate::built::Built;
use crate::json::Json;
use crate::rooms::Taken;
use crate::texts::texts;

type Read<T> = Result<T, String>;

/// A line of the vectors of build or exchange.
pub struct Recorded {
    pub script: Vec<u8>,
    pub characters: Vec<u8>,
    /// The lengths of the lent tables.
    pub words: [usize; 3],
    /// Number, counts and tables; cleared tables where none are recorded.
    pub built: Built,
    pub has_tables: bool,
    /// For every text node its index and the numbers of the texts that it is made from.
    pub sources: Option<Vec<(u32, Vec<u32>)>>,
    pub exchange: Option<Exchange>,
}

/// A text is exchanged: its number, the new bytes, and the characters afterwards if they are recorded.
pub struct Exchange {
    pub number: u32,
    pub bytes: Vec<u8>,
    pub after: Option<Vec<u8>>,
}

fn three(line: &Json, name: &str) -> Read<[u32; 3]> {
    line.words(name)?.try_into().map_err(|_| format!("'{name}' has not three numbers"))
}

fn sources(line: &Json) -> Read<Vec<(u32, Vec<u32>)>> {
    let pair = |item: &Json| match item {
        Json::List(parts) => match &parts[..] {
            [Json::Number(node), Json::List(numbers)] => {
                let number = |n: &Json| if let Json::Number(n) = n { Ok(*n as u32) } else { Err("no number".to_string()) };
                Ok((*node as u32, numbers.iter().map(number).collect::<Read<_>>()?))
            }
            _ => Err("'sources' has no pair".to_string()),
        },
        _ => Err("'sources' has no pair".to_string()),
    };
    line.list("sources")?.iter().map(pair).collect()
}

impl Recorded {
    pub fn read(line: &Json) -> Read<Recorded> {
        let words = three(line, "words")?.map(|w| w as usize);
        let mut built = Built::refused(line.word("number")?, words);
        built.counts = three(line, "counts")?;
        let has_tables = line.get("nodes").is_some();
        if has_tables {
            built.nodes = line.words("nodes")?;
            built.attributes = line.words("attributes")?;
            built.text = line.bytes("text")?;
        }
        let after = if line.get("characters_after").is_some() { Some(line.bytes("characters_after")?) } else { None };
        let exchange = match line.get("text_number") {
            Some(_) => Some(Exchange { number: line.word("text_number")?, bytes: line.bytes("bytes")?, after }),
            None => None,
        };
        Ok(Recorded {
            script: line.bytes("script")?,
            characters: line.bytes("characters")?,
            words,
            built,
            has_tables,
            sources: if line.get("sources").is_some() { Some(sources(line)?) } else { None },
            exchange,
        })
    }

    /// What each node takes, where the build succeeds and the sources of its text nodes are recorded.
    pub fn taken(&self) -> Option<Vec<Taken>> {
        let mut sources = self.sources.as_ref().filter(|_| self.built.number == 0)?.iter();
        let texts = texts(&self.script, &self.characters);
        let length = |n: &u32| texts[*n as usize - 1].length as u32;
        let node = |record: &[u32]| match record[0] {
            2 => Taken::Element(record[7]),
            _ => Taken::Text(sources.next().map_or(0, |(_, numbers)| numbers.iter().map(length).sum())),
        };
        Some(self.built.nodes[8..8 * self.built.counts[0] as usize].chunks_exact(8).map(node).collect())
    }
}
