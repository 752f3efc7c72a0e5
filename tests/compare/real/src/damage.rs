//! Damaged files: cut off, with bytes changed, taken out or doubled.
use crate::corpus;
use crate::generate;
use crate::hand;
use crate::random::Random;
use crate::tally::Tally;

/// A file with some damage. It takes more words than letters: most of those only change a value.
fn damaged(whole: &[u8], random: &mut Random) -> Vec<u8> {
    const WORDS: [&str; 22] = [
        "<g>", "</g>", "<!--", "-->", "<![CDATA[", "]]>", "&amp;", "&#13;", "\r\n", "\"", "'", "{", "}", ";", ":", "!important",
        " xmlns=''", " id=\"i0\"", "url(", ")", "inherit", "\u{feff}",
    ];
    let mut file = whole.to_vec();
    for _ in 0..1 + random.below(3) {
        let place = random.below(file.len());
        let end = (place + random.below(30)).min(file.len());
        match random.below(6) {
            0 if random.once_in(3) => file.truncate(place),
            0 | 1 => file.iter_mut().skip(place).take(1).for_each(|b| *b = b"<>/&;'\"#(){}:-!*=?[] \r\n"[random.below(23)]),
            2 => drop(file.drain(place..end)),
            3 => {
                let part = file[place..end].to_vec();
                let to = random.below(file.len());
                file.splice(to..to, part);
            }
            _ => drop(file.splice(place..place, random.one_of(&WORDS).bytes())),
        }
    }
    file
}

/// What is damaged: documents, and files of at most 20,000 bytes where there are any, each file about as often.
struct Whole {
    by_hand: Vec<String>,
    files: Vec<corpus::File>,
}

impl Whole {
    fn read() -> Whole {
        let files = corpus::files().into_iter().filter(|file| file.bytes.len() <= 20_000).collect();
        Whole { by_hand: hand::documents(), files }
    }

    /// The damaged file of a seed and a turn.
    fn damaged(&self, seed: u64, turn: u64) -> Vec<u8> {
        let mut random = Random::new(seed ^ 0xda3a, turn);
        let whole = match turn % 3 {
            0 if !self.files.is_empty() => self.files[(turn / 3) as usize % self.files.len()].bytes.clone(),
            1 => self.by_hand[random.below(self.by_hand.len())].clone().into_bytes(),
            _ => generate::document(seed, turn).into_bytes(),
        };
        damaged(&whole, &mut random)
    }
}

/// One damaged file.
pub fn one(seed: u64, turn: u64) -> Vec<u8> {
    Whole::read().damaged(seed, turn)
}

pub fn compare(seed: u64, count: u64) -> Tally {
    let whole = Whole::read();
    let mut tally = Tally::default();
    for turn in 0..count {
        tally.add(&format!("damaged {turn} of seed {seed}"), &whole.damaged(seed, turn), None);
    }
    tally
}
