//! The port's library, by the calls of tests/host. A call whose feature is off gives None.
use crate::commands::Bytes;
use host::built::{Built, Exchanged};
use host::library;
pub use host::library::{attribute, element_by_id, find_attribute, text};

/// Tables of these lengths as they are lent, full of what a call must not leave.
pub fn lent(words: [usize; 3]) -> Built {
    let word: u32 = 0xa5a5_a5a5;
    Built {
        number: 0,
        counts: [0; 3],
        nodes: vec![word; words[0]],
        attributes: vec![word; words[1]],
        text: vec![word as u8; words[2]],
    }
}

pub fn check(bytes: &Bytes) -> Option<u32> {
    library::check(&bytes.script, &bytes.characters)
}

pub fn build(bytes: &Bytes, words: [usize; 3]) -> Option<Built> {
    library::build(&bytes.script, &bytes.characters, &lent(words))
}

/// Exchange with tables that hold `before`.
pub fn exchange(bytes: &Bytes, number: u32, new: &[u8], before: &Built) -> Option<Exchanged> {
    let (characters, told) = library::exchange(&bytes.script, &bytes.characters, number, new, before)?;
    // A number that leaves everything leaves the tables and counts nothing.
    let untouched = Built { number: told.number, counts: [0; 3], ..before.clone() };
    let leaves = !matches!(told.number, 0 | 20..=24);
    let tables = if leaves && told == untouched { None } else { Some(told.clone()) };
    Some(Exchanged { number: told.number, characters, tables })
}
