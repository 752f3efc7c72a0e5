//! One case: a drawing, the lengths of the lent tables and an exchange. The Rust's answer to it, and what another side answers.
use crate::commands::{self, Bytes, Command};
use crate::events::Events;
use crate::generate::{self, Theme};
use crate::library;
use crate::questions::{self, Question, Reply};
use crate::rust::{self, Tree};
use host::built::{Built, Exchanged, first_difference};
use host::check::check;
use host::random::Random;
use host::texts::string;

/// The lengths of the tables stand beside what the Rust takes, so that they keep their sense when the drawing is made smaller.
#[derive(Clone, Debug)]
pub struct Case {
    pub bytes: Bytes,
    pub slack: [i64; 3],
    pub exchange: Option<(u32, Vec<u8>)>,
}

/// The Rust's answer.
pub struct Wanted {
    pub words: [usize; 3],
    pub built: Built,
    pub exchanged: Option<Exchanged>,
    pub asked: Vec<Question>,
    pub replies: Vec<Reply>,
    pub events: Events,
}

fn words(needed: [usize; 3], slack: [i64; 3]) -> [usize; 3] {
    let table = |k: usize, size: usize| (needed[k] as i64 * size as i64 + slack[k]).max(0) as usize;
    [table(0, 8), table(1, 5), table(2, 1)]
}

const NUMBERS: [&str; 50] = {
    let mut all = ["number: other"; 50];
    all[0] = "number: 0";
    all[1] = "number: 1";
    all[2] = "number: 2";
    all[3] = "number: 3";
    all[4] = "number: 4";
    all[5] = "number: 5";
    all[6] = "number: 6";
    all[7] = "number: 7";
    all[8] = "number: 8";
    all[9] = "number: 9";
    all[20] = "number: 20";
    all[21] = "number: 21";
    all[22] = "number: 22";
    all[23] = "number: 23";
    all[24] = "number: 24";
    all
};

fn exchange_event(number: u32) -> &'static str {
    match number {
        0 => "exchange: 0",
        1..=9 => "exchange: check's numbers",
        20..=24 => "exchange: 20 to 24",
        30 => "exchange: 30",
        31 => "exchange: 31",
        32 => "exchange: 32",
        33 => "exchange: 33",
        _ => "exchange: other",
    }
}

/// Runs the Rust on a case; the answers to the questions are compared with plain Rust's over the tables.
pub fn wanted(case: &Case, all_questions: bool) -> Wanted {
    let Bytes { script, characters } = &case.bytes;
    let mut events = Events::default();
    let number = check(script, characters);
    let (built, words, asked, replies) = if number == 0 {
        let ask = |doc: &crate::svgtree::Document, tree: &Tree| {
            let count = tree.nodes.len() as u32;
            let asked = if all_questions { questions::all(count) } else { questions::some(count, &tree.entries.concat()) };
            let replies = questions::rust(doc, tree, &asked);
            (asked, replies)
        };
        let (tree, answers) = rust::tree_asked(script, characters, ask);
        events.merge(&tree.events);
        let words = words(tree.needed(), case.slack);
        let built = tree.built(words);
        let (asked, replies) = answers.filter(|_| built.number == 0).unwrap_or_default();
        let plain = questions::plain(&built.tables(characters), &asked);
        for (k, question) in asked.iter().enumerate() {
            assert_eq!(plain[k], replies[k], "plain Rust and the Rust: {question:?}");
        }
        (built, words, asked, replies)
    } else {
        let words = words([0; 3], case.slack);
        (Built::refused(number, words), words, Vec::new(), Vec::new())
    };
    events.note(NUMBERS[built.number as usize]);
    let exchanged = case.exchange.as_ref().map(|(number, bytes)| rust::exchange(script, characters, *number, bytes, words));
    if let Some(exchanged) = &exchanged {
        events.note(exchange_event(exchanged.number));
    }
    Wanted { words, built, exchanged, asked, replies, events }
}

/// Another side that answers: the library, or the Rust with a fault put in.
pub struct Side<'a> {
    pub check: &'a dyn Fn(&Bytes) -> Option<u32>,
    pub build: &'a dyn Fn(&Bytes, [usize; 3]) -> Option<Built>,
    pub exchange: &'a dyn Fn(&Bytes, u32, &[u8], &Built) -> Option<Exchanged>,
    pub questions: &'a dyn Fn(&Built, &[u8], &[Question]) -> Option<Vec<Reply>>,
}

/// What the other side answers otherwise.
pub fn difference(case: &Case, wanted: &Wanted, side: &Side) -> Option<String> {
    let number = check(&case.bytes.script, &case.bytes.characters);
    if let Some(given) = (side.check)(&case.bytes) {
        if given != number {
            return Some(format!("check: {number} and {given}"));
        }
    }
    let built = (side.build)(&case.bytes, wanted.words)?;
    if let Some(difference) = first_difference(&wanted.built, &built) {
        return Some(format!("build with tables of {:?}: {difference}", wanted.words));
    }
    if let Some(replies) = (side.questions)(&built, &case.bytes.characters, &wanted.asked) {
        let differs = (0..replies.len()).find(|&k| replies[k] != wanted.replies[k]);
        if let Some(k) = differs {
            return Some(format!("{:?}: {:?} and {:?}", wanted.asked[k], wanted.replies[k], replies[k]));
        }
    }
    if let (Some((number, bytes)), Some(own)) = (&case.exchange, &wanted.exchanged) {
        // What the tables hold before does not matter: anything, or the drawing's build.
        for before in [&library::lent(wanted.words), &wanted.built] {
            let given = (side.exchange)(&case.bytes, *number, bytes, before)?;
            if *own != given {
                let with = format!("exchange of text {number} for {bytes:?} with tables of {:?}", wanted.words);
                return Some(format!("{with}: {}", exchange_difference(own, &given)));
            }
        }
    }
    None
}

fn exchange_difference(own: &Exchanged, given: &Exchanged) -> String {
    if own.number != given.number {
        return format!("number: {} and {}", own.number, given.number);
    }
    if own.characters != given.characters {
        return "the characters differ".to_string();
    }
    match (&own.tables, &given.tables) {
        (Some(a), Some(b)) => first_difference(a, b).unwrap_or_default(),
        (a, b) => format!("tables written: {} and {}", a.is_some(), b.is_some()),
    }
}

fn exchange(r: &mut Random, commands: &[Command]) -> Option<(u32, Vec<u8>)> {
    let texts: Vec<&Vec<u8>> = commands.iter().filter_map(|c| if let Command::Text(t) = c { Some(t) } else { None }).collect();
    if texts.is_empty() && !r.one_in(10) {
        return None;
    }
    let number = if r.one_in(12) { r.pick(&[0, texts.len() + 1, u32::MAX as usize]) } else { r.from_to(1, texts.len().max(1)) };
    let length = texts.get(number.wrapping_sub(1)).map_or(2, |t| t.len());
    let length = if r.one_in(12) { r.pick(&[0, length + 1, length.saturating_sub(1)]) } else { length };
    let mut bytes = string(r, length);
    if r.one_in(16) && !bytes.is_empty() {
        let at = r.below(bytes.len());
        bytes[at] = r.pick(&[0x80, 0xc3, 0xff, 0xed, 0xf5]);
    }
    Some((number as u32, bytes))
}

fn slack(r: &mut Random) -> [i64; 3] {
    let mut slack = [r.below(12) as i64, r.below(9) as i64, r.below(4) as i64];
    let sizes = [8, 5, 1];
    match r.below(10) {
        0..=2 => {
            let k = r.below(3);
            slack[k] = -1;
        }
        3 => (0..3).for_each(|k| slack[k] = -(r.below(6 * sizes[k]) as i64)),
        4 | 5 => slack = [0; 3],
        _ => {}
    }
    slack
}

/// The case of an input: a drawing of its theme, tables at or near what is needed, and often an exchange.
pub fn random(theme: Theme, r: &mut Random) -> Case {
    of_drawing(generate::drawing(theme, r), r)
}

/// The same for a drawing that is there.
pub fn of_drawing(bytes: Bytes, r: &mut Random) -> Case {
    let slack = slack(r);
    let exchange = match commands::read(&bytes) {
        Some(commands) if r.one_in(2) => exchange(r, &commands),
        _ => None,
    };
    Case { bytes, slack, exchange }
}
