//! Runs over many cases: random ones, small ones, ones with a fault put in.
use crate::case::{self, Case, Side, Wanted};
use crate::commands::{Bytes, shown};
use crate::events::Events;
use crate::generate::{self, Theme};
use crate::questions::{self, Question};
use crate::record::{Line, recorded};
use crate::shrink::smaller;
use crate::{library, limits, small};
use host::built::Built;
use host::random::Random;
use std::panic::{AssertUnwindSafe, catch_unwind};

/// What happened in a run, and what differed.
#[derive(Default)]
pub struct Tally {
    pub events: Events,
    pub agree: u64,
    pub differ: u64,
    compared: bool,
}

impl Tally {
    pub fn new(compared: bool) -> Tally {
        Tally { compared, ..Tally::default() }
    }

    /// What a run should see happen, and has not.
    pub fn print_missing(&self) {
        let missing = self.events.missing(&EVENTS);
        if !missing.is_empty() {
            println!("never happened: {}", missing.join("; "));
        }
    }

    /// The events, and the last line. The status is whether nothing differs.
    pub fn end(&self, title: &str) -> bool {
        println!("{title}");
        self.events.print();
        let beside = if self.compared { "" } else { " (no library is linked: the Rust ran alone)" };
        println!("{} agree, {} differ{beside}", self.agree, self.differ);
        self.differ == 0
    }
}

/// What a run should see happen.
#[rustfmt::skip]
const EVENTS: [&str; 53] = [
    "number: 0", "number: 2", "number: 3", "number: 4", "number: 6", "number: 7", "number: 8", "number: 9", "number: 20", "number: 21",
    "number: 22", "number: 23", "number: 24", "exchange: 0", "exchange: check's numbers", "exchange: 20 to 24", "exchange: 30",
    "exchange: 31", "exchange: 32", "exchange: 33", "20: the depth limit", "repair: pattern, fill", "repair: pattern, stroke",
    "repair: clip path", "repair: mask", "repair: filter", "repair: feImage", "repair: feImage, cut again", "repair: several cuts",
    "tref: quoted", "tref: nothing but empty texts", "use: copied", "use: nothing copied", "element: a becomes g",
    "element: a or tref becomes tspan", "entry: fixed value", "entry: important", "trim: no text", "trim: one, preserve",
    "trim: one, empty", "trim: one, a lone space", "trim: one, a byte", "trim: one, first", "trim: one, last",
    "trim: many, an earlier text stands for an empty one", "trim: many, first of a deeper one", "trim: many, a deeper one preserves",
    "trim: many, last before a space", "trim: many, first behind a preserved space", "trim: many, first of all",
    "trim: many, both edges at one step", "trim: many, last of all", "trim: many, last but one",
];

/// The library as the other side.
pub fn library() -> Side<'static> {
    Side {
        check: &library::check,
        build: &library::build,
        exchange: &library::exchange,
        questions: &|built, characters, asked| questions::linked(&built.tables(characters), asked),
    }
}

/// One case on both sides. A difference is made smaller and printed.
pub fn one(tally: &mut Tally, case: &Case, side: &Side, what: &dyn Fn() -> String) {
    let differs = |case: &Case| -> Result<(Wanted, Option<String>), String> {
        catch_unwind(AssertUnwindSafe(|| {
            let wanted = case::wanted(case, false);
            let difference = case::difference(case, &wanted, side);
            (wanted, difference)
        }))
        .map_err(|panic| {
            let text = panic.downcast_ref::<String>().cloned().or(panic.downcast_ref::<&str>().map(|s| s.to_string()));
            format!("panic: {}", text.unwrap_or_default())
        })
    };
    let found = match differs(case) {
        Ok((wanted, None)) => {
            tally.events.merge(&wanted.events);
            tally.agree += 1;
            return;
        }
        Ok((_, Some(difference))) => difference,
        Err(panic) => panic,
    };
    tally.differ += 1;
    if tally.differ > 5 {
        return;
    }
    println!("differs: {}: {found}", what());
    let with = |bytes: &Bytes| Case { bytes: bytes.clone(), ..case.clone() };
    let still = |case: &Case| !matches!(differs(case), Ok((_, None)));
    let mut small = with(&smaller(&case.bytes, |bytes| still(&with(bytes))));
    for simpler in [Case { exchange: None, ..small.clone() }, Case { slack: [0; 3], exchange: None, ..small.clone() }] {
        if still(&simpler) {
            small = simpler;
        }
    }
    let found = match differs(&small) {
        Ok((_, difference)) => difference.unwrap_or_default(),
        Err(panic) => panic,
    };
    println!("smallest: {found}\n{}", shown(&small.bytes));
}

/// Random cases of one theme, or of all in turn.
pub fn random(count: u64, seed: u64, only: Option<Theme>, side: &Side, compared: bool) -> Tally {
    let mut tally = Tally { compared, ..Tally::default() };
    for input in 0..count {
        let theme = only.unwrap_or_else(|| generate::theme(input));
        let case = case::random(theme, &mut Random::new(seed, input));
        one(&mut tally, &case, side, &|| format!("seed {seed}, input {input}, {theme:?}"));
    }
    tally
}

/// All drawings of a sort up to a size, with tables that are large enough.
pub fn all_small(sort: &str, most: usize, side: &Side, compared: bool) -> Option<Tally> {
    let mut tally = Tally { compared, ..Tally::default() };
    let see = &mut |bytes: &Bytes| {
        let case = Case { bytes: bytes.clone(), slack: [3, 2, 1], exchange: None };
        one(&mut tally, &case, side, &|| sort.to_string());
    };
    match sort {
        "commands" => small::all(most, see),
        "texts" => small::texts(most, see),
        "links" => small::links(most, see),
        "uses" => small::uses(most, see),
        _ => return None,
    }
    Some(tally)
}

/// Drawings of files, with tables of just the size that is needed, larger ones, and one word less of each; and some of their texts
/// exchanged.
pub fn drawings(all: &[Bytes], side: &Side, compared: bool) -> Tally {
    let mut tally = Tally { compared, ..Tally::default() };
    for (number, bytes) in (1..).zip(all) {
        let mut see = |slack: [i64; 3], exchange: Option<(u32, Vec<u8>)>| {
            let case = Case { bytes: bytes.clone(), slack, exchange };
            one(&mut tally, &case, side, &|| format!("drawing {number}"));
        };
        [[0; 3], [11, 7, 3], [-1, 0, 0], [0, -1, 0], [0, 0, -1]].into_iter().for_each(|slack| see(slack, None));
        let texts = host::texts::texts(&bytes.script, &bytes.characters);
        let r = &mut Random::new(1, number);
        for (number, text) in (1..).zip(&texts).step_by(texts.len() / 8 + 1) {
            see([0; 3], Some((number, host::texts::string(r, text.length))));
        }
    }
    tally
}

/// Drawings at the limits, with tables of just the size that is needed, and one record less: the Rust's number is document 01's too. And
/// exchanges of texts that are shorter and longer than the library keeps while it builds.
pub fn limits(side: &Side, compared: bool) -> Tally {
    let mut tally = Tally { compared, ..Tally::default() };
    limits::all(&mut |name, bytes, number| {
        for slack in [[0; 3], [-1, 0, 0]] {
            let case = Case { bytes: bytes.clone(), slack, exchange: None };
            one(&mut tally, &case, side, &|| name.to_string());
        }
        let given = match host::check::check(&bytes.script, &bytes.characters) {
            0 => crate::rust::tree(&bytes.script, &bytes.characters).end,
            refused => refused,
        };
        if given != number {
            tally.differ += 1;
            println!("differs: {name}: document 01 says {number}, the Rust {given}");
        }
    });
    for length in (250..265).chain([1000, 100_000]) {
        let r = &mut Random::new(1, length as u64);
        for slack in [[0; 3], [9, 6, 2], [-1, 0, 0], [0, -1, 0], [0, 0, -1]] {
            let exchange = Some((1, host::texts::string(r, length)));
            let case = Case { bytes: limits::long_text(length), slack, exchange };
            one(&mut tally, &case, side, &|| format!("a text of {length} bytes exchanged"));
        }
    }
    tally
}

/// Lines for the recorded list: cases in which something happens that has not happened often in it, from as many inputs as it takes.
pub fn record(count: usize, seed: u64) -> Vec<Line> {
    let mut lines = Vec::new();
    let mut seen = Events::default();
    let mut input = 0;
    let often = |events: &Events, event: &str, most: u64| events.count(event) >= most;
    while lines.len() < count && input < 400 * count as u64 {
        let theme = generate::theme(input);
        let case = case::random(theme, &mut Random::new(seed, input));
        input += 1;
        let size = case.bytes.script.len() + case.bytes.characters.len();
        if size > 260 && !(size < 5000 && input % 1009 == 0) {
            continue;
        }
        let wanted = case::wanted(&case, false);
        let rare = wanted.events.names().any(|event| !often(&seen, event, count as u64 / 20));
        if rare || input % 40 == 0 {
            seen.merge(&wanted.events);
            let exchange = case.exchange.as_ref().map(|(text, bytes)| (*text, &bytes[..]));
            lines.push(recorded(&case.bytes, wanted.words, exchange));
        }
    }
    lines
}

/// Faults that are put into the Rust's answer, one for each part of it, to see that a run tells them.
const FAULTS: [&str; 9] = [
    "check: 7 is told as 6",
    "build: 23 is told as 22",
    "build: one byte of text too few is counted",
    "build: the last of more than twenty nodes has a sibling",
    "build: a fixed value is not important",
    "build: the byte behind the last text is a space",
    "exchange: the characters stay as they were",
    "exchange: the tables are those of the drawing before",
    "find attribute: a text node has none",
];

fn with_fault(fault: usize, mut built: Built) -> Built {
    let [nodes, attributes, text] = built.counts.map(|c| c as usize);
    match fault {
        1 if built.number == 23 => built.number = 22,
        2 if text > 0 => built.counts[2] -= 1,
        3 if nodes > 20 => built.nodes[8 * nodes - 6] = 1,
        4 => built.attributes[..5 * attributes].chunks_mut(5).filter(|e| e[4] == 0).for_each(|e| e[1] = 0),
        5 if text > 0 && built.text[text - 1] == 0 => built.text[text - 1] = b' ',
        _ => {}
    }
    built
}

/// Random cases with each fault: the first one that tells it, made smaller.
pub fn faults(count: u64, seed: u64) -> bool {
    let mut all = true;
    for (fault, name) in FAULTS.iter().enumerate() {
        let check = |bytes: &Bytes| match host::check::check(&bytes.script, &bytes.characters) {
            7 if fault == 0 => Some(6),
            number => Some(number),
        };
        let build = |bytes: &Bytes, words: [usize; 3]| {
            Some(with_fault(fault, crate::rust::build(&bytes.script, &bytes.characters, words)))
        };
        let exchange = |bytes: &Bytes, number: u32, new: &[u8], before: &Built| {
            let words = [before.nodes.len(), before.attributes.len(), before.text.len()];
            let mut given = crate::rust::exchange(&bytes.script, &bytes.characters, number, new, words);
            if given.number == 0 && fault == 6 {
                given.characters = bytes.characters.clone();
            }
            if given.number == 0 && fault == 7 {
                given.tables = build(bytes, words);
            }
            Some(given)
        };
        let questions = |built: &Built, characters: &[u8], asked: &[Question]| {
            let t = built.tables(characters);
            let mut replies = questions::plain(&t, asked);
            for (question, reply) in asked.iter().zip(&mut replies) {
                match question {
                    Question::FindAttribute(node, _) if fault == 8 && built.nodes[8 * *node as usize] == 3 => *reply = [0; 3],
                    _ => {}
                }
            }
            Some(replies)
        };
        let side = Side { check: &check, build: &build, exchange: &exchange, questions: &questions };
        let told = (0..count).find(|&input| {
            let case = case::random(generate::theme(input), &mut Random::new(seed, input));
            let tells = case::difference(&case, &case::wanted(&case, false), &side).is_some();
            if tells {
                println!("fault: {name}");
                one(&mut Tally::default(), &case, &side, &|| format!("input {input}"));
            }
            tells
        });
        if told.is_none() {
            println!("fault: {name}: not told in {count} cases");
            all = false;
        }
    }
    all
}
