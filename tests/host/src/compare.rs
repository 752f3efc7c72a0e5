//! The library beside plain Rust, on fixed and on random inputs.
use crate::tally::{Tally, hex, note_flaw, shown, sort_of};
use host::questions::{Part, Tables};
use host::random::Random;
use host::scripts::{self, Drawing};
use host::smaller::smaller;
use host::{check::check, edges, library, tables};
use std::process::ExitCode;

/// One drawing on both sides; a difference is made as small as it goes.
fn check_both(tally: &mut Tally, script: &[u8], characters: &[u8]) -> u32 {
    let wanted = check(script, characters);
    if let Some(given) = library::check(script, characters) {
        tally.compare(wanted, given, || {
            let differs = |s: &[u8], c: &[u8]| library::check(s, c) != Some(check(s, c));
            let (s, c) = smaller(script, characters, differs);
            let given = library::check(&s, &c).unwrap_or(0);
            format!("script {} characters {}: plain Rust {}, library {given}", shown(&s), shown(&c), check(&s, &c))
        });
    }
    wanted
}

pub fn check_edges() -> ExitCode {
    check_all("drawings at the edges", |see| edges::drawings(see))
}

/// Drawings that `each` gives, counted by answer.
fn check_all(title: &str, each: impl FnOnce(&mut dyn FnMut(&[u8], &[u8]))) -> ExitCode {
    let mut tally = Tally::default();
    let mut numbers = [0; 10];
    each(&mut |script, characters| numbers[check_both(&mut tally, script, characters) as usize] += 1);
    for (number, count) in numbers.iter().enumerate() {
        tally.reached.insert(("check", number.to_string()), *count);
    }
    tally.end(title, library::CHECK)
}

pub fn check_random(count: u64, seed: u64) -> ExitCode {
    check_all(&format!("{count} random drawings, seed {seed}"), |see| {
        let mut drawing = Drawing::default();
        for input in 0..count {
            scripts::random(&mut Random::new(seed, input), &mut drawing);
            see(&drawing.script, &drawing.characters);
        }
    })
}

fn show_tables(t: &Tables) -> String {
    let text = hex(t.text);
    format!("nodes {:?} attributes {:?} text {text} characters {} {:?}", t.nodes, t.attributes, hex(t.characters), t.counts)
}

/// One answer on both sides.
fn answer_both<T: PartialEq + std::fmt::Debug + Copy>(
    tally: &mut Tally,
    t: &Tables,
    question: &str,
    wanted: T,
    given: Option<T>,
) {
    if let Some(given) = given {
        tally.compare(wanted, given, || format!("{question} of {}: plain Rust {wanted:?}, library {given:?}", show_tables(t)));
    }
}

/// What is asked of some tables.
enum Question<'a> {
    Attribute(u32, u32),
    Id(&'a [u8]),
    Text(u32),
}

fn ask(tally: &mut Tally, t: &Tables, question: Question) {
    match question {
        Question::Attribute(node, name) => {
            let wanted = t.attribute(node, name);
            tally.reach("attribute", sort_of(wanted));
            answer_both(tally, t, &format!("attribute {name} at {node}"), wanted, library::attribute(t, node, name));
            let wanted = t.find_attribute(node, name);
            tally.reach("find attribute", sort_of(wanted));
            answer_both(tally, t, &format!("find attribute {name} at {node}"), wanted, library::find_attribute(t, node, name));
        }
        Question::Id(id) => {
            let wanted = t.element_by_id(id);
            tally.reach("element by id", sort_of(wanted));
            answer_both(tally, t, &format!("element by id {}", hex(id)), wanted, library::element_by_id(t, id));
        }
        Question::Text(node) => {
            let wanted = t.text(node);
            let Part { start, length } = wanted;
            tally.reach(
                "text",
                if length > 0 {
                    "bytes"
                } else if start > 0 {
                    "empty, in place"
                } else {
                    "empty, 0..0"
                },
            );
            answer_both(tally, t, &format!("text at {node}"), wanted, library::text(t, node));
        }
    }
}

pub fn questions_edges() -> ExitCode {
    let mut tally = Tally::default();
    let names = tables::POOL.into_iter().chain([3, 210, 211, 254, 255, u32::MAX]);
    edges::tables(&mut |t| {
        note_flaw(&mut tally, t);
        for node in (0..10).chain([u32::MAX]) {
            names.clone().for_each(|name| ask(&mut tally, t, Question::Attribute(node, name)));
            ask(&mut tally, t, Question::Text(node));
        }
        for id in ["", "a", "r", "b", "none"] {
            ask(&mut tally, t, Question::Id(id.as_bytes()));
        }
    });
    let whole = edges::small_tree();
    for name in 0..300 {
        (0..9).for_each(|node| ask(&mut tally, &whole.tables(), Question::Attribute(node, name)));
    }
    edges::names(&mut |t, name| {
        note_flaw(&mut tally, t);
        (0..10).for_each(|node| ask(&mut tally, t, Question::Attribute(node, name)));
    });
    edges::fixed(&mut |t, id| ask(&mut tally, t, Question::Id(id)));
    tally.end("a small tree with every word changed, every name at every node of another", library::QUESTIONS)
}

pub fn questions_random(count: u64, seed: u64) -> ExitCode {
    let mut tally = Tally::default();
    for input in 0..count {
        let r = &mut Random::new(seed, input);
        let lent = tables::random(r);
        let t = lent.tables();
        note_flaw(&mut tally, &t);
        for _ in 0..3 {
            ask(&mut tally, &t, Question::Attribute(tables::node(r, &lent), tables::name(r, &lent)));
        }
        ask(&mut tally, &t, Question::Id(&tables::id(r, &lent)));
        ask(&mut tally, &t, Question::Text(tables::node(r, &lent)));
    }
    tally.end(&format!("{count} random tables, seed {seed}"), library::QUESTIONS)
}
