//! Vectors: recorded answers are compared, and random inputs written with their answers.
use crate::tally::{Tally, hex, note_flaw, sort_of};
use host::built::{Built, first_difference};
use host::json::Json;
use host::questions::{Answer, Counts, Part};
use host::random::Random;
use host::recorded::Recorded;
use host::scripts::{self, Drawing};
use host::{check::check, library, tables};
use std::process::ExitCode;

/// A recorded answer beside plain Rust and, where it is linked, the library.
fn recorded<T: PartialEq + std::fmt::Debug + Copy>(tally: &mut Tally, what: &str, wanted: T, plain: T, linked: Option<T>) {
    tally.compare(wanted, plain, || format!("{what}: recorded {wanted:?}, plain Rust {plain:?}"));
    if let Some(given) = linked {
        tally.compare(wanted, given, || format!("{what}: recorded {wanted:?}, library {given:?}"));
    }
}

fn recorded_answer(
    tally: &mut Tally,
    question: &'static str,
    what: &str,
    wanted: (u32, Option<u32>),
    plain: Answer,
    linked: Option<Answer>,
) {
    let (number, index) = wanted;
    let wanted = Answer { number, found: index.is_some() as u32, index: index.unwrap_or(0) };
    tally.reach(question, sort_of(wanted));
    recorded(tally, &format!("{what}, {question}"), wanted, plain, linked);
}

fn check_vector(tally: &mut Tally, what: &str, line: &Json) -> Result<(), String> {
    let (script, characters) = (line.bytes("script")?, line.bytes("characters")?);
    let wanted = line.word("number")?;
    tally.reach("check", &wanted.to_string());
    recorded(tally, what, wanted, check(&script, &characters), library::check(&script, &characters));
    Ok(())
}

fn questions_vector(tally: &mut Tally, what: &str, line: &Json) -> Result<(), String> {
    let counts = match line.words("counts")?[..] {
        [nodes, attributes, text] => Counts { nodes, attributes, text },
        _ => return Err("'counts' has not three numbers".to_string()),
    };
    let lent = tables::Lent {
        nodes: line.words("nodes")?,
        attributes: line.words("attributes")?,
        text: line.bytes("text")?,
        characters: line.bytes("characters")?,
        counts,
    };
    let t = &lent.tables();
    note_flaw(tally, t);
    for (k, asked) in line.list("asked")?.iter().enumerate() {
        let what = &format!("{what}, asked {k}");
        if asked.get("id").is_some() {
            let id = &asked.bytes("id")?;
            let wanted = asked.answer("element_by_id")?;
            recorded_answer(tally, "element by id", what, wanted, t.element_by_id(id), library::element_by_id(t, id));
        } else if asked.get("code").is_some() {
            let (node, name) = (asked.word("node")?, asked.word("code")?);
            let wanted = asked.answer("attribute")?;
            recorded_answer(tally, "attribute", what, wanted, t.attribute(node, name), library::attribute(t, node, name));
            let wanted = asked.answer("find_attribute")?;
            recorded_answer(
                tally,
                "find attribute",
                what,
                wanted,
                t.find_attribute(node, name),
                library::find_attribute(t, node, name),
            );
        } else {
            let (node, wanted) = (asked.word("node")?, &asked.bytes("text")?[..]);
            tally.reach("text", if wanted.is_empty() { "empty" } else { "bytes" });
            let bytes = |p: Part| t.text.get(p.start as usize..).and_then(|s| s.get(..p.length as usize));
            recorded(tally, what, Some(wanted), bytes(t.text(node)), library::text(t, node).map(bytes));
        }
    }
    Ok(())
}

/// A recorded build or exchange beside the library, with tables lent full of other words.
fn build_vector(tally: &mut Tally, what: &str, line: &Json) -> Result<(), String> {
    let Recorded { script, characters, words, built, has_tables, exchange, .. } = Recorded::read(line)?;
    let mut before = Built::refused(0, words);
    tables::fill(&mut Random::new(words[0] as u64, built.number as u64), &mut before);
    let mut compare = |wanted: &Built, given: &Built| {
        let difference = first_difference(wanted, given);
        tally.compare(None, difference.as_ref(), || format!("{what}: recorded and library: {difference:?}"));
    };
    match exchange {
        None => {
            if let Some(given) = library::build(&script, &characters, &before) {
                compare(&built, &given);
            }
            tally.reach("build", &built.number.to_string());
        }
        Some(exchange) => {
            let wanted = if has_tables { built } else { Built { number: built.number, ..before.clone() } };
            if let Some((after, given)) = library::exchange(&script, &characters, exchange.number, &exchange.bytes, &before) {
                compare(&wanted, &given);
                let recorded = exchange.after.unwrap_or(characters);
                tally.compare(&recorded, &after, || format!("{what}: other characters"));
            }
            tally.reach("exchange", &wanted.number.to_string());
        }
    }
    Ok(())
}

pub fn vectors(files: &[&str]) -> Result<ExitCode, String> {
    let mut tally = Tally::default();
    for file in files {
        let content = std::fs::read_to_string(file).map_err(|e| format!("{file}: {e}"))?;
        for (k, line) in content.lines().enumerate() {
            let what = format!("{file}, line {}", k + 1);
            let add = |e| format!("{what}: {e}");
            let line = Json::read(line).map_err(add)?;
            if line.get("asked").is_some() {
                questions_vector(&mut tally, &what, &line).map_err(add)?;
            } else if line.get("words").is_none() {
                check_vector(&mut tally, &what, &line).map_err(add)?;
            } else {
                build_vector(&mut tally, &what, &line).map_err(add)?;
            }
        }
    }
    let linked = [
        ("check", library::CHECK),
        ("questions", library::QUESTIONS),
        ("build", library::BUILD),
        ("exchange", library::EXCHANGE),
    ];
    let linked: Vec<&str> = linked.iter().filter(|l| l.1).map(|l| l.0).collect();
    let sides = match linked[..] {
        [] => "plain Rust alone, no library is linked".to_string(),
        _ => format!("plain Rust and the library's {}", linked.join(", ")),
    };
    if tally.agree + tally.differ == 0 {
        return Err("no recorded answer to compare with".to_string());
    }
    Ok(tally.end(&format!("recorded answers of {}, beside {sides}", files.join(" ")), true))
}

/// Random drawings as lines of vectors.
pub fn write_check(count: u64, seed: u64) -> ExitCode {
    let mut d = Drawing::default();
    for input in 0..count {
        scripts::random(&mut Random::new(seed, input), &mut d);
        let number = check(&d.script, &d.characters);
        println!(r#"{{"script": "{}", "characters": "{}", "number": {number}}}"#, hex(&d.script), hex(&d.characters));
    }
    ExitCode::SUCCESS
}

/// An answer as the vectors have it.
fn as_vector(answer: Answer) -> String {
    let index = if answer.found == 1 { answer.index.to_string() } else { "null".to_string() };
    format!("[{}, {index}]", answer.number)
}

/// Random tables as lines of vectors.
pub fn write_questions(count: u64, seed: u64) -> ExitCode {
    for input in 0..count {
        let r = &mut Random::new(seed, input);
        let lent = tables::random(r);
        let t = lent.tables();
        let mut asked = Vec::new();
        for _ in 0..3 {
            let (node, name) = (tables::node(r, &lent), tables::name(r, &lent));
            let (own, found) = (as_vector(t.attribute(node, name)), as_vector(t.find_attribute(node, name)));
            asked.push(format!(r#"{{"node": {node}, "code": {name}, "attribute": {own}, "find_attribute": {found}}}"#));
        }
        let id = tables::id(r, &lent);
        asked.push(format!(r#"{{"id": "{}", "element_by_id": {}}}"#, hex(&id), as_vector(t.element_by_id(&id))));
        let node = tables::node(r, &lent);
        let Part { start, length } = t.text(node);
        let text = hex(&t.text[start as usize..][..length as usize]);
        asked.push(format!(r#"{{"node": {node}, "text": "{text}"}}"#));
        let Counts { nodes, attributes, text } = lent.counts;
        println!(
            r#"{{"nodes": {:?}, "attributes": {:?}, "text": "{}", "counts": [{nodes}, {attributes}, {text}], "characters": "{}", "asked": [{}]}}"#,
            lent.nodes,
            lent.attributes,
            hex(&lent.text),
            hex(&lent.characters),
            asked.join(", ")
        );
    }
    ExitCode::SUCCESS
}
