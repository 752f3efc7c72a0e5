//! The recorded vectors beside the Rust that runs here.
use crate::commands::Bytes;
use crate::rust::{self, Tree};
use crate::svgtree::seen;
use host::built::{Built, first_difference};
use host::check::check;
use host::json::Json;
use host::questions::{Answer, Counts, Part, Tables};
use host::recorded::Recorded;

type Read<T> = Result<T, String>;

/// What a line says against the Rust: nothing if they agree.
fn line(line: &Json) -> Read<Vec<String>> {
    if line.get("asked").is_some() {
        return questions(line);
    }
    if line.get("words").is_none() {
        let (number, given) = (line.word("number")?, check(&line.bytes("script")?, &line.bytes("characters")?));
        return Ok(if given == number { vec![] } else { vec![format!("check: {number} recorded, {given}")] });
    }
    let Recorded { script, characters, words, built: wanted, has_tables, sources, exchange } = Recorded::read(line)?;
    let number = wanted.number;
    let mut all = Vec::new();
    if let Some(exchange) = exchange {
        let given = rust::exchange(&script, &characters, exchange.number, &exchange.bytes, words);
        if exchange.after.map_or(false, |after| after != given.characters) {
            all.push("characters differ".to_string());
        }
        match given.tables {
            Some(built) => all.extend(first_difference(&wanted, &built)),
            None if has_tables => all.push(format!("tables recorded, {} leaves them", given.number)),
            None if given.number != number => all.push(format!("number: {number} and {}", given.number)),
            None => {}
        }
    } else {
        let refused = check(&script, &characters);
        if refused != 0 {
            all.extend(first_difference(&wanted, &Built::refused(refused, words)));
        } else {
            let tree = rust::tree(&script, &characters);
            all.extend(first_difference(&wanted, &tree.built(words)));
            if number == 0 && sources.map_or(false, |s| s != tree.sources) {
                all.push(format!("sources: {:?}", tree.sources));
            }
            if number == 0 {
                all.extend(rooms(&tree));
            }
        }
    }
    Ok(all)
}

/// One record, entry or byte less than is needed is refused, and what is needed is enough.
fn rooms(tree: &Tree) -> Vec<String> {
    let [n, a, t] = tree.needed();
    let mut all = Vec::new();
    let mut test = |words: [usize; 3], wanted: u32| {
        let given = tree.number(words);
        if given != wanted {
            all.push(format!("rooms {words:?}: {given}, not {wanted}"));
        }
    };
    test([8 * n, 5 * a, t], 0);
    test([8 * n - 1, 5 * a, t], 22);
    if a > 0 {
        test([8 * n, 5 * a - 1, t], 23);
    }
    if t > 0 {
        test([8 * n, 5 * a, t - 1], 24);
    }
    all
}

fn questions(line: &Json) -> Read<Vec<String>> {
    let (nodes, attributes) = (line.words("nodes")?, line.words("attributes")?);
    let (text, characters) = (line.bytes("text")?, line.bytes("characters")?);
    let counts = match line.words("counts")?[..] {
        [nodes, attributes, text] => Counts { nodes, attributes, text },
        _ => return Err("'counts' has not three numbers".to_string()),
    };
    let t = Tables { nodes: &nodes, attributes: &attributes, text: &text, characters: &characters, counts };
    let mut all = Vec::new();
    for (k, asked) in line.list("asked")?.iter().enumerate() {
        if asked.get("id").is_some() {
            let wanted = asked.answer("element_by_id")?;
            let given = element_by_id(&t, &asked.bytes("id")?);
            compare(&mut all, k, "element by id", wanted, given);
        } else if asked.get("code").is_some() {
            let (node, code) = (asked.word("node")?, asked.word("code")?);
            let (own, found) = (asked.answer("attribute")?, asked.answer("find_attribute")?);
            compare(&mut all, k, "attribute", own, attribute(&t, node, code));
            compare(&mut all, k, "find attribute", found, find_attribute(&t, node, code));
        } else {
            let given = self::text(&t, asked.word("node")?);
            let wanted = asked.bytes("text")?;
            if wanted != given {
                all.push(format!("asked {k}: text {wanted:?} recorded, {given:?}"));
            }
        }
    }
    Ok(all)
}

fn compare(all: &mut Vec<String>, k: usize, question: &str, (number, index): (u32, Option<u32>), given: Answer) {
    let wanted = Answer { number, found: index.is_some() as u32, index: index.unwrap_or(0) };
    if wanted != given {
        all.push(format!("asked {k}: {question} {wanted:?} recorded, {given:?}"));
    }
}

/// The tests before a question are those of tests/host; the answer behind them is the Rust's own function's, on a tree made from the
/// tables. Where a string is not UTF-8 there is no such tree, and all is that of tests/host.
fn asked(t: &Tables, plain: Answer, ask: impl FnOnce(&crate::svgtree::Document) -> Option<usize>) -> Answer {
    if plain.number != 0 {
        return plain;
    }
    match seen::document(t) {
        Some(doc) => ask(&doc).map_or(Answer { number: 0, found: 0, index: 0 }, |index| Answer {
            number: 0,
            found: 1,
            index: index as u32,
        }),
        None => plain,
    }
}

pub fn attribute(t: &Tables, node: u32, code: u32) -> Answer {
    asked(t, t.attribute(node, code), |doc| seen::attribute(doc, node, code))
}

pub fn find_attribute(t: &Tables, node: u32, code: u32) -> Answer {
    asked(t, t.find_attribute(node, code), |doc| seen::find_attribute(doc, node, code))
}

pub fn element_by_id(t: &Tables, id: &[u8]) -> Answer {
    match std::str::from_utf8(id) {
        Ok(id) => asked(t, t.element_by_id(id.as_bytes()), |doc| seen::element_by_id(doc, id)),
        Err(_) => t.element_by_id(id),
    }
}

pub fn text(t: &Tables, node: u32) -> Vec<u8> {
    let Part { start, length } = t.text(node);
    let plain = t.text[start as usize..][..length as usize].to_vec();
    if t.flaw().is_some() || node >= t.counts.nodes {
        return plain;
    }
    seen::document(t).map_or(plain, |doc| seen::text(&doc, node).as_bytes().to_vec())
}

/// The lines of the files that agree, and those that differ, which are printed.
pub fn files(files: &[&str]) -> Read<(u64, u64)> {
    let (mut agree, mut differ) = (0, 0);
    for file in files {
        let content = std::fs::read_to_string(file).map_err(|e| format!("{file}: {e}"))?;
        let (mut here, mut not) = (0, 0);
        for (k, text) in content.lines().enumerate() {
            let what = format!("{file}, line {}", k + 1);
            let found = Json::read(text).and_then(|json| line(&json)).map_err(|e| format!("{what}: {e}"))?;
            if found.is_empty() {
                here += 1;
            } else {
                not += 1;
                println!("differs: {what}: {}", found.join("; "));
            }
        }
        println!("{file}: {here} agree, {not} differ");
        agree += here;
        differ += not;
    }
    Ok((agree, differ))
}

/// The drawings of lines that have script and characters.
pub fn drawings(files: &[&str]) -> Read<Vec<Bytes>> {
    let mut all = Vec::new();
    for file in files {
        let content = std::fs::read_to_string(file).map_err(|e| format!("{file}: {e}"))?;
        for (k, text) in content.lines().enumerate() {
            let add = |e| format!("{file}, line {}: {e}", k + 1);
            let line = Json::read(text).map_err(add)?;
            all.push(Bytes { script: line.bytes("script").map_err(add)?, characters: line.bytes("characters").map_err(add)? });
        }
    }
    Ok(all)
}
