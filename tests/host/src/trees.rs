//! Build and exchange: tables of every length and with any words in them, random and damaged drawings, every text of recorded drawings.
use crate::tally::{Tally, shown};
use host::built::{Built, first_difference};
use host::check::check;
use host::json::Json;
use host::names::AId;
use host::random::Random;
use host::recorded::Recorded;
use host::scripts::{self, Drawing};
use host::texts::{self, STYLE, SVG, string, texts, top_is_svg};
use host::{library, rooms, tables};
use std::process::ExitCode;

const SIZES: [usize; 3] = [8, 5, 1];
const LACKING: [u32; 3] = [22, 23, 24];

/// Tables of these lengths with anything in them.
fn lent(r: &mut Random, words: [usize; 3]) -> Built {
    let mut before = Built::refused(0, words);
    tables::fill(r, &mut before);
    before
}

/// The lines of files of vectors.
fn lines(files: &[&str]) -> Result<Vec<Json>, String> {
    let mut all = Vec::new();
    for file in files {
        let content = std::fs::read_to_string(file).map_err(|e| format!("{file}: {e}"))?;
        for (k, line) in content.lines().enumerate() {
            all.push(Json::read(line).map_err(|e| format!("{file}, line {}: {e}", k + 1))?);
        }
    }
    Ok(all)
}

/// The recorded builds and exchanges of files of vectors.
fn recorded(files: &[&str]) -> Result<Vec<Recorded>, String> {
    lines(files)?.iter().filter(|l| l.get("words").is_some()).map(Recorded::read).collect()
}

/// The answer to a drawing, beside what is wanted.
fn told(tally: &mut Tally, d: &Drawing, what: &str, wanted: &Built, given: &Built) {
    tally.compare(wanted, given, || {
        let difference = first_difference(wanted, given).unwrap_or_default();
        let drawing = format!("script {} characters {}", shown(&d.script), shown(&d.characters));
        format!("{what} with tables of {:?}: wanted and library: {difference}: {drawing}", wanted.words())
    });
}

/// Build with tables that hold anything, beside what is wanted.
fn build_beside(tally: &mut Tally, r: &mut Random, d: &Drawing, wanted: &Built) {
    let before = lent(r, wanted.words());
    if let Some(given) = library::build(&d.script, &d.characters, &before) {
        told(tally, d, "build", wanted, &given);
    }
}

/// A recorded build that succeeds, with tables of other lengths.
struct Rooms<'a> {
    d: Drawing,
    built: &'a Built,
    taken: Option<Vec<rooms::Taken>>,
}

impl Rooms<'_> {
    fn needed(&self) -> [usize; 3] {
        self.built.counts.map(|c| c as usize)
    }

    fn see(&self, tally: &mut Tally, r: &mut Random, words: [usize; 3], number: u32) {
        tally.reach("build", &number.to_string());
        let wanted = if number == 0 { self.built.with_words(words) } else { Built::refused(number, words) };
        build_beside(tally, r, &self.d, &wanted);
    }

    /// Every length of one table, the others large enough.
    fn one_by_one(&self, tally: &mut Tally, r: &mut Random) {
        let needed = self.needed();
        for k in 0..3 {
            for length in 0..=SIZES[k] * (needed[k] + 2) {
                let mut words = [8 * needed[0] + 9, 5 * needed[1] + 7, needed[2] + 3];
                words[k] = length;
                let number = if length / SIZES[k] < needed[k] { LACKING[k] } else { 0 };
                if let Some(taken) = &self.taken {
                    let steps = rooms::number(taken, 0, words);
                    tally.compare(steps, number, || format!("rooms of {words:?}: {steps} by the steps, {number}"));
                }
                self.see(tally, r, words, number);
            }
        }
    }

    /// Every length of all three, if that is not too much; else some.
    fn jointly(&self, tally: &mut Tally, r: &mut Random, most: usize) -> bool {
        let taken = match &self.taken {
            Some(taken) => taken,
            None => return false,
        };
        let needed = self.needed();
        let ends = [0, 1, 2].map(|k| SIZES[k] * (needed[k] + 1));
        if ends.iter().map(|e| e + 1).product::<usize>() <= most {
            for a in 0..=ends[0] {
                for b in 0..=ends[1] {
                    (0..=ends[2]).for_each(|c| self.see(tally, r, [a, b, c], rooms::number(taken, 0, [a, b, c])));
                }
            }
            return true;
        }
        for _ in 0..30 {
            let words = ends.map(|e| if r.one_in(2) { e } else { r.from_to(0, e) });
            self.see(tally, r, words, rooms::number(taken, 0, words));
        }
        false
    }
}

/// Recorded builds with tables of every length, of `part` one in so many.
pub fn build_rooms(part: usize, seed: u64, files: &[&str]) -> Result<ExitCode, String> {
    let mut tally = Tally::default();
    let mut whole = 0;
    for (k, line) in recorded(files)?.iter().enumerate() {
        if line.built.number != 0 || line.exchange.is_some() || k % part != 0 {
            continue;
        }
        let r = &mut Random::new(seed, k as u64);
        let rooms = Rooms { d: Drawing::of(&line.script, &line.characters), built: &line.built, taken: line.taken() };
        tally.reach("drawings", if rooms.taken.is_some() { "with the sources of their texts" } else { "without" });
        if rooms.needed().iter().sum::<usize>() > 2000 {
            continue;
        }
        rooms.one_by_one(&mut tally, r);
        if rooms.jointly(&mut tally, r, if whole < 12 { 40_000 / part } else { 0 }) {
            tally.reach("drawings", "all lengths of all three tables");
            whole += 1;
        }
    }
    Ok(tally.end("recorded builds, with tables of every length", library::BUILD))
}

/// What is wrong with tables that a build has left, by document 01, sections 3 and 6: unused words and bytes are 0, children stand
/// in the order of the records, elements have their entries one after another.
fn flaw(d: &Drawing, built: &Built) -> Option<String> {
    let [nodes, attributes, text] = built.counts.map(|c| c as usize);
    if let Some(flaw) = built.tables(&d.characters).flaw() {
        return Some(format!("the tables fail the 40 test: {flaw:?}"));
    }
    let zero = built.nodes[8 * nodes..].iter().chain(&built.attributes[5 * attributes..]).all(|w| *w == 0);
    if !zero || built.text[text..].iter().any(|b| *b != 0) {
        return Some("what is not taken is not 0".to_string());
    }
    let mut links = vec![[0u32; 3]; nodes];
    let mut used = vec![false; text];
    let mut entries = 0;
    for i in 0..nodes {
        let [kind, parent, _, _, _, code, from, to]: [u32; 8] = built.nodes[8 * i..8 * i + 8].try_into().unwrap();
        let own = i as u32 + 1;
        if i > 0 {
            let parent = parent as usize - 1;
            match links[parent][2] {
                0 => links[parent][1] = own,
                last => links[last as usize - 1][0] = own,
            }
            links[parent][2] = own;
        }
        match kind {
            2 if from != entries => return Some(format!("node {i}: its entries are not the next ones")),
            2 => entries = to,
            3 => used[from as usize..to as usize].iter_mut().for_each(|u| *u = true),
            _ => {}
        }
        if kind != 2 && code != 0 || kind == 1 && (from, to) != (0, 0) {
            return Some(format!("node {i}: a field that is not used is not 0"));
        }
    }
    if (0..nodes).any(|i| built.nodes[8 * i + 2..8 * i + 5] != links[i]) {
        return Some("siblings and children are not those of the parents".to_string());
    }
    if entries as usize != attributes {
        return Some("entries that no element has".to_string());
    }
    if (0..text).any(|k| !used[k] && built.text[k] != 0) {
        return Some("a byte in no text's range is not 0".to_string());
    }
    if nodes < 2 || built.nodes[8] != 2 || built.nodes[13] != SVG as u32 {
        return Some("the first element is no svg".to_string());
    }
    None
}

/// Build of any drawing: what can be told of its answer without building.
fn judged(tally: &mut Tally, r: &mut Random, d: &Drawing, words: [usize; 3]) {
    let refused = check(&d.script, &d.characters);
    let before = lent(r, words);
    let given = match library::build(&d.script, &d.characters, &before) {
        Some(given) => given,
        None => return,
    };
    tally.reach("build", &given.number.to_string());
    if refused != 0 {
        return told(tally, d, "build", &Built::refused(refused, words), &given);
    }
    let wanted = match given.number {
        0 => {
            let flaw =
                flaw(d, &given).or_else(|| if top_is_svg(&d.script) { None } else { Some("the top is no svg".to_string()) });
            tally.compare(&None, &flaw, || format!("build of {} {}: {flaw:?}", shown(&d.script), shown(&d.characters)));
            given.clone()
        }
        number => Built::refused(number, words),
    };
    let possible = match given.number {
        0 | 20 | 22..=24 => true,
        21 => !top_is_svg(&d.script),
        _ => false,
    };
    let say = |what: &str| format!("build of {} {} with {words:?}: {what}", shown(&d.script), shown(&d.characters));
    tally.compare(true, possible, || say(&format!("{} cannot be", given.number)));
    told(tally, d, "build", &wanted, &given);
    // Other words in the tables before: the same answer.
    build_beside(tally, r, d, &wanted);
    if given.number == 0 {
        let needed = given.counts.map(|c| c as usize);
        let exact = [0, 1, 2].map(|k| SIZES[k] * needed[k]);
        build_beside(tally, r, d, &given.with_words(exact));
        for k in 0..3 {
            let mut words = exact;
            if needed[k] > 0 {
                words[k] -= 1;
                build_beside(tally, r, d, &Built::refused(LACKING[k], words));
            }
        }
    }
}

/// What exchange is to leave: the characters, and its answer with the tables. A fresh build of the changed drawing tells the tables.
fn exchange_wanted(d: &Drawing, number: u32, new: &[u8], before: &Built) -> Option<(Vec<u8>, Built)> {
    let leave = |number: u32| Some((d.characters.clone(), Built { number, counts: [0; 3], ..before.clone() }));
    let refused = check(&d.script, &d.characters);
    if refused != 0 {
        return leave(refused);
    }
    match texts::exchanged(&d.script, &d.characters, number, new) {
        Err(refused) => leave(refused),
        Ok(changed) => {
            let built = library::build(&d.script, &changed, &Built::refused(0, before.words()))?;
            Some((if built.number == 0 { changed } else { d.characters.clone() }, built))
        }
    }
}

fn exchange_beside(tally: &mut Tally, r: &mut Random, d: &Drawing, number: u32, new: &[u8], words: [usize; 3]) {
    let before = lent(r, words);
    let wanted = exchange_wanted(d, number, new, &before);
    let given = library::exchange(&d.script, &d.characters, number, new, &before);
    if let (Some((characters, built)), Some((after, given))) = (wanted, given) {
        tally.reach("exchange", &built.number.to_string());
        told(tally, d, &format!("exchange of text {number} for {}", shown(new)), &built, &given);
        tally.compare(&characters, &after, || format!("exchange of text {number}: other characters"));
    }
}

/// Bytes of a length that are no UTF-8.
fn no_utf8(r: &mut Random, length: usize) -> Vec<u8> {
    let mut bytes = string(r, length);
    let at = r.below(length);
    bytes[at] = 0xff;
    if r.one_in(2) {
        bytes[length - 1] = r.pick(&[0xc3, 0xe2, 0xf0]);
    }
    bytes
}

/// Every text of a drawing exchanged, and all that is refused.
fn each_text(tally: &mut Tally, r: &mut Random, d: &Drawing, words: [usize; 3]) {
    let all = texts(&d.script, &d.characters);
    let mut asked: Vec<(u32, Vec<u8>, [usize; 3])> = Vec::new();
    for (number, text) in (1..).zip(&all) {
        let length = text.length;
        let old = d.characters[text.start..text.start + length].to_vec();
        let mut new = vec![old, string(r, length), string(r, length), b" ".repeat(length), string(r, length + 1)];
        if length > 0 {
            new.extend([string(r, length - 1), no_utf8(r, length), no_utf8(r, length + 1)]);
        }
        asked.extend(new.into_iter().map(|new| (number, new, words)));
        let (mut lacking, k) = (words, r.below(3));
        lacking[k] = r.from_to(0, lacking[k]);
        asked.push((number, string(r, length), lacking));
    }
    let (last, length) = (all.len() as u32, all.last().map_or(2, |t| t.length));
    asked.extend([0, last + 1, last + 2, u32::MAX].map(|number| (number, string(r, length), words)));
    for (number, new, words) in asked {
        exchange_beside(tally, r, d, number, &new, words);
    }
}

/// A text in a text element, or in an element named style, between other texts.
fn long_text(length: usize, in_style: bool) -> Drawing {
    let mut d = Drawing::default();
    d.open(SVG, 1);
    d.open(48, 1);
    d.text(b"before");
    d.close();
    if in_style {
        d.open(STYLE, 4);
        d.open(31, 1);
    }
    d.open(48, 1);
    d.text(&b"x".repeat(length));
    d.close();
    if in_style {
        d.close();
        d.close();
    }
    d.open(48, 1);
    d.text(b"behind");
    d.close();
    d.close();
    d
}

/// Exchanges: every text of the drawings of files of vectors, of `part` one in so many, and texts of every length up to 300 and of some
/// more; with tables that are enough, just enough, and not.
pub fn exchange_texts(part: usize, seed: u64, files: &[&str]) -> Result<ExitCode, String> {
    let mut tally = Tally::default();
    let mut drawings = Vec::new();
    for line in lines(files)?.iter().filter(|l| l.get("script").is_some()).step_by(part) {
        drawings.push(Drawing::of(&line.bytes("script")?, &line.bytes("characters")?));
    }
    let lengths = (0..=300).chain([511, 512, 513, 1000, 4096, 65536]).step_by(part);
    drawings.extend(lengths.flat_map(|n| [long_text(n, false), long_text(n, true)]));
    let mut input = 0;
    for d in &drawings {
        input += 1;
        let r = &mut Random::new(seed, input);
        let large = [8 * 1200, 5 * 1200, d.characters.len() * 3 + 50];
        let needed = match library::build(&d.script, &d.characters, &Built::refused(0, large)) {
            Some(built) if built.number == 0 => [0, 1, 2].map(|k| SIZES[k] * built.counts[k] as usize),
            _ => [8 * 3, 5 * 3, 20],
        };
        tally.reach("drawings", if check(&d.script, &d.characters) == 0 { "that check takes" } else { "that it does not" });
        each_text(&mut tally, r, d, needed);
        if input % 4 == 0 {
            each_text(&mut tally, r, d, [needed[0] + 11, needed[1] + 7, needed[2] + 5]);
        }
    }
    Ok(tally.end("exchanges of every text of recorded drawings", library::EXCHANGE))
}

/// Random and damaged drawings, and any bytes.
pub fn build_random(count: u64, seed: u64, files: &[&str]) -> Result<ExitCode, String> {
    let mut tally = Tally::default();
    let recorded = recorded(files)?;
    for input in 0..count {
        let r = &mut Random::new(seed, input);
        let mut d = Drawing::default();
        match r.below(8) {
            0 => d = scripts::any_bytes(r),
            1 => scripts::random(r, &mut d),
            2 => scripts::lively(r, &mut d),
            3 => {
                scripts::lively(r, &mut d);
                scripts::damaged(r, &mut d);
            }
            k => {
                let line = &recorded[r.below(recorded.len())];
                d = Drawing::of(&line.script, &line.characters);
                if k > 4 {
                    scripts::damaged(r, &mut d);
                }
            }
        }
        let words = match r.below(10) {
            0 => [8 * 2500, 5 * 2500, 4000],
            1..=5 => [8 * 400, 5 * 400, 1000],
            _ => [r.below(8 * 40), r.below(5 * 30), r.below(90)],
        };
        judged(&mut tally, r, &d, words);
        if r.one_in(2) {
            let count = texts(&d.script, &d.characters).len();
            let number = r.from_to(0, count + 1);
            let length = texts(&d.script, &d.characters).get(number.wrapping_sub(1)).map_or(2, |t| t.length);
            let new = string(r, length);
            exchange_beside(&mut tally, r, &d, number as u32, &new, words);
        }
    }
    Ok(tally.end(&format!("{count} random and damaged drawings, seed {seed}"), library::BUILD))
}

/// So many groups in one another, and in the innermost a text element, a use of one, a comment or nothing; a text to exchange before.
fn nested(groups: usize, innermost: u8) -> Drawing {
    let mut d = Drawing::default();
    d.open(SVG, 1);
    d.open(48, 1);
    d.attribute(AId::Id as u8, 0, b"t");
    d.text(b" quoted ");
    d.close();
    for _ in 0..groups {
        d.open(31, 1);
        d.attribute(AId::Fill as u8, 0, b"inherit");
    }
    match innermost {
        0 => {
            d.open(48, 1);
            d.text(b" a ");
            d.open(50, 1);
            d.attribute(AId::Href as u8, 2, b"#t");
            d.reading(1, 1, 1);
            d.close();
            d.close();
        }
        1 => {
            d.open(52, 1);
            d.attribute(AId::Href as u8, 0, b"#t");
            d.reading(1, 1, 1);
            d.close();
        }
        2 => d.comment(),
        _ => {}
    }
    (0..=groups).for_each(|_| d.close());
    d
}

/// The deepest drawings, with a stack of 352 KB: a call that takes more ends the program.
pub fn build_deep() -> ExitCode {
    let run = || {
        let mut tally = Tally::default();
        let r = &mut Random::new(1, 1);
        let words = [8 * 1100, 5 * 1100, 100];
        // Depth counts from 0 at the top element; a used element is two deeper than its use.
        for (groups, innermost, number) in [
            (1023, 0, 0),
            (1024, 0, 20),
            (1021, 1, 0),
            (1022, 1, 20),
            (1023, 1, 20),
            (1023, 2, 0),
            (1024, 2, 20),
            (1024, 3, 0),
            (1025, 3, 20),
        ] {
            let d = nested(groups, innermost);
            tally.reach("build", &number.to_string());
            if let Some(given) = library::build(&d.script, &d.characters, &lent(r, words)) {
                tally.compare(number, given.number, || {
                    format!("{groups} groups, {innermost}: {number}, library {}", given.number)
                });
            }
            exchange_beside(&mut tally, r, &d, 1, b"\tnew one", words);
        }
        tally.end("the deepest drawings, with a stack of 352 KB", library::BUILD)
    };
    std::thread::Builder::new().stack_size(352 << 10).spawn(run).unwrap().join().unwrap()
}
