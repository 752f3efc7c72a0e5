//! Times of check, of the questions, of build and of exchange: the port's library beside plain Rust, in one run. See bench/run.
mod building;
mod drawings;

use host::names::AId;
use host::questions::Counts;
use host::scripts::Drawing;
use host::tables::Lent;
use host::{check, library};
use std::time::{Duration, Instant};

/// The value itself, read in a way that the compiler does not see through.
fn black_box<T>(value: T) -> T {
    let value = std::mem::ManuallyDrop::new(value);
    // SAFETY: the value is read once, and is not dropped here.
    unsafe { std::ptr::read_volatile(&*value) }
}

/// A call whose answer counts as used.
macro_rules! call {
    ($answer:expr) => {
        &|| {
            let _ = black_box($answer);
        }
    };
}

/// Times in microseconds of a call of each, the least of many rounds. They take turns, so that what else the machine does
/// falls on all of them.
fn times<const N: usize>(calls: [&dyn Fn(); N]) -> [f64; N] {
    let run = |call: &dyn Fn(), count: u32| {
        let start = Instant::now();
        (0..count).for_each(|_| call());
        start.elapsed()
    };
    let counts = calls.map(|call| {
        let mut count = 1;
        while run(call, count) < Duration::from_micros(1500) {
            count *= 2;
        }
        count
    });
    let mut least = [f64::INFINITY; N];
    for _ in 0..150 {
        for k in 0..N {
            let each = run(calls[k], counts[k]).as_secs_f64() * 1e6 / counts[k] as f64;
            least[k] = least[k].min(each);
        }
    }
    least
}

/// A time; a dash for what is not linked.
fn shown(time: f64, linked: bool) -> String {
    if linked { format!("{time:.3}") } else { "-".to_string() }
}

fn ratio(a: f64, b: f64, linked: bool) -> String {
    if linked { format!("{:.2}", a / b) } else { "-".to_string() }
}

/// A script of about `size` bytes: many small elements.
fn short_commands(size: usize) -> Drawing {
    let mut d = Drawing::default();
    d.open(45, 1);
    while d.script.len() + 100 < size {
        d.open(31, 1);
        d.attribute(AId::Id as u8, 0, b"a1");
        d.attribute(AId::ClipPath as u8, 0, b"url(#c)");
        d.reading(2, 5, 1);
        d.declaration(AId::Fill as u8, 0, "réd".as_bytes());
        d.open(48, 1);
        d.text(b"some text");
        d.close();
        d.comment();
        d.close();
    }
    d.close();
    d
}

/// Characters of about `size` bytes in eight texts.
fn long_strings(size: usize, letters: &str) -> Drawing {
    let mut d = Drawing::default();
    d.open(45, 1);
    (0..8).for_each(|_| d.text(letters.repeat(size / 8 / letters.len()).as_bytes()));
    d.close();
    d
}

fn check_table() {
    println!("check: microseconds for a call, release builds");
    println!(
        "{:<34}{:>9}{:>12}{:>11}{:>12}{:>9}{:>13}{:>11}",
        "drawing", "script", "characters", "library", "plain Rust", "ratio", "from_utf8", "byte sum"
    );
    for (size, name) in [(1 << 10, "1 KB"), (1 << 16, "64 KB"), (1 << 20, "1 MiB")] {
        let shapes = [
            ("short commands", short_commands(size)),
            ("long strings, ASCII", long_strings(size, "the quick brown ")),
            ("long strings, not ASCII", long_strings(size, "zwölf €uro😀 é")),
            ("long strings, German", long_strings(size, "Größe der Läufer über fünf Öfen, zwölf Bögen für die Bäckerei ")),
            ("long strings, Cyrillic", long_strings(size, "масса захвата ")),
            ("long strings, CJK", long_strings(size, "工具的负载重量")),
            ("long strings, one in 100", long_strings(size, SPARSE)),
        ];
        for (shape, Drawing { script, characters, .. }) in &shapes {
            assert_eq!(check::check(script, characters), 0, "a drawing to measure is in order");
            let [linked, plain, utf8, sum] = times([
                call!(library::check(black_box(script), black_box(characters))),
                call!(check::check(black_box(script), black_box(characters))),
                call!(std::str::from_utf8(black_box(characters))),
                call!(black_box(script).iter().map(|&b| b as u64).sum::<u64>()),
            ]);
            println!(
                "{:<34}{:>9}{:>12}{:>11}{:>12.3}{:>9}{:>13.3}{:>11.3}",
                format!("{shape}, {name}"),
                script.len(),
                characters.len(),
                shown(linked, library::CHECK),
                plain,
                ratio(linked, plain, library::CHECK),
                utf8,
                sum
            );
        }
    }
}

/// A tree of 10,000 nodes as build would leave it: an svg with groups of nine elements and texts, each group nested in the
/// one before up to 100 deep. Every element has an id and two more attributes; only the svg has a fill.
fn large_tree() -> Lent {
    let mut lent = Lent {
        nodes: vec![],
        attributes: vec![],
        text: vec![],
        characters: b"redurl(#c)1".to_vec(),
        counts: Counts { nodes: 0, attributes: 0, text: 0 },
    };
    let mut records: Vec<[u32; 8]> = vec![[1, 0, 0, 0, 0, 0, 0, 0]];
    let mut group = 0;
    for i in 1..10_000u32 {
        let parent = match i {
            1 => 0,
            _ if i % 1000 == 2 => 1,
            _ => group,
        };
        if i % 10 == 2 || i == 1 {
            group = i as usize;
        }
        match records[parent][4] {
            0 => records[parent][3] = i + 1,
            last => records[last as usize - 1][2] = i + 1,
        }
        records[parent][4] = i + 1;
        if i % 5 == 4 {
            let from = lent.text.len() as u32;
            lent.text.extend(b"some text");
            records.push([3, parent as u32 + 1, 0, 0, 0, 0, from, from + 9]);
            continue;
        }
        let from = lent.attributes.len() as u32 / 5;
        let start = lent.characters.len() as u32;
        let id = format!("id{i}");
        lent.characters.extend(id.as_bytes());
        let first = if i == 1 { AId::Fill } else { AId::Opacity };
        lent.attributes.extend([first as u32, 0, 0, 3, i]);
        lent.attributes.extend([AId::ClipPath as u32, 0, 3, 7, i]);
        lent.attributes.extend([AId::Id as u32, 0, start, id.len() as u32, i]);
        records.push([2, parent as u32 + 1, 0, 0, 0, 31, from, from + 3]);
    }
    lent.nodes = records.concat();
    lent.counts = Counts { nodes: 10_000, attributes: lent.attributes.len() as u32 / 5, text: lent.text.len() as u32 };
    lent
}

/// One question: what it is called, and a call on each side.
type Asked<'a> = (&'a str, &'a dyn Fn(), &'a dyn Fn());

fn questions_table() {
    let lent = large_tree();
    let t = &lent.tables();
    assert_eq!(t.flaw(), None, "the tree to measure passes the 40 test");
    let (fill, clip) = (AId::Fill as u32, AId::ClipPath as u32);
    let last = (0..10_000).rev().find(|&n| lent.nodes[n * 8] == 2).unwrap() as u32;
    assert_eq!(t.find_attribute(last, fill).index, 0, "the svg's fill is found");
    assert_eq!(t.element_by_id(b"id1").index, 1, "the svg is found");
    let asked: [Asked; 6] = [
        ("attribute", call!(library::attribute(black_box(t), last, clip)), call!(black_box(t).attribute(last, clip))),
        (
            "find attribute, 100 up",
            call!(library::find_attribute(black_box(t), last, fill)),
            call!(black_box(t).find_attribute(last, fill)),
        ),
        (
            "element by id, the last",
            call!(library::element_by_id(black_box(t), b"id9998")),
            call!(black_box(t).element_by_id(b"id9998")),
        ),
        (
            "element by id, the first",
            call!(library::element_by_id(black_box(t), b"id1")),
            call!(black_box(t).element_by_id(b"id1")),
        ),
        ("element by id, none", call!(library::element_by_id(black_box(t), b"id4")), call!(black_box(t).element_by_id(b"id4"))),
        ("text", call!(library::text(black_box(t), 9999)), call!(black_box(t).text(9999))),
    ];
    println!("questions on {} nodes and {} attributes: microseconds for a call", lent.counts.nodes, lent.counts.attributes);
    println!(
        "{:<28}{:>11}{:>12}{:>9}{:>20}{:>20}",
        "question", "library", "plain Rust", "ratio", "40 test of library", "40 test of plain"
    );
    // A question about a node past the end is answered by the 40 test and one comparison.
    let linked_test: &dyn Fn() = call!(library::attribute(black_box(t), 10_000, clip));
    let plain_test: &dyn Fn() = call!(black_box(t).attribute(10_000, clip));
    for (name, linked, plain) in asked {
        let [linked, plain, linked_test, plain_test] = times([linked, plain, linked_test, plain_test]);
        let share = |test: f64, whole: f64, have: bool| {
            if have { format!("{:.0} %", (test / whole).min(1.0) * 100.0) } else { "-".into() }
        };
        println!(
            "{:<28}{:>11}{:>12.3}{:>9}{:>20}{:>20}",
            name,
            shown(linked, library::QUESTIONS),
            plain,
            ratio(linked, plain, library::QUESTIONS),
            share(linked_test, linked, library::QUESTIONS),
            share(plain_test, plain, true)
        );
    }
}

/// ASCII with one other character in a hundred bytes: std goes back to its fast path at once.
const SPARSE: &str = "the gripper lifts one layer of loaves and puts it on the pallet beside the caf\u{e9} \
                      door, then it waits. ";

fn main() {
    let parts = [
        ("check", library::CHECK),
        ("questions", library::QUESTIONS),
        ("build", library::BUILD),
        ("exchange", library::EXCHANGE),
    ];
    let missing: Vec<&str> = parts.iter().filter(|p| !p.1).map(|p| p.0).collect();
    if !missing.is_empty() {
        eprintln!("not linked: {}", missing.join(", "));
    }
    let tables: [(&str, fn()); 8] = [
        ("check", check_table),
        ("questions", questions_table),
        ("build", building::build_table),
        ("exchange", building::exchange_table),
        ("links", building::links_table),
        ("hurtful", || building::hurtful_table(false)),
        ("full", || building::hurtful_table(true)),
        ("worst", building::worst_table),
    ];
    let wanted: Vec<String> = std::env::args().skip(1).collect();
    let run = move || {
        if let Some(("files", files)) = wanted.split_first().map(|(w, f)| (w.as_str(), f)) {
            return files.iter().for_each(|f| building::files_table(f));
        }
        if let Some(("named", parts)) = wanted.split_first().map(|(w, f)| (w.as_str(), f)) {
            return parts.iter().for_each(|part| building::build_named(part));
        }
        if wanted == ["lines"] {
            return building::write_lines();
        }
        for (name, table) in tables {
            if wanted.is_empty() || wanted.iter().any(|w| w == name) {
                table();
                println!();
            }
        }
    };
    // Drawings nest 1,000 deep, and the Rust goes down with them.
    std::thread::Builder::new().stack_size(1 << 29).spawn(run).unwrap().join().unwrap();
}
