//! Times of build and exchange: the port's library beside the Rust's own parse_tree, over the stand-ins of tests/compare, and plain check.
use crate::drawings::{self, Size};
use crate::{black_box, ratio, shown};
use host::json::Json;
use host::library::{self, Lent};
use host::names::AId;
use host::scripts::Drawing;
use std::cell::RefCell;
use std::time::{Duration, Instant};

/// Tables as they are lent.
struct Tables {
    nodes: Vec<u32>,
    attributes: Vec<u32>,
    text: Vec<u8>,
}

impl Tables {
    fn new(words: [usize; 3]) -> Tables {
        Tables { nodes: vec![0; words[0]], attributes: vec![0; words[1]], text: vec![0; words[2]] }
    }

    fn lent(&mut self) -> Lent<'_> {
        Lent { nodes: &mut self.nodes, attributes: &mut self.attributes, text: &mut self.text }
    }
}

/// Tables of just the size that a drawing takes, and how many nodes it has; None if it is refused. Without the library: empty tables.
fn exact(d: &Drawing) -> Option<(Tables, usize)> {
    let mut rooms = d.script.len();
    loop {
        let mut large = Tables::new([8 * rooms, 5 * rooms, 4 * rooms + d.characters.len()]);
        let told = match library::plain::build(&d.script, &d.characters, large.lent()) {
            Some(told) => told,
            None => return Some((Tables::new([0; 3]), 0)),
        };
        match told.number {
            0 => {
                let words = [8 * told.nodes as usize, 5 * told.attributes as usize, told.text as usize];
                return Some((Tables::new(words), told.nodes as usize));
            }
            22..=24 if rooms < 8_000_000 => rooms *= 8,
            _ => return None,
        }
    }
}

/// Something that is timed: it says how long it took.
type Timed<'a> = &'a dyn Fn() -> Duration;

/// The least time of each in microseconds. They take turns, so that what else the machine does falls on all of them; at least three
/// rounds where these take no more than five times a time, and then as many as fit into it.
fn least<const N: usize>(calls: [Timed; N], most: Duration) -> [f64; N] {
    let start = Instant::now();
    let mut least = [f64::INFINITY; N];
    for round in 0..400 {
        let enough = if round < 3 { 5 * most } else { most };
        if round > 0 && start.elapsed() > enough {
            break;
        }
        for k in 0..N {
            least[k] = least[k].min(calls[k]().as_secs_f64() * 1e6);
        }
    }
    least
}

/// How long something takes whose answer counts as used.
fn took<R>(run: impl FnOnce() -> R) -> Duration {
    let start = Instant::now();
    let answer = run();
    let time = start.elapsed();
    black_box(answer);
    time
}

/// Times of a drawing: the library's build and check, the Rust's parse_tree, plain check; None if the drawing is refused.
fn of(d: &Drawing, most: Duration) -> Option<([f64; 4], usize)> {
    let (tables, nodes) = exact(d)?;
    let tables = RefCell::new(tables);
    let (script, characters) = (&d.script[..], &d.characters[..]);
    let build = || {
        let mut tables = tables.borrow_mut();
        took(|| library::plain::build(black_box(script), black_box(characters), tables.lent()))
    };
    let check = || took(|| library::check(black_box(script), black_box(characters)));
    let plain = || took(|| host::check::check(black_box(script), black_box(characters)));
    assert_eq!(host::check::check(script, characters), 0, "a drawing to measure is in order");
    let times = parsed(d, |parse| {
        let rust = || {
            let (time, count) = parse();
            assert!(count == nodes || !RUST || !library::BUILD, "the Rust's tree has {count} nodes, the library's {nodes}");
            time
        };
        least([&build, &check, &rust, &plain], most)
    });
    Some((times, nodes))
}

/// Runs something with the Rust's parse_tree of a drawing: its time, and how many nodes it gives.
#[cfg(feature = "rust")]
fn parsed<R>(d: &Drawing, run: impl FnOnce(&dyn Fn() -> (Duration, usize)) -> R) -> R {
    compare::rust::timed(&d.script, &d.characters, run)
}

#[cfg(not(feature = "rust"))]
fn parsed<R>(_: &Drawing, run: impl FnOnce(&dyn Fn() -> (Duration, usize)) -> R) -> R {
    run(&|| (Duration::ZERO, 0))
}

/// How long a drawing is measured.
const SOME: Duration = Duration::from_secs(4);
const RUST: bool = cfg!(feature = "rust");

fn row(name: &str, d: &Drawing) {
    let ([build, check, rust, plain], nodes) = of(d, SOME).expect("a drawing to measure is built");
    println!(
        "{:<42}{:>8}{:>8}{:>14}{:>11}{:>14}{:>12}{:>9}",
        name,
        d.script.len(),
        nodes,
        shown(build, library::BUILD),
        shown(check, library::CHECK),
        shown(rust, RUST),
        shown(plain, true),
        ratio(build, rust + plain, library::BUILD && RUST)
    );
}

fn head(title: &str) {
    println!("{title}: microseconds for a call");
    println!(
        "{:<42}{:>8}{:>8}{:>14}{:>11}{:>14}{:>12}{:>9}",
        "drawing", "script", "nodes", "build", "check", "parse_tree", "plain check", "ratio"
    );
}

pub fn build_table() {
    if !RUST {
        println!("not there: the Rust, beside which build is measured");
    }
    head("build, the library beside the Rust's parse_tree and plain check");
    for (name, d) in drawings::large(Size(1 << 20)) {
        row(&format!("{name}, 1 MiB"), &d);
    }
    for (name, d) in drawings::large(Size(1 << 14)) {
        row(&format!("{name}, 16 KB"), &d);
    }
}

pub fn links_table() {
    head("links, likewise");
    for n in [500, 1000, 2000, 32_000] {
        row(&format!("{n} clip paths, none leads back"), &drawings::clip_paths(n, false));
    }
    for n in [1000, 30_000] {
        row(&format!("{n} clip paths, links to far ones"), &drawings::far_links(n));
    }
    for n in [1000, 13_000] {
        row(&format!("{n} images of elements with filters"), &drawings::images(n));
    }
    for n in [150, 300, 600, 19_000] {
        row(&format!("{n} clip paths, to the next and back"), &drawings::clip_paths(n, true));
    }
    for n in [150, 300, 600, 19_000] {
        row(&format!("{n} patterns, to the next and back"), &drawings::patterns(n));
    }
    for n in [300, 600, 1200, 24_000] {
        row(&format!("{n} fills with a pattern of as many"), &drawings::crossed(n));
    }
    for n in [500, 1000, 2000] {
        row(&format!("{n} uses of one group"), &drawings::uses_of_one(n));
    }
    for n in [1000, 2000, 4000] {
        row(&format!("{n} uses of as many groups"), &drawings::uses(n));
    }
    for n in [100, 200, 400] {
        row(&format!("{n} rects, then 10 groups, doubled"), &drawings::doubled(n, 10));
    }
    for n in [1000, 2000, 4000] {
        row(&format!("{n} trefs to as many texts"), &drawings::trefs(n));
    }
}

/// Drawings that are made to hurt, of a usual size or as large as can be.
pub fn hurtful_table(full: bool) {
    head(if full { "drawings made to hurt, as large as can be" } else { "drawings made to hurt" });
    for (name, make, usual, most) in drawings::HURTFUL {
        let n = if full { most } else { usual };
        row(&format!("{n} {name}"), &make(n));
    }
}

/// The drawings that take the longest, each grown until its build takes a second or it is as large as can be: how long, by which power of
/// its size the time grew last, and how long the largest one would take if it grew on like that. The Rust stands beside a smaller one
/// where it would take too long.
pub fn worst_table() {
    println!("the longest builds, grown until one takes a second: seconds for a call");
    println!(
        "{:<42}{:>9}{:>9}{:>9}{:>7}{:>9}{:>15}{:>9}{:>9}{:>12}{:>9}",
        "drawing", "script", "nodes", "build", "power", "most", "build of most", "beside", "build", "parse_tree", "ratio"
    );
    for (name, make, most, beside) in drawings::WORST {
        let largest = make(most);
        assert_eq!(host::check::check(&largest.script, &largest.characters), 0, "the largest drawing is in order");
        let built = |n: usize| {
            let d = make(n);
            let (mut tables, nodes) = exact(&d).expect("a drawing to measure is built");
            let time = took(|| library::plain::build(&d.script, &d.characters, tables.lent())).as_secs_f64();
            (d, nodes, time)
        };
        let (mut n, mut before) = (1, None);
        let (d, nodes, build, power) = loop {
            let (d, nodes, time) = built(n);
            if time > 1.0 || n == most {
                let (smaller, less) = before.unwrap_or((n, time));
                break (d, nodes, time, (time / less).ln() / (n as f64 / smaller as f64).ln());
            }
            before = Some((n, time));
            n = most.min(2 * n);
        };
        let smaller = n.min(beside);
        let (small, _, time) = built(smaller);
        let rust = parsed(&small, |parse| parse().0.as_secs_f64());
        println!(
            "{:<42}{:>9}{:>9}{:>9}{:>7.1}{:>9}{:>15.0}{:>9}{:>9}{:>12}{:>9}",
            format!("{n} {name}"),
            d.script.len(),
            nodes,
            shown(build, library::BUILD),
            power,
            most,
            build * (most as f64 / n as f64).powf(power),
            smaller,
            shown(time, library::BUILD),
            shown(rust, RUST),
            ratio(time, rust, library::BUILD && RUST),
        );
    }
}

/// A line for each drawing of 16 KB, that is made to hurt or takes the longest, as host/examples/scripts.rs writes them: `compare files` reads such lines.
pub fn write_lines() {
    let hex = |bytes: &[u8]| bytes.iter().map(|b| format!("{b:02x}")).collect::<String>();
    let hurtful = drawings::HURTFUL.map(|(name, make, usual, _)| (name, make(usual / 10)));
    let worst = drawings::WORST.map(|(name, make, most, _)| (name, make(most / 200 + 2)));
    for (name, d) in drawings::large(Size(1 << 14)).into_iter().chain(hurtful).chain(worst) {
        println!(r#"{{"name": "{name}", "script": "{}", "characters": "{}"}}"#, hex(&d.script), hex(&d.characters));
    }
}

/// Two builds of the drawing with this name, the last into tables of just its size: for a profiler.
pub fn build_named(wanted: &str) {
    let hurtful = drawings::HURTFUL.map(|(name, make, usual, _)| (name, make(usual)));
    let worst = drawings::WORST.map(|(name, make, most, _)| (name, make(most / 30)));
    for (name, d) in drawings::large(Size(1 << 20)).into_iter().chain(hurtful).chain(worst).filter(|(name, _)| *name == wanted) {
        let (mut tables, nodes) = exact(&d).expect("a drawing to measure is built");
        let _ = black_box(library::plain::build(&d.script, &d.characters, tables.lent()));
        println!("{name}: {nodes} nodes");
    }
}

/// Drawings of SVG files, as host/examples/scripts.rs writes them: the sum of their times, and the files that are slower than the Rust.
pub fn files_table(file: &str) {
    let content = std::fs::read_to_string(file).expect("a file of lines");
    let (mut sums, mut slower, mut built, mut refused) = ([0.0; 4], Vec::new(), 0, 0);
    for line in content.lines() {
        let line = Json::read(line).expect("a line of JSON");
        let d = Drawing::of(&line.bytes("script").unwrap(), &line.bytes("characters").unwrap());
        let (times, nodes) = match of(&d, Duration::from_millis(15)) {
            Some(found) => found,
            None => {
                refused += 1;
                continue;
            }
        };
        built += 1;
        (0..4).for_each(|k| sums[k] += times[k]);
        let by = times[0] / (times[2] + times[3]);
        if by > 1.0 {
            slower.push((by, nodes, times[0], line.get("name").map_or(String::new(), |n| format!("{n:?}"))));
        }
    }
    println!("{file}: microseconds for all {built} drawings ({refused} refused)");
    let [build, check, rust, plain] = sums;
    println!(
        "build {build:.0}, check {check:.0}, parse_tree {rust:.0}, plain check {plain:.0}, ratio {:.2}",
        build / (rust + plain)
    );
    slower.sort_by(|a, b| b.0.total_cmp(&a.0));
    println!("{} are slower than the Rust", slower.len());
    slower.iter().take(8).for_each(|(by, nodes, time, name)| println!("{by:>8.2}{nodes:>8} nodes{time:>12.1}  {name}"));
}

/// Exchange of a text of some bytes, beside build and check of the same drawing.
fn exchange_row(name: &str, d: &Drawing, number: u32, length: usize) {
    let tables = RefCell::new(exact(d).expect("a drawing to measure is built").0);
    let characters = RefCell::new(d.characters.clone());
    let script = &d.script[..];
    let old = RefCell::new(false);
    let exchange = || {
        let (mut tables, mut characters) = (tables.borrow_mut(), characters.borrow_mut());
        let new = if old.replace_with(|o| !*o) { b"3".repeat(length) } else { b"7".repeat(length) };
        took(|| {
            let told = library::plain::exchange(black_box(script), &mut characters, number, black_box(&new), tables.lent());
            assert!(told.map_or(true, |t| t.number == 0), "a text to measure is exchanged");
        })
    };
    let build = || {
        let (mut tables, characters) = (tables.borrow_mut(), characters.borrow());
        took(|| library::plain::build(black_box(script), black_box(&characters), tables.lent()))
    };
    let check = || {
        let characters = characters.borrow();
        took(|| library::check(black_box(script), black_box(&characters)))
    };
    let [exchange, build, check] = least([&exchange, &build, &check], SOME);
    let have = library::EXCHANGE;
    println!(
        "{:<40}{:>12}{:>12}{:>11}{:>10}{:>17}",
        name,
        shown(exchange, have),
        shown(build, have),
        shown(check, have),
        ratio(exchange, build, have),
        ratio(exchange, check + build, have)
    );
}

pub fn exchange_table() {
    println!("exchange of one text: microseconds for a call");
    println!("{:<40}{:>12}{:>12}{:>11}{:>10}{:>17}", "drawing", "exchange", "build", "check", "by build", "by check, build");
    for (size, name) in [(1 << 14, "16 KB"), (1 << 20, "1 MiB")] {
        let d = drawings::texts(Size(size));
        let texts = host::texts::texts(&d.script, &d.characters);
        for (place, number) in [("first", 1), ("last", texts.len())] {
            exchange_row(&format!("texts, {name}, the {place}"), &d, number as u32, texts[number - 1].length);
        }
        let d = drawings::rects(Size(size));
        exchange_row(&format!("rects, {name}, one text"), &d, 1, 5);
    }
    for length in [256, 257] {
        let mut d = Drawing::default();
        d.open(45, 1);
        d.attribute(AId::Width as u8, 0, b"100");
        d.open(48, 1);
        d.text(&b"x".repeat(length));
        d.close();
        while d.script.len() < 1 << 14 {
            drawings::rect(&mut d);
        }
        d.close();
        exchange_row(&format!("rects, 16 KB, a text of {length} bytes"), &d, 1, length);
    }
}
