//! The Rust itself beside the port's library. See `USAGE`.
use compare::record;
#[cfg(feature = "rust")]
use compare::{commands, files, generate, run, rust, vectors};

const USAGE: &str = "usage: compare COMMAND
  replay FILE                recorded drawings, beside the library and the Rust, as far as each is built in
With the Rust (feature rust):
  vectors FILE..             recorded vectors of check, build, exchange and the questions, beside the Rust
  random N SEED [THEME]      N random drawings of a theme, or of all in turn, the library beside the Rust
  small SORT N               all drawings of up to N commands, texts, links or uses, by the sort, likewise
  files FILE..               drawings of SVG files, as host/examples/scripts.rs writes them, likewise
  limits                     drawings at the limits of sizes, depth and nodes, likewise
  folder FOLDER              the drawings of SVG files that the tests of host/ have written to a folder, likewise
  record-folder FOLDER       writes a line for each of these, with a hash of the Rust's tables
  record N SEED              writes N drawings with hashes of the Rust's answers
  faults N SEED              puts faults into the Rust's answers, and tells after how many random drawings each is seen
  show DRAWING               prints a drawing, the first word of a line of the list, and the Rust's tree
The status is 0 if nothing differs.";

#[cfg(feature = "rust")]
fn number(word: &str) -> Result<u64, String> {
    word.parse().map_err(|_| format!("'{word}' is no number"))
}

fn follow(words: &[&str]) -> Result<bool, String> {
    match words {
        ["replay", file] => {
            let (agree, differ, beside) = record::replay(file)?;
            if beside.is_empty() {
                return Err("neither the Rust nor the library is built in".to_string());
            }
            println!("{file}, beside {}: {agree} agree, {differ} differ", beside.join(" and "));
            Ok(differ == 0 && agree > 0)
        }
        _ => with_rust(words),
    }
}

#[cfg(feature = "rust")]
fn with_rust(words: &[&str]) -> Result<bool, String> {
    let compared = cfg!(feature = "library");
    let side = run::library();
    match words {
        ["vectors", files @ ..] if !files.is_empty() => {
            let (agree, differ) = vectors::files(files)?;
            println!("{agree} agree, {differ} differ");
            Ok(differ == 0 && agree > 0)
        }
        ["random", count, seed, theme @ ..] if theme.len() < 2 => {
            let themes = generate::THEMES.iter();
            let only = match theme {
                [name] => Some(*themes.clone().find(|t| format!("{t:?}").to_lowercase() == *name).ok_or("no such theme")?),
                _ => None,
            };
            let tally = run::random(number(count)?, number(seed)?, only, &side, compared);
            tally.print_missing();
            Ok(tally.end(&format!("{count} random drawings, seed {seed}")))
        }
        ["small", sort, most] => {
            let tally = run::all_small(sort, number(most)? as usize, &side, compared).ok_or("no such sort")?;
            Ok(tally.end(&format!("all of up to {most} {sort}")))
        }
        ["files", files @ ..] if !files.is_empty() => {
            let drawings = vectors::drawings(files)?;
            Ok(run::drawings(&drawings, &side, compared).end(&format!("{} drawings of files", drawings.len())))
        }
        ["limits"] => Ok(run::limits(&side, compared).end("drawings at the limits")),
        ["folder", folder] => Ok(files::files(folder, &side, compared)?.end("drawings of SVG files")),
        ["record-folder", folder] => {
            files::record(folder)?.iter().for_each(|line| println!("{line}"));
            Ok(true)
        }
        ["record", count, seed] => {
            println!(
                "# Drawings with hashes of the Rust's answers, by `compare record {count} {seed}`. src/record.rs says what a line has."
            );
            for line in run::record(number(count)? as usize, number(seed)?) {
                println!("{}", line.written());
            }
            Ok(true)
        }
        ["faults", count, seed] => Ok(run::faults(number(count)?, number(seed)?)),
        ["show", word] => {
            show(&commands::from_word(word).ok_or("no drawing")?);
            Ok(true)
        }
        _ => Err(USAGE.to_string()),
    }
}

#[cfg(feature = "rust")]
fn show(bytes: &commands::Bytes) {
    println!("{}", commands::shown(bytes));
    let refused = host::check::check(&bytes.script, &bytes.characters);
    if refused != 0 {
        println!("check: {refused}");
        return;
    }
    let tree = rust::tree(&bytes.script, &bytes.characters);
    println!("build: {}, takes {:?}", tree.end, tree.needed());
    tree.nodes.iter().enumerate().for_each(|(k, node)| println!("node {k}: {node:?}"));
    tree.entries.iter().enumerate().for_each(|(k, entry)| println!("entry {k}: {entry:?}"));
    println!("text: {:?}", String::from_utf8_lossy(&tree.text));
    tree.events.print();
}

#[cfg(not(feature = "rust"))]
fn with_rust(_: &[&str]) -> Result<bool, String> {
    Err(USAGE.to_string())
}

fn main() {
    let words: Vec<String> = std::env::args().skip(1).collect();
    let main = move || follow(&words.iter().map(String::as_str).collect::<Vec<_>>());
    // Drawings nest 1,024 deep, and the Rust goes down with them.
    let run = std::thread::Builder::new().stack_size(1 << 29).spawn(main).unwrap();
    std::process::exit(match run.join() {
        Ok(Ok(true)) => 0,
        Ok(Ok(false)) => 1,
        Ok(Err(message)) => {
            eprintln!("{message}");
            2
        }
        Err(_) => 3,
    });
}
