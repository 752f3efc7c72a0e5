//! Tests from outside: the port's library beside plain Rust.
mod compare;
mod tally;
mod trees;
mod vectors;

use std::process::ExitCode;

const USAGE: &str = "usage: host COMMAND
  vectors FILE..             recorded answers, beside plain Rust (check and the questions) and the library
  check-edges                drawings at every edge of check, the library beside plain Rust
  check-random N SEED        N random drawings, likewise
  questions-edges            a small tree with every word changed, and every name, likewise
  questions-random N SEED    N random tables, likewise
  build-rooms PART SEED FILE..     recorded builds, one in PART, with tables of every length and any words in them before
  build-random N SEED FILE..       N random drawings and damaged recorded ones: what can be told of build and exchange without building
  build-deep                       the deepest drawings, built and exchanged with a stack of 352 KB
  exchange-texts PART SEED FILE..  every text of recorded drawings, one in PART, exchanged; beside a fresh build
  write-check N SEED         the same drawings with the answers of plain Rust, as vectors
  write-questions N SEED     the same tables with the answers of plain Rust, as vectors
The last line of the others is 'N agree, M differ' (without the library: that nothing was compared); the status is 0 if none differ.";

fn number(word: &str) -> Result<u64, String> {
    word.parse().map_err(|_| format!("'{word}' is no number"))
}

fn run(words: &[&str]) -> Result<ExitCode, String> {
    match words {
        ["vectors", files @ ..] if !files.is_empty() => vectors::vectors(files),
        ["check-edges"] => Ok(compare::check_edges()),
        ["check-random", count, seed] => Ok(compare::check_random(number(count)?, number(seed)?)),
        ["questions-edges"] => Ok(compare::questions_edges()),
        ["questions-random", count, seed] => Ok(compare::questions_random(number(count)?, number(seed)?)),
        ["build-rooms", part, seed, files @ ..] if !files.is_empty() => {
            trees::build_rooms(number(part)? as usize, number(seed)?, files)
        }
        ["build-random", count, seed, files @ ..] if !files.is_empty() => {
            trees::build_random(number(count)?, number(seed)?, files)
        }
        ["exchange-texts", part, seed, files @ ..] if !files.is_empty() => {
            trees::exchange_texts(number(part)? as usize, number(seed)?, files)
        }
        ["build-deep"] => Ok(trees::build_deep()),
        ["write-check", count, seed] => Ok(vectors::write_check(number(count)?, number(seed)?)),
        ["write-questions", count, seed] => Ok(vectors::write_questions(number(count)?, number(seed)?)),
        _ => Err(USAGE.to_string()),
    }
}

fn main() -> ExitCode {
    let words: Vec<String> = std::env::args().skip(1).collect();
    let words: Vec<&str> = words.iter().map(String::as_str).collect();
    run(&words).unwrap_or_else(|message| {
        eprintln!("{message}");
        ExitCode::from(2)
    })
}
