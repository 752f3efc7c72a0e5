//! Counts of what was compared.
use crate::library;
use crate::tree::Answer;
use std::collections::BTreeMap;

#[derive(Default)]
pub struct Tally {
    cases: u32,
    /// How many cases have which answer.
    answers: BTreeMap<String, u32>,
    /// Differences that a limit of the port explains, each limit with the names of its cases.
    limits: BTreeMap<String, Vec<String>>,
    differences: Vec<String>,
}

/// The Rust's answer for a file, where the Rust is at hand.
#[cfg(feature = "rust")]
pub fn rust(file: &[u8]) -> Option<Answer> {
    Some(crate::rust::answer(file))
}

#[cfg(not(feature = "rust"))]
pub fn rust(_: &[u8]) -> Option<Answer> {
    None
}

/// A limit that the Rust does not have (docs/MANUAL.md, numbers 1, 5, 22, 23 and 24, and what the host gives up).
fn limit(answer: &Answer) -> Option<String> {
    match answer {
        Answer::Refused(1 | 5 | 22 | 23 | 24) | Answer::GivenUp(_) => Some(answer.line()),
        _ => None,
    }
}

impl Tally {
    /// Compares the library's answer with the Rust's, and the Rust's with the recorded one. Without the Rust, the library's with the
    /// recorded one.
    pub fn add(&mut self, name: &str, file: &[u8], recorded: Option<&str>) {
        let own = library::answer(file);
        let judged = rust(file);
        self.cases += 1;
        let what = if let Answer::Tree(_) = own { "trees".to_string() } else { own.line() };
        *self.answers.entry(what).or_default() += 1;
        let mut differences = Vec::new();
        match (judged.as_ref().and_then(|judged| judged.difference(&own)), limit(&own)) {
            (None, _) => {}
            (Some(_), Some(limit)) => self.limits.entry(limit).or_default().push(name.to_string()),
            (Some(words), None) => differences.push(format!("the Rust and the library: {words}")),
        }
        let line = judged.as_ref().unwrap_or(&own).line();
        if let Some(recorded) = recorded.filter(|recorded| **recorded != line) {
            let who = if judged.is_some() { "the Rust" } else { "the library" };
            differences.push(format!("recorded '{recorded}', {who} gives '{line}'"));
        }
        if !differences.is_empty() {
            self.differences.push(format!("{name}: {}", differences.join("; ")));
        }
    }

    /// Something else that is wrong.
    pub fn fail(&mut self, words: String) {
        self.differences.push(words);
    }

    /// Prints the counts, and the first differences. True if there are none.
    pub fn told(&self) -> bool {
        let counts: Vec<String> = self.answers.iter().map(|(what, count)| format!("{count} {what}")).collect();
        let judge = if cfg!(feature = "rust") { "the Rust" } else { "the list" };
        println!("{} compared with {judge}: {}; {} differ", self.cases, counts.join(", "), self.differences.len());
        for (limit, names) in &self.limits {
            println!("past a limit that the Rust does not have, {limit}: {}, first {}", names.len(), names[0]);
        }
        for words in self.differences.iter().take(10) {
            println!("  {}", words.chars().take(1500).collect::<String>());
        }
        self.differences.is_empty()
    }
}
