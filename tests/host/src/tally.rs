//! Counting answers, and showing differences.
use host::questions::{Answer, Flaw, Tables};
use std::collections::BTreeMap;
use std::process::ExitCode;

/// How many answers of each sort were given, and how many were the same on both sides.
#[derive(Default)]
pub struct Tally {
    pub reached: BTreeMap<(&'static str, String), u64>,
    pub agree: u64,
    pub differ: u64,
}

impl Tally {
    pub fn reach(&mut self, question: &'static str, outcome: &str) {
        match self.reached.get_mut(&(question, outcome.to_string())) {
            Some(count) => *count += 1,
            None => drop(self.reached.insert((question, outcome.to_string()), 1)),
        }
    }

    /// Compares; the first few differences are shown.
    pub fn compare<T: PartialEq>(&mut self, wanted: T, given: T, show: impl FnOnce() -> String) {
        if wanted == given {
            self.agree += 1;
            return;
        }
        self.differ += 1;
        if self.differ <= 5 {
            println!("differs: {}", show());
        }
    }

    /// The table of what was reached, and the last line; `compared` unless plain Rust ran alone.
    pub fn end(&self, title: &str, compared: bool) -> ExitCode {
        println!("{title}");
        let mut question = "";
        for ((asked, outcome), count) in &self.reached {
            if *asked != question {
                print!("{}{asked}:", if question.is_empty() { "  " } else { "\n  " });
                question = asked;
            }
            print!("  {outcome} x {count}");
        }
        println!();
        if compared {
            println!("{} agree, {} differ", self.agree, self.differ);
        } else {
            println!("no library is linked: plain Rust ran alone, nothing was compared");
        }
        if self.differ == 0 { ExitCode::SUCCESS } else { ExitCode::FAILURE }
    }
}

pub fn hex(bytes: &[u8]) -> String {
    bytes.iter().map(|b| format!("{b:02x}")).collect()
}

/// Bytes in hexadecimal, the end of long ones left out.
pub fn shown(bytes: &[u8]) -> String {
    match bytes.get(..500) {
        Some(first) => format!("{}.. ({} bytes)", hex(first), bytes.len()),
        None => format!("'{}'", hex(bytes)),
    }
}

/// What an answer is counted as.
pub fn sort_of(answer: Answer) -> &'static str {
    match answer {
        Answer { number: 40, .. } => "40",
        Answer { number: 41, .. } => "41",
        Answer { number: 42, .. } => "42",
        Answer { found: 1, .. } => "0 found",
        _ => "0 none",
    }
}

/// Counts what the 40 test finds.
pub fn note_flaw(tally: &mut Tally, t: &Tables) {
    match t.flaw() {
        None => tally.reach("tables", "sound"),
        Some(flaw) => tally.reach("tables", flaw_name(flaw)),
    }
}

fn flaw_name(flaw: Flaw) -> &'static str {
    match flaw {
        Flaw::NodeCount => "node count",
        Flaw::AttributeCount => "attribute count",
        Flaw::TextCount => "text count",
        Flaw::NoNode => "no node",
        Flaw::Root => "root",
        Flaw::Kind => "kind",
        Flaw::Parent => "parent",
        Flaw::Sibling => "sibling",
        Flaw::Child => "child",
        Flaw::OneChildOnly => "first or last child alone",
        Flaw::ElementCode => "element code",
        Flaw::AttributeRange => "attribute range",
        Flaw::TextRange => "text range",
        Flaw::AttributeCode => "attribute code",
        Flaw::FixedValue => "fixed value",
        Flaw::Value => "value",
    }
}
