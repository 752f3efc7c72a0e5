//! The numbers that the library answers with, and the manual's words for them.
use std::fmt;

/// The panel's manual. Its tables have a row for each number: the number and its cause.
static MANUAL: &str = include_str!("../../docs/MANUAL.md");

/// A number other than 0: the panel does not do what was asked, and this is why.
///
/// ```
/// let refusal = storkvanity::check(&[1, 45, 1], &[]).unwrap_err();
/// assert_eq!(refusal.number(), 4);
/// assert!(refusal.to_string().starts_with("4: A command stands where it may not"));
/// ```
#[derive(Clone, Copy, Debug, PartialEq, Eq)]
pub struct Refusal {
    number: u32,
}

impl Refusal {
    /// The refusal with this number.
    pub(crate) fn new(number: u32) -> Refusal {
        Refusal { number }
    }

    /// The number.
    pub fn number(self) -> u32 {
        self.number
    }

    /// The manual's causes of this number: one sentence or more for each. 20 has two, the depth and the count.
    pub fn causes(self) -> impl Iterator<Item = &'static str> {
        rows(self.number).map(|row| row.cause)
    }

    /// All that the manual's tables say of a number: for each row when it is given, the cause, and what helps. None if there is no row.
    ///
    /// ```
    /// let words = storkvanity::Refusal::explain(22).unwrap();
    /// assert_eq!(words, "22: While a drawing is loaded: The node table is full.\nWhat helps: A larger table.\n");
    /// ```
    pub fn explain(number: u32) -> Option<String> {
        let mut words = String::new();
        for row in rows(number) {
            words += &format!("{number}: {}: {}\n", row.section, row.cause);
            if let Some(helps) = row.helps {
                words += &format!("What helps: {helps}\n");
            }
        }
        Some(words).filter(|words| !words.is_empty())
    }
}

/// A row of the manual's tables.
struct Row {
    number: u32,
    section: &'static str,
    cause: &'static str,
    helps: Option<&'static str>,
}

/// The rows of a number.
fn rows(number: u32) -> impl Iterator<Item = Row> {
    all_rows().filter(move |row| row.number == number)
}

/// The rows of all numbers.
fn all_rows() -> impl Iterator<Item = Row> {
    let mut section = "";
    MANUAL.lines().filter_map(move |line| {
        section = line.strip_prefix("## ").unwrap_or(section);
        let mut cells = line.strip_prefix('|')?.split('|').map(str::trim).filter(|cell| !cell.is_empty());
        let number = cells.next()?.split(' ').next()?.parse().ok()?;
        Some(Row { number, section, cause: cells.next()?, helps: cells.next() })
    })
}

impl fmt::Display for Refusal {
    fn fmt(&self, f: &mut fmt::Formatter) -> fmt::Result {
        write!(f, "{}:", self.number)?;
        for (place, cause) in self.causes().enumerate() {
            write!(f, "{} {cause}", if place > 0 { " Or:" } else { "" })?;
        }
        Ok(())
    }
}

impl std::error::Error for Refusal {}

#[cfg(test)]
mod tests {
    use super::*;

    #[test]
    fn the_manual_has_every_number() {
        let numbers: Vec<u32> = all_rows().map(|row| row.number).collect();
        assert_eq!(numbers, [1, 2, 3, 4, 5, 6, 7, 9, 8, 20, 23, 20, 24, 22, 21, 30, 31, 32, 33, 40, 41, 42]);
    }

    #[test]
    fn explanations() {
        assert_eq!(Refusal::explain(20).unwrap().lines().count(), 4);
        assert_eq!(Refusal::explain(30).unwrap().lines().count(), 1);
        assert_eq!([0, 10, 99].map(Refusal::explain), [None, None, None]);
    }

    #[test]
    fn words() {
        assert_eq!(Refusal::new(5).to_string(), "5: More than 2,048 elements are open at once.");
        assert_eq!(Refusal::new(20).to_string().matches(" Or: ").count(), 1);
    }
}
