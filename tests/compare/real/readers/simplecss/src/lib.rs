//! Debian's simplecss 0.2.0 as the Rust calls simplecss: every answer is Debian's. Added is that the rules of a style sheet are sorted.
pub use debian::{AttributeOperator, Declaration, DeclarationTokenizer, Element, PseudoClass, Rule, Selector};

pub struct StyleSheet<'a> {
    pub rules: Vec<Rule<'a>>,
}

impl<'a> StyleSheet<'a> {
    #[allow(clippy::new_without_default)]
    pub fn new() -> Self {
        StyleSheet { rules: Vec::new() }
    }

    /// The rules of a further text. All are then sorted: the least specific come first, and equal ones stay in their order.
    pub fn parse_more(&mut self, text: &'a str) {
        self.rules.extend(debian::StyleSheet::parse(text).rules);
        self.rules.sort_by_key(|rule| specificity(&rule.selector));
    }
}

/// How many ids, classes and attributes, and names of elements a selector asks for, counted in what `Debug` writes of it.
fn specificity(selector: &Selector) -> [usize; 3] {
    let written = without_strings(&format!("{selector:?}"));
    let count = |part: &str| written.matches(part).count();
    let ids = count("Attribute(id,");
    [ids, count("Attribute(") - ids + count("PseudoClass("), count("kind: Type(")]
}

/// What `Debug` wrote, with `id` for the string "id" and nothing for any other.
fn without_strings(written: &str) -> String {
    let mut left = written;
    let mut kept = String::new();
    while let Some((before, behind)) = left.split_once('"') {
        let mut end = 0;
        while !behind[end..].starts_with('"') {
            end += if behind[end..].starts_with('\\') { 2 } else { 1 };
            while !behind.is_char_boundary(end) {
                end += 1;
            }
        }
        kept += before;
        kept += if &behind[..end] == "id" { "id" } else { "" };
        left = &behind[end + 1..];
    }
    kept + left
}

#[cfg(test)]
mod tests {
    use super::*;

    #[test]
    fn selectors_are_weighed() {
        let weigh = |text| specificity(&Selector::parse(text).unwrap());
        assert_eq!(["*", "g", "g g"].map(weigh), [[0, 0, 0], [0, 0, 1], [0, 0, 2]]);
        assert_eq!(["#a", "[id]", ".a", "[a=b]"].map(weigh), [[1, 0, 0], [1, 0, 0], [0, 1, 0], [0, 1, 0]]);
        assert_eq!(weigh("a#b.c[d='id']:first-child > e + f:hover:focus"), [1, 5, 3]);
        assert_eq!(weigh("[a=\"é PseudoClass( kind: Type(\"]"), [0, 1, 0]);
        assert_eq!(without_strings(&format!("a({:?}, {:?}, {:?})", "id", "\"id\" é\\", "")), "a(id, , )");
    }
}
