//! The declarations of an element: resolve_css, XmlNode and the end of parse_svg_element in parse.rs of the Rust.
use crate::Fault;
use roxmltree::{Document, Node};
use simplecss::{AttributeOperator, Declaration, DeclarationTokenizer, Element, PseudoClass, Rule, Selector, SelectorToken};
use simplecss::{SelectorTokenizer, StyleSheet};
use std::cell::Cell;

/// A selector has at most so many parts: matching takes more stack the more there are.
const PARTS: usize = 1024;

/// Matching all rules with all elements takes at most so many steps. That takes about a second.
const STEPS: u64 = 1 << 26;

/// The rules of a document.
pub struct Sheet<'a> {
    rules: Vec<Rule<'a>>,
    steps: Cell<u64>,
}

impl<'a> Sheet<'a> {
    /// The rules of every `style` element whose type is text/css or not given. The least specific come first; of equally specific ones
    /// those that stand first in the document.
    pub fn of(xml: &'a Document<'a>) -> Result<Sheet<'a>, Fault> {
        let mut sheet = StyleSheet::new();
        for node in xml.descendants().filter(|n| is_sheet(*n)) {
            let before = sheet.rules.len();
            sheet.parse_more(node.text().unwrap_or(""));
            if sheet.rules[before..].iter().any(|rule| parts(&rule.selector) > PARTS) {
                return Err(fault(xml, node, "a selector of the style sheet has too many parts"));
            }
        }
        // The simplecss of usvg 0.49.0 sorts its rules; Debian's 0.2.0 leaves them as they stand.
        sheet.rules.sort_by_cached_key(|rule| specificity(&rule.selector));
        Ok(Sheet { rules: sheet.rules, steps: Cell::new(0) })
    }

    /// The declarations of the rules that match an element, then those of its style attribute.
    pub fn declarations(&self, node: Node<'a, 'a>) -> Vec<Declaration<'a>> {
        let mut all = Vec::new();
        let element = XmlNode { node, steps: &self.steps };
        for rule in self.rules.iter().take_while(|_| element.step()) {
            if rule.selector.matches(&element) {
                all.extend_from_slice(&rule.declarations);
            }
        }
        all.extend(node.attribute("style").into_iter().flat_map(DeclarationTokenizer::from));
        all
    }

    /// A fault if matching had to be given up: an element may have too few declarations then.
    pub fn was_matched(&self, xml: &'a Document<'a>) -> Result<(), Fault> {
        match xml.descendants().find(|n| is_sheet(*n)) {
            Some(node) if self.steps.get() > STEPS => Err(fault(xml, node, "the style sheet takes too long to match")),
            _ => Ok(()),
        }
    }
}

fn is_sheet(node: Node) -> bool {
    node.has_tag_name("style") && matches!(node.attribute("type"), None | Some("text/css"))
}

fn fault(xml: &Document, node: Node, words: &str) -> Fault {
    let place = xml.text_pos_at(node.position());
    Fault { line: place.row, column: place.col, words: words.to_string(), is_no_xml: false }
}

fn parts(selector: &Selector) -> usize {
    SelectorTokenizer::from(selector.to_string().as_str()).flatten().count()
}

/// How many ids, classes and attributes, and element names a selector has. `[id=..]` counts as an id, as in simplecss.
fn specificity(selector: &Selector) -> [u8; 3] {
    let written = selector.to_string();
    let mut counts = [0u8; 3];
    for token in SelectorTokenizer::from(written.as_str()).flatten() {
        let place = match token {
            SelectorToken::IdSelector(_) | SelectorToken::AttributeSelector("id", _) => 0,
            SelectorToken::ClassSelector(_) | SelectorToken::AttributeSelector(..) => 1,
            SelectorToken::PseudoClass(_) | SelectorToken::LangPseudoClass(_) => 1,
            SelectorToken::TypeSelector(_) => 2,
            _ => continue,
        };
        counts[place] = counts[place].saturating_add(1);
    }
    counts
}

/// An element as a selector sees it. When the steps are used up it has no attributes and nothing around it, so that matching ends.
struct XmlNode<'a> {
    node: Node<'a, 'a>,
    steps: &'a Cell<u64>,
}

impl<'a> XmlNode<'a> {
    /// One step more. False if they are used up.
    fn step(&self) -> bool {
        self.steps.set(self.steps.get() + 1);
        self.steps.get() <= STEPS
    }

    fn with(&self, node: Option<Node<'a, 'a>>) -> Option<XmlNode<'a>> {
        node.filter(|_| self.step()).map(|node| XmlNode { node, steps: self.steps })
    }
}

impl Element for XmlNode<'_> {
    fn parent_element(&self) -> Option<Self> {
        self.with(self.node.parent_element())
    }

    fn prev_sibling_element(&self) -> Option<Self> {
        self.with(self.node.prev_sibling_element())
    }

    fn has_local_name(&self, local_name: &str) -> bool {
        self.step() && self.node.tag_name().name() == local_name
    }

    fn attribute_matches(&self, local_name: &str, operator: AttributeOperator) -> bool {
        self.step() && self.node.attribute(local_name).map_or(false, |value| operator.matches(value))
    }

    fn pseudo_class_matches(&self, class: PseudoClass) -> bool {
        matches!(class, PseudoClass::FirstChild) && self.node.prev_sibling_element().is_none()
    }
}

#[cfg(test)]
mod tests {
    use super::*;

    #[test]
    fn selectors_are_weighed() {
        let weigh = |text| specificity(&Selector::parse(text).unwrap());
        assert_eq!(weigh("*"), [0, 0, 0]);
        assert_eq!(weigh("rect"), [0, 0, 1]);
        assert_eq!(weigh("g > rect.a:first-child"), [0, 2, 2]);
        assert_eq!(weigh("#a .b[c] + d"), [1, 2, 1]);
        assert_eq!(weigh("[id=a]"), [1, 0, 0]);
    }
}
