//! Stand-in of simplecss: the declarations of an element are those of the drawing, in two rules and in its style attribute,
//! in this order.
use drawing::Drawing;
use std::ops::Range;
use std::rc::Rc;

pub struct Declaration<'a> {
    pub name: &'a str,
    pub value: &'a str,
    pub important: bool,
}

/// Some declarations of the drawing behind the stand-ins.
fn declarations<'a>(which: impl FnOnce(&Drawing) -> Range<usize>) -> Vec<Declaration<'a>> {
    let declaration = |d: &Drawing, own: &drawing::Declaration| {
        let value: *const str = d.string(own.value);
        // SAFETY: the strings lie in the drawing, which outlives every tree made from it.
        Declaration { name: d.names.declaration(own.name), value: unsafe { &*value }, important: own.important }
    };
    drawing::current(|d| d.declarations[which(d)].iter().map(|own| declaration(d, own)).collect()).unwrap_or_default()
}

/// Where the declarations of one part of an element stand among all.
fn part_of(node: usize, part: usize) -> Range<usize> {
    drawing::current(|d| d.declared(node, part)).unwrap_or(0..0)
}

pub enum AttributeOperator<'a> {
    Matches(&'a str),
}

impl AttributeOperator<'_> {
    pub fn matches(&self, value: &str) -> bool {
        let AttributeOperator::Matches(wanted) = self;
        value == *wanted
    }
}

pub enum PseudoClass<'a> {
    FirstChild,
    Lang(&'a str),
}

pub trait Element: Sized {
    fn parent_element(&self) -> Option<Self>;
    fn prev_sibling_element(&self) -> Option<Self>;
    fn has_local_name(&self, name: &str) -> bool;
    fn attribute_matches(&self, local_name: &str, operator: AttributeOperator) -> bool;
    fn pseudo_class_matches(&self, class: PseudoClass) -> bool;
}

/// Matches the elements for which its rule has declarations.
pub struct Selector {
    part: usize,
}

impl Selector {
    /// Asking an element for its name tells the stand-ins which element it is.
    pub fn matches<E: Element>(&self, element: &E) -> bool {
        element.has_local_name("");
        !part_of(drawing::last_asked(), self.part).is_empty()
    }
}

/// The declarations of the element that was last asked for its name, as far as one rule has them.
pub struct Declarations<'a> {
    part: usize,
    all: Rc<Vec<Declaration<'a>>>,
}

impl<'a, 's> IntoIterator for &'s Declarations<'a> {
    type Item = &'s Declaration<'a>;
    type IntoIter = std::slice::Iter<'s, Declaration<'a>>;

    fn into_iter(self) -> Self::IntoIter {
        self.all[part_of(drawing::last_asked(), self.part)].iter()
    }
}

pub struct Rule<'a> {
    pub selector: Selector,
    pub declarations: Declarations<'a>,
}

pub struct StyleSheet<'a> {
    pub rules: Vec<Rule<'a>>,
}

impl<'a> StyleSheet<'a> {
    pub fn new() -> StyleSheet<'a> {
        let all = Rc::new(declarations(|d| 0..d.declarations.len()));
        let rule = |part| Rule { selector: Selector { part }, declarations: Declarations { part, all: all.clone() } };
        StyleSheet { rules: vec![rule(0), rule(1)] }
    }

    /// What a style element's text declares stands in the drawing already.
    pub fn parse_more(&mut self, _: &'a str) {}
}

impl Default for StyleSheet<'_> {
    fn default() -> Self {
        StyleSheet::new()
    }
}

/// The declarations of a style attribute. When there is none left, all entries of the element are there.
pub struct DeclarationTokenizer<'a> {
    node: usize,
    left: std::vec::IntoIter<Declaration<'a>>,
}

impl<'a> From<&'a str> for DeclarationTokenizer<'a> {
    fn from(style: &'a str) -> Self {
        let node = drawing::node_of(style);
        DeclarationTokenizer { node, left: declarations(|d| d.declared(node, 2)).into_iter() }
    }
}

impl<'a> Iterator for DeclarationTokenizer<'a> {
    type Item = Declaration<'a>;

    fn next(&mut self) -> Option<Declaration<'a>> {
        let next = self.left.next();
        if next.is_none() {
            drawing::entered(self.node);
        }
        next
    }
}
