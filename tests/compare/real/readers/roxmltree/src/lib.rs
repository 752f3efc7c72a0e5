//! Debian's roxmltree 0.16 as the Rust calls roxmltree: every answer is Debian's. Added are a value that is kept (`StringStorage`), and the
//! refusal of a document that ends before its elements do, or has an entity that leaves an element open, which Debian's takes.
use debian::ParsingOptions;
pub use debian::{Error, ExpandedName};
use std::collections::BTreeMap;
use std::fmt;
use std::ops::Deref;

/// A value that a tree keeps.
#[derive(Clone)]
pub enum StringStorage<'input> {
    Borrowed(&'input str),
    Owned(String),
}

impl StringStorage<'_> {
    pub fn new_owned(value: &str) -> Self {
        StringStorage::Owned(value.to_string())
    }

    pub fn as_str(&self) -> &str {
        match self {
            StringStorage::Borrowed(value) => value,
            StringStorage::Owned(value) => value,
        }
    }
}

impl Deref for StringStorage<'_> {
    type Target = str;

    fn deref(&self) -> &str {
        self.as_str()
    }
}

impl fmt::Display for StringStorage<'_> {
    fn fmt(&self, f: &mut fmt::Formatter) -> fmt::Result {
        f.write_str(self)
    }
}

pub struct Document<'input>(debian::Document<'input>);

fn parsed(text: &str) -> Result<debian::Document<'_>, Error> {
    debian::Document::parse_with_options(text, ParsingOptions { allow_dtd: true, ..ParsingOptions::default() })
}

/// Whether all elements of a document are closed: a comment behind its text is then a child of the root, and not of an element.
fn is_closed(text: &str) -> bool {
    let more = format!("{text}<!---->");
    let last = |xml: &debian::Document| xml.root().last_child().map_or(false, |n| n.is_comment() && n.position() == text.len());
    parsed(&more).map_or(false, |xml| last(&xml))
}

/// Whether the entities that a document asks for leave no element open: an element behind such an entity in a small document is then a child
/// of the top element, and has no attribute.
fn entities_are_closed(text: &str, xml: &debian::Document) -> bool {
    let (before, body) = text.split_at(xml.root_element().position());
    let mut namespaces = BTreeMap::new();
    for namespace in xml.descendants().flat_map(|node| node.namespaces().iter()) {
        let uri = namespace.uri().replace('&', "&amp;").replace('<', "&lt;").replace('"', "&quot;");
        namespaces.extend(namespace.name().filter(|prefix| *prefix != "xml").map(|prefix| (prefix, uri)));
    }
    let declared: String = namespaces.iter().map(|(prefix, uri)| format!(" xmlns:{prefix}=\"{uri}\"")).collect();
    let is_closed = |(name, value): (&str, &str)| {
        let ends_in_tag = value.rfind('<') > value.rfind('>');
        let more = format!("{before}<x{declared}>&{name};<y/></x>");
        let is_last = |xml: &debian::Document| {
            let last = xml.root_element().children().last();
            last.map_or(false, |last| last.has_tag_name("y") && last.attributes().len() == 0)
        };
        !ends_in_tag && parsed(&more).map_or(true, |xml| is_last(&xml))
    };
    asked(before, body).into_iter().all(is_closed)
}

/// The entities that a text asks for outside of its tags, and those that these ask for: names and values.
fn asked<'a>(declarations: &'a str, body: &str) -> Vec<(&'a str, &'a str)> {
    let declaration = |part: &'a str| {
        let (name, rest) = part.trim_start().split_once(char::is_whitespace)?;
        let quote = rest.trim_start().chars().next().filter(|c| matches!(c, '\'' | '"'))?;
        Some((name, rest.trim_start()[1..].split(quote).next()?))
    };
    let mut left: Vec<(&str, &str)> = declarations.split("<!ENTITY").skip(1).filter_map(declaration).collect();
    let mut texts = vec![without_tags(body)];
    let mut all = Vec::new();
    while let Some(text) = texts.pop() {
        let (found, others): (Vec<_>, Vec<_>) = left.into_iter().partition(|(name, _)| text.contains(&format!("&{name};")));
        texts.extend(found.iter().map(|(_, value)| without_tags(value)));
        all.extend(found);
        left = others;
    }
    all
}

/// What stands outside of `<` and `>`, of which those in quotes within a tag do not count.
fn without_tags(text: &str) -> String {
    let (mut in_tag, mut quote) = (false, None);
    let is_outside = |c: &char| {
        match (in_tag, quote) {
            (true, Some(end)) if end == *c => quote = None,
            (true, Some(_)) => {}
            (true, None) if matches!(c, '\'' | '"') => quote = Some(*c),
            (_, None) if matches!(c, '<' | '>') => in_tag = *c == '<',
            _ => return !in_tag,
        }
        false
    };
    text.chars().filter(is_outside).collect()
}

impl<'input> Document<'input> {
    /// The document of a text, as usvg asks for it: with a DTD if there is one. None if the text is no XML.
    pub fn read(text: &'input str) -> Option<Document<'input>> {
        parsed(text).ok().filter(|xml| is_closed(text) && entities_are_closed(text, xml)).map(Document)
    }

    pub fn root<'a>(&'a self) -> Node<'a, 'input> {
        Node { document: self, node: self.0.root() }
    }

    pub fn descendants<'a>(&'a self) -> impl Iterator<Item = Node<'a, 'input>> {
        self.root().descendants()
    }
}

#[derive(Clone, Copy)]
pub struct Node<'a, 'input> {
    document: &'a Document<'input>,
    node: debian::Node<'a, 'input>,
}

impl PartialEq for Node<'_, '_> {
    fn eq(&self, other: &Self) -> bool {
        self.node == other.node
    }
}

impl<'a, 'input> Node<'a, 'input> {
    fn with(self, node: debian::Node<'a, 'input>) -> Node<'a, 'input> {
        Node { node, ..self }
    }

    pub fn document(&self) -> &'a Document<'input> {
        self.document
    }

    pub fn is_element(&self) -> bool {
        self.node.is_element()
    }

    pub fn is_text(&self) -> bool {
        self.node.is_text()
    }

    pub fn text(&self) -> Option<&'a str> {
        self.node.text()
    }

    pub fn tag_name(&self) -> ExpandedName<'a, 'input> {
        self.node.tag_name()
    }

    pub fn has_tag_name<'n, 'm>(&self, name: impl Into<ExpandedName<'n, 'm>>) -> bool {
        self.node.has_tag_name(name)
    }

    pub fn attribute<'n, 'm>(&self, name: impl Into<ExpandedName<'n, 'm>>) -> Option<&'a str> {
        self.node.attribute(name)
    }

    pub fn attributes(&self) -> impl Iterator<Item = Attribute<'a, 'input>> {
        self.node.attributes().map(Attribute)
    }

    pub fn children(self) -> impl Iterator<Item = Node<'a, 'input>> {
        self.node.children().map(move |node| self.with(node))
    }

    pub fn descendants(self) -> impl Iterator<Item = Node<'a, 'input>> {
        self.node.descendants().map(move |node| self.with(node))
    }

    pub fn parent_element(&self) -> Option<Self> {
        self.node.parent_element().map(|node| self.with(node))
    }

    pub fn prev_sibling_element(&self) -> Option<Self> {
        self.node.prev_sibling_element().map(|node| self.with(node))
    }
}

pub struct Attribute<'a, 'input>(debian::Attribute<'a, 'input>);

impl<'a, 'input> Attribute<'a, 'input> {
    pub fn namespace(&self) -> Option<&'a str> {
        self.0.namespace()
    }

    pub fn name(&self) -> &'a str {
        self.0.name()
    }

    pub fn value(&self) -> &'a str {
        self.0.value()
    }

    /// A value of its own: Debian's roxmltree does not lend the one that it keeps for as long as the text lives.
    pub fn value_storage(&self) -> StringStorage<'input> {
        StringStorage::new_owned(self.value())
    }
}
