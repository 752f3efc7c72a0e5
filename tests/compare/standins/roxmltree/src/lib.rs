//! Stand-in of roxmltree: the document is a drawing. Names are compared as roxmltree does: a name without a namespace finds only an
//! attribute without one, and an element in any.
use drawing::{Drawing, Kind};
use std::marker::PhantomData;

#[derive(Clone, Copy, Debug, PartialEq)]
pub enum Error {
    NodesLimitReached,
    NoRootNode,
}

/// A string of an attribute. `Borrowed` is a function here, so that every value is counted when it begins to live.
pub struct StringStorage<'input> {
    start: *const u8,
    length: usize,
    lent: PhantomData<&'input str>,
}

impl<'input> StringStorage<'input> {
    /// A string that is kept where it lies.
    #[allow(non_snake_case)]
    pub fn Borrowed(value: &str) -> StringStorage<'input> {
        drawing::born();
        StringStorage { start: value.as_ptr(), length: value.len(), lent: PhantomData }
    }

    /// A string of its own: here too it is kept where it lies, in the drawing or in the program.
    pub fn new_owned(value: &str) -> StringStorage<'input> {
        StringStorage::Borrowed(value)
    }

    pub fn as_str(&self) -> &str {
        // SAFETY: the string lies in the drawing, which outlives every tree made from it, or in the program.
        unsafe { std::str::from_utf8_unchecked(std::slice::from_raw_parts(self.start, self.length)) }
    }
}

impl Clone for StringStorage<'_> {
    fn clone(&self) -> Self {
        StringStorage::Borrowed(self.as_str())
    }
}

impl Drop for StringStorage<'_> {
    fn drop(&mut self) {
        drawing::dropped(self.as_str());
    }
}

impl std::ops::Deref for StringStorage<'_> {
    type Target = str;

    fn deref(&self) -> &str {
        self.as_str()
    }
}

impl std::fmt::Display for StringStorage<'_> {
    fn fmt(&self, f: &mut std::fmt::Formatter) -> std::fmt::Result {
        f.write_str(self.as_str())
    }
}

/// A name with its namespace.
#[derive(Clone, Copy, PartialEq)]
pub struct ExpandedName<'a> {
    namespace: Option<&'a str>,
    name: &'a str,
}

impl<'a> ExpandedName<'a> {
    pub fn namespace(&self) -> Option<&'a str> {
        self.namespace
    }

    pub fn name(&self) -> &'a str {
        self.name
    }
}

impl<'a> From<&'a str> for ExpandedName<'a> {
    fn from(name: &'a str) -> Self {
        ExpandedName { namespace: None, name }
    }
}

impl<'a> From<(&'a str, &'a str)> for ExpandedName<'a> {
    fn from((namespace, name): (&'a str, &'a str)) -> Self {
        ExpandedName { namespace: Some(namespace), name }
    }
}

pub struct Document<'input> {
    drawing: &'input Drawing,
    values: Vec<StringStorage<'input>>,
}

impl<'input> Document<'input> {
    /// The document of a drawing. It is made and dropped outside of `drawing::within`, so its own values are not counted.
    pub fn new(drawing: &'input Drawing) -> Document<'input> {
        let values = drawing.attributes.iter().map(|a| StringStorage::Borrowed(drawing.string(a.value))).collect();
        Document { drawing, values }
    }

    pub fn root<'a>(&'a self) -> Node<'a, 'input> {
        Node { document: self, index: 0, by_tref: false }
    }

    pub fn descendants<'a>(&'a self) -> Descendants<'a, 'input> {
        Descendants { document: self, next: 0, end: self.drawing.nodes.len(), below: false }
    }
}

#[derive(Clone, Copy)]
pub struct Node<'a, 'input> {
    document: &'a Document<'input>,
    index: usize,
    /// Found below another node, as a tref finds the texts that it quotes.
    by_tref: bool,
}

impl PartialEq for Node<'_, '_> {
    fn eq(&self, other: &Self) -> bool {
        self.index == other.index
    }
}

impl<'a, 'input> Node<'a, 'input> {
    fn data(&self) -> &'a drawing::Node {
        &self.document.drawing.nodes[self.index]
    }

    fn other(&self, index: usize) -> Node<'a, 'input> {
        Node { document: self.document, index, by_tref: false }
    }

    pub fn document(&self) -> &'a Document<'input> {
        self.document
    }

    pub fn is_element(&self) -> bool {
        matches!(self.data().kind, Kind::Element { .. })
    }

    pub fn is_text(&self) -> bool {
        matches!(self.data().kind, Kind::Text { .. })
    }

    /// The text of a text node, or of an element's first child.
    pub fn text(&self) -> Option<&'a str> {
        match self.data().kind {
            Kind::Text { number, value } => {
                drawing::text_read(number, self.by_tref);
                Some(self.document.drawing.string(value))
            }
            Kind::Element { .. } => match self.children().next()?.data().kind {
                Kind::Text { value, .. } => Some(self.document.drawing.string(value)),
                _ => None,
            },
            _ => None,
        }
    }

    pub fn tag_name(&self) -> ExpandedName<'a> {
        drawing::asked_for_name(self.index);
        match self.data().kind {
            Kind::Element { code, namespace } => {
                ExpandedName { namespace: drawing::namespace(namespace), name: self.document.drawing.names.element(code) }
            }
            _ => ExpandedName { namespace: None, name: "" },
        }
    }

    pub fn has_tag_name<'n>(&self, name: impl Into<ExpandedName<'n>>) -> bool {
        let (name, own) = (name.into(), self.tag_name());
        self.is_element() && own.name == name.name && (name.namespace.is_none() || own.namespace == name.namespace)
    }

    pub fn attributes(&self) -> Attributes<'a, 'input> {
        let range = self.data().attributes.clone();
        Attributes { document: self.document, next: range.start, end: range.end }
    }

    /// The first attribute of a name and namespace. The style attribute is asked for when all other entries of an element are there.
    pub fn attribute<'n>(&self, name: impl Into<ExpandedName<'n>>) -> Option<&'a str> {
        let name = name.into();
        let found = self.attributes().find(|a| a.name() == name.name && a.namespace() == name.namespace);
        if found.is_none() && name.name == "style" {
            drawing::entered(self.index);
        }
        found.map(|a| a.value())
    }

    pub fn children(&self) -> Children<'a, 'input> {
        Children { parent: *self, next: self.index + 1 }
    }

    pub fn descendants(&self) -> Descendants<'a, 'input> {
        Descendants { document: self.document, next: self.index, end: self.data().end, below: true }
    }

    pub fn parent_element(&self) -> Option<Node<'a, 'input>> {
        Some(self.other(self.data().parent)).filter(|n| n.is_element())
    }

    pub fn prev_sibling_element(&self) -> Option<Node<'a, 'input>> {
        let before = self.other(self.data().parent).children().take_while(|n| n.index < self.index);
        before.filter(|n| n.is_element()).last()
    }
}

pub struct Children<'a, 'input> {
    parent: Node<'a, 'input>,
    next: usize,
}

impl<'a, 'input> Iterator for Children<'a, 'input> {
    type Item = Node<'a, 'input>;

    fn next(&mut self) -> Option<Node<'a, 'input>> {
        if self.next >= self.parent.data().end {
            return None;
        }
        let child = self.parent.other(self.next);
        self.next = child.data().end;
        Some(child)
    }
}

pub struct Descendants<'a, 'input> {
    document: &'a Document<'input>,
    next: usize,
    end: usize,
    below: bool,
}

impl<'a, 'input> Iterator for Descendants<'a, 'input> {
    type Item = Node<'a, 'input>;

    fn next(&mut self) -> Option<Node<'a, 'input>> {
        if self.next >= self.end {
            if self.below {
                drawing::walked();
            }
            return None;
        }
        self.next += 1;
        Some(Node { document: self.document, index: self.next - 1, by_tref: self.below })
    }
}

pub struct Attributes<'a, 'input> {
    document: &'a Document<'input>,
    next: usize,
    end: usize,
}

impl<'a, 'input> Iterator for Attributes<'a, 'input> {
    type Item = Attribute<'a, 'input>;

    fn next(&mut self) -> Option<Attribute<'a, 'input>> {
        if self.next == self.end {
            return None;
        }
        self.next += 1;
        Some(Attribute { document: self.document, index: self.next - 1 })
    }
}

#[derive(Clone, Copy)]
pub struct Attribute<'a, 'input> {
    document: &'a Document<'input>,
    index: usize,
}

impl<'a, 'input> Attribute<'a, 'input> {
    pub fn namespace(&self) -> Option<&'a str> {
        drawing::namespace(self.document.drawing.attributes[self.index].namespace)
    }

    pub fn name(&self) -> &'a str {
        self.document.drawing.names.attribute(self.document.drawing.attributes[self.index].name)
    }

    pub fn value(&self) -> &'a str {
        self.value_storage().as_str()
    }

    pub fn value_storage(&self) -> &'a StringStorage<'input> {
        &self.document.values[self.index]
    }
}
