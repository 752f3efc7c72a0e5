//! What the Rust makes of a file, over Debian's roxmltree, simplecss and svgtypes. Nothing of the host is in it.
use crate::svgtree::{seen, Document};
use crate::tree::Answer;

pub fn answer(file: &[u8]) -> Answer {
    let text = match std::str::from_utf8(file) {
        Ok(text) => cdata_line_ends(text),
        Err(_) => return Answer::NoXml,
    };
    let xml = match roxmltree::Document::read(&text) {
        Some(xml) => xml,
        None => return Answer::NoXml,
    };
    let answer = match Document::parse_tree(&xml, None) {
        Ok(tree) => Answer::Tree(seen::nodes(&tree)),
        Err(roxmltree::Error::NodesLimitReached) => Answer::Refused(20),
        Err(_) => Answer::Refused(21),
    };
    answer
}

/// A text with each end of a line within CDATA as one newline (XML 1.0, section 2.11). Debian's roxmltree does so with all others.
pub fn cdata_line_ends(text: &str) -> String {
    let mut parts = text.split("<![CDATA[");
    let mut made = parts.next().unwrap_or("").to_string();
    for part in parts {
        let (inside, behind) = part.split_at(part.find("]]>").unwrap_or(0));
        made += "<![CDATA[";
        made += &inside.replace("\r\n", "\n").replace('\r', "\n");
        made += behind;
    }
    made
}
