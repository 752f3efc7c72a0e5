//! The command that a script is refused for.
use crate::commands::{Command, Commands};
use crate::{check, Refusal};

/// Where the cause of a refusal stands.
#[derive(Clone, Copy, Debug, PartialEq, Eq)]
pub enum Cause {
    /// In no command: the script or the characters are too long.
    Size,
    /// In the command with this number. Commands of every kind count from 1.
    Command(usize),
    /// At the end: an element was never closed, there is none, or characters are left over.
    End,
}

/// What check says of a drawing and, where it is refused, of which command.
///
/// The library gives only a number. The command is the last one of the shortest part of the script that is refused too, when the part is
/// made whole: its open elements are closed, and it has just the characters that its commands need. Where closing them makes a part too
/// long for the panel, the end is named.
///
/// ```
/// use storkvanity::refused::{refused, Cause};
///
/// let (refusal, cause) = refused(&[1, 45, 1, 1, 99, 1, 7, 7], b"").unwrap();
/// assert_eq!((refusal.number(), cause), (3, Cause::Command(2)));
/// ```
pub fn refused(script: &[u8], characters: &[u8]) -> Option<(Refusal, Cause)> {
    let refusal = check(script, characters).err()?;
    if refusal.number() == 1 {
        return Some((refusal, Cause::Size));
    }
    let parts = parts(script, characters);
    // A value and its readings are one group: the parts of a font are judged together.
    let mut groups: Vec<usize> = (1..parts.len()).filter(|&k| parts[k].byte != 4).collect();
    groups.push(parts.len());
    let number = |count: usize| match count.checked_sub(1) {
        None => 0,
        Some(last) => parts[last].check(script, characters),
    };
    let place = groups.partition_point(|&count| matches!(number(count), 0 | 1));
    let cause = match groups.get(place) {
        None => Cause::End,
        Some(&behind) => {
            let first = if place == 0 { 0 } else { groups[place - 1] };
            let within = if refusal.number() == 7 {
                repeated(&parts[first..behind]).map(|k| first + k)
            } else {
                (first..behind).find(|&k| number(k + 1) == refusal.number())
            };
            Cause::Command(within.unwrap_or(first) + 1)
        }
    };
    Some((refusal, cause))
}

/// A command and all before it.
struct Part {
    /// The command's first byte, and its kind if it is a reading.
    byte: u8,
    kind: u8,
    /// How many bytes of the script and of the characters there are up to its end.
    script: usize,
    characters: usize,
    /// How many elements are open, and whether there is one at all.
    depth: usize,
    has_element: bool,
    /// Whether this is what cannot be taken apart.
    is_rest: bool,
}

impl Part {
    /// What check says of this part, made whole.
    fn check(&self, script: &[u8], characters: &[u8]) -> u32 {
        let mut script = script[..self.script].to_vec();
        match self {
            Part { is_rest: true, .. } => {}
            Part { has_element: false, .. } => script.extend([1, 45, 1, 7]),
            Part { depth, .. } => script.resize(self.script + depth, 7),
        }
        check(&script, &characters[..self.characters]).map_or_else(Refusal::number, |()| 0)
    }
}

/// The parts that end behind each command. What cannot be taken apart is one more, with all that is there.
fn parts(script: &[u8], characters: &[u8]) -> Vec<Part> {
    let mut parts = Vec::new();
    let mut commands = Commands::new(script, characters);
    let (mut depth, mut has_element) = (0usize, false);
    loop {
        let byte = commands.rest().0.first().copied().unwrap_or(0);
        let command = commands.next();
        let (rest, leftover) = commands.rest();
        match command {
            Some(Command::Open { .. }) => {
                depth += 1;
                has_element = true;
            }
            Some(Command::Close) => depth = depth.saturating_sub(1),
            Some(_) => {}
            None => {
                if !rest.is_empty() {
                    let (script, characters) = (script.len(), characters.len());
                    parts.push(Part { byte, kind: 0, script, characters, depth, has_element, is_rest: true });
                }
                return parts;
            }
        }
        let kind = if let Some(Command::Reading { kind, .. }) = command { kind } else { 0 };
        let (script, characters) = (script.len() - rest.len(), characters.len() - leftover.len());
        parts.push(Part { byte, kind, script, characters, depth, has_element, is_rest: false });
    }
}

/// The first reading whose kind was there before. Links of filters may repeat.
fn repeated(group: &[Part]) -> Option<usize> {
    (0..group.len()).find(|&k| {
        let kind = group[k].kind;
        group[k].byte == 4 && kind != 4 && group[..k].iter().any(|part| part.byte == 4 && part.kind == kind)
    })
}

#[cfg(test)]
mod tests {
    use super::*;
    use crate::spell::read;

    fn of(lines: &str) -> Option<(u32, Cause)> {
        let drawing = read(lines).unwrap();
        refused(drawing.script(), drawing.characters()).map(|(refusal, cause)| (refusal.number(), cause))
    }

    #[test]
    fn each_number_at_its_command() {
        assert_eq!(of("open svg (svg)\nclose"), None);
        assert_eq!(of("open svg (svg)\nbytes 09\nclose"), Some((2, Cause::Command(2))));
        assert_eq!(of("open svg (svg)\nbytes 05 01"), Some((2, Cause::Command(2))));
        assert_eq!(of("other\nopen svg (#5)\nclose"), Some((3, Cause::Command(2))));
        assert_eq!(of("open svg (svg)\ndeclaration x \"\" important=2\nclose"), Some((3, Cause::Command(2))));
        assert_eq!(of("open svg (svg)\nclose\nother\nopen g (svg)\nclose"), Some((4, Cause::Command(4))));
        assert_eq!(of("text \"a\""), Some((4, Cause::Command(1))));
        assert_eq!(of("reading iri at 0 length 0\nopen svg (svg)\nclose"), Some((4, Cause::Command(1))));
        assert_eq!(of("open svg (svg)\nother"), Some((4, Cause::End)));
        assert_eq!(of("other\nother"), Some((4, Cause::End)));
        assert_eq!(of(""), Some((4, Cause::End)));
        assert_eq!(of(&("open g (svg)\n".repeat(3000) + &"close\n".repeat(3000))), Some((5, Cause::Command(2049))));
        assert_eq!(of("open svg (svg)\nbytes 05 09 00 00 00\nleftover \"a\""), Some((6, Cause::Command(2))));
        assert_eq!(of("open svg (svg)\nclose\nleftover \"a\""), Some((8, Cause::End)));
        assert_eq!(of("open svg (svg)\ntext \"a\\xff\"\nclose"), Some((9, Cause::Command(2))));
        assert_eq!(refused(&vec![6; (1 << 20) + 1], b"").map(|(r, cause)| (r.number(), cause)), Some((1, Cause::Size)));
    }

    #[test]
    fn readings() {
        let font = |readings: &str| of(&format!("open svg (svg)\ndeclaration font \"1px é\"\n{readings}\nclose"));
        let both = "reading font-size \"1px\" at 0\nreading font-family \"é\" at 4";
        assert_eq!(font(both), None);
        assert_eq!(font("reading font-size \"1px\" at 0"), Some((7, Cause::Command(2))));
        assert_eq!(font(&format!("{both}\nreading font-size \"1\" at 0")), Some((7, Cause::Command(5))));
        assert_eq!(font("reading font-size \"1px\" at 0\nreading font-family at 4 length 1"), Some((9, Cause::Command(4))));
        assert_eq!(font("reading font-size \"1px\" at 0\nreading font-family at 4 length 3"), Some((6, Cause::Command(4))));
        assert_eq!(font("reading font-size \"1px\" at 0\nreading #11 at 4 length 1"), Some((3, Cause::Command(4))));
        assert_eq!(font("reading font-size \"1px\" at 0\nbytes 04 0a"), Some((2, Cause::Command(4))));
        assert_eq!(font("reading font-size \"1px\" at 0\nopen #99 (svg)"), Some((7, Cause::Command(2))));
        assert_eq!(font("reading filter \"1\" at 0\nreading filter \"1\" at 0"), None);
    }
}
