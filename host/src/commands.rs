//! The commands of a script, taken apart (document 01, section 2).

/// A command with its operands and its string.
#[derive(Clone, Copy, Debug, PartialEq, Eq)]
pub enum Command<'a> {
    /// An element begins.
    Open {
        /// The code of its name.
        element: u8,
        /// The code of its namespace.
        namespace: u8,
    },
    /// An attribute of the element.
    Attribute {
        /// The code of its name.
        name: u8,
        /// The code of its namespace.
        namespace: u8,
        /// Its value.
        value: &'a [u8],
    },
    /// A declaration that holds for the element.
    Declaration {
        /// The code of its name.
        name: u8,
        /// 1 if it is important, else 0.
        important: u8,
        /// Its value.
        value: &'a [u8],
    },
    /// What the value before is read as.
    Reading {
        /// The code of the kind.
        kind: u8,
        /// Where the part begins in the value.
        offset: u32,
        /// How long it is.
        length: u32,
    },
    /// A text.
    Text(&'a [u8]),
    /// A comment or another node.
    Other,
    /// The end of the element.
    Close,
}

/// The commands of a script, one after another, as far as they can be taken apart: to a byte that is no command, to operands that are cut
/// off, or to a string that is longer than the characters that are left.
#[derive(Clone, Debug)]
pub struct Commands<'a> {
    script: &'a [u8],
    characters: &'a [u8],
}

impl<'a> Commands<'a> {
    /// The commands of a whole script.
    pub fn new(script: &'a [u8], characters: &'a [u8]) -> Commands<'a> {
        Commands { script, characters }
    }

    /// What is left of the script and of the characters.
    pub fn rest(&self) -> (&'a [u8], &'a [u8]) {
        (self.script, self.characters)
    }

    fn byte(&mut self) -> Option<u8> {
        let (&byte, rest) = self.script.split_first()?;
        self.script = rest;
        Some(byte)
    }

    fn number(&mut self) -> Option<u32> {
        let bytes = self.script.get(..4)?.try_into().ok()?;
        self.script = &self.script[4..];
        Some(u32::from_le_bytes(bytes))
    }

    fn string(&mut self) -> Option<&'a [u8]> {
        let length = self.number()? as usize;
        let string = self.characters.get(..length)?;
        self.characters = &self.characters[length..];
        Some(string)
    }

    fn command(&mut self) -> Option<Command<'a>> {
        Some(match self.byte()? {
            1 => Command::Open { element: self.byte()?, namespace: self.byte()? },
            2 => Command::Attribute { name: self.byte()?, namespace: self.byte()?, value: self.string()? },
            3 => Command::Declaration { name: self.byte()?, important: self.byte()?, value: self.string()? },
            4 => Command::Reading { kind: self.byte()?, offset: self.number()?, length: self.number()? },
            5 => Command::Text(self.string()?),
            6 => Command::Other,
            7 => Command::Close,
            _ => return None,
        })
    }
}

impl<'a> Iterator for Commands<'a> {
    type Item = Command<'a>;

    fn next(&mut self) -> Option<Command<'a>> {
        let before = self.clone();
        let command = self.command();
        if command.is_none() {
            *self = before;
        }
        command
    }
}

#[cfg(test)]
mod tests {
    use super::*;

    #[test]
    fn what_cannot_be_taken_apart_is_left() {
        let script = [6, 5, 2, 0, 0, 0, 2, 9, 0, 3, 0, 0, 0];
        let mut commands = Commands::new(&script, b"abcd");
        assert_eq!(commands.by_ref().collect::<Vec<_>>(), [Command::Other, Command::Text(b"ab")]);
        assert_eq!(commands.rest(), (&script[6..], &b"cd"[..]));
        assert_eq!([&[8][..], &[1, 2], &[4, 1, 0, 0]].map(|script| Commands::new(script, b"").count()), [0; 3]);
    }
}
