//! What the program says of its commands.

/// A command of the program.
pub struct Command {
    /// Its name.
    pub name: &'static str,
    arguments: &'static str,
    does: &'static str,
    more: &'static str,
}

/// The commands.
pub static COMMANDS: [Command; 8] = [
    Command {
        name: "check",
        arguments: "FILE.svg..",
        does: "for each file one line: 0 if the panel takes the drawing, else the number and its cause",
        more: "The drawing is checked and built. A file that is no XML has the line and the column of what is wrong instead of a\n\
               number. The status is 0 if every file is taken, else 1.\n",
    },
    Command {
        name: "tree",
        arguments: "FILE.svg",
        does: "the tree that the panel holds for the drawing",
        more: "A line for each node begins with its number, which `ask` takes. Behind each value stands where it comes from: an\n\
               attribute, a rule of a style sheet or a style attribute (rule), or the panel's own list (fixed); and whether it is\n\
               important.\n",
    },
    Command {
        name: "texts",
        arguments: "FILE.svg",
        does: "the texts of the drawing with their numbers, which `exchange` takes",
        more: "For each text its number, its length in bytes and the elements that it stands in; below it the text elements of the\n\
               tree that hold or quote it.\n",
    },
    Command {
        name: "exchange",
        arguments: "FILE.svg NUMBER NEW",
        does: "exchanges the text with that number, and shows what is changed in the tree",
        more: "NEW has as many bytes as the text had. The tables are then compared with those of a fresh build of the changed\n\
               drawing. The file stays as it is.\n",
    },
    Command {
        name: "ask",
        arguments: "FILE.svg attribute NODE NAME | find NODE NAME | id ID | text NODE",
        does: "asks one of the panel's four questions about the tree",
        more: "attribute: the attribute NAME of the node. find: the same where it may stand on an ancestor. id: the last element with\n\
               that id. text: the text of the node. NODE is a number, as `tree` shows it, or # and an id.\n",
    },
    Command {
        name: "script",
        arguments: "FILE",
        does: "the drawing script in words, and what check says of it",
        more: "A line for each command. If check refuses the drawing a comment behind the command at fault tells the number and its\n\
               cause, and the status is 1. The words can be written by hand or changed: every command of this program takes a\n\
               file of them, if its name ends with .script, where it takes an SVG file.\n",
    },
    Command {
        name: "bytes",
        arguments: "FILE OUT",
        does: "writes the drawing as the panel takes it to OUT.commands and OUT.characters",
        more: "FILE is an SVG file, or a drawing in words whose name ends with .script.\n",
    },
    Command { name: "explain", arguments: "NUMBER", does: "the manual's words for a number", more: "" },
];

impl Command {
    /// The command as it is written.
    pub fn usage(&self) -> String {
        format!("{} {}", self.name, self.arguments)
    }

    /// The help of this command.
    pub fn help(&self) -> String {
        format!("storkvanity {}\n{}\n{}", self.usage(), sentence(self.does), self.more)
    }
}

fn sentence(words: &str) -> String {
    let (first, rest) = words.split_at(1);
    format!("{}{rest}.", first.to_uppercase())
}

/// The help of all commands.
pub fn all() -> String {
    let mut lines = "What the sealed panel makes of SVG files.\n\n".to_string();
    for command in &COMMANDS {
        lines += &format!("storkvanity {}\n    {}\n", command.usage(), command.does);
    }
    lines + "\nstorkvanity COMMAND --help tells more. The status is 0 if all went well, 1 if not, and 2 if the arguments are wrong.\n"
}
