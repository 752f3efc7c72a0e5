//! Colours for a terminal.

/// Whether there are colours.
#[derive(Clone, Copy)]
pub struct Paint {
    is_on: bool,
}

/// Whether one of the program's own files, 1 for output and 2 for errors, is a terminal.
pub fn is_terminal(file: u32) -> bool {
    let target = std::fs::read_link(format!("/proc/self/fd/{file}")).unwrap_or_default();
    target.starts_with("/dev/pts") || target.to_string_lossy().starts_with("/dev/tty")
}

impl Paint {
    /// Colours if the output is a terminal, and NO_COLOR is not set.
    pub fn of_output() -> Paint {
        Paint { is_on: is_terminal(1) && std::env::var_os("NO_COLOR").is_none() }
    }

    fn with(self, code: &str, words: &str) -> String {
        if self.is_on {
            format!("\x1b[{code}m{words}\x1b[0m")
        } else {
            words.to_string()
        }
    }

    /// The name of an element.
    pub fn element(self, words: &str) -> String {
        self.with("1;34", words)
    }

    /// The name of an attribute.
    pub fn attribute(self, words: &str) -> String {
        self.with("36", words)
    }

    /// A text.
    pub fn text(self, words: &str) -> String {
        self.with("32", words)
    }

    /// What is said beside: numbers of nodes, and where a value comes from.
    pub fn aside(self, words: &str) -> String {
        self.with("2", words)
    }
}

/// How far the work is.
pub fn bar(done: usize, all: usize) -> String {
    let width = 40;
    let filled = width * done / all.max(1);
    format!("[{}{}] {done} of {all}", "#".repeat(filled), " ".repeat(width - filled))
}

#[cfg(test)]
mod tests {
    use super::*;

    #[test]
    fn colours_and_bars() {
        assert_eq!(Paint { is_on: true }.text("a"), "\x1b[32ma\x1b[0m");
        assert_eq!(Paint { is_on: false }.text("a"), "a");
        assert_eq!(bar(0, 2), format!("[{}] 0 of 2", " ".repeat(40)));
        assert_eq!(bar(1, 2), format!("[{}{}] 1 of 2", "#".repeat(20), " ".repeat(20)));
        assert_eq!(bar(2, 2), format!("[{}] 2 of 2", "#".repeat(40)));
    }
}
