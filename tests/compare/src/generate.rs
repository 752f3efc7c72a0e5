//! Random drawings by themes. The same seed and input number give the same drawing everywhere.
use crate::codes::{ATTRIBUTES, ELEMENTS, INHERIT_ALLOWED, PRESENTATION, a, e};
use crate::commands::{Bytes, Command, read, write};
use host::random::Random;

/// What a random drawing is about.
#[derive(Clone, Copy, Debug, PartialEq)]
pub enum Theme {
    Spaces,
    Trefs,
    Uses,
    Styles,
    Inherit,
    Repairs,
    FeImage,
    Deep,
    Mixed,
    Any,
    Damaged,
}

#[rustfmt::skip]
pub const THEMES: [Theme; 11] = [
    Theme::Spaces, Theme::Trefs, Theme::Uses, Theme::Styles, Theme::Inherit, Theme::Repairs, Theme::FeImage, Theme::Deep, Theme::Mixed,
    Theme::Any, Theme::Damaged,
];

/// The theme of an input: they take turns, deep drawings come less often, since they are large.
pub fn theme(input: u64) -> Theme {
    let turn = THEMES[(input % THEMES.len() as u64) as usize];
    if turn == Theme::Deep && (input / THEMES.len() as u64) % 16 != 0 { Theme::Mixed } else { turn }
}

pub fn drawing(theme: Theme, r: &mut Random) -> Bytes {
    if theme == Theme::Damaged {
        let themes = &THEMES[..THEMES.len() - 1];
        let inner = loop {
            match r.pick(themes) {
                Theme::Deep if !r.one_in(50) => {}
                other => break other,
            }
        };
        let mut bytes = drawing(inner, r);
        for _ in 0..=r.below(2) {
            damage(r, &mut bytes);
        }
        return bytes;
    }
    if theme == Theme::Any {
        let mut d = host::scripts::Drawing::default();
        host::scripts::valid(r, &mut d);
        let top = d.script.iter().position(|&byte| byte == 1).unwrap();
        if !r.one_in(10) {
            d.script[top + 1..top + 3].copy_from_slice(&[e::Svg, 1]);
        }
        return Bytes { script: d.script, characters: d.characters };
    }
    let ids = r.pick(&[1, 2, 2, 3, 5]);
    let mut m = Maker { r, commands: Vec::new(), left: 0, theme, ids: &IDS[..ids] };
    m.whole();
    write(&m.commands)
}

/// Damages the bytes, or the list of commands.
fn damage(r: &mut Random, bytes: &mut Bytes) {
    match read(bytes) {
        Some(mut commands) if r.one_in(2) && !commands.is_empty() => {
            damage_commands(r, &mut commands);
            *bytes = write(&commands);
        }
        _ => damage_bytes(r, bytes),
    }
}

/// Changes, removes, repeats or inserts some bytes.
fn damage_bytes(r: &mut Random, bytes: &mut Bytes) {
    let list = if r.one_in(4) { &mut bytes.characters } else { &mut bytes.script };
    let at = r.from_to(0, list.len());
    let end = (at + r.from_to(1, 4)).min(list.len());
    match r.below(6) {
        0 if at < end => list[at] ^= 1 << r.below(8),
        1 if at < end => list[at] = r.byte(),
        2 if at < end => list[at] = r.pick(&[0, 1, 2, 3, 4, 5, 6, 7, 8, 10, 11, 31, 45, 48, 52, 53, 64, 65, 210, 211, 254, 255]),
        3 => list.truncate(at),
        4 => drop(list.drain(at..end)),
        _ => list.insert(at, r.pick(&[0, 1, 2, 4, 5, 6, 7, 255])),
    }
}

/// Removes, repeats or moves a command, or changes a reading.
fn damage_commands(r: &mut Random, commands: &mut Vec<Command>) {
    let readings: Vec<usize> = (0..commands.len()).filter(|&k| matches!(commands[k], Command::Reading { .. })).collect();
    let at = if !readings.is_empty() && r.one_in(2) { r.pick(&readings) } else { r.below(commands.len()) };
    if let Command::Reading { kind, offset, length } = &mut commands[at] {
        match r.below(4) {
            0 => *kind = r.below(12) as u8,
            1 => *offset += 1,
            2 => *length = length.wrapping_add(r.pick(&[1, u32::MAX, 2])),
            _ => {}
        }
    }
    match r.below(4) {
        0 => drop(commands.remove(at)),
        1 => commands.insert(at, commands[at].clone()),
        2 => {
            let command = commands.remove(at);
            commands.insert(r.from_to(0, commands.len()), command);
        }
        _ => {}
    }
}

const IDS: [&str; 5] = ["a", "b", "c", "d", ""];
const TEXTS: [&str; 14] = ["", " ", "  ", "a", " a", "a ", " a ", "a  b", "\n", "\ta\n", "\u{a0}", " \u{2003}", "é ", " \r\n "];
const LETTERS: [&str; 12] = [" ", " ", " ", "a", "b", "\n", "\t", "\r", "\u{a0}", "é", "\u{2003}", "\u{0}"];
const GROUPS: [u8; 8] = [e::G, e::G, e::Svg, e::Symbol, e::Defs, e::A, e::Switch, e::Rect];
const INSIDE_TEXT: [u8; 10] = [e::Tspan, e::Tspan, e::Tspan, e::Tspan, e::A, e::A, e::Tref, e::TextPath, e::G, e::Text];
const QUOTING: [u8; 10] = [e::Tref, e::Tref, e::Tref, e::Tref, e::Tspan, e::Tspan, e::A, e::TextPath, e::G, e::Text];
const LINKED: [u8; 4] = [e::Pattern, e::ClipPath, e::Mask, e::Filter];
const LINKS: [u8; 5] = [a::Fill, a::Stroke, a::ClipPath, a::Mask, a::Filter];
#[rustfmt::skip]
const VALUES: [&str; 14] = [
    "red", "none", "inherit", "inherit", "", "auto", "normal", "1", "black", "inherit ", "smooth", "pixelated", "é", "crisp-edges",
];

struct Maker<'r> {
    r: &'r mut Random,
    commands: Vec<Command>,
    /// How many more elements may be opened.
    left: usize,
    theme: Theme,
    /// The ids that occur: with few of them links meet more often.
    ids: &'static [&'static str],
}

impl Maker<'_> {
    fn open(&mut self, code: u8) {
        let namespace = match self.r.below(40) {
            0..=2 => 0,
            3 => self.r.pick(&[2, 3, 4]),
            _ => 1,
        };
        self.commands.push(Command::Open { code, namespace });
    }

    fn close(&mut self) {
        self.commands.push(Command::Close);
    }

    fn attribute(&mut self, name: u8, namespace: u8, value: &str) {
        self.commands.push(Command::Attribute { name, namespace, value: value.as_bytes().to_vec() });
    }

    fn reading(&mut self, kind: u8, offset: usize, length: usize) {
        self.commands.push(Command::Reading { kind, offset: offset as u32, length: length as u32 });
    }

    /// A value of an attribute or of a declaration.
    fn value(&mut self, name: u8, declared: bool, value: &str) {
        let value = value.as_bytes().to_vec();
        self.commands.push(if declared {
            Command::Declaration { name, important: self.r.one_in(3) as u8, value }
        } else {
            let namespace = if self.r.one_in(12) { self.r.pick(&[1, 2, 3, 4]) } else { 0 };
            Command::Attribute { name, namespace, value }
        });
    }

    fn id(&mut self) {
        let namespace = if self.r.one_in(12) { self.r.pick(&[1, 2, 3, 4]) } else { 0 };
        let id = self.r.pick(self.ids);
        self.attribute(a::Id, namespace, id);
    }

    /// An href with the reading that it leads to an id by, most of the time.
    fn href(&mut self) {
        let namespace = match self.r.below(10) {
            0..=4 => 2,
            5..=8 => 0,
            _ => self.r.pick(&[1, 3, 4]),
        };
        let id = self.r.pick(self.ids);
        self.attribute(a::Href, namespace, &format!("#{id}"));
        if !self.r.one_in(8) {
            self.reading(1, 1, id.len());
        }
    }

    fn hrefs(&mut self) {
        self.href();
        while self.r.one_in(5) {
            self.href();
        }
    }

    /// A link of a paint, a clip path, a mask or a filter, with the readings that it has in an SVG file, or some of them.
    fn link(&mut self, name: u8, declared: bool) {
        if self.r.one_in(6) {
            let value = self.r.pick(&["none", "inherit", "red", "url()"]);
            self.value(name, declared, value);
            if value == "none" && self.r.one_in(3) {
                let kind = self.r.pick(&[1, 2, 3, 4]);
                self.reading(kind, 0, 0);
            }
            return;
        }
        let id = self.r.pick(self.ids);
        let second = self.r.pick(self.ids);
        let list = name == a::Filter && self.r.one_in(3);
        let value = if list { format!("url(#{id}) url(#{second})") } else { format!("url(#{id})") };
        self.value(name, declared, &value);
        match name {
            a::Fill | a::Stroke => {
                if !self.r.one_in(10) {
                    self.reading(3, 5, id.len());
                }
            }
            a::Filter => {
                if !list && !self.r.one_in(6) {
                    self.reading(2, 5, id.len());
                }
                if !self.r.one_in(6) {
                    self.reading(4, 5, id.len());
                }
                if list {
                    self.reading(4, 12 + id.len(), second.len());
                }
            }
            _ => {
                if !self.r.one_in(10) {
                    self.reading(2, 5, id.len());
                }
            }
        }
    }

    fn space(&mut self) {
        let namespace = if self.r.one_in(4) { self.r.below(5) as u8 } else { 3 };
        let value = self.r.pick(&["preserve", "preserve", "default", "", "none"]);
        self.attribute(a::Space, namespace, value);
    }

    fn text(&mut self) {
        let text = if self.r.one_in(2) {
            self.r.pick(&TEXTS).to_string()
        } else {
            (0..self.r.below(7)).map(|_| self.r.pick(&LETTERS)).collect()
        };
        self.commands.push(Command::Text(text.into_bytes()));
    }

    fn comments(&mut self) {
        while self.r.one_in(10) {
            self.commands.push(Command::Other);
        }
    }

    fn any_name(&mut self) -> u8 {
        match self.r.below(8) {
            0 => self.r.below(ATTRIBUTES.len()) as u8,
            1 => 255,
            2..=4 => self.r.pick(&PRESENTATION),
            _ => self.r.pick(&INHERIT_ALLOWED),
        }
    }

    /// A font with its parts, now and then one that is none.
    fn font(&mut self, name: u8, declared: bool) {
        let parts = ["condensed", "bold", "small-caps", "italic", "12px", "Serif"];
        let mut value = String::new();
        let mut readings = Vec::new();
        for (k, part) in (5..).zip(parts) {
            if k >= 9 || self.r.one_in(2) {
                let part = if self.r.one_in(8) { "inherit" } else { part };
                readings.push((k, value.len(), part.len()));
                value += part;
                value.push(' ');
            }
        }
        self.value(name, declared, &value);
        if self.r.one_in(8) {
            return;
        }
        if self.r.one_in(3) {
            readings.reverse();
        }
        for (kind, offset, length) in readings {
            self.reading(kind, offset, length);
        }
    }

    fn plain_entry(&mut self, declared: bool) {
        let name = self.any_name();
        let value = self.r.pick(&VALUES);
        self.value(name, declared, value);
    }

    /// Entries of an element of the styles: few names, so that they meet.
    fn styled(&mut self) {
        let pool = [a::Fill, a::Stroke, a::FontSize, a::FontWeight, a::MarkerMid, a::MarkerEnd, a::LineHeight, a::FontKerning];
        let names = [self.r.pick(&pool), self.r.pick(&pool), self.any_name()];
        let one = |m: &mut Self, declared: bool| match m.r.below(10) {
            0 => m.font(a::Font, declared),
            1 if declared => m.value_of(254, declared),
            2 => {
                let word = m.r.pick(&["smooth", "high-quality", "crisp-edges", "pixelated", "auto", "inherit"]);
                m.value(a::ImageRendering, declared, word);
            }
            3 => {
                let name = m.r.pick(&[a::MixBlendMode, a::Isolation, a::FontKerning, a::Style, a::Class]);
                m.value_of(name, declared);
            }
            4 => m.plain_entry(declared),
            _ => {
                let name = m.r.pick(&names);
                m.value_of(name, declared);
            }
        };
        for _ in 0..self.r.below(5) {
            one(self, false);
        }
        if self.r.one_in(4) {
            self.attribute(a::Style, 0, "x");
        }
        for _ in 0..self.r.below(6) {
            one(self, true);
        }
    }

    fn value_of(&mut self, name: u8, declared: bool) {
        let value = self.r.pick(&VALUES);
        self.value(name, declared, value);
    }

    /// Entries of an element of the inheritance: one name for most.
    fn inheriting(&mut self, name: u8) {
        for declared in [false, true] {
            while self.r.one_in(2) {
                let name = if self.r.one_in(4) { self.any_name() } else { name };
                let value = self.r.pick(&["inherit", "inherit", "inherit", "red", "none", ""]);
                self.value(name, declared, value);
            }
        }
    }

    /// What an element's theme gives it behind its open command.
    fn entries(&mut self, code: u8, name: u8) {
        let is_top = self.commands.iter().filter(|c| matches!(c, Command::Open { .. })).nth(1).is_none();
        if if is_top { self.r.one_in(8) } else { !self.r.one_in(3) } {
            self.id();
        }
        if self.r.one_in(8) {
            self.space();
        }
        if code == e::Style && self.r.one_in(2) {
            let kind = self.r.pick(&["text/css", "text/plain"]);
            self.attribute(a::Type, 0, kind);
        }
        match self.theme {
            Theme::Styles => self.styled(),
            Theme::Inherit => self.inheriting(name),
            Theme::Repairs | Theme::FeImage => {
                let own = LINKED.iter().position(|l| *l == code).map(|k| LINKS[[0, 2, 3, 4][k]]);
                if code == e::FeImage || code == e::Use || self.r.one_in(10) {
                    self.hrefs();
                }
                for declared in [false, true] {
                    while self.r.one_in(if declared { 4 } else { 2 }) {
                        let link = match own {
                            Some(link) if !self.r.one_in(3) => link,
                            _ if self.theme == Theme::FeImage && !self.r.one_in(4) => a::Filter,
                            _ if !self.r.one_in(2) => name,
                            _ => self.r.pick(&LINKS),
                        };
                        self.link(link, declared);
                    }
                }
            }
            _ => {
                if matches!(code, e::Use | e::Tref) && !self.r.one_in(12) {
                    self.hrefs();
                }
                if self.r.one_in(6) {
                    self.plain_entry(false);
                }
                if self.r.one_in(6) {
                    self.plain_entry(true);
                }
            }
        }
    }

    /// The code of a child, by theme and parent.
    fn code(&mut self, parent: u8) -> u8 {
        let in_text = matches!(parent, e::Text | e::Tspan | e::TextPath | e::Tref);
        if in_text && !self.r.one_in(12) {
            let pool = if self.theme == Theme::Trefs { &QUOTING } else { &INSIDE_TEXT };
            return self.r.pick(pool);
        }
        if self.r.one_in(16) {
            return if self.r.one_in(3) { 255 } else { self.r.below(ELEMENTS.len()) as u8 };
        }
        match self.theme {
            Theme::Spaces => self.r.pick(&[e::Text, e::Text, e::Text, e::G, e::A]),
            Theme::Trefs => self.r.pick(&[e::Text, e::Text, e::Text, e::Text, e::G, e::Rect, e::Style, e::Tref]),
            Theme::Uses => self.r.pick(&[e::Use, e::Use, e::Use, e::G, e::G, e::Symbol, e::Text, e::Style, e::A, e::Svg]),
            Theme::Repairs => {
                if self.r.one_in(2) {
                    self.r.pick(&LINKED)
                } else {
                    self.r.pick(&[e::G, e::Rect, e::Use, e::FeImage, e::Text])
                }
            }
            Theme::FeImage => self.r.pick(&[e::Filter, e::Filter, e::FeImage, e::FeImage, e::FeImage, e::G, e::Rect, e::Use]),
            Theme::Mixed | Theme::Deep => match self.r.below(4) {
                0 => self.r.pick(&[e::Text, e::Use, e::Use, e::Style]),
                1 => self.r.pick(&LINKED),
                _ => self.r.pick(&GROUPS),
            },
            _ => self.r.pick(&GROUPS),
        }
    }

    fn element(&mut self, code: u8, name: u8, depth: usize) {
        self.open(code);
        self.entries(code, name);
        self.children(code, name, depth);
        self.close();
    }

    fn children(&mut self, code: u8, name: u8, depth: usize) {
        let in_text = matches!(code, e::Text | e::Tspan | e::TextPath | e::Tref | e::A);
        let most = if depth > 8 { 2 } else { 5 };
        for _ in 0..self.r.below(most + 1) {
            match self.r.below(16) {
                0 => self.comments(),
                1 => self.text(),
                2..=8 if in_text => self.text(),
                2..=4 if self.theme == Theme::Trefs => self.text(),
                _ if self.left > 0 => {
                    self.left -= 1;
                    let child = self.code(code);
                    self.element(child, name, depth + 1);
                }
                _ => {}
            }
        }
    }

    fn whole(&mut self) {
        self.comments();
        self.left = if self.r.one_in(500) { 400 } else { self.r.pick(&[2, 4, 6, 10, 16, 30]) };
        let name = match self.theme {
            Theme::Repairs => self.r.pick(&LINKS),
            _ => self.any_name(),
        };
        let top = if self.r.one_in(30) { self.r.pick(&[e::G, e::A, e::Style, e::Use, e::Text, 255]) } else { e::Svg };
        if self.theme == Theme::Deep {
            self.deep(top);
        } else {
            self.open(top);
            self.entries(top, name);
            if self.theme == Theme::Uses {
                if self.r.one_in(2) {
                    self.definitions(name);
                }
                if self.r.one_in(20) {
                    self.chain();
                }
            }
            for _ in 0..self.r.from_to(1, 3) {
                self.children(top, name, 0);
            }
            self.close();
        }
        self.comments();
    }

    /// An element for each id, before anything else has it.
    fn definitions(&mut self, name: u8) {
        for id in self.ids {
            let code = self.r.pick(&[e::G, e::Symbol, e::Text, e::Use, e::Rect, e::Svg, e::A]);
            self.open(code);
            self.attribute(a::Id, 0, id);
            if code == e::Use {
                self.hrefs();
            }
            self.left += 1;
            self.children(code, name, 1);
            self.close();
        }
    }

    /// Nesting around the depth limit: groups, and at the bottom a text, a comment, a use, a cycle or nothing; or a chain of uses.
    fn deep(&mut self, top: u8) {
        self.open(top);
        if self.r.one_in(4) {
            self.chain();
        }
        let below = self.r.from_to(1018, 1030);
        for k in 0..below {
            let code = if self.r.one_in(300) { e::A } else { self.r.pick(&[e::G, e::G, e::G, e::Defs, e::Svg]) };
            self.open(code);
            if k == 1 || self.r.one_in(200) {
                self.id();
            }
        }
        for _ in 0..self.r.below(4) {
            match self.r.below(8) {
                0 => self.commands.push(Command::Other),
                1 => self.text(),
                2 | 3 => {
                    self.open(e::Text);
                    let tspans = self.r.below(6);
                    (0..tspans).for_each(|_| self.open(e::Tspan));
                    self.text();
                    (0..=tspans).for_each(|_| self.close());
                }
                4 | 5 => {
                    self.open(e::Use);
                    self.hrefs();
                    self.close();
                }
                6 => {
                    self.open(255);
                    self.close();
                }
                _ => {
                    let code = self.r.pick(&[e::Style, e::Rect, e::Tref]);
                    self.open(code);
                    self.close();
                }
            }
        }
        (0..below).for_each(|_| self.close());
        if self.r.one_in(3) {
            let name = self.any_name();
            self.left = 6;
            self.children(top, name, 0);
        }
        self.close();
    }

    /// Uses that lead to one another in a ring that the test for cycles misses, or not quite in a ring.
    fn chain(&mut self) {
        let length = self.r.from_to(2, 4);
        let ring = self.r.one_in(2);
        for k in 0..length {
            self.open(e::G);
            self.attribute(a::Id, 0, IDS[k]);
            let next = if k + 1 < length { k + 1 } else { 0 };
            if k + 1 < length || ring {
                self.open(e::Use);
                self.attribute(a::Href, 2, &format!("#{}", IDS[next]));
                self.reading(1, 1, 1);
                self.close();
            }
            self.close();
        }
    }
}
