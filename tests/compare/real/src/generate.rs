//! Random SVG documents: style sheets with several selectors, weights and important declarations, entities, CDATA, comments, foreign
//! elements, nested drawings, uses and quotes, white space, fonts, filters, markers and links that lead to themselves.
use crate::hand;
use crate::hash;
use crate::random::Random;
use crate::tally::{rust, Tally};

/// How many random documents are recorded, behind those made by hand, and the seed that they come from.
const RECORDED: u64 = 500;
const SEED: u64 = 1;

/// The recorded documents with their names.
fn documents() -> Vec<(String, String)> {
    let by_hand = hand::documents().into_iter().enumerate().map(|(k, text)| (format!("hand-{k}"), text));
    by_hand.chain((0..RECORDED).map(|turn| (format!("random-{turn}"), document(SEED, turn)))).collect()
}

/// A line of the list has the name of a document, its hash and the Rust's answer.
pub fn record() -> Vec<String> {
    let line =
        |(name, text): (String, String)| Some(format!("{name} {} {}", hash::of(text.as_bytes()), rust(text.as_bytes())?.line()));
    documents().into_iter().filter_map(line).collect()
}

pub fn compare(list: &str) -> Tally {
    let mut tally = Tally::default();
    let documents = documents();
    let mut lines = list.lines();
    for (name, text) in &documents {
        let start = format!("{name} {} ", hash::of(text.as_bytes()));
        match lines.next().and_then(|line| line.strip_prefix(&start)) {
            Some(answer) => tally.add(name, text.as_bytes(), Some(answer)),
            None => tally.fail(format!("{name}: the list has another document, or none")),
        }
    }
    if lines.next().is_some() {
        tally.fail("the list has more documents".to_string());
    }
    tally
}

/// Documents that are not recorded.
pub fn random(seed: u64, count: u64) -> Tally {
    let mut tally = Tally::default();
    for turn in 0..count {
        let text = document(seed, turn);
        tally.add(&format!("document {turn} of seed {seed}"), text.as_bytes(), None);
    }
    tally
}

/// Documents of random values, which are not recorded.
pub fn values(seed: u64, count: u64) -> Tally {
    let mut tally = Tally::default();
    for turn in 0..count {
        let text = document_of_values(seed, turn);
        tally.add(&format!("values {turn} of seed {seed}"), text.as_bytes(), None);
    }
    tally
}

/// The document of random values of a seed and a turn.
pub fn document_of_values(seed: u64, turn: u64) -> String {
    hand::values(&mut Random::new(seed, turn))
}

/// The document of a seed and a turn.
pub fn document(seed: u64, turn: u64) -> String {
    let mut writer =
        Writer { random: Random::new(seed, turn), xml: String::new(), uses: 0, size: 0, entities: false, prefix: "" };
    writer.document();
    writer.xml
}

struct Writer {
    random: Random,
    xml: String,
    uses: usize,
    size: usize,
    /// Whether there is a DTD with entities.
    entities: bool,
    /// The prefix of SVG's elements.
    prefix: &'static str,
}

const CONTAINERS: [&str; 14] =
    ["g", "g", "g", "a", "svg", "defs", "symbol", "switch", "clipPath", "mask", "pattern", "filter", "marker", "linearGradient"];
const LEAVES: [&str; 13] = [
    "rect", "rect", "path", "circle", "line", "polygon", "image", "stop", "feImage", "feImage", "feFlood", "feGaussianBlur",
    "tspan",
];
const FOREIGN: [&str; 6] = ["o:rect", "o:g", "foreignObject", "desc", "metadata", "Rect"];
const NAMES: [&str; 24] = [
    "fill", "fill", "stroke", "opacity", "font-size", "font-family", "font-weight", "clip-path", "mask", "filter",
    "marker-start", "color", "display", "visibility", "text-anchor", "stop-color", "font-kerning", "isolation", "mix-blend-mode",
    "image-rendering", "kerning", "letter-spacing", "writing-mode", "overflow",
];
const PLAIN: [&str; 22] = [
    "x", "y", "width", "height", "d", "transform", "offset", "points", "viewBox", "in", "result", "type", "font", "marker",
    "lang", "onclick", "space", "href", "Fill", "style2", "version", "dx",
];
const PREFIXED: [&str; 12] = [
    "xlink:href", "xlink:href", "xlink:title", "xml:space", "xml:space", "xml:id", "xml:lang", "o:fill", "o:href", "s:fill",
    "s:href", "s:id",
];
const TYPES: [&str; 10] = ["rect", "g", "text", "tspan", "svg", "path", "use", "clipPath", "a", "circle"];

impl Writer {
    fn write(&mut self, text: &str) {
        self.xml += text;
    }

    fn one_of(&mut self, all: &[&'static str]) -> &'static str {
        self.random.one_of(all)
    }

    fn id(&mut self) -> String {
        format!("i{}", self.random.below(6))
    }

    fn document(&mut self) {
        if self.random.once_in(20) {
            self.write("\u{feff}");
        }
        if self.random.once_in(2) {
            let declaration = self.one_of(&["<?xml version='1.0'?>", "<?xml version=\"1.0\" encoding=\"UTF-8\"?>\r\n"]);
            self.write(declaration);
        }
        self.misc();
        if self.random.once_in(3) {
            self.entities = true;
            self.write(
                "<!DOCTYPE svg PUBLIC '-//W3C//DTD SVG 1.1//EN' 'svg11.dtd' [\n<!ENTITY word 'a &amp; b'>\n<!ENTITY link \"#i1\">\n\
                 <!ENTITY red 'fill: red;'>\n<!ENTITY part '<tspan fill=\"blue\"> p &word; </tspan>q'>\n<!ENTITY none ''>\n]>",
            );
        }
        self.misc();
        self.prefix = if self.random.once_in(8) { "s:" } else { "" };
        let root = if self.random.once_in(25) { "g" } else { "svg" };
        self.write(&format!("<{}{root}", self.prefix));
        let default = if self.random.once_in(40) { self.one_of(&["", "urn:d"]) } else { "http://www.w3.org/2000/svg" };
        if self.prefix.is_empty() && !self.random.once_in(10) {
            self.write(&format!(" xmlns='{default}'"));
        }
        self.write(" xmlns:s='http://www.w3.org/2000/svg' xmlns:xlink='http://www.w3.org/1999/xlink' xmlns:o='urn:o'");
        self.attributes(3, false);
        self.write(">");
        for _ in 0..self.random.below(3) {
            self.sheet();
        }
        for _ in 0..2 + self.random.below(6) {
            self.node(1);
        }
        if self.random.once_in(60) {
            let depth = 1018 + self.random.below(12);
            let inside =
                self.one_of(&["", "<rect/>", "<text>a <tspan>b</tspan></text>", "<use xlink:href='#i0'/>", "<!-- c -->"]);
            self.write(&("<s:g>".repeat(depth) + inside + &"</s:g>".repeat(depth)));
        }
        self.write(&format!("</{}{root}>", self.prefix));
        self.misc();
    }

    fn misc(&mut self) {
        if self.random.once_in(4) {
            let misc = self.one_of(&["\n", "<!-- a -->", "<?b c?>", "\r\n<!-- d -->\n"]);
            self.write(misc);
        }
    }

    fn node(&mut self, depth: usize) {
        self.size += 1;
        if self.size > 60 {
            return;
        }
        match self.random.below(20) {
            0..=5 if depth < 7 => {
                let name = self.one_of(&CONTAINERS);
                self.element(name, 4, |w| {
                    for _ in 0..w.random.below(5) {
                        w.node(depth + 1);
                    }
                });
            }
            6..=9 => {
                let name = self.one_of(&LEAVES);
                self.element(name, 5, |_| ());
            }
            10..=12 => self.element("text", 3, |w| w.texts(depth)),
            13 | 14 => self.use_element(depth),
            15 => {
                let name = self.one_of(&FOREIGN);
                self.element(name, 2, |w| w.node(depth + 1));
            }
            16 => self.sheet(),
            17 => self.misc(),
            _ => self.characters(),
        }
    }

    fn use_element(&mut self, depth: usize) {
        self.uses += 1;
        if self.uses < 4 {
            self.element("use", 4, |w| {
                if w.random.once_in(4) {
                    w.node(depth + 1);
                }
            });
        }
    }

    /// An element with attributes. Only one with a name of SVG has SVG's prefix.
    fn element(&mut self, name: &str, attributes: usize, inside: impl FnOnce(&mut Writer)) {
        let name = if name.contains(':') { name.to_string() } else { format!("{}{name}", self.prefix) };
        self.write(&format!("<{name}"));
        let linked = name.ends_with("use") || name.ends_with("tref") || name.ends_with("feImage");
        self.attributes(attributes, linked);
        let before = self.xml.len() + 1;
        self.write(">");
        inside(self);
        if self.xml.len() == before && self.random.once_in(2) {
            self.xml.insert(before - 1, '/');
        } else {
            self.write(&format!("</{name}>"));
        }
    }

    fn attributes(&mut self, most: usize, linked: bool) {
        let mut seen: Vec<String> = Vec::new();
        let mut count = self.random.below(most + 1);
        if linked {
            let name = self.one_of(&["href", "xlink:href", "xlink:href"]);
            self.attribute(name);
            seen.push(name.to_string());
            count += 1;
        }
        for _ in 0..count {
            let name = match self.random.below(12) {
                0 | 1 => "id",
                2 => "class",
                3 | 4 => "style",
                5..=8 => self.one_of(&NAMES),
                9 => self.one_of(&PLAIN),
                _ => self.one_of(&PREFIXED),
            };
            let is_again = seen.iter().any(|n| n == name);
            if !is_again || self.random.once_in(200) {
                self.attribute(name);
                seen.push(name.to_string());
            }
        }
    }

    fn attribute(&mut self, name: &str) {
        let value = match name.rsplit(':').next().unwrap_or("") {
            "id" => self.id(),
            "class" => self.one_of(&["c0", "c1", "c0 c1", " c1  c2", "c2\tc0", "c-0", ""]).to_string(),
            "style" => self.declarations(),
            "href" if self.entities && self.random.once_in(5) => "&link;".to_string(),
            "href" => {
                let id = self.id();
                let forms = ["#ID", "#ID", "#ID", " #ID ", "other.svg#ID", "#ID x", "ID", "#", "", "\n#ID", "#ID&#10;"];
                self.one_of(&forms).replace("ID", &id)
            }
            "space" => self.one_of(&["preserve", "preserve", "default", "other", " preserve"]).to_string(),
            other if NAMES.contains(&other) => self.value(other).replace('"', "&quot;").replace('<', "&lt;"),
            _ => self
                .one_of(&["0", "1 2", " a\tb ", "a\nb", "a\r\nb", "&lt;&amp;&#x41;&quot;", "é€", "", "text/css", "M 0 0 L 1 1"])
                .to_string(),
        };
        let space = self.one_of(&[" ", " ", "\n  ", "\t"]);
        self.write(&format!("{space}{name}=\"{value}\""));
    }

    /// A value of a property.
    fn value(&mut self, name: &str) -> String {
        let id = self.id();
        let forms: &[&'static str] = match name {
            "fill" | "stroke" => &[
                "red", "none", "inherit", "url(#ID)", "url(#ID)", "url('#ID') blue", "url(#ID) none",
                "url( #ID ) rgba(1, 2, 3, .4)", "url(#ID)#1238", "url(#ID) nothing", "url(\"#ID\") hsl(10 20% 30%)", "url(ID)",
                "currentColor", "#123", "url(#ID",
            ],
            "clip-path" | "mask" | "marker-start" | "marker" => {
                &["url(#ID)", "url(#ID)", "url('#ID')", " url(#ID) ", "none", "inherit", "url(#ID) red", "url(ID)", "circle(1)"]
            }
            "filter" => &[
                "url(#ID)", "url(#ID)", "url(#ID) url(#i2)", "blur(2) url(#ID)", "drop-shadow(1 2 3 red) url('#ID')", "none",
                "inherit", "unknown(1) url(#ID)", "sepia(50%)url(#ID) hue-rotate(90deg)", "url(#i1) blur(3%) url(#ID)",
                "brightness()",
            ],
            "font" => &[
                "12px Arial", "italic bold 10pt/1.5 'A B', serif", "normal small-caps x-large a", "inherit", "12px",
                "condensed 900 2em b", "oblique 1.5em \"C\"", "bold bold bold bold 3px d", "caption",
            ],
            "image-rendering" => &["auto", "smooth", "pixelated", "inherit", "optimizeSpeed"],
            _ => &["inherit", "inherit", "1", "0.5em", "none", "normal", "a, 'b c'", "10%", "bold", " x ", "INHERIT"],
        };
        self.one_of(forms).replace("ID", &id)
    }

    /// Declarations as a style attribute or a rule has them.
    fn declarations(&mut self) -> String {
        let mut all = String::new();
        if self.entities && self.random.once_in(6) {
            all += "&red;";
        }
        for _ in 0..1 + self.random.below(4) {
            let name = match self.random.below(10) {
                0 => self.one_of(&["font", "marker", "font"]),
                1 => self.one_of(&["x", "unknown", "FILL", "-a-b", "transform", "class", "href", "id", "xml-space"]),
                _ => self.one_of(&NAMES),
            };
            let value = self.value(name).replace('"', "'");
            let important = self.one_of(&["", "", "", "", " !important", "!important", " ! important", " !other"]);
            let colon = self.one_of(&[":", ": ", " : ", ":/* c */"]);
            let end = self.one_of(&[";", "; ", ";", ";;", " ;\n", "; /* d */ "]);
            all += &format!("{name}{colon}{value}{important}{end}");
        }
        if self.random.once_in(3) {
            all.truncate(all.trim_end_matches([';', ' ', '\n']).len());
        }
        if self.random.once_in(25) {
            all += self.one_of(&["fill", "fill:", ": red", "{", "}", "fill red", "/* e"]);
        }
        all
    }

    fn sheet(&mut self) {
        let mut rules = String::new();
        for _ in 0..1 + self.random.below(4) {
            if self.random.once_in(12) {
                rules += self.one_of(&[
                    "@import url(a.css);", "@media print { g { fill: red } }", "/* c */", "}", "<!--", "rect { }",
                    "@font-face { a: b }", "rect, { fill: red }", "{ fill: red }",
                ]);
            }
            let count = self.one_of(&["1", "1", "1", "2", "3"]).len() + self.random.below(2);
            let selectors: Vec<String> = (0..count).map(|_| self.selector()).collect();
            let declarations = self.declarations().replace("&red;", "");
            let between = self.one_of(&[" ", "\n", "", "\r\n\t"]);
            rules += &format!("{}{between}{{{declarations}}}\n", selectors.join(self.random.one_of(&[",", ", ", " , "])));
        }
        let start = self.one_of(&[
            "<style>", "<style>", "<style type=\"text/css\">", "<style type='text/plain'>", "<style type=''>", "<o:style>",
            "<s:style>", "<style id='i3'>",
        ]);
        let start = if start.contains(':') { start.to_string() } else { start.replacen('<', &format!("<{}", self.prefix), 1) };
        self.write(&start);
        let escaped = rules.replace('&', "&amp;").replace('<', "&lt;");
        match self.random.below(5) {
            0 => self.write(&format!("<![CDATA[{rules}]]>")),
            1 => self.write(&format!("<!-- c -->{escaped}")),
            2 => self.write(&format!("{escaped}<![CDATA[{rules}]]><!-- c --> g {{ fill: lost }}")),
            _ => self.write(&escaped),
        }
        let name = start[1..].split([' ', '>']).next().unwrap_or("").to_string();
        self.write(&format!("</{name}>"));
    }

    fn selector(&mut self) -> String {
        let mut selector = self.compound();
        for _ in 0..self.random.below(3) {
            let by = self.one_of(&[" ", " ", " > ", ">", " + ", "+", "  "]);
            selector += by;
            selector += &self.compound();
        }
        selector
    }

    fn compound(&mut self) -> String {
        let mut all = match self.random.below(6) {
            0 => "*".to_string(),
            1 => String::new(),
            _ => self.one_of(&TYPES).to_string(),
        };
        for _ in 0..self.random.below(3) {
            let id = self.id();
            all += &self
                .one_of(&[
                    "#ID", "#ID", ".c0", ".c1", ".c1", "[x]", "[id=ID]", "[id='ID']", "[class~=c0]", "[class|=c]", "[fill=red]",
                    "[fill=\"red\"]", ":first-child", ":first-child", ":hover", ":lang(en)", ":nth-child(2)", "[class^=c]",
                ])
                .replace("ID", &id);
        }
        if all.is_empty() {
            all += ".c0";
        }
        all
    }

    /// What stands in a text element.
    fn texts(&mut self, depth: usize) {
        for _ in 0..self.random.below(5) {
            match self.random.below(12) {
                0..=4 => self.characters(),
                5..=7 if depth < 10 => {
                    let name = self.one_of(&["tspan", "tspan", "tspan", "a", "textPath", "altGlyph", "g", "o:tspan"]);
                    self.element(name, 3, |w| w.texts(depth + 1));
                }
                8 | 9 => self.element("tref", 2, |_| ()),
                10 => self.misc(),
                _ => {
                    let spaces = self.one_of(&[" ", "  ", "\n", "\t "]);
                    self.write(spaces);
                }
            }
        }
    }

    fn characters(&mut self) {
        let mut forms = vec![
            "a", " b", "c ", " d ", "  e  f  ", "\n g\n\t", "h\r\ni", "\r", "&lt;j&gt;", "k&#13;&#10;l", "&#32;m&#x9;", "é€😀",
            "<![CDATA[ n <o> ]]>", "<![CDATA[\r\np\r]]>", "q<![CDATA[]]>r", "s<!-- t -->u", "<?v w?>", "]]&gt;", " ",
            "\u{a0}x\u{3000}",
        ];
        if self.entities {
            forms.extend(["&word;", " &part; ", "y&none;z", "&none;"]);
        }
        let text = self.random.one_of(&forms);
        self.write(text);
    }
}
