//! Drawings to measure build with.
use host::names::AId::{self, *};
use host::scripts::Drawing;

const CLIP_PATH: u8 = 2;
const FE_IMAGE: u8 = 20;
const FILTER: u8 = 30;
const G: u8 = 31;
const PATH: u8 = 37;
const PATTERN: u8 = 38;
const RECT: u8 = 42;
const SVG: u8 = 45;
const TEXT: u8 = 48;
const TREF: u8 = 50;
const TSPAN: u8 = 51;
const USE: u8 = 52;
const UNKNOWN: u8 = 255;

/// How many bytes script and characters may have.
#[derive(Clone, Copy)]
pub struct Size(pub usize);

impl Size {
    /// Whether a drawing may grow, with so many elements open.
    fn holds(self, d: &Drawing, open: usize) -> bool {
        d.script.len() + open + 300 < self.0 && d.characters.len() + 300 < self.0
    }
}

fn attributes(d: &mut Drawing, all: &[(AId, &str)]) {
    all.iter().for_each(|(name, value)| d.attribute(*name as u8, 0, value.as_bytes()));
}

/// An svg, filled as long as there is room.
fn filled(size: Size, mut more: impl FnMut(&mut Drawing)) -> Drawing {
    let mut d = Drawing::default();
    d.open(SVG, 1);
    attributes(&mut d, &[(Width, "640"), (Height, "480"), (Fill, "red"), (Stroke, "blue")]);
    while size.holds(&d, 100) {
        more(&mut d);
    }
    d.close();
    d
}

/// A rect with five attributes.
pub fn rect(d: &mut Drawing) {
    d.open(RECT, 1);
    attributes(d, &[(X, "10"), (Y, "120"), (Width, "30.5"), (Height, "20"), (Fill, "#00ff00")]);
    d.close();
}

/// Rects, and one text of five bytes.
pub fn rects(size: Size) -> Drawing {
    let mut first = true;
    filled(size, |d| {
        if std::mem::take(&mut first) {
            d.open(TEXT, 1);
            d.text(b"12345");
            d.close();
        }
        rect(d);
    })
}

/// Groups in groups, up to 1,000 deep.
pub fn groups(size: Size) -> Drawing {
    filled(size, |d| {
        let mut open = 0;
        while open < 1000 && size.holds(d, open) {
            d.open(G, 1);
            attributes(d, &[(Transform, "translate(1 2)"), (Opacity, "0.5")]);
            open += 1;
        }
        d.comment();
        (0..open).for_each(|_| d.close());
    })
}

/// Text elements with a tspan and three texts.
pub fn texts(size: Size) -> Drawing {
    filled(size, |d| {
        d.open(TEXT, 1);
        attributes(d, &[(X, "10"), (Y, "20")]);
        d.text(b" load ");
        d.open(TSPAN, 1);
        attributes(d, &[(Fill, "blue")]);
        d.text(b"12.5  ");
        d.close();
        d.text(b"\n   kg of\tbread ");
        d.close();
    })
}

/// Rects with two attributes and ten declarations, two of which replace.
fn styles(size: Size) -> Drawing {
    filled(size, |d| {
        d.open(RECT, 1);
        attributes(d, &[(Fill, "green"), (Stroke, "none"), (Style, "fill:red")]);
        let declared = [
            (Fill, "red"),
            (Stroke, "black"),
            (StrokeWidth, "2"),
            (Opacity, "0.5"),
            (FillOpacity, "1"),
            (StrokeOpacity, "0.25"),
            (StrokeLinecap, "round"),
            (StrokeLinejoin, "bevel"),
            (StrokeMiterlimit, "3"),
            (FillRule, "evenodd"),
        ];
        declared.iter().for_each(|(name, value)| d.declaration(*name as u8, 0, value.as_bytes()));
        d.close();
    })
}

/// Text elements with a font declaration.
fn fonts(size: Size) -> Drawing {
    filled(size, |d| {
        d.open(TEXT, 1);
        attributes(d, &[(X, "1")]);
        d.declaration(Font as u8, 0, b"italic bold 12px Sans");
        d.reading(8, 0, 6);
        d.reading(6, 7, 4);
        d.reading(9, 12, 4);
        d.reading(10, 17, 4);
        d.text(b"kg");
        d.close();
    })
}

/// Rects below 50 groups whose fill, stroke and opacity are inherited.
fn inherit(size: Size) -> Drawing {
    filled(size, |d| {
        (0..50).for_each(|_| d.open(G, 1));
        for _ in 0..100 {
            if size.holds(d, 50) {
                d.open(RECT, 1);
                attributes(d, &[(Fill, "inherit"), (Stroke, "inherit"), (Opacity, "inherit")]);
                d.close();
            }
        }
        (0..50).for_each(|_| d.close());
    })
}

/// Comments, and nothing else.
fn comments(size: Size) -> Drawing {
    filled(size, |d| d.comment())
}

/// Rects with an id each, and nothing else.
fn ids(size: Size) -> Drawing {
    let mut n = 0..;
    filled(size, |d| named(d, RECT, &format!("r{}", n.next().unwrap_or(0)), |_| ()))
}

/// Eight paths that take all characters.
fn long_paths(size: Size) -> Drawing {
    in_svg(|d| {
        for _ in 0..8 {
            d.open(PATH, 1);
            attributes(d, &[(D, &"L 12.5 -3 ".repeat((size.0 - 300) / 80))]);
            d.close();
        }
    })
}

/// Elements of another namespace and unknown ones, each with a group of two rects, which are passed over.
fn foreign(size: Size) -> Drawing {
    filled(size, |d| {
        for (element, namespace) in [(G, 4), (UNKNOWN, 1)] {
            d.open(element, namespace);
            d.open(G, namespace);
            (0..2).for_each(|_| rect(d));
            d.close();
            d.close();
        }
    })
}

/// The drawings of a size.
pub fn large(size: Size) -> [(&'static str, Drawing); 10] {
    [
        ("rects", rects(size)),
        ("groups, 1,000 deep", groups(size)),
        ("texts", texts(size)),
        ("styles", styles(size)),
        ("fonts", fonts(size)),
        ("inherit, 50 deep", inherit(size)),
        ("comments", comments(size)),
        ("ids", ids(size)),
        ("long paths", long_paths(size)),
        ("foreign and unknown elements", foreign(size)),
    ]
}

/// An attribute whose value is a link, with its reading.
fn link(d: &mut Drawing, name: AId, kind: u8, id: &str) {
    d.attribute(name as u8, 0, format!("url(#{id})").as_bytes());
    d.reading(kind, 5, id.len() as u32);
}

fn href(d: &mut Drawing, namespace: u8, id: &str) {
    d.attribute(Href as u8, namespace, format!("#{id}").as_bytes());
    d.reading(1, 1, id.len() as u32);
}

fn in_svg(more: impl FnOnce(&mut Drawing)) -> Drawing {
    let mut d = Drawing::default();
    d.open(SVG, 1);
    more(&mut d);
    d.close();
    d
}

/// An element with an id.
fn named(d: &mut Drawing, element: u8, id: &str, inside: impl FnOnce(&mut Drawing)) {
    d.open(element, 1);
    d.attribute(Id as u8, 0, id.as_bytes());
    inside(d);
    d.close();
}

/// A rect with a link.
fn linked(d: &mut Drawing, name: AId, kind: u8, id: &str) {
    d.open(RECT, 1);
    link(d, name, kind, id);
    d.close();
}

/// A rect that is clipped.
fn clipped(d: &mut Drawing, by: &str) {
    linked(d, ClipPath, 2, by);
}

/// A rect that is filled with a pattern.
fn painted(d: &mut Drawing, with: &str) {
    linked(d, Fill, 3, with);
}

fn use_of(d: &mut Drawing, id: &str) {
    d.open(USE, 1);
    href(d, 0, id);
    d.close();
}

/// Clip paths, in each of which something is clipped by the next one, and if asked for by the one before.
pub fn clip_paths(n: usize, back: bool) -> Drawing {
    in_svg(|d| {
        for i in 0..n {
            named(d, CLIP_PATH, &format!("c{i}"), |d| {
                if i + 1 < n {
                    clipped(d, &format!("c{}", i + 1));
                }
                if back && i > 0 {
                    clipped(d, &format!("c{}", i - 1));
                }
            });
        }
    })
}

/// Clip paths in which something is clipped by one more, and that one, in which something is clipped by each of them.
fn star(n: usize) -> Drawing {
    in_svg(|d| {
        (0..n).for_each(|i| named(d, CLIP_PATH, &format!("c{i}"), |d| clipped(d, "c")));
        named(d, CLIP_PATH, "c", |d| (0..n).for_each(|i| clipped(d, &format!("c{i}"))));
    })
}

/// Patterns, in each of which one thing is filled with the next one and another with the one before.
pub fn patterns(n: usize) -> Drawing {
    in_svg(|d| {
        for i in 0..n {
            let others = [i + 1, i.wrapping_sub(1)].into_iter().filter(|o| *o < n);
            named(d, PATTERN, &format!("p{i}"), |d| others.for_each(|other| painted(d, &format!("p{other}"))));
        }
    })
}

/// A pattern with so many things filled with another, in which as many are filled with a third.
pub fn crossed(n: usize) -> Drawing {
    in_svg(|d| {
        for (id, other) in [("p", "q"), ("q", "r")] {
            named(d, PATTERN, id, |d| (0..n).for_each(|_| painted(d, other)));
        }
    })
}

/// Clip paths, in each of which something is clipped by another one, far from it in the script, that leads to no third.
pub fn far_links(n: usize) -> Drawing {
    in_svg(|d| {
        for i in 0..n {
            named(d, CLIP_PATH, &format!("c{i}"), |d| clipped(d, &format!("c{}", (i * 7919 + 1) % n)));
        }
    })
}

/// Filters with an image of something that has the next filter.
pub fn images(n: usize) -> Drawing {
    in_svg(|d| {
        for i in 0..n {
            named(d, FILTER, &format!("f{i}"), |d| {
                d.open(FE_IMAGE, 1);
                href(d, 0, &format!("r{i}"));
                d.close();
            });
            named(d, RECT, &format!("r{i}"), |d| {
                let id = format!("f{}", (i + 1) % n);
                link(d, Filter, 2, &id);
                d.reading(4, 5, id.len() as u32);
            });
        }
    })
}

/// Groups with ids, and a use of each.
pub fn uses(n: usize) -> Drawing {
    in_svg(|d| {
        (0..n).for_each(|i| named(d, G, &format!("g{i}"), rect));
        (0..n).for_each(|i| use_of(d, &format!("g{i}")));
    })
}

/// Rects with nothing but an id, and a use of each.
fn hrefs(n: usize) -> Drawing {
    in_svg(|d| {
        (0..n).for_each(|i| named(d, RECT, &format!("r{i}"), |_| ()));
        (0..n).for_each(|i| use_of(d, &format!("r{i}")));
    })
}

/// A group of ten rects, and so many uses of it.
pub fn uses_of_one(n: usize) -> Drawing {
    in_svg(|d| {
        named(d, G, "g", |d| (0..10).for_each(|_| rect(d)));
        (0..n).for_each(|_| use_of(d, "g"));
    })
}

/// A group of so many uses of a rect, used in proportion: 2,000 of them 240 times.
fn used_uses(n: usize) -> Drawing {
    uses_in_group(n, "r", n * 3 / 25)
}

/// A group of so many uses of nothing, used in proportion: 2,000 of them 300 times.
fn used_uses_of_nothing(n: usize) -> Drawing {
    uses_in_group(n, "none", n * 3 / 20)
}

fn uses_in_group(n: usize, id: &str, times: usize) -> Drawing {
    in_svg(|d| {
        named(d, RECT, "r", |_| ());
        named(d, G, "g", |d| (0..n).for_each(|_| use_of(d, id)));
        (0..times).for_each(|_| use_of(d, "g"));
    })
}

/// A group of 50 links to as many clip paths and patterns, and so many uses of it, half of them in a clip path and half in a pattern.
fn copied_links(n: usize) -> Drawing {
    in_svg(|d| {
        named(d, G, "g", |d| {
            for i in 0..25 {
                clipped(d, &format!("c{i}"));
                painted(d, &format!("p{i}"));
            }
        });
        for (element, id) in [(CLIP_PATH, "c"), (PATTERN, "p")] {
            (0..25).for_each(|i| named(d, element, &format!("{id}{i}"), rect));
            named(d, element, id, |d| (0..n / 2).for_each(|_| use_of(d, "g")));
        }
    })
}

/// Behind so many rects: groups, each with two uses of the next one, so that there are twice as many copies with each.
pub fn doubled(rects: usize, groups: usize) -> Drawing {
    behind(groups, |d| (0..rects).for_each(|_| rect(d)))
}

/// Behind so many rects with ids: 16 groups, each with two uses of the next one.
fn doubled_behind_ids(n: usize) -> Drawing {
    behind(16, |d| (0..n).for_each(|i| named(d, RECT, &format!("r{i}"), |_| ())))
}

fn behind(groups: usize, first: impl FnOnce(&mut Drawing)) -> Drawing {
    in_svg(|d| {
        first(d);
        for i in 0..groups {
            named(d, G, &format!("g{i}"), |d| (0..2).for_each(|_| use_of(d, &format!("g{}", i + 1))));
        }
    })
}

/// Texts with ids, and a tref to each.
pub fn trefs(n: usize) -> Drawing {
    in_svg(|d| {
        (0..n).for_each(|i| named(d, TEXT, &format!("t{i}"), |d| d.text(b"12.5 kg")));
        (0..n).for_each(|i| tref(d, &format!("t{i}")));
    })
}

/// A text that quotes an element.
fn tref(d: &mut Drawing, id: &str) {
    d.open(TEXT, 1);
    d.open(TREF, 1);
    href(d, 2, id);
    d.close();
    d.close();
}

/// So many texts below 1,900 nested tspans, every second one in a tspan of its own.
fn nested_texts(n: usize) -> Drawing {
    in_svg(|d| {
        d.open(TEXT, 1);
        (0..1900).for_each(|_| d.open(TSPAN, 1));
        for _ in 0..n / 2 {
            d.text(b" a ");
            d.open(TSPAN, 1);
            d.text(b" b");
            d.close();
        }
        (0..1901).for_each(|_| d.close());
    })
}

/// A drawing that is made to hurt: what it has so many of, how it is made, how many are measured usually, and how many of them there are in
/// one that is as large as the limits take, or as it is named in the papers.
type Hurtful = (&'static str, fn(usize) -> Drawing, usize, usize);

pub const HURTFUL: [Hurtful; 9] = [
    ("uses of as many groups", uses, 6000, 14_700),
    ("uses of as many rects with an id", hrefs, 6000, 24_000),
    ("trefs to as many texts", trefs, 6000, 25_500),
    ("ids before 16 groups, doubled", doubled_behind_ids, 100, 20_000),
    ("uses in a group used often", used_uses, 400, 2000),
    ("uses of nothing in such a group", used_uses_of_nothing, 400, 2000),
    ("uses of a group of 50 links", copied_links, 400, 10_000),
    ("clip paths, to one and back to each", star, 200, 1000),
    ("texts in 1,900 nested tspans", nested_texts, 90_000, 140_000),
];

/// So many ids, and a group of uses of nothing, used as often as it has uses: 950 times behind 85,500 ids.
fn searched_in_vain(n: usize) -> Drawing {
    in_svg(|d| {
        (0..n).for_each(|i| named(d, RECT, &format!("r{i}"), |_| ()));
        named(d, G, "g", |d| (0..n / 90).for_each(|_| use_of(d, "none")));
        (0..n / 90).for_each(|_| use_of(d, "g"));
    })
}

/// A group of so many of these, of so many bytes each, and a group of uses of it that is used as often as it has uses: 700 times for
/// 1,000,000 bytes.
fn copied(n: usize, bytes: usize, each: fn(&mut Drawing)) -> Drawing {
    let times = n * bytes / 1430;
    in_svg(|d| {
        named(d, G, "g", |d| (0..n).for_each(|_| each(d)));
        named(d, G, "h", |d| (0..times).for_each(|_| use_of(d, "g")));
        (0..times).for_each(|_| use_of(d, "h"));
    })
}

fn copied_comments(n: usize) -> Drawing {
    copied(n, 1, |d| d.comment())
}

fn copied_elements(n: usize) -> Drawing {
    copied(n, 4, |d| {
        d.open(UNKNOWN, 1);
        d.close();
    })
}

fn copied_texts(n: usize) -> Drawing {
    copied(n, 5, |d| d.text(b""))
}

fn copied_attributes(n: usize) -> Drawing {
    copied(n, 7, |d| d.attribute(UNKNOWN, 0, b""))
}

fn copied_declarations(n: usize) -> Drawing {
    copied(n, 7, |d| d.declaration(Fill as u8, 0, b""))
}

/// So many copies of a pattern without an id, in which something is filled with another pattern, which has four times as many things.
fn copied_patterns(n: usize) -> Drawing {
    let times = n.isqrt();
    in_svg(|d| {
        named(d, G, "r", |d| {
            for _ in 0..450 {
                d.open(RECT, 1);
                d.close();
            }
        });
        named(d, PATTERN, "q", |d| (0..4 * n / 450).for_each(|_| use_of(d, "r")));
        named(d, G, "g", |d| {
            d.open(PATTERN, 1);
            painted(d, "q");
            d.close();
        });
        named(d, G, "h", |d| (0..times).for_each(|_| use_of(d, "g")));
        (0..times).for_each(|_| use_of(d, "h"));
    })
}

/// So many patterns with an id, in each of which something is filled with another pattern, which has 30 times as many things.
fn named_patterns(n: usize) -> Drawing {
    in_svg(|d| {
        named(d, G, "r", |d| {
            for _ in 0..450 {
                d.open(RECT, 1);
                d.close();
            }
        });
        named(d, PATTERN, "q", |d| (0..30 * n / 450).for_each(|_| use_of(d, "r")));
        (0..n).for_each(|i| named(d, PATTERN, &format!("p{i}"), |d| painted(d, "q")));
    })
}

/// More ids than the table of ids has slots, all of them used, and so many copies of uses of the last one.
fn beyond_slots(n: usize) -> Drawing {
    const IDS: usize = 25_500;
    let times = n.isqrt();
    in_svg(|d| {
        (0..IDS).for_each(|i| named(d, RECT, &format!("r{i}"), |_| ()));
        (0..IDS).for_each(|i| use_of(d, &format!("r{i}")));
        named(d, G, "g", |d| (0..times).for_each(|_| use_of(d, &format!("r{}", IDS - 1))));
        (0..times).for_each(|_| use_of(d, "g"));
    })
}

/// So many patterns in one another, with 450 times as many things in them that are filled with another pattern, which has as many things.
fn nested_patterns(n: usize) -> Drawing {
    in_svg(|d| {
        named(d, G, "g", |d| (0..450).for_each(|_| painted(d, "q")));
        named(d, G, "h", |d| (0..450).for_each(|_| rect(d)));
        named(d, PATTERN, "q", |d| (0..n).for_each(|_| use_of(d, "h")));
        (0..n).for_each(|_| d.open(PATTERN, 1));
        (0..n).for_each(|_| use_of(d, "g"));
        (0..n).for_each(|_| d.close());
    })
}

/// So many patterns in one another, with a thing for each of as many others in one another that is filled with it, from the innermost on;
/// in that 1,804 times as many rects.
fn nested_targets(n: usize) -> Drawing {
    in_svg(|d| {
        named(d, G, "h", |d| (0..450).for_each(|_| rect(d)));
        let nested = |d: &mut Drawing, name: &str, inside: &dyn Fn(&mut Drawing)| {
            for i in 0..n {
                d.open(PATTERN, 1);
                attributes(d, &[(Id, &format!("{name}{i}"))]);
            }
            inside(d);
            (0..n).for_each(|_| d.close());
        };
        nested(d, "q", &|d| (0..4 * n).for_each(|_| use_of(d, "h")));
        nested(d, "p", &|d| (0..n).rev().for_each(|i| painted(d, &format!("q{i}"))));
    })
}

/// 900 groups in one another with so many attributes each, and in them so many copies of a rect with as many attributes as all of them, none
/// of which finds what it inherits.
fn inherited_in_vain(n: usize) -> Drawing {
    in_svg(|d| {
        for _ in 0..900 {
            d.open(G, 1);
            (0..n).for_each(|_| attributes(d, &[(X, "1")]));
        }
        named(d, RECT, "r", |d| (0..900 * n).for_each(|_| attributes(d, &[(Color, "inherit")])));
        (0..n).for_each(|_| use_of(d, "r"));
        (0..900).for_each(|_| d.close());
    })
}

/// A text of so many comments, quoted by a text for every 40 of them.
fn quoted_comments(n: usize) -> Drawing {
    in_svg(|d| {
        named(d, TEXT, "t", |d| (0..n).for_each(|_| d.comment()));
        (0..n / 40).for_each(|_| tref(d, "t"));
    })
}

/// A rect with so many filters, and a filter with a third as many images of it.
fn many_filters(n: usize) -> Drawing {
    in_svg(|d| {
        named(d, RECT, "r", |d| {
            link(d, Filter, 2, "none");
            (0..n).for_each(|_| d.reading(4, 5, 4));
        });
        named(d, FILTER, "f", |d| {
            for _ in 0..n / 3 {
                d.open(FE_IMAGE, 1);
                href(d, 0, "r");
                d.close();
            }
        });
    })
}

/// So many words of small letters that fall into one bucket of the repairs' chains of ids (crates/ids).
fn of_one_bucket(n: usize) -> Vec<String> {
    let word = |k: usize| (0..6).map(move |place| b'a' + (k / 26usize.pow(place) % 26) as u8);
    let bucket = |k: &usize| word(*k).fold(0, |h, b| (h * 7735 + b as usize) % 2048) == 0;
    (0..).filter(bucket).take(n).map(|k| word(k).map(char::from).collect()).collect()
}

/// Clip paths, in each of which something is clipped by the next one, whose ids fall into one bucket.
fn one_bucket(n: usize) -> Drawing {
    let ids = of_one_bucket(n + 1);
    in_svg(|d| ids.windows(2).for_each(|id| named(d, CLIP_PATH, &id[0], |d| clipped(d, &id[1]))))
}

/// A pattern with a hundredth of so many things filled with another, in which that many copies, by turns of a first and of a last thing, are
/// filled; between those 60 times as many comments.
fn far_places(n: usize) -> Drawing {
    in_svg(|d| {
        named(d, RECT, "a", |d| link(d, Fill, 3, "none"));
        named(d, PATTERN, "p", |d| (0..n / 100 + 1).for_each(|_| painted(d, "q")));
        named(d, PATTERN, "q", |d| (0..n).for_each(|i| use_of(d, ["a", "b"][i % 2])));
        (0..60 * n).for_each(|_| d.comment());
        named(d, RECT, "b", |d| link(d, Fill, 3, "none"));
    })
}

/// Drawings that take the longest: what they have so many of, how they are made, how many there are in the largest that is not refused, and
/// in the largest that the Rust is given.
pub const WORST: [(&str, fn(usize) -> Drawing, usize, usize); 16] = [
    ("ids before uses of nothing", searched_in_vain, 85_500, 85_500),
    ("comments, copied", copied_comments, 1_000_000, 65_536),
    ("unknown elements, copied", copied_elements, 250_000, 16_384),
    ("empty texts, copied", copied_texts, 200_000, 16_384),
    ("unknown attributes, copied", copied_attributes, 142_000, 16_384),
    ("declarations of one, copied", copied_declarations, 142_000, 16_384),
    ("copied uses of one id of 25,500", beyond_slots, 300_000, 1024),
    ("patterns, copied", copied_patterns, 110_000, 256),
    ("patterns with an id", named_patterns, 29_000, 256),
    ("patterns, nested, and links", nested_patterns, 1000, 8),
    ("patterns, nested, to as many", nested_targets, 490, 8),
    ("attributes that inherit nothing", inherited_in_vain, 80, 80),
    ("comments, quoted", quoted_comments, 640_000, 640_000),
    ("filters of one thing", many_filters, 61_000, 61_000),
    ("ids of one bucket", one_bucket, 32_000, 32_000),
    ("links to both ends of a script", far_places, 12_800, 2_048),
];
