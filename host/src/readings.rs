//! What svgtypes reads a value as: the readings of document 01, section 2. Debian's svgtypes 0.5 has no types for an IRI, a FuncIRI, a
//! list of filters and a font; they are read here, by its `Stream`. In filters, fonts and the colours that Debian's does not know, CSS
//! Syntax 3 says where a token ends, and Debian's svgtypes what a length, an angle or a colour is.
use crate::names;
use svgtypes::{Angle, Color, Length, LengthUnit, Stream};

/// The kind of a reading: its code in the script.
#[derive(Clone, Copy, Debug, PartialEq, Eq)]
#[repr(u8)]
pub enum Kind {
    /// A link by its id, as in `href`.
    Iri = 1,
    /// A link within `url()`.
    FuncIri = 2,
    /// A link within `url()`, with a colour behind it or not.
    Paint = 3,
    /// One `url()` of a list of filters.
    Filter = 4,
    /// The stretch that a font gives.
    FontStretch = 5,
    /// The weight that a font gives.
    FontWeight = 6,
    /// The variant that a font gives.
    FontVariant = 7,
    /// The style that a font gives.
    FontStyle = 8,
    /// The size that a font gives.
    FontSize = 9,
    /// The family that a font gives.
    FontFamily = 10,
}

/// Where a value stands.
#[derive(Clone, Copy, Debug, PartialEq, Eq)]
pub enum Place {
    /// An attribute.
    Attribute,
    /// A declaration of a rule or of a style attribute.
    Declaration,
}

/// The readings of a value that the Rust asks for, by the code of its name: each a part of the value.
pub fn readings(place: Place, name: u8, value: &str) -> Vec<(Kind, &str)> {
    let one = |kind, part: Option<_>| part.map(|part| (kind, part)).into_iter().collect();
    match (place, names::ATTRIBUTES.get(name as usize).copied()) {
        (Place::Attribute, Some("href")) => one(Kind::Iri, iri(value)),
        (_, Some("clip-path" | "mask")) => one(Kind::FuncIri, func_iri(value)),
        (_, Some("fill" | "stroke")) => one(Kind::Paint, paint(value)),
        (_, Some("filter")) => {
            let mut all: Vec<_> = one(Kind::FuncIri, func_iri(value));
            all.extend(filter_urls(value).into_iter().map(|url| (Kind::Filter, url)));
            all
        }
        (Place::Declaration, Some("font")) => font(value).unwrap_or_default(),
        _ => Vec::new(),
    }
}

/// Some(()) if nothing but spaces is left.
fn end(s: &mut Stream) -> Option<()> {
    s.skip_spaces();
    s.at_end().then_some(())
}

/// svgtypes' IRI: `#id`.
fn iri(value: &str) -> Option<&str> {
    let mut s = Stream::from(value);
    let link = s.parse_iri().ok()?;
    end(&mut s).map(|()| link)
}

/// svgtypes' FuncIRI: `url(#id)`, and nothing behind it.
fn func_iri(value: &str) -> Option<&str> {
    let mut s = Stream::from(value);
    let link = parse_func_iri(&mut s)?;
    end(&mut s).map(|()| link)
}

/// svgtypes' `Stream::parse_func_iri`, with quotes around the link, which Debian's does not take.
fn parse_func_iri<'a>(s: &mut Stream<'a>) -> Option<&'a str> {
    s.skip_spaces();
    s.skip_string(b"url(").ok()?;
    s.skip_spaces();
    let quote = s.get_curr_byte().filter(|c| matches!(c, b'\'' | b'"'));
    if quote.is_some() {
        s.advance(1);
        s.skip_spaces();
    }
    s.consume_byte(b'#').ok()?;
    let link = match quote {
        Some(quote) => s.consume_bytes(|_, c| c != quote).trim_end(),
        None => s.consume_bytes(|_, c| c != b' ' && c != b')'),
    };
    if link.is_empty() || link.contains(&['\'', '"'][..]) {
        return None;
    }
    s.skip_spaces();
    if let Some(quote) = quote {
        s.consume_byte(quote).ok()?;
        s.skip_spaces();
    }
    s.consume_byte(b')').ok()?;
    Some(link)
}

/// The link of svgtypes' Paint, where it is a FuncIRI: what stands behind it is `none`, `currentColor` or a colour.
fn paint(value: &str) -> Option<&str> {
    let mut s = Stream::from(value.trim());
    let link = parse_func_iri(&mut s)?;
    s.skip_spaces();
    let fallback = s.slice_tail();
    let is_paint = matches!(fallback, "" | "none" | "currentColor") || is_color(fallback);
    is_paint.then_some(link)
}

/// Whether a name of CSS may go on with this byte (Syntax 3, section 4.2). A backslash begins an escape, which nothing known here has.
fn is_name(c: u8) -> bool {
    c.is_ascii_alphanumeric() || matches!(c, b'-' | b'_' | b'\\') || !c.is_ascii()
}

/// The identifier that a text begins with (Syntax 3, sections 4.3.9 and 4.3.11); empty if none does.
fn identifier(text: &str) -> &str {
    let first = text.strip_prefix('-').unwrap_or(text).bytes().next();
    let begins = first.map_or(false, |c| is_name(c) && !c.is_ascii_digit());
    let end = text.bytes().position(|c| !is_name(c)).unwrap_or(text.len());
    if begins {
        &text[..end]
    } else {
        ""
    }
}

/// One token: a number with its unit.
struct Numeric<'a> {
    token: &'a str,
    unit: &'a str,
}

/// The number that stands here (Syntax 3, sections 4.3.3 and 4.3.12). Its unit is `%`, or the whole identifier behind the number.
fn numeric<'a>(s: &mut Stream<'a>) -> Option<Numeric<'a>> {
    let text = s.slice_tail();
    let at = |k: usize| text.as_bytes().get(k).copied().unwrap_or(0);
    let is_sign = |k: usize| matches!(at(k), b'+' | b'-');
    let behind_digits = |from: usize| (from..).find(|k| !at(*k).is_ascii_digit()).unwrap_or(from);
    let start = is_sign(0) as usize;
    let mut end = behind_digits(start);
    if at(end) == b'.' && at(end + 1).is_ascii_digit() {
        end = behind_digits(end + 1);
    }
    if end == start {
        return None;
    }
    let exponent = end + 1 + is_sign(end + 1) as usize;
    if matches!(at(end), b'e' | b'E') && at(exponent).is_ascii_digit() {
        end = behind_digits(exponent);
    }
    let unit = if at(end) == b'%' { "%" } else { identifier(&text[end..]) };
    s.advance(end + unit.len());
    Some(Numeric { token: &text[..end + unit.len()], unit })
}

/// A number that svgtypes takes for a length.
fn length(s: &mut Stream) -> Option<Length> {
    numeric(s)?.token.parse().ok()
}

/// Skips spaces and comments.
fn skip_blank(s: &mut Stream) {
    s.skip_spaces();
    while s.starts_with(b"/*") {
        let text = s.slice_tail();
        s.advance(text[2..].find("*/").map_or(text.len(), |end| end + 4));
        s.skip_spaces();
    }
}

/// Whether this is a colour: one of Debian's svgtypes, or one of the forms that came later.
fn is_color(value: &str) -> bool {
    if value.parse::<Color>().is_ok() || value.eq_ignore_ascii_case("transparent") {
        return true;
    }
    if let Some(digits) = value.strip_prefix('#') {
        return matches!(digits.len(), 4 | 8) && digits.bytes().all(|c| c.is_ascii_hexdigit());
    }
    color_function(value).is_some()
}

/// `rgb`, `rgba`, `hsl` or `hsla` of three or four numbers, each with a unit or without one.
fn color_function(value: &str) -> Option<()> {
    let (name, numbers) = value.strip_suffix(')')?.split_once('(')?;
    if !["rgb", "rgba", "hsl", "hsla"].iter().any(|n| n.eq_ignore_ascii_case(name)) {
        return None;
    }
    let mut s = Stream::from(numbers);
    let mut count = 0;
    loop {
        s.skip_bytes(|_, c| matches!(c, b' ' | b'\t' | b'\n' | b'\r' | b',' | b'/'));
        if s.at_end() {
            return matches!(count, 3 | 4).then_some(());
        }
        let Numeric { token, unit } = numeric(&mut s)?;
        let is_known = ["", "%", "deg", "grad", "rad", "turn"].iter().any(|known| known.eq_ignore_ascii_case(unit));
        let number: f64 = token[..token.len() - unit.len()].parse().ok()?;
        if !is_known || !number.is_finite() {
            return None;
        }
        count += 1;
    }
}

/// The links of svgtypes' FilterValueListParser, up to the first function that cannot be read.
fn filter_urls(value: &str) -> Vec<&str> {
    let mut s = Stream::from(value);
    let mut urls = Vec::new();
    while let Some(url) = filter_function(&mut s) {
        urls.extend(url);
    }
    urls
}

/// The next function of a list of filters, with the link if it is a `url()`. None at the end of the list, and where there is no function.
fn filter_function<'a>(s: &mut Stream<'a>) -> Option<Option<&'a str>> {
    skip_blank(s);
    if s.starts_with(b"url(") {
        return parse_func_iri(s).map(Some);
    }
    let name = ascii_ident(s);
    s.consume_byte(b'(').ok()?;
    skip_blank(s);
    if name == "drop-shadow" {
        drop_shadow(s)?;
    } else if s.is_curr_byte_eq(b')') {
        known_function(name)?;
    } else {
        filter_amount(name, s)?;
    }
    skip_blank(s);
    s.consume_byte(b')').ok()?;
    Some(None)
}

/// The functions that have one amount, or none.
fn known_function(name: &str) -> Option<()> {
    let amounts = ["brightness", "contrast", "grayscale", "invert", "opacity", "saturate", "sepia"];
    (amounts.contains(&name) || matches!(name, "blur" | "hue-rotate")).then_some(())
}

/// The amount of a function: a length without percent, an angle, or a number that is not negative, with percent or without.
fn filter_amount(name: &str, s: &mut Stream) -> Option<()> {
    known_function(name)?;
    let is_amount = match name {
        "blur" => length(s)?.unit != LengthUnit::Percent,
        "hue-rotate" => numeric(s)?.token.parse::<Angle>().is_ok(),
        _ => {
            let amount = length(s)?;
            matches!(amount.unit, LengthUnit::None | LengthUnit::Percent) && amount.num >= 0.0
        }
    };
    is_amount.then_some(())
}

/// What stands within `drop-shadow()`: two or three lengths, and a colour before or behind them, or none.
fn drop_shadow(s: &mut Stream) -> Option<()> {
    let before = color_part(s);
    skip_blank(s);
    let mut lengths = 0;
    while let Some(Numeric { token, .. }) = numeric(s) {
        if token.parse::<Length>().ok()?.unit == LengthUnit::Percent {
            return None;
        }
        lengths += 1;
        skip_blank(s);
    }
    let is_fitting = match (before, color_part(s)) {
        ("", "") => true,
        ("", color) | (color, "") => color == "currentColor" || is_color(color),
        _ => false,
    };
    (is_fitting && matches!(lengths, 2 | 3)).then_some(())
}

/// What may be a colour: a word, a `#` with what belongs to it, or a function up to its bracket. Empty if there is none of these.
fn color_part<'a>(s: &mut Stream<'a>) -> &'a str {
    let start = s.pos();
    if s.is_curr_byte_eq(b'#') {
        s.advance(1);
        s.skip_bytes(|_, c| is_name(c));
        return s.slice_back(start);
    }
    s.advance(identifier(s.slice_tail()).len());
    if s.pos() > start && s.is_curr_byte_eq(b'(') {
        s.skip_bytes(|_, c| c != b')');
        if !s.at_end() {
            s.advance(1);
        }
    }
    s.slice_back(start)
}

/// A word of letters, digits, `-` and `_`.
fn ascii_ident<'a>(s: &mut Stream<'a>) -> &'a str {
    s.consume_bytes(|_, c| c.is_ascii_alphanumeric() || matches!(c, b'-' | b'_'))
}

/// The parts of svgtypes' FontShorthand, if the value is one.
fn font(value: &str) -> Option<Vec<(Kind, &str)>> {
    let mut s = Stream::from(value);
    skip_blank(&mut s);
    let mut parts = [None; 6];
    for _ in 0..4 {
        let start = s.pos();
        let word = numeric(&mut s).map_or_else(|| ascii_ident(&mut s), |number| number.token);
        match font_word(word) {
            Some(Some(kind)) => parts[kind as usize - Kind::FontStretch as usize] = Some((kind, word)),
            Some(None) => {}
            None => {
                s = Stream::from(value);
                s.advance(start);
                break;
            }
        }
        skip_blank(&mut s);
    }
    parts[4] = Some((Kind::FontSize, font_size(&mut s)?));
    skip_blank(&mut s);
    if s.curr_byte().ok()? == b'/' {
        // The height of lines, which SVG does not use.
        s.advance(1);
        skip_blank(&mut s);
        length(&mut s)?;
        skip_blank(&mut s);
    }
    if s.at_end() {
        return None;
    }
    parts[5] = Some((Kind::FontFamily, s.slice_tail()));
    Some(parts.iter().flatten().copied().collect())
}

/// What a word before a font's size sets: `normal` nothing, since all is reset before.
fn font_word(word: &str) -> Option<Option<Kind>> {
    match word {
        "normal" => Some(None),
        "small-caps" => Some(Some(Kind::FontVariant)),
        "italic" | "oblique" => Some(Some(Kind::FontStyle)),
        "bold" | "bolder" | "lighter" | "100" | "200" | "300" | "400" | "500" | "600" | "700" | "800" | "900" => {
            Some(Some(Kind::FontWeight))
        }
        "ultra-condensed" | "extra-condensed" | "condensed" | "semi-condensed" | "semi-expanded" | "expanded"
        | "extra-expanded" | "ultra-expanded" => Some(Some(Kind::FontStretch)),
        _ => None,
    }
}

/// A font's size: a length, or one of the words.
fn font_size<'a>(s: &mut Stream<'a>) -> Option<&'a str> {
    let start = s.pos();
    if s.curr_byte().ok()?.is_ascii_digit() {
        length(s)?;
        return Some(s.slice_back(start));
    }
    let word = ascii_ident(s);
    let is_size =
        matches!(word, "xx-small" | "x-small" | "small" | "medium" | "large" | "x-large" | "xx-large" | "larger" | "smaller");
    is_size.then_some(word)
}

#[cfg(test)]
mod tests {
    use super::*;

    #[test]
    fn links() {
        assert_eq!([" #a ", "#a b", "a#b", "#", "# a"].map(iri), [Some("a"), None, None, None, None]);
        assert_eq!(["url(#a)", " url( #a ) ", "url('#a')", "url(\" #a \")"].map(func_iri), [Some("a"); 4]);
        assert_eq!(["url(#a) x", "url(a)", "url('#a)", "url(#)", "URL(#a)", "url(#a"].map(func_iri), [None; 6]);
    }

    #[test]
    fn paints() {
        let read =
            ["url(#a)", " url(#a) none ", "url(#a) red", "url(#a)#fff8", "url(#a) rgba(1, 2, 3, .5)", "url(#a) hsl(120 50% 50%)"];
        assert_eq!(read.map(paint), [Some("a"); 6]);
        assert_eq!(["none", "red", "url(#a) unknown", "url(#a) rgb(1)", "url(#a) rgb (1, 2, 3)"].map(paint), [None; 5]);
        // Debian's svgtypes reads on behind a unit; the forms that it does not know are read by tokens.
        assert_eq!(["url(#a) rgb(1px2,3)", "url(#a) rgba(1px2,3,4)"].map(paint), [Some("a"), None]);
    }

    #[test]
    fn filters() {
        assert_eq!(filter_urls("url(#a) blur(2) url('#b') hue-rotate(90deg)url(#c)"), ["a", "b", "c"]);
        assert_eq!(filter_urls("url(#a) drop-shadow(1px 2px rgba(0,0,0,.5)) sepia() url(#b)"), ["a", "b"]);
        assert_eq!(filter_urls("url(#a) unknown(1) url(#b)"), ["a"]);
        assert_eq!(filter_urls("url(#a) blur(1%) url(#b)"), ["a"]);
        assert_eq!(filter_urls("none"), Vec::<&str>::new());
    }

    #[test]
    fn a_unit_is_the_whole_identifier() {
        let is_read = |inside: &str| filter_urls(&format!("drop-shadow({inside}) url(#a)")) == ["a"];
        assert!(["2px+2px", "2px.5px", "2px/* a */2px", "1-2", "-1--2"].map(is_read) == [true, true, true, true, false]);
        assert!(!["2px2px", "2px-2px", "2px--2px", "2px_ 2px", "2px\u{e9} 2px", "2 px 2px", "1. 2"]
            .iter()
            .any(|inside| is_read(inside)));
        assert!(["1px 2px#fff", "red+1px 2px", "rgb(1, 2, 3)1px 2px", "1 2 hsl(3deg 4%5%)"].iter().all(|inside| is_read(inside)));
        assert!(!["1px 2pxred", "red1px 2px", "1px red 2px", "red 1 2 red", "1 2 hsl(3deg4% 5%)"]
            .iter()
            .any(|inside| is_read(inside)));
        let is_read = |function: &str| filter_urls(&format!("{function}/**/url(#a)")) == ["a"];
        assert!(["blur(1e1px)", "blur( /* a */ 2px )", "hue-rotate(+.5rad)", "sepia(5%)", "sepia()"].iter().all(|f| is_read(f)));
        assert!(!["blur(1.px)", "blur(2pxx)", "blur (2px)", "hue-rotate(1degrad)", "sepia(1e)", "sepia(1e999)"]
            .iter()
            .any(|f| is_read(f)));
    }

    #[test]
    fn fonts() {
        use Kind::*;
        assert_eq!(font("12px Arial"), Some(vec![(FontSize, "12px"), (FontFamily, "Arial")]));
        let all = "italic small-caps bold condensed 10pt/1.5 'A B', serif";
        let parts = vec![
            (FontStretch, "condensed"),
            (FontWeight, "bold"),
            (FontVariant, "small-caps"),
            (FontStyle, "italic"),
            (FontSize, "10pt"),
            (FontFamily, "'A B', serif"),
        ];
        assert_eq!(font(all), Some(parts));
        assert_eq!(font("normal x-large serif"), Some(vec![(FontSize, "x-large"), (FontFamily, "serif")]));
        assert_eq!(font("100.5px/* a */serif"), Some(vec![(FontSize, "100.5px"), (FontFamily, "serif")]));
        assert_eq!(["inherit", "12px", "12px/2", "bold", "", "5 "].map(font), [None, None, None, None, None, None]);
        assert_eq!(["12pxserif", "12px-serif", "12px/2serif", "12serif"].map(font), [None, None, None, None]);
    }

    #[test]
    fn each_name_has_the_readings_that_the_rust_asks_for() {
        let kinds =
            |place, name, value| readings(place, names::attribute(name), value).iter().map(|r| r.0 as u8).collect::<Vec<_>>();
        assert_eq!(kinds(Place::Attribute, "filter", "url(#a)"), [2, 4]);
        assert_eq!(kinds(Place::Declaration, "filter", "url(#a) url(#b)"), [4, 4]);
        assert_eq!(kinds(Place::Declaration, "href", "#a"), []);
        assert_eq!(kinds(Place::Attribute, "font", "1px a"), []);
        assert_eq!(kinds(Place::Attribute, "stroke", "url(#a)"), [3]);
        assert_eq!(kinds(Place::Attribute, "mask", "url(#a)"), [2]);
        assert_eq!(kinds(Place::Attribute, "marker-end", "url(#a)"), []);
    }
}
