//! Debian's svgtypes 0.5 as the Rust calls svgtypes. A link (`IRI`), a link in `url()` without quotes, a colour, a number, a length and an
//! angle are Debian's answers. What Debian's does not know is read here: quotes in `url()`, colours with an opacity or in `hsl()`, lists of
//! filters, and fonts; their tokens are those of CSS Syntax 3. The other types are named by mod.rs alone; reading a document asks for none
//! of them.
use debian::Stream;
use std::str::FromStr;

#[derive(Clone, Copy, Debug, PartialEq)]
pub struct Error;

const SPACES: [char; 4] = [' ', '\t', '\n', '\r'];

fn is_blank(text: &str) -> bool {
    text.trim_start_matches(SPACES).is_empty()
}

/// The longest start of a text that is something; empty if none is.
fn longest(text: &str, is_one: impl Fn(&str) -> bool) -> &str {
    let starts = text.char_indices().map(|(k, c)| &text[..k + c.len_utf8()]);
    starts.rev().find(|start| is_one(start)).unwrap_or("")
}

/// Digits, with a point before the last ones or without, a sign before them or not, and an exponent or none.
fn is_number(text: &str) -> bool {
    let are_digits = |text: &str| !text.is_empty() && text.chars().all(|c| c.is_ascii_digit());
    let (mantissa, exponent) = text.split_once(['e', 'E']).unwrap_or((text, "0"));
    let [mantissa, exponent] = [mantissa, exponent].map(|part| part.strip_prefix(['+', '-']).unwrap_or(part));
    let (whole, fraction) = mantissa.split_once('.').unwrap_or(("", mantissa));
    (whole.is_empty() || are_digits(whole)) && are_digits(fraction) && are_digits(exponent)
}

/// What a name may have: anything but ASCII's signs, of which `-`, `_` and the backslash of an escape are allowed.
fn is_name(text: &str) -> bool {
    text.chars().all(|c| !c.is_ascii() || c.is_ascii_alphanumeric() || "-_\\".contains(c))
}

/// A name that begins with no digit, nor with a `-` that is alone or before a digit.
fn is_identifier(text: &str) -> bool {
    let first = text.strip_prefix('-').unwrap_or(text).chars().next();
    is_name(text) && first.map_or(false, |c| !c.is_ascii_digit())
}

/// The number and the unit that a text begins with, which are one token.
fn number(text: &str) -> Option<(&str, &str)> {
    let number = longest(text, is_number);
    let behind = &text[number.len()..];
    let unit = if behind.starts_with('%') { "%" } else { longest(behind, is_identifier) };
    (!number.is_empty()).then_some((number, unit))
}

/// What stands behind spaces and comments.
fn behind_blank(text: &str) -> &str {
    let text = text.trim_start_matches(SPACES);
    match text.strip_prefix("/*") {
        Some(comment) => behind_blank(comment.split_once("*/").map_or("", |(_, behind)| behind)),
        None => text,
    }
}

/// A link: `#` and an id.
pub struct IRI<'a>(pub &'a str);

impl<'a> IRI<'a> {
    #[allow(clippy::should_implement_trait)]
    pub fn from_str(value: &'a str) -> Result<IRI<'a>, Error> {
        let mut stream = Stream::from(value);
        match stream.parse_iri() {
            Ok(link) if is_blank(stream.slice_tail()) => Ok(IRI(link)),
            _ => Err(Error),
        }
    }
}

/// The link of the `url()` that a text begins with, and what stands behind it.
fn url(text: &str) -> Option<(&str, &str)> {
    let inside = text.trim_start_matches(SPACES).strip_prefix("url(")?.trim_start_matches(SPACES);
    let (link, behind) = match inside.chars().next()? {
        quote @ ('\'' | '"') => {
            let (quoted, behind) = inside[1..].split_once(quote)?;
            let link = quoted.trim_start_matches(SPACES).strip_prefix('#')?.trim_end();
            (link, behind.trim_start_matches(SPACES).strip_prefix(')')?)
        }
        _ => {
            let mut stream = Stream::from(text);
            (stream.parse_func_iri().ok()?, stream.slice_tail())
        }
    };
    (!link.is_empty() && !link.contains(['\'', '"'])).then_some((link, behind))
}

/// A link in `url()`.
pub struct FuncIRI<'a>(pub &'a str);

impl<'a> FuncIRI<'a> {
    #[allow(clippy::should_implement_trait)]
    pub fn from_str(value: &'a str) -> Result<FuncIRI<'a>, Error> {
        match url(value) {
            Some((link, behind)) if is_blank(behind) => Ok(FuncIRI(link)),
            _ => Err(Error),
        }
    }
}

pub struct PaintFallback;

/// A paint: what it is beside a link does not matter here.
pub enum Paint<'a> {
    None,
    FuncIRI(&'a str, Option<PaintFallback>),
}

impl<'a> Paint<'a> {
    #[allow(clippy::should_implement_trait)]
    pub fn from_str(value: &'a str) -> Result<Paint<'a>, Error> {
        let (link, behind) = url(value.trim()).ok_or(Error)?;
        let behind = behind.trim_start_matches(SPACES);
        let is_known = match debian::Paint::from_str(&format!("url(#a) {behind}")) {
            Ok(debian::Paint::FuncIRI(..)) => true,
            _ => is_later_color(behind),
        };
        if is_known {
            Ok(Paint::FuncIRI(link, None))
        } else {
            Err(Error)
        }
    }
}

/// A colour of a form that Debian's svgtypes does not have: `transparent`, four or eight digits, or `rgb`, `rgba`, `hsl`, `hsla`.
fn is_later_color(text: &str) -> bool {
    let text = text.to_ascii_lowercase();
    if let Some(digits) = text.strip_prefix('#') {
        return [4, 8].contains(&digits.len()) && digits.chars().all(|c| c.is_ascii_hexdigit());
    }
    match text.strip_suffix(')').and_then(|text| text.split_once('(')) {
        Some((name, inside)) => ["rgb", "rgba", "hsl", "hsla"].contains(&name) && [Some(3), Some(4)].contains(&amounts(inside)),
        None => text == "transparent",
    }
}

/// How many numbers a colour has; None if there is anything else.
fn amounts(inside: &str) -> Option<usize> {
    let text = inside.trim_start_matches([' ', '\t', '\n', '\r', ',', '/']);
    if text.is_empty() {
        return Some(0);
    }
    let (amount, unit) = number(text)?;
    let is_known = ["", "%", "deg", "grad", "rad", "turn"].contains(&unit) && amount.parse::<f64>().map_or(false, f64::is_finite);
    amounts(&text[amount.len() + unit.len()..]).filter(|_| is_known).map(|count| count + 1)
}

fn is_color(text: &str) -> bool {
    text == "currentColor" || debian::Color::from_str(text).is_ok() || is_later_color(text)
}

pub enum FilterValue<'a> {
    Function,
    Url(&'a str),
}

/// A list of filters. It ends behind the first that cannot be read.
pub struct FilterValueListParser<'a>(&'a str);

impl<'a> From<&'a str> for FilterValueListParser<'a> {
    fn from(value: &'a str) -> Self {
        FilterValueListParser(value)
    }
}

impl<'a> Iterator for FilterValueListParser<'a> {
    type Item = Result<FilterValue<'a>, Error>;

    fn next(&mut self) -> Option<Self::Item> {
        let text = behind_blank(self.0);
        if text.is_empty() {
            return None;
        }
        let read = if text.starts_with("url(") {
            url(text).map(|(link, behind)| (FilterValue::Url(link), behind))
        } else {
            function(text).map(|behind| (FilterValue::Function, behind))
        };
        self.0 = read.as_ref().map_or("", |(_, behind)| behind);
        Some(read.map(|(value, _)| value).ok_or(Error))
    }
}

/// The token that a text begins with, a function with all up to its bracket: a number, a word, a `#` with a name, or a function.
fn token(text: &str) -> Option<&str> {
    if let Some((number, unit)) = number(text) {
        return Some(&text[..number.len() + unit.len()]);
    }
    if let Some(name) = text.strip_prefix('#') {
        return Some(&text[..1 + longest(name, is_name).len()]);
    }
    let word = longest(text, is_identifier);
    let length = match text[word.len()..].strip_prefix('(') {
        Some(inside) => word.len() + inside.find(')')? + 2,
        None => word.len(),
    };
    (!word.is_empty()).then_some(&text[..length])
}

/// The functions of a number.
const AMOUNTS: [&str; 7] = ["brightness", "contrast", "grayscale", "invert", "opacity", "saturate", "sepia"];

/// What stands behind the function that a text begins with.
fn function(text: &str) -> Option<&str> {
    let name = longest(text, is_identifier);
    let mut behind = behind_blank(text[name.len()..].strip_prefix('(')?);
    let mut tokens = Vec::new();
    while !behind.starts_with(')') {
        let token = token(behind)?;
        tokens.push(token);
        behind = behind_blank(&behind[token.len()..]);
    }
    let fits = match (name, &tokens[..]) {
        ("drop-shadow", _) => is_shadow(&tokens),
        ("blur", [length]) => is_length(length),
        ("hue-rotate", [angle]) => debian::Angle::from_str(angle).is_ok(),
        ("blur" | "hue-rotate", []) => true,
        (name, [] | [_]) if AMOUNTS.contains(&name) => tokens.iter().all(|amount| {
            let number = amount.strip_suffix('%').unwrap_or(amount).parse::<f64>();
            number.map_or(false, |number| number.is_finite() && number >= 0.0)
        }),
        _ => false,
    };
    fits.then(|| &behind[1..])
}

/// A length that is no percentage.
fn is_length(text: &str) -> bool {
    debian::Length::from_str(text).map_or(false, |length| length.unit != debian::LengthUnit::Percent)
}

/// Two or three lengths, with a colour before or behind them or without one.
fn is_shadow(tokens: &[&str]) -> bool {
    let kind = |token: &str| match token {
        length if is_length(length) => 'l',
        color if is_color(color) => 'c',
        _ => '?',
    };
    let kinds: String = tokens.iter().map(|token| kind(token)).collect();
    ["ll", "lll", "cll", "clll", "llc", "lllc"].contains(&kinds.as_str())
}

/// A font: words, then a size, a height of lines or none, and families.
pub struct FontShorthand<'a> {
    pub font_stretch: Option<&'a str>,
    pub font_weight: Option<&'a str>,
    pub font_variant: Option<&'a str>,
    pub font_style: Option<&'a str>,
    pub font_size: &'a str,
    pub font_family: &'a str,
}

const STRETCHES: &str =
    "ultra-condensed extra-condensed condensed semi-condensed semi-expanded expanded extra-expanded ultra-expanded";
const WEIGHTS: &str = "bold bolder lighter 100 200 300 400 500 600 700 800 900";
const SIZES: &str = "xx-small x-small small medium large x-large xx-large larger smaller";

impl<'a> FontShorthand<'a> {
    #[allow(clippy::should_implement_trait)]
    pub fn from_str(value: &'a str) -> Result<FontShorthand<'a>, Error> {
        let is_one_of = |list: &str, word: &str| list.split(' ').any(|w| w == word);
        let word_of = |text: &'a str| {
            let end = text.find(|c: char| !c.is_ascii_alphanumeric() && c != '-' && c != '_').unwrap_or(text.len());
            &text[..end]
        };
        let mut font = FontShorthand {
            font_stretch: None,
            font_weight: None,
            font_variant: None,
            font_style: None,
            font_size: "",
            font_family: "",
        };
        let mut text = behind_blank(value);
        for _ in 0..4 {
            let word = number(text).map_or_else(|| word_of(text), |(number, unit)| &text[..number.len() + unit.len()]);
            match word {
                "normal" => {}
                "small-caps" => font.font_variant = Some(word),
                "italic" | "oblique" => font.font_style = Some(word),
                _ if is_one_of(WEIGHTS, word) => font.font_weight = Some(word),
                _ if is_one_of(STRETCHES, word) => font.font_stretch = Some(word),
                _ => break,
            }
            text = behind_blank(&text[word.len()..]);
        }
        font.font_size = if text.starts_with(|c: char| c.is_ascii_digit()) { length(text).ok_or(Error)? } else { word_of(text) };
        if !text.starts_with(|c: char| c.is_ascii_digit()) && !is_one_of(SIZES, font.font_size) {
            return Err(Error);
        }
        text = behind_blank(&text[font.font_size.len()..]);
        if let Some(height) = text.strip_prefix('/') {
            let height = behind_blank(height);
            text = behind_blank(&height[length(height).ok_or(Error)?.len()..]);
        }
        font.font_family = text;
        if text.is_empty() {
            Err(Error)
        } else {
            Ok(font)
        }
    }
}

/// The length that a text begins with.
fn length(text: &str) -> Option<&str> {
    let (number, unit) = number(text)?;
    let length = &text[..number.len() + unit.len()];
    debian::Length::from_str(length).ok().map(|_| length)
}

macro_rules! never_read {
    ($($name:ident { $($field:ident: $kind:ty),* })*) => {
        $(
            #[derive(Clone, Copy)]
            pub struct $name {
                $(pub $field: $kind),*
            }

            impl $name {
                #[allow(clippy::should_implement_trait)]
                pub fn from_str(_: &str) -> Result<$name, Error> {
                    Err(Error)
                }
            }
        )*
    };
}

#[derive(Clone, Copy, PartialEq)]
pub enum LengthUnit {
    None,
    Percent,
}

never_read! {
    Length { number: f64, unit: LengthUnit }
    Transform { a: f64, b: f64, c: f64, d: f64, e: f64, f: f64 }
    TransformOrigin {}
    ViewBox {}
    AspectRatio {}
    PaintOrder {}
    Color {}
    Angle {}
    EnableBackground {}
}

pub struct Number(pub f64);

impl Number {
    #[allow(clippy::should_implement_trait)]
    pub fn from_str(_: &str) -> Result<Number, Error> {
        Err(Error)
    }
}

macro_rules! empty_lists {
    ($($name:ident: $kind:ty),*) => {
        $(
            pub struct $name;

            impl From<&str> for $name {
                fn from(_: &str) -> Self {
                    $name
                }
            }

            impl Iterator for $name {
                type Item = Result<$kind, Error>;

                fn next(&mut self) -> Option<Self::Item> {
                    None
                }
            }
        )*
    };
}

empty_lists! { NumberListParser: f64, LengthListParser: Length }

#[cfg(test)]
mod tests {
    use super::*;

    fn urls(value: &str) -> Vec<&str> {
        let url = |value| if let Ok(FilterValue::Url(link)) = value { Some(link) } else { None };
        FilterValueListParser::from(value).filter_map(url).collect()
    }

    #[test]
    fn links() {
        let read = |value| FuncIRI::from_str(value).ok().map(|f| f.0);
        assert_eq!(["url(#a)", " url( '#a' ) ", "url(\"#a\")", "url(#a )"].map(read), [Some("a"); 4]);
        assert_eq!(["url(#a) b", "url(a)", "url('#a)", "url()", "url(#a'b)", "url('')"].map(read), [None; 6]);
    }

    #[test]
    fn paints() {
        let is_link = |value: &str| matches!(Paint::from_str(value), Ok(Paint::FuncIRI("a", None)));
        let all = ["", " none", "red", " rgb(1,2,3)", "#123", "#1234", " hsl(1deg 2% 3% / 4)", " transparent"];
        assert!(all.iter().all(|c| is_link(&format!("url(#a){c}"))));
        assert!(["nothing", " rgb(1)", "#12"].iter().all(|c| !is_link(&format!("url(#a){c}"))));
    }

    #[test]
    fn filters() {
        assert_eq!(urls("url(#a) blur(1px)url('#b') drop-shadow(1 2 rgba(1, 2, 3, .4)) url(#c)"), ["a", "b", "c"]);
        assert_eq!(urls("drop-shadow(red 1 2 3)url(#a) sepia(-1) url(#b)"), ["a"]);
        assert_eq!(urls("none url(#a)"), Vec::<&str>::new());
    }

    #[test]
    fn tokens() {
        let is_read = |function: &&str| urls(&format!("{function} url(#a)")) == ["a"];
        let good = [
            "drop-shadow(2px+2px)", "drop-shadow(2px.5px)", "drop-shadow(2px/**/2px)", "drop-shadow(1-2)",
            "drop-shadow(1px 2px#fff)", "drop-shadow(rgb(1,2,3)1px 2px)", "drop-shadow(red+1px 2px)", "blur(1e1px)",
            "blur(/* a */2px)", "drop-shadow(1 2 hsl(3deg 4%5%))",
        ];
        assert!(good.iter().all(|function| is_read(function)));
        let bad = [
            "drop-shadow(2px2px)", "drop-shadow(2px-2px)", "drop-shadow(1px 2pxred)", "drop-shadow(1px red 2px)", "blur(1.px)",
            "blur(2 px)", "blur(2px--)", "blur (2px)", "drop-shadow(1 2 hsl(3deg4 5% 6%))", "sepia(1e)", "hue-rotate(1degrad)",
            "drop-shadow(1px 2pxé)",
        ];
        assert!(!bad.iter().any(|function| is_read(function)));
    }

    #[test]
    fn fonts() {
        let font = FontShorthand::from_str("  small-caps 700 12pt/ 2 A, 'B'").ok().unwrap();
        assert_eq!((font.font_variant, font.font_weight, font.font_style), (Some("small-caps"), Some("700"), None));
        assert_eq!((font.font_size, font.font_family), ("12pt", "A, 'B'"));
        let font = FontShorthand::from_str("100.5px/* a */'B'").ok().unwrap();
        assert_eq!((font.font_weight, font.font_size, font.font_family), (None, "100.5px", "'B'"));
        let bad = ["12px", "inherit", "bold A", "12px/A", "12pxA", "12px/2A", "12px-A", "12A"];
        assert!(bad.iter().all(|value| FontShorthand::from_str(value).is_err()));
    }
}
