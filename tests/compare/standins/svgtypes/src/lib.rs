//! Stand-in of svgtypes: what a value reads as is what the drawing's readings of that value say. The other types are named by mod.rs
//! alone; reading a document asks for none of them, and none is ever read.
#[derive(Clone, Copy, Debug, PartialEq)]
pub struct Error;

/// Reading kind 1.
pub struct IRI<'a>(pub &'a str);

impl<'a> IRI<'a> {
    #[allow(clippy::should_implement_trait)]
    pub fn from_str(value: &'a str) -> Result<IRI<'a>, Error> {
        drawing::reading(value, 1).map(IRI).ok_or(Error)
    }
}

/// Reading kind 2.
pub struct FuncIRI<'a>(pub &'a str);

impl<'a> FuncIRI<'a> {
    #[allow(clippy::should_implement_trait)]
    pub fn from_str(value: &'a str) -> Result<FuncIRI<'a>, Error> {
        drawing::reading(value, 2).map(FuncIRI).ok_or(Error)
    }
}

pub struct PaintFallback;

/// Reading kind 3.
pub enum Paint<'a> {
    None,
    FuncIRI(&'a str, Option<PaintFallback>),
}

impl<'a> Paint<'a> {
    #[allow(clippy::should_implement_trait)]
    pub fn from_str(value: &'a str) -> Result<Paint<'a>, Error> {
        drawing::reading(value, 3).map(|link| Paint::FuncIRI(link, None)).ok_or(Error)
    }
}

pub enum FilterValue<'a> {
    Blur,
    Url(&'a str),
}

/// Readings of kind 4, behind a function that is no link and one that cannot be read.
pub struct FilterValueListParser<'a>(std::vec::IntoIter<Result<FilterValue<'a>, Error>>);

impl<'a> From<&'a str> for FilterValueListParser<'a> {
    fn from(value: &'a str) -> Self {
        drawing::filters_read();
        let mut all = vec![Ok(FilterValue::Blur), Err(Error)];
        all.extend(drawing::parts(value, 4).into_iter().map(|url| Ok(FilterValue::Url(url))));
        FilterValueListParser(all.into_iter())
    }
}

impl<'a> Iterator for FilterValueListParser<'a> {
    type Item = Result<FilterValue<'a>, Error>;

    fn next(&mut self) -> Option<Self::Item> {
        self.0.next()
    }
}

/// Reading kinds 5 to 10. A font is read if it has a size and a family.
pub struct FontShorthand<'a> {
    pub font_stretch: Option<&'a str>,
    pub font_weight: Option<&'a str>,
    pub font_variant: Option<&'a str>,
    pub font_style: Option<&'a str>,
    pub font_size: &'a str,
    pub font_family: &'a str,
}

impl<'a> FontShorthand<'a> {
    #[allow(clippy::should_implement_trait)]
    pub fn from_str(value: &'a str) -> Result<FontShorthand<'a>, Error> {
        let part = |kind| drawing::reading(value, kind);
        Ok(FontShorthand {
            font_stretch: part(5),
            font_weight: part(6),
            font_variant: part(7),
            font_style: part(8),
            font_size: part(9).ok_or(Error)?,
            font_family: part(10).ok_or(Error)?,
        })
    }
}

macro_rules! never_read {
    ($($name:ident { $($field:ident: $kind:ty),* })*) => {
        $(
            #[derive(Clone, Copy)]
            pub struct $name {
                $(pub $field: $kind),*
            }

            impl $name {
                #[allow(clippy::should_implement_trait)]
                pub fn from_str(_: &str) -> Result<$name, Error> {
                    Err(Error)
                }
            }
        )*
    };
}

#[derive(Clone, Copy, PartialEq)]
pub enum LengthUnit {
    None,
    Percent,
}

never_read! {
    Length { number: f64, unit: LengthUnit }
    Transform { a: f64, b: f64, c: f64, d: f64, e: f64, f: f64 }
    TransformOrigin {}
    ViewBox {}
    AspectRatio {}
    PaintOrder {}
    Color {}
    Angle {}
    EnableBackground {}
}

pub struct Number(pub f64);

impl Number {
    #[allow(clippy::should_implement_trait)]
    pub fn from_str(_: &str) -> Result<Number, Error> {
        Err(Error)
    }
}

pub struct NumberListParser;

impl From<&str> for NumberListParser {
    fn from(_: &str) -> Self {
        NumberListParser
    }
}

impl Iterator for NumberListParser {
    type Item = Result<f64, Error>;

    fn next(&mut self) -> Option<Self::Item> {
        None
    }
}

pub struct LengthListParser;

impl From<&str> for LengthListParser {
    fn from(_: &str) -> Self {
        LengthListParser
    }
}

impl Iterator for LengthListParser {
    type Item = Result<Length, Error>;

    fn next(&mut self) -> Option<Self::Item> {
        None
    }
}
