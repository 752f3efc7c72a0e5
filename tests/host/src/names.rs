//! The names of attributes and the classes that the questions ask about: names.rs and mod.rs of the Rust.

/// The attributes in the order of their codes.
#[derive(Clone, Copy)]
#[repr(u32)]
#[rustfmt::skip]
pub enum AId {
    AlignmentBaseline, Amplitude, Azimuth, BackgroundColor, BaseFrequency, BaselineShift, Bias, Class, Clip,
    ClipPath, ClipRule, ClipPathUnits, Color, ColorInterpolation, ColorInterpolationFilters, ColorProfile,
    ColorRendering, Cx, Cy, D, DiffuseConstant, Direction, Display, Divisor, DominantBaseline, Dx, Dy,
    EdgeMode, Elevation, EnableBackground, Exponent, Fill, FillOpacity, FillRule, Filter, FilterUnits,
    FloodColor, FloodOpacity, Font, FontFamily, FontFeatureSettings, FontKerning, FontOpticalSizing,
    FontSize, FontSizeAdjust, FontStretch, FontStyle, FontSynthesis, FontVariant, FontVariantCaps,
    FontVariantEastAsian, FontVariantLigatures, FontVariantNumeric, FontVariantPosition,
    FontVariationSettings, FontWeight, Fr, Fx, Fy, GlyphOrientationHorizontal, GlyphOrientationVertical,
    GradientTransform, GradientUnits, Height, Href, Id, ImageRendering, In, In2, InlineSize, Intercept,
    Isolation, K1, K2, K3, K4, KernelMatrix, KernelUnitLength, Kerning, LengthAdjust, LetterSpacing,
    LightingColor, LimitingConeAngle, LineHeight, MarkerEnd, MarkerMid, MarkerStart, MarkerHeight,
    MarkerUnits, MarkerWidth, Mask, MaskBorder, MaskBorderMode, MaskBorderOutset, MaskBorderRepeat,
    MaskBorderSlice, MaskBorderSource, MaskBorderWidth, MaskClip, MaskComposite, MaskImage, MaskMode,
    MaskOrigin, MaskPosition, MaskSize, MaskType, MaskContentUnits, MaskUnits, MixBlendMode, Mode,
    NumOctaves, Offset, Opacity, Operator, Order, Orient, Overflow, PaintOrder, Path, PathLength,
    PatternContentUnits, PatternTransform, PatternUnits, Points, PointsAtX, PointsAtY, PointsAtZ,
    PreserveAlpha, PreserveAspectRatio, PrimitiveUnits, R, Radius, RefX, RefY, RequiredExtensions,
    RequiredFeatures, Result, Rotate, Rx, Ry, Scale, Seed, ShapeImageThreshold, ShapeInside, ShapeMargin,
    ShapePadding, ShapeRendering, ShapeSubtract, Side, Slope, Space, SpecularConstant, SpecularExponent,
    SpreadMethod, StartOffset, StdDeviation, StitchTiles, StopColor, StopOpacity, Stroke, StrokeDasharray,
    StrokeDashoffset, StrokeLinecap, StrokeLinejoin, StrokeMiterlimit, StrokeOpacity, StrokeWidth, Style,
    SurfaceScale, SystemLanguage, TableValues, TargetX, TargetY, TextAlign, TextAlignLast, TextAnchor,
    TextDecoration, TextDecorationColor, TextDecorationFill, TextDecorationLine, TextDecorationStroke,
    TextDecorationStyle, TextIndent, TextOrientation, TextOverflow, TextRendering, TextUnderlinePosition,
    TextLength, Transform, TransformBox, TransformOrigin, Type, UnicodeBidi, UnicodeRange, Values,
    VectorEffect, ViewBox, Visibility, WhiteSpace, Width, WordSpacing, WritingMode, X, X1, X2,
    XChannelSelector, Y, Y1, Y2, YChannelSelector, Z,
}
use AId::*;

/// How many codes there are.
pub const NAMES: usize = 211;

/// Names that a node takes from the nearest ancestor that has one.
#[rustfmt::skip]
static INHERITABLE: [bool; NAMES] = marked(&[
    BackgroundColor, ClipRule, Color, ColorInterpolation, ColorInterpolationFilters, ColorRendering,
    Direction, DominantBaseline, Fill, FillOpacity, FillRule, FontFamily, FontKerning, FontOpticalSizing,
    FontSize, FontSizeAdjust, FontStretch, FontStyle, FontVariant, FontVariationSettings, FontWeight,
    GlyphOrientationHorizontal, GlyphOrientationVertical, ImageRendering, Isolation, LetterSpacing,
    MarkerEnd, MarkerMid, MarkerStart, MaskType, MixBlendMode, PaintOrder, ShapeRendering, Stroke,
    StrokeDasharray, StrokeDashoffset, StrokeLinecap, StrokeLinejoin, StrokeMiterlimit, StrokeOpacity,
    StrokeWidth, TextAnchor, TextOverflow, TextRendering, UnicodeBidi, VectorEffect, Visibility, WhiteSpace,
    WordSpacing, WritingMode,
]);

/// Names whose value none counts as absent.
#[rustfmt::skip]
static NONE_IS_ABSENT: [bool; NAMES] = marked(&[
    Mask, MarkerStart, MarkerMid, MarkerEnd, ClipPath, Filter, FontSizeAdjust, TextDecoration, Stroke, StrokeDasharray,
]);

/// The fixed values; the first one has number 1.
#[rustfmt::skip]
pub static FIXED: [&str; 18] = [
    "none", "auto", "normal", "black", "1", "nonzero", "baseline", "linearRGB", "ltr", "inline", "medium", "visible", "0",
    "butt", "miter", "4", "start", "lr-tb",
];

const fn marked(names: &[AId]) -> [bool; NAMES] {
    let mut table = [false; NAMES];
    let mut i = 0;
    while i < names.len() {
        table[names[i] as usize] = true;
        i += 1;
    }
    table
}

pub fn is_inheritable(code: u32) -> bool {
    INHERITABLE[code as usize]
}

pub fn none_is_absent(code: u32) -> bool {
    NONE_IS_ABSENT[code as usize]
}
