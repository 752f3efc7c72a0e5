//! The names of elements and attributes and their codes: document 01, section 1, and names.rs of the Rust.

/// The elements in the order of their codes.
#[rustfmt::skip]
pub static ELEMENTS: [&str; 53] = [
    "a", "circle", "clipPath", "defs", "ellipse", "feBlend", "feColorMatrix", "feComponentTransfer", "feComposite",
    "feConvolveMatrix", "feDiffuseLighting", "feDisplacementMap", "feDistantLight", "feDropShadow", "feFlood", "feFuncA",
    "feFuncB", "feFuncG", "feFuncR", "feGaussianBlur", "feImage", "feMerge", "feMergeNode", "feMorphology", "feOffset",
    "fePointLight", "feSpecularLighting", "feSpotLight", "feTile", "feTurbulence", "filter", "g", "image", "line",
    "linearGradient", "marker", "mask", "path", "pattern", "polygon", "polyline", "radialGradient", "rect", "stop", "style",
    "svg", "switch", "symbol", "text", "textPath", "tref", "tspan", "use",
];

/// The attributes in the order of their codes.
#[rustfmt::skip]
pub static ATTRIBUTES: [&str; 211] = [
    "alignment-baseline", "amplitude", "azimuth", "background-color", "baseFrequency", "baseline-shift", "bias", "class",
    "clip", "clip-path", "clip-rule", "clipPathUnits", "color", "color-interpolation", "color-interpolation-filters",
    "color-profile", "color-rendering", "cx", "cy", "d", "diffuseConstant", "direction", "display", "divisor",
    "dominant-baseline", "dx", "dy", "edgeMode", "elevation", "enable-background", "exponent", "fill", "fill-opacity",
    "fill-rule", "filter", "filterUnits", "flood-color", "flood-opacity", "font", "font-family", "font-feature-settings",
    "font-kerning", "font-optical-sizing", "font-size", "font-size-adjust", "font-stretch", "font-style", "font-synthesis",
    "font-variant", "font-variant-caps", "font-variant-east-asian", "font-variant-ligatures", "font-variant-numeric",
    "font-variant-position", "font-variation-settings", "font-weight", "fr", "fx", "fy", "glyph-orientation-horizontal",
    "glyph-orientation-vertical", "gradientTransform", "gradientUnits", "height", "href", "id", "image-rendering", "in", "in2",
    "inline-size", "intercept", "isolation", "k1", "k2", "k3", "k4", "kernelMatrix", "kernelUnitLength", "kerning",
    "lengthAdjust", "letter-spacing", "lighting-color", "limitingConeAngle", "line-height", "marker-end", "marker-mid",
    "marker-start", "markerHeight", "markerUnits", "markerWidth", "mask", "mask-border", "mask-border-mode",
    "mask-border-outset", "mask-border-repeat", "mask-border-slice", "mask-border-source", "mask-border-width", "mask-clip",
    "mask-composite", "mask-image", "mask-mode", "mask-origin", "mask-position", "mask-size", "mask-type", "maskContentUnits",
    "maskUnits", "mix-blend-mode", "mode", "numOctaves", "offset", "opacity", "operator", "order", "orient", "overflow",
    "paint-order", "path", "pathLength", "patternContentUnits", "patternTransform", "patternUnits", "points", "pointsAtX",
    "pointsAtY", "pointsAtZ", "preserveAlpha", "preserveAspectRatio", "primitiveUnits", "r", "radius", "refX", "refY",
    "requiredExtensions", "requiredFeatures", "result", "rotate", "rx", "ry", "scale", "seed", "shape-image-threshold",
    "shape-inside", "shape-margin", "shape-padding", "shape-rendering", "shape-subtract", "side", "slope", "space",
    "specularConstant", "specularExponent", "spreadMethod", "startOffset", "stdDeviation", "stitchTiles", "stop-color",
    "stop-opacity", "stroke", "stroke-dasharray", "stroke-dashoffset", "stroke-linecap", "stroke-linejoin", "stroke-miterlimit",
    "stroke-opacity", "stroke-width", "style", "surfaceScale", "systemLanguage", "tableValues", "targetX", "targetY",
    "text-align", "text-align-last", "text-anchor", "text-decoration", "text-decoration-color", "text-decoration-fill",
    "text-decoration-line", "text-decoration-stroke", "text-decoration-style", "text-indent", "text-orientation",
    "text-overflow", "text-rendering", "text-underline-position", "textLength", "transform", "transform-box",
    "transform-origin", "type", "unicode-bidi", "unicode-range", "values", "vector-effect", "viewBox", "visibility",
    "white-space", "width", "word-spacing", "writing-mode", "x", "x1", "x2", "xChannelSelector", "y", "y1", "y2",
    "yChannelSelector", "z",
];

/// The code of a name that is not in the list asked.
pub const UNLISTED: u8 = 255;
/// The code of the declaration `marker`, which stands for three attributes.
pub const MARKER: u8 = 254;
/// The code of the attribute `id`.
pub const ID: u8 = 65;
/// The code of the declaration `font`, which stands for fourteen attributes.
pub const FONT: u8 = 38;

/// The fixed values: that with number 1 comes first.
#[rustfmt::skip]
pub static FIXED: [&str; 18] = [
    "none", "auto", "normal", "black", "1", "nonzero", "baseline", "linearRGB", "ltr", "inline", "medium", "visible", "0", "butt",
    "miter", "4", "start", "lr-tb",
];

fn code(list: &[&str], name: &str) -> u8 {
    list.iter().position(|n| *n == name).map_or(UNLISTED, |place| place as u8)
}

/// The code of an element, from its name without a prefix.
pub fn element(name: &str) -> u8 {
    code(&ELEMENTS, name)
}

/// The code of an attribute, from its name without a prefix.
pub fn attribute(name: &str) -> u8 {
    code(&ATTRIBUTES, name)
}

/// The code of a declaration.
pub fn declaration(name: &str) -> u8 {
    if name == "marker" {
        MARKER
    } else {
        attribute(name)
    }
}

/// The URIs of the namespaces with the codes 1, 2 and 3.
pub static NAMESPACES: [&str; 3] =
    ["http://www.w3.org/2000/svg", "http://www.w3.org/1999/xlink", "http://www.w3.org/XML/1998/namespace"];

/// The code of a namespace: 0 for none, 1 to 3 by its URI, 4 for another. `xmlns=""` is another, as roxmltree has it.
pub fn namespace(uri: Option<&str>) -> u8 {
    match uri {
        None => 0,
        Some(uri) => NAMESPACES.iter().position(|n| *n == uri).map_or(4, |place| place as u8 + 1),
    }
}

#[cfg(test)]
mod tests {
    use super::*;

    /// The project's lists have the names as the Rust's enums spell them: `clip-path` as ClipPath.
    fn variant(name: &str) -> String {
        let mut variant = String::new();
        let mut is_start = true;
        for letter in name.chars() {
            if letter == '-' {
                is_start = true;
            } else {
                variant.push(if is_start { letter.to_ascii_uppercase() } else { letter });
                is_start = false;
            }
        }
        variant
    }

    fn listed(kind: &str) -> Vec<&'static str> {
        let lists = include_str!("../../tools/names.lists");
        let line = lists.lines().find(|l| l.split(' ').next() == Some(kind)).unwrap();
        line.split(' ').skip(2).collect()
    }

    #[test]
    fn names_stand_in_the_order_of_the_projects_lists() {
        assert_eq!(ELEMENTS.iter().map(|n| variant(n)).collect::<Vec<_>>(), listed("EId"));
        assert_eq!(ATTRIBUTES.iter().map(|n| variant(n)).collect::<Vec<_>>(), listed("AId"));
    }

    /// Where the Rust lies beside the project, each pair of its two maps is a name and its code.
    #[test]
    fn names_are_spelled_as_in_the_rust() {
        let file = concat!(env!("CARGO_MANIFEST_DIR"), "/../../shared/docs/src/src/parser/svgtree/names.rs");
        let rust = match std::fs::read_to_string(file) {
            Ok(rust) => rust,
            Err(_) => return,
        };
        let mut seen = 0;
        for line in rust.lines().map(str::trim).filter(|l| l.starts_with("(\"")) {
            let (name, rest) = line[2..].split_once('"').unwrap();
            let kind_and_variant = rest.trim_matches(&[',', ' ', '(', ')'][..]);
            let (kind, wanted) = kind_and_variant.split_once("::").unwrap();
            let list = if kind == "EId" { &ELEMENTS[..] } else { &ATTRIBUTES[..] };
            assert!(list.contains(&name) && variant(name) == wanted, "{name}");
            seen += 1;
        }
        assert_eq!(seen, ELEMENTS.len() + ATTRIBUTES.len());
    }

    #[test]
    fn codes() {
        assert_eq!((attribute("id"), declaration("font")), (ID, FONT));
        assert_eq!((element("a"), element("svg"), element("use"), element("fill")), (0, 45, 52, 255));
        assert_eq!((attribute("clip-path"), attribute("clipPath"), attribute("z"), attribute("marker")), (9, 255, 210, 255));
        assert_eq!((declaration("marker"), declaration("font"), declaration("Fill")), (254, 38, 255));
        assert_eq!(
            [None, Some(NAMESPACES[0]), Some(NAMESPACES[1]), Some(NAMESPACES[2]), Some("")].map(namespace),
            [0, 1, 2, 3, 4]
        );
    }
}
