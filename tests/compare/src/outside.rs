//! What mod.rs names of the rest of its crate. Reading a document asks for none of it.
#[allow(dead_code)]
pub struct Opacity(f32);

impl Opacity {
    pub fn new_clamped(value: f32) -> Opacity {
        Opacity(value.max(0.0).min(1.0))
    }
}

macro_rules! kinds {
    ($($name:ident { $($kind:ident),* })*) => {
        $(
            pub enum $name {
                $($kind),*
            }
        )*
    };
}

kinds! {
    Units { UserSpaceOnUse, ObjectBoundingBox }
    Visibility { Visible, Hidden, Collapse }
    SpreadMethod { Pad, Reflect, Repeat }
    ShapeRendering { OptimizeSpeed, CrispEdges, GeometricPrecision }
    TextRendering { OptimizeSpeed, OptimizeLegibility, GeometricPrecision }
    ImageRendering { OptimizeQuality, OptimizeSpeed, Smooth, HighQuality, CrispEdges, Pixelated }
    BlendMode {
        Normal, Multiply, Screen, Overlay, Darken, Lighten, ColorDodge, ColorBurn, HardLight, SoftLight, Difference, Exclusion, Hue,
        Saturation, Color, Luminosity, PlusLighter
    }
}
