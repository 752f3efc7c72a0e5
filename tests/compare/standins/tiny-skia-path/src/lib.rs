//! Stand-in of tiny-skia-path: as much as mod.rs names. Reading a document asks for none of it.
#[derive(Clone, Copy, Default)]
pub struct Transform([f32; 6]);

impl Transform {
    pub fn from_row(sx: f32, ky: f32, kx: f32, sy: f32, tx: f32, ty: f32) -> Transform {
        Transform([sx, ky, kx, sy, tx, ty])
    }

    pub fn is_valid(&self) -> bool {
        self.0.iter().all(|v| v.is_finite())
    }
}
