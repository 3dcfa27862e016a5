//! Stand-in for fonts, which are not compared: none can be made.
#[derive(Clone, Debug)]
pub enum FontArc {}

#[derive(Clone, Copy)]
pub struct GlyphId;

pub struct Glyph {
    pub id: GlyphId,
}

pub struct Point {
    pub x: f32,
    pub y: f32,
}

pub struct Rect {
    pub min: Point,
}

pub enum OutlinedGlyph {}

impl OutlinedGlyph {
    pub fn draw(&self, _: impl FnMut(u32, u32, f32)) {
        match *self {}
    }

    pub fn px_bounds(&self) -> Rect {
        match *self {}
    }
}

impl FontArc {
    pub fn try_from_slice(_: &'static [u8]) -> Result<Self, &'static str> {
        Err("no fonts")
    }

    pub fn try_from_vec(_: Vec<u8>) -> Result<Self, &'static str> {
        Err("no fonts")
    }
}

pub trait Font: Sized {
    fn pt_to_px_scale(&self, size: f32) -> Option<f32>;
    fn as_scaled(&self, scale: f32) -> Self;
}

pub trait ScaleFont {
    fn h_advance(&self, id: GlyphId) -> f32;
    fn scaled_glyph(&self, c: char) -> Glyph;
    fn outline_glyph(&self, glyph: Glyph) -> Option<OutlinedGlyph>;
}

impl Font for FontArc {
    fn pt_to_px_scale(&self, _: f32) -> Option<f32> {
        match *self {}
    }

    fn as_scaled(&self, _: f32) -> Self {
        match *self {}
    }
}

impl ScaleFont for FontArc {
    fn h_advance(&self, _: GlyphId) -> f32 {
        match *self {}
    }

    fn scaled_glyph(&self, _: char) -> Glyph {
        match *self {}
    }

    fn outline_glyph(&self, _: Glyph) -> Option<OutlinedGlyph> {
        match *self {}
    }
}
