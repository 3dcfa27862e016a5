//! What `include/tuyrashka.h` declares. A record is handed over by a reference, lent bytes by pointer and length.

use super::{Format, Rule};

/// A canvas, beside its bytes.
#[derive(Clone, Copy, PartialEq, Eq)]
#[repr(C)]
pub struct Record {
    pub format: Format,
    pub width: u32,
    pub height: u32,
    pub xor_mode: u32,
    pub row: u32,
    pub rule: Rule,
}

/// What a call may touch: columns from `x` up to but not including `x + width`, and rows likewise, without wrap. It may lie
/// off the canvas, and a side may be 0.
///
/// ```
/// use tuyrashka::Clip;
///
/// let both = Clip::new(0, 0, 10, 10).intersect(Clip::new(5, 6, 10, 10));
/// assert_eq!(both, Clip { x: 5, y: 6, width: 5, height: 4 });
/// ```
#[derive(Clone, Copy, Debug, PartialEq, Eq, Hash)]
#[repr(C)]
pub struct Clip {
    /// The first column.
    pub x: i32,
    /// The first row.
    pub y: i32,
    /// How many columns there are.
    pub width: u32,
    /// How many rows there are.
    pub height: u32,
}

/// What became of a drawing.
#[derive(Clone, Copy, Debug, Default, PartialEq, Eq, Hash)]
#[non_exhaustive]
#[repr(C)]
pub struct Drawn {
    /// How many plots are on the canvas and inside the clip, whatever their colour; of a copy or an inversion, how many pixels
    /// were written.
    pub landed: u64,
}

/// The sides of an image in a file.
#[derive(Default)]
#[repr(C)]
pub struct Size {
    pub width: u32,
    pub height: u32,
}

#[rustfmt::skip]
#[link(name = "tuyrashka", kind = "static")]
unsafe extern "C" {
    pub fn tuyrashka_put_pixel(
        canvas: &Record, data: *mut u8, data_len: usize, x: i32, y: i32, argb: u32, clip: &Clip, drawn: &mut Drawn,
    ) -> u32;
    pub fn tuyrashka_draw_line(
        canvas: &Record, data: *mut u8, data_len: usize, x1: i32, y1: i32, x2: i32, y2: i32, argb: u32,
        clip: &Clip, drawn: &mut Drawn,
    ) -> u32;
    pub fn tuyrashka_draw_rect(
        canvas: &Record, data: *mut u8, data_len: usize, x: i32, y: i32, w: u32, h: u32, argb: u32,
        clip: &Clip, drawn: &mut Drawn,
    ) -> u32;
    pub fn tuyrashka_fill_rect(
        canvas: &Record, data: *mut u8, data_len: usize, x: i32, y: i32, w: u32, h: u32, argb: u32,
        clip: &Clip, drawn: &mut Drawn,
    ) -> u32;
    pub fn tuyrashka_draw_arc(
        canvas: &Record, data: *mut u8, data_len: usize, x: i32, y: i32, w: u32, h: u32,
        start_angle: i32, arc_angle: i32, argb: u32, clip: &Clip, drawn: &mut Drawn,
    ) -> u32;
    pub fn tuyrashka_fill_arc(
        canvas: &Record, data: *mut u8, data_len: usize, x: i32, y: i32, w: u32, h: u32,
        start_angle: i32, arc_angle: i32, argb: u32, clip: &Clip, drawn: &mut Drawn,
    ) -> u32;
    pub fn tuyrashka_draw_round_rect(
        canvas: &Record, data: *mut u8, data_len: usize, x: i32, y: i32, w: u32, h: u32,
        arc_w: u32, arc_h: u32, argb: u32, clip: &Clip, drawn: &mut Drawn,
    ) -> u32;
    pub fn tuyrashka_fill_round_rect(
        canvas: &Record, data: *mut u8, data_len: usize, x: i32, y: i32, w: u32, h: u32,
        arc_w: u32, arc_h: u32, argb: u32, clip: &Clip, drawn: &mut Drawn,
    ) -> u32;
    pub fn tuyrashka_invert_rect(
        canvas: &Record, data: *mut u8, data_len: usize, x: i32, y: i32, w: u32, h: u32,
        clip: &Clip, drawn: &mut Drawn,
    ) -> u32;
    pub fn tuyrashka_copy_area(
        canvas: &Record, data: *mut u8, data_len: usize, dx: i32, dy: i32, sx: i32, sy: i32, w: u32, h: u32,
        clip: &Clip, drawn: &mut Drawn,
    ) -> u32;
    pub fn tuyrashka_draw(
        canvas: &Record, data: *mut u8, data_len: usize, dx: i32, dy: i32, w: u32, h: u32,
        source: &Record, image: *const u8, image_len: usize, sx: i32, sy: i32, clip: &Clip, drawn: &mut Drawn,
    ) -> u32;
    pub fn tuyrashka_get_pixel(
        canvas: &Record, data: *const u8, data_len: usize, x: i32, y: i32, found: &mut bool, argb: &mut u32,
    ) -> u32;
    pub safe fn tuyrashka_clip_intersect(a: &Clip, b: &Clip, both: &mut Clip);
    pub fn tuyrashka_decode_lbmp(
        file: *const u8, file_len: usize, out: *mut u32, out_len: usize, size: &mut Size, clear: &mut u64,
    ) -> u32;
    pub fn tuyrashka_decode_res(file: *const u8, file_len: usize, start: &mut usize, size: &mut Size) -> u32;
}
