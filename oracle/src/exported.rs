//! The functions of the static library as include/tuyrashka.h declares them, for the comparisons and the timings.

use super::canvas;

#[repr(C)]
#[derive(Clone, Copy)]
pub struct Canvas {
    pub format: u32,
    pub width: u32,
    pub height: u32,
    pub xor_mode: u32,
    pub row: u32,
    pub rule: u32,
}

#[repr(C)]
#[derive(Clone, Copy, Debug, PartialEq)]
pub struct Clip {
    pub x: i32,
    pub y: i32,
    pub width: u32,
    pub height: u32,
}

/// The Rust's clip.
pub const fn part(canvas::Clip { x, y, width, height }: canvas::Clip) -> Clip {
    Clip { x, y, width, height }
}

/// The word of a colour.
pub const fn word(canvas::Color { a, r, g, b }: canvas::Color) -> u32 {
    u32::from_be_bytes([a, r, g, b])
}

#[repr(C)]
#[derive(Default)]
pub struct Drawn {
    pub landed: u64,
}

#[repr(C)]
#[derive(Clone, Copy, Debug, Default, PartialEq)]
pub struct Size {
    pub width: u32,
    pub height: u32,
}

#[rustfmt::skip]
#[link(name = "tuyrashka", kind = "static")]
unsafe extern "C" {
    pub fn tuyrashka_put_pixel(
        canvas: &Canvas, data: *mut u8, length: usize, x: i32, y: i32, argb: u32, clip: &Clip, drawn: &mut Drawn,
    ) -> u32;
    pub fn tuyrashka_draw_line(
        canvas: &Canvas, data: *mut u8, length: usize, x1: i32, y1: i32, x2: i32, y2: i32, argb: u32,
        clip: &Clip, drawn: &mut Drawn,
    ) -> u32;
    pub fn tuyrashka_draw_rect(
        canvas: &Canvas, data: *mut u8, length: usize, x: i32, y: i32, w: u32, h: u32, argb: u32,
        clip: &Clip, drawn: &mut Drawn,
    ) -> u32;
    pub fn tuyrashka_fill_rect(
        canvas: &Canvas, data: *mut u8, length: usize, x: i32, y: i32, w: u32, h: u32, argb: u32,
        clip: &Clip, drawn: &mut Drawn,
    ) -> u32;
    pub fn tuyrashka_draw_arc(
        canvas: &Canvas, data: *mut u8, length: usize, x: i32, y: i32, w: u32, h: u32, start_angle: i32, arc_angle: i32,
        argb: u32, clip: &Clip, drawn: &mut Drawn,
    ) -> u32;
    pub fn tuyrashka_fill_arc(
        canvas: &Canvas, data: *mut u8, length: usize, x: i32, y: i32, w: u32, h: u32, start_angle: i32, arc_angle: i32,
        argb: u32, clip: &Clip, drawn: &mut Drawn,
    ) -> u32;
    pub fn tuyrashka_draw_round_rect(
        canvas: &Canvas, data: *mut u8, length: usize, x: i32, y: i32, w: u32, h: u32, arc_w: u32, arc_h: u32,
        argb: u32, clip: &Clip, drawn: &mut Drawn,
    ) -> u32;
    pub fn tuyrashka_fill_round_rect(
        canvas: &Canvas, data: *mut u8, length: usize, x: i32, y: i32, w: u32, h: u32, arc_w: u32, arc_h: u32,
        argb: u32, clip: &Clip, drawn: &mut Drawn,
    ) -> u32;
    pub fn tuyrashka_invert_rect(
        canvas: &Canvas, data: *mut u8, length: usize, x: i32, y: i32, w: u32, h: u32, clip: &Clip, drawn: &mut Drawn,
    ) -> u32;
    pub fn tuyrashka_copy_area(
        canvas: &Canvas, data: *mut u8, length: usize, dx: i32, dy: i32, sx: i32, sy: i32, w: u32, h: u32,
        clip: &Clip, drawn: &mut Drawn,
    ) -> u32;
    pub fn tuyrashka_draw(
        canvas: &Canvas, data: *mut u8, length: usize, dx: i32, dy: i32, w: u32, h: u32,
        source: &Canvas, image: *const u8, image_length: usize, sx: i32, sy: i32, clip: &Clip, drawn: &mut Drawn,
    ) -> u32;
    pub fn tuyrashka_get_pixel(
        canvas: &Canvas, data: *const u8, length: usize, x: i32, y: i32, found: &mut bool, argb: &mut u32,
    ) -> u32;
    pub fn tuyrashka_clip_intersect(a: &Clip, b: &Clip, both: &mut Clip);
    pub fn tuyrashka_decode_lbmp(
        file: *const u8, length: usize, out: *mut u32, room: usize, size: &mut Size, clear: &mut u64,
    ) -> u32;
    pub fn tuyrashka_decode_res(file: *const u8, length: usize, start: &mut usize, size: &mut Size) -> u32;
}
