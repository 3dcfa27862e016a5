//! Calls that draw next to nothing, for what the library itself takes for each to be counted: boxes of a side of 2, of which all
//! lands or nothing, and calls that are refused.

use crate::SIZES;
use crate::exported::*;

/// What a call is made with.
#[derive(Clone, Copy)]
struct Made {
    canvas: Canvas,
    missing: usize,
    x: i32,
    y: i32,
    side: u32,
    angle: i32,
    clip: Clip,
    source: Canvas,
    source_missing: usize,
}

const CALLS: [&str; 12] = [
    "put_pixel",
    "get_pixel",
    "draw_line",
    "draw_rect",
    "fill_rect",
    "draw_arc",
    "fill_arc",
    "draw_round_rect",
    "fill_round_rect",
    "invert_rect",
    "copy_area",
    "draw",
];

const HOWS: [(&str, fn(&mut Made)); 24] = [
    ("lands", |_| {}),
    ("lands, XOR on", |m| m.canvas.xor_mode = 1),
    ("lands, rule 2", |m| m.canvas.rule = 2),
    ("long row", |m| m.canvas = Canvas { width: 32767, height: 1, row: 32767, ..m.canvas }),
    ("no pixel", |m| m.canvas = Canvas { width: 0, row: 0, ..m.canvas }),
    ("left", |m| m.x = -100),
    ("right", |m| m.x = 100),
    ("above", |m| m.y = -100),
    ("below", |m| m.y = 100),
    ("empty clip", |m| m.clip.width = 0),
    ("clip apart", |m| m.clip = Clip { x: 100, y: 100, ..m.clip }),
    ("FORMAT", |m| m.canvas.format = 5),
    ("RULE", |m| m.canvas.rule = 3),
    ("SIZE, width", |m| m.canvas = Canvas { width: 32768, row: 32768, ..m.canvas }),
    ("SIZE, height", |m| m.canvas.height = 32768),
    ("ROW, short", |m| m.canvas.row -= 1),
    ("ROW, long", |m| m.canvas.row = 32768),
    ("LENGTH", |m| m.missing = 1),
    ("SOURCE, format", |m| m.source.format = 5),
    ("SOURCE, rule", |m| m.source.rule = 3),
    ("SOURCE, size", |m| m.source.height = 32768),
    ("SOURCE, length", |m| m.source_missing = 1),
    ("ANGLE", |m| m.angle = 721),
    ("SHAPE", |m| m.side = 32768),
];

/// Whether a call can be made so.
fn has(call: &str, how: &str) -> bool {
    match how {
        "empty clip" | "clip apart" => call != "get_pixel",
        "ANGLE" => call.ends_with("arc"),
        "SHAPE" => call.ends_with("arc") || call.ends_with("round_rect"),
        how => call == "draw" || !how.starts_with("SOURCE"),
    }
}

impl Made {
    fn new(format: u32) -> Made {
        let canvas = Canvas { format, width: 16, height: 16, xor_mode: 0, row: 16, rule: 1 };
        let clip = Clip { x: 0, y: 0, width: 16, height: 16 };
        Made { canvas, missing: 0, x: 0, y: 0, side: 2, angle: 0, clip, source: canvas, source_missing: 0 }
    }

    /// The status.
    fn call(&self, name: &str, data: &mut [u8], image: &[u8]) -> u32 {
        let Made { canvas, x, y, side: w, angle, clip, source, .. } = self;
        let (x, y, w, angle, argb) = (*x, *y, *w, *angle, 0xFF40_8020);
        let (n, m, p) = (length(canvas) - self.missing, length(source) - self.source_missing, data.as_mut_ptr());
        let d = &mut Drawn::default();
        unsafe {
            match name {
                "put_pixel" => tuyrashka_put_pixel(canvas, p, n, x, y, argb, clip, d),
                "get_pixel" => tuyrashka_get_pixel(canvas, p, n, x, y, &mut false, &mut 0),
                "draw_line" => tuyrashka_draw_line(canvas, p, n, x, y, x + 1, y, argb, clip, d),
                "draw_rect" => tuyrashka_draw_rect(canvas, p, n, x, y, w, w, argb, clip, d),
                "fill_rect" => tuyrashka_fill_rect(canvas, p, n, x, y, w, w, argb, clip, d),
                "draw_arc" => tuyrashka_draw_arc(canvas, p, n, x, y, w, w, angle, 360, argb, clip, d),
                "fill_arc" => tuyrashka_fill_arc(canvas, p, n, x, y, w, w, angle, 360, argb, clip, d),
                "draw_round_rect" => tuyrashka_draw_round_rect(canvas, p, n, x, y, w, w, 1, 1, argb, clip, d),
                "fill_round_rect" => tuyrashka_fill_round_rect(canvas, p, n, x, y, w, w, 1, 1, argb, clip, d),
                "invert_rect" => tuyrashka_invert_rect(canvas, p, n, x, y, w, w, clip, d),
                "copy_area" => tuyrashka_copy_area(canvas, p, n, x, y, 4, 4, w, w, clip, d),
                _ => tuyrashka_draw(canvas, p, n, x, y, w, w, source, image.as_ptr(), m, 0, 0, clip, d),
            }
        }
    }
}

/// The bytes of a canvas; of one that is refused before they are asked for, any number will do.
fn length(canvas: &Canvas) -> usize {
    let size = SIZES.get(canvas.format as usize).copied().unwrap_or(1);
    if canvas.width.max(canvas.height) > 32767 { 1 } else { (canvas.row * canvas.height * size) as usize }
}

/// Makes each call, and again, and the second time prints its name, its format and its status.
pub fn edges() {
    edges_once(|_| {});
    edges_once(|line| println!("{line}"));
}

fn edges_once(say: impl Fn(&str)) {
    let (mut data, image) = (vec![0x5A; 4 * 32768 * 16], vec![0xA5; 4 * 16 * 16]);
    for name in CALLS {
        for (how, set) in HOWS.into_iter().filter(|(how, _)| has(name, how)) {
            for format in 0..5 {
                let mut made = Made::new(format);
                set(&mut made);
                let status = made.call(name, &mut data, &image);
                say(&format!("{name} | {how} | {format} | {status}"));
            }
        }
    }
}
