//! Calls by the static library.

use super::exported::*;
use crate::answer::hash;
use crate::case::{Area, Call, Case, Screen};

/// The number of a call, and its count.
pub type Answer = (u32, u64);

/// A call by the static library.
pub fn ours(screen: &mut Screen, xor: bool, call: &Call) -> Answer {
    let Screen { format, width, height, row, rule, ref mut bytes } = *screen;
    let canvas = &Canvas { format, width, height, xor_mode: xor.into(), row, rule };
    let (data, length, mut drawn) = (bytes.as_mut_ptr(), bytes.len(), Drawn { landed: 77 });
    let d = &mut drawn;
    let status = unsafe {
        match *call {
            Call::Put { x, y, color, clip } => tuyrashka_put_pixel(canvas, data, length, x, y, word(color), &part(clip), d),
            Call::Line { from: (x1, y1), to: (x2, y2), color, clip } => {
                tuyrashka_draw_line(canvas, data, length, x1, y1, x2, y2, word(color), &part(clip), d)
            }
            Call::Rect { at: Area(x, y, w, h), color, clip } => {
                tuyrashka_draw_rect(canvas, data, length, x, y, w, h, word(color), &part(clip), d)
            }
            Call::Fill { at: Area(x, y, w, h), color, clip } => {
                tuyrashka_fill_rect(canvas, data, length, x, y, w, h, word(color), &part(clip), d)
            }
            Call::Arc { at: Area(x, y, w, h), start, sweep, color, clip } => {
                tuyrashka_draw_arc(canvas, data, length, x, y, w, h, start, sweep, word(color), &part(clip), d)
            }
            Call::Pie { at: Area(x, y, w, h), start, sweep, color, clip } => {
                tuyrashka_fill_arc(canvas, data, length, x, y, w, h, start, sweep, word(color), &part(clip), d)
            }
            Call::RoundRect { at: Area(x, y, w, h), arc: (aw, ah), color, clip } => {
                tuyrashka_draw_round_rect(canvas, data, length, x, y, w, h, aw, ah, word(color), &part(clip), d)
            }
            Call::FillRoundRect { at: Area(x, y, w, h), arc: (aw, ah), color, clip } => {
                tuyrashka_fill_round_rect(canvas, data, length, x, y, w, h, aw, ah, word(color), &part(clip), d)
            }
            Call::Invert { at: Area(x, y, w, h), clip } => {
                tuyrashka_invert_rect(canvas, data, length, x, y, w, h, &part(clip), d)
            }
            Call::Draw { at: Area(dx, dy, w, h), ref source, from: (sx, sy), clip } => {
                let Screen { format, width, height, row, rule, bytes: ref image } = *source;
                let source = Canvas { format, width, height, xor_mode: xor.into(), row, rule };
                let (image, image_length) = (image.as_ptr(), image.len());
                tuyrashka_draw(canvas, data, length, dx, dy, w, h, &source, image, image_length, sx, sy, &part(clip), d)
            }
            Call::Get { .. } | Call::Copy { .. } | Call::Lbmp { .. } | Call::Res { .. } => unreachable!("not in a list"),
        }
    };
    (status, drawn.landed)
}

/// The answer to a case, as a line.
pub fn answer(line: &str) -> String {
    let Some(Case { mut screen, xor, op, call }) = Case::read(line.as_bytes()) else { return "bad".into() };
    let (status, count) = ours(&mut screen, xor, &call);
    format!("{op} status={status} count={count} hash={:016x}", hash(&screen.bytes))
}
